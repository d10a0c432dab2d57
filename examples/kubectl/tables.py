"""Tables of meta.k8s.io/v1, which `kubectl get` asks for: NAME, then the columns that the definition has for the version, or AGE where
it has none."""

import datetime
import json
import re

NAME = {"name": "Name", "type": "string", "format": "name", "description": "The object's name.", "priority": 0}
AGE = {"name": "Age", "type": "date", "jsonPath": ".metadata.creationTimestamp", "description": "The time since the object was created."}
OF_MIGRATIONS = [
    {"name": "Status", "type": "string", "jsonPath": ".status.conditions[0].type", "description": "Running, Succeeded or Failed."},
    {"name": "Resource", "type": "string", "jsonPath": ".spec.resource.resource", "description": "What is rewritten."},
    {"name": "Version", "type": "string", "jsonPath": ".status.storageVersion", "description": "The version to which it is rewritten."},
]
OF_DEFINITIONS = [
    {"name": "Kind", "type": "string", "jsonPath": ".spec.names.kind", "description": "The kind of its objects."},
    {"name": "Served", "type": "string", "jsonPath": ".spec.versions[?(@.served==true)].name", "description": "The served versions."},
    {"name": "Storage", "type": "string", "jsonPath": ".spec.versions[?(@.storage==true)].name", "description": "What is written."},
    {"name": "Stored", "type": "string", "jsonPath": ".status.storedVersions[*]", "description": "What may be stored."},
]
OF_NAMESPACES = [{"name": "Status", "type": "string", "jsonPath": ".status.phase", "description": "Active."}]
OF_EVENTS = [{"name": "Message", "type": "string", "jsonPath": ".message", "description": "What happened."}]

# One step of a path: a name with escaped points, a quoted name, a place, all items, or those whose field has a value.
STEP = re.compile(
    r"""\.(?P<name>(?:\\.|[^.\[\\])+) | \[(?P<quote>['"])(?P<quoted>.*?)(?P=quote)\] | \[(?P<place>-?\d+)\] | (?P<all>\[\*\])
    | \[\?\(\s*@(?P<of>(?:\.(?:\\.|[^.\s=!)])+)+)\s*(?P<sign>==|!=)\s*(?P<value>[^)]*?)\s*\)\]""",
    re.VERBOSE,
)


def steps(path):
    """The steps of a column's path, or None where it isn't of this form."""
    path = path.strip().removeprefix("{").removesuffix("}").removeprefix("$")
    path = path if path[:1] in (".", "[") else f".{path}"
    found, end = [], 0
    for step in STEP.finditer(path):
        if step.start() != end:
            return None
        found.append(step)
        end = step.end()
    return found if end == len(path) else None


def chosen(items, step):
    """The items that a filter keeps."""
    text = step["value"]
    wanted = text[1:-1] if text[:1] in ("'", '"') else {"true": True, "false": False}.get(text, text)
    kept = []
    for item in items:
        values = [str(value) for value in walked([item], steps(step["of"]))]
        if values and (str(wanted) in values) == (step["sign"] == "=="):
            kept.append(item)
    return kept


def stepped(value, step):
    """What a step leads to from a value."""
    name = step["quoted"] if step["quote"] else re.sub(r"\\(.)", r"\1", step["name"] or "")
    if isinstance(value, dict) and (step["name"] or step["quote"]):
        return [value[name]] if name in value else []
    if isinstance(value, dict) and step["all"]:
        return list(value.values())
    if not isinstance(value, list):
        return []
    if step["of"]:
        return chosen(value, step)
    if step["all"]:
        return value
    place = int(step["place"]) if step["place"] else len(value)
    return [value[place]] if -len(value) <= place < len(value) else []


def walked(values, path):
    """What a path leads to from each of the values."""
    for step in path or ():
        values = [found for value in values for found in stepped(value, step)]
    return [] if path is None else values


def spelled(seconds, day=86400):
    """A time as kubectl writes it: in two units where it is short for the larger one, else in one."""
    minutes, hours, days = seconds // 60, seconds // 3600, seconds // day
    if seconds < 120:
        return "<invalid>" if seconds < -1 else f"{max(seconds, 0)}s"
    # Below how many of the unit, whether the rest is shown too, and both.
    for is_below, with_rest, (count, unit), (rest, of_rest) in (
        (minutes < 10, True, (minutes, "m"), (seconds % 60, "s")), (minutes < 180, False, (minutes, "m"), (0, "")),
        (hours < 8, True, (hours, "h"), (minutes % 60, "m")), (hours < 48, False, (hours, "h"), (0, "")),
        (days < 8, True, (days, "d"), (hours % 24, "h")), (days < 730, False, (days, "d"), (0, "")),
        (True, days < 2920, (days // 365, "y"), (days % 365, "d")),
    ):  # fmt: skip
        if is_below:
            return f"{count}{unit}" + (f"{rest}{of_rest}" if with_rest and rest else "")


def age(text):
    try:
        stamp = datetime.datetime.fromisoformat(text.replace("Z", "+00:00"))
        return spelled(int((datetime.datetime.now(datetime.timezone.utc) - stamp).total_seconds()))
    except (AttributeError, TypeError, ValueError):
        return "<invalid>"


def cell(item, column):
    """The cell of an object in a column: null where there is nothing, or nothing of the column's type."""
    values = walked([item], steps(column.get("jsonPath", "")))
    if not values or values[0] is None:
        return None
    kind, value = column["type"], values[0]
    if kind == "string":
        return " ".join(it if isinstance(it, str) else json.dumps(it, separators=(",", ":")) for it in values)
    if kind == "date":
        return age(value)
    is_flag = isinstance(value, bool)
    return value if is_flag == (kind == "boolean") and isinstance(value, (bool, int, float)) else None


def usable(columns):
    """The columns of a definition that say what a column must say."""
    found = columns if isinstance(columns, list) else []
    told = ("name", "type", "jsonPath")
    return [column for column in found if isinstance(column, dict) and all(isinstance(column.get(name), str) for name in told)]


def heading(column):
    """A column's definition in a table. A date is shown as a text, the time since then."""
    kind = "string" if column["type"] == "date" else column["type"]
    told = {"description": column.get("description", ""), "format": column.get("format", ""), "priority": column.get("priority", 0)}
    return {"name": column["name"], "type": kind, **told}


def shown(item, include):
    """What a row says of its object beside the cells."""
    if include == "None":
        return {}
    if include == "Object":
        return {"object": item}
    metadata = item.get("metadata", {})
    return {"object": {"apiVersion": "meta.k8s.io/v1", "kind": "PartialObjectMetadata", "metadata": metadata}}


def table(document, columns, include):
    is_list = "items" in document
    items = document["items"] if is_list else [document]
    kept = ("continue", "remainingItemCount", "resourceVersion")
    metadata = {name: value for name, value in document.get("metadata", {}).items() if name in kept}
    rows = [{"cells": [item["metadata"]["name"]] + [cell(item, column) for column in columns], **shown(item, include)} for item in items]
    headings = [NAME] + [heading(column) for column in columns]
    return {"apiVersion": "meta.k8s.io/v1", "kind": "Table", "metadata": metadata, "columnDefinitions": headings, "rows": rows}
