"""What is said of a fault of a definition, and how it is mended. It is no command: tools/find_faults.py tells faults by it.

The program says what is a fault, by its path and its word. Here stands what has to be there, and what to put in its place: what can't be
kept of it is taken out.
"""
from __future__ import annotations

import re
from typing import Any, Dict, Iterator, List, NamedTuple, Tuple

from fault_texts import Document, Edit, at, list_at, nearest, shown, text_at
from program_asks import API, Fault, Program, definition
from schemas import MIXED, OPEN

TYPES = ("object", "array", "string", "integer", "boolean")
KNOWN_TYPES = f"object, array, string, integer or boolean, or else `{MIXED}` or `{OPEN}` is true"
ORDER = [{"type": "integer"}, {"type": "string"}]
LABEL = "small letters, digits and `-`, at most 63"
KIND = "letters and digits, of which the first is a letter, at most 63"
AN_OBJECT = ("an object", None)
# What has to stand under each name of a definition: in words, where it isn't this very value, and a value that may stand there.
WANTED: Dict[str, Tuple[str, Any]] = {
    **{name: ("", it) for name, it in API.items()}, "metadata": AN_OBJECT, "metadata.name": ("the plural, a point and the group", None),
    "spec": AN_OBJECT, "spec.group": ("small letters, digits, `-` and points, as example.com", "example.com"), "spec.names": AN_OBJECT,
    "spec.names.kind": (KIND, "Kind"), "spec.names.listKind": (KIND, "KindList"), "spec.names.plural": (LABEL, "plurals"),
    "spec.preserveUnknownFields": ("", False), "spec.scope": ("", "Namespaced"), "spec.versions": ("a list of versions", None),
    "spec.versions[].deprecated": ("", False), "spec.versions[].name": (LABEL, "v1"),
    "spec.versions[].schema": ("an object", {"openAPIV3Schema": {"type": "object"}}),
    "spec.versions[].schema.openAPIV3Schema": ("an object", {"type": "object"}),
    "spec.versions[].served": ("true or false", True), "spec.versions[].storage": ("true or false", False),
}  # fmt: skip
# Each keyword of a schema: what it has to be, and the type of the nodes at which it stands.
ANY, NUMBER, NAMED = ("anything", ""), "a whole number", "an object"
KEYWORDS = {
    "additionalProperties": (NAMED, "object"), "anyOf": (f"{shown(ORDER)}, in this order, beside `{MIXED}`", ""), "default": ANY,
    "description": ANY, "enum": ("a list of one value at least", ""), "example": ANY, "externalDocs": ANY,
    "format": ("int32 or int64", "integer"), "items": (NAMED, "array"), "maxItems": (NUMBER, "array"), "maxLength": (NUMBER, "string"),
    "maximum": (NUMBER, "integer"), "minItems": (NUMBER, "array"), "minLength": (NUMBER, "string"), "minimum": (NUMBER, "integer"),
    "nullable": ("true or false", ""), "properties": (NAMED, "object"), "required": ("a list of names, each once", "object"), "title": ANY,
    "type": (KNOWN_TYPES, ""), MIXED: ("true", ""), OPEN: ("true", ""),
}  # fmt: skip


class Told(NamedTuple):
    """A fault as it is told: what is refused first, what is said of it, what mends it, and what does too."""

    fault: Fault
    says: str
    mends: List[Edit] = []
    others: List[Edit] = []


def spot(value: Any, path: str) -> Tuple[Any, Any]:
    """The object or list in which something stands at a path, and its name or its place there. Names may have points in them."""
    holder, step = {"": value}, ""  # type: Any, Any
    while path:
        holder, value = value, None
        item = re.match(r"\[(\d+)\]", path)
        names = [it for it in holder if re.match(re.escape(it) + r"(\.|\[|$)", path)] if isinstance(holder, dict) else []
        step = int(item.group(1)) if item else max(names, key=len, default=path)
        path = path[item.end() if item else len(step) :].lstrip(".")
        if names or item and isinstance(holder, list) and step < len(holder):
            value = holder[step]
    return holder, step


def nodes(node: Any, path: str) -> Iterator[Tuple[str, Dict[str, Any]]]:
    """The nodes of a schema, each with its path."""
    if isinstance(node, dict):
        yield path, node
        named = node.get("properties")
        inner = [(f".properties.{name}", it) for name, it in sorted(named.items())] if isinstance(named, dict) else []
        for step, it in [(f".{name}", node.get(name)) for name in ("additionalProperties", "items")] + inner:
            yield from nodes(it, path + step)


def of_versions(crd: Document) -> Tuple[str, List[Edit]]:
    """What is said of the list of versions."""
    versions = list_at(crd.value, "spec", "versions")
    names = [text_at(v, "name") for v in versions]
    again = [v for i, v in enumerate(versions) if names[i] in names[:i]]
    stored = [v for v in versions if at(v, "storage") is True]
    if not 2 <= len(versions) <= 8:
        return f"a definition has two to eight versions, the hub and its spokes; here are {len(versions)}", []
    if again:
        return f"two versions are called `{again[0]['name']}`", [crd.put(again[0], "name", f"{again[0]['name']}beta1")]
    if len(stored) != 1:
        mends = [crd.put(v, "storage", False) for v in stored[1:]] or [crd.put(versions[0], "storage", True)]
        return f"one version has `storage`: true, and only one; here: {', '.join(text_at(v, 'name') for v in stored) or 'none'}", mends
    return "no version has `served`: true; one at least has to", [crd.put(versions[0], "served", True)]


def near(value: Any, words: str, made_up: Any) -> Any:
    """What may stand in the place of a value: one that is near to it, or else one that is made up."""
    if not isinstance(value, str) or not words or not isinstance(made_up, str):
        return {"true": True, "false": False}.get(value, made_up) if isinstance(value, str) and isinstance(made_up, bool) else made_up
    if words == KIND:
        return re.sub(r"^\d+|[^A-Za-z0-9]", "", value) or made_up
    return re.sub(r"[^a-z0-9-]" if words == LABEL else r"[^a-z0-9.-]", "-", value.lower()).strip("-.") or made_up


def of_name(crd: Document, path: str, word: str) -> Tuple[str, List[Edit]]:
    """What is said of a name of the definition, and its mend; without one where nothing can stand for it."""
    holder, name = spot(crd.value, path)
    pattern = re.sub(r"\[\d+\]", "[]", path)
    if word == "Unknown":
        found = nearest(name, [it.rpartition(".")[2] for it in WANTED if it.rpartition(".")[0] == pattern.rpartition(".")[0]])
        if found and found not in holder:
            return f"`{name}` isn't taken here; `{found}` is meant", [crd.rename(holder, name, found)]
        return f"`{name}` isn't taken here; leave it out, as tools/prepare_crd.py does", [crd.drop(holder, name)]
    if path == "spec.versions" and isinstance(holder.get(name), list):
        return of_versions(crd)
    words, value = WANTED.get(pattern, AN_OBJECT)
    whole = f"{text_at(crd.value, 'spec', 'names', 'plural')}.{text_at(crd.value, 'spec', 'group')}"
    there = isinstance(holder, dict) and name in holder
    value = {"metadata": {"name": whole}, "metadata.name": whole}.get(path) or near(holder[name] if there else None, words, value)
    has = f"it is {shown(holder[name])}" if there else "it isn't there"
    mends = [crd.put(holder, name, value)] if value is not None and isinstance(holder, dict) else []
    return f"`{name or 'a definition'}` has to be {words or shown(value)}; {has}", mends


# ---- schemas


def why_not(program: Program, node: Dict[str, Any], value: Any) -> str:
    """Why a schema doesn't take a value, as the program says of an object with that field."""
    schema = {"type": "object", "properties": {"f": {name: it for name, it in node.items() if name != "default"}}}
    crd, rules = definition({"v1": schema, "v2": schema}), {"hub": "v1", "spokes": {}}
    if program.first(crd, rules):
        return ""
    into, refused = program.convert(crd, rules, {"apiVersion": "a/v1", "kind": "A", "metadata": {"name": "a"}, "f": value}, "v1")
    lacks = "" if at(into, "f") == value else "a name of it isn't in the schema, or one inside has a default that it lacks"
    return re.sub(r"^f\b[.: ]*", "", refused) or lacks


def twin(crd: Document, path: str, name: str) -> Any:
    """What the node of the same path has in another version."""
    for i in range(len(list_at(crd.value, "spec", "versions"))):
        holder, step = spot(crd.value, re.sub(r"^spec\.versions\[\d+\]", f"spec.versions[{i}]", path))
        found = at(holder, step, name) if isinstance(step, str) else None
        if isinstance(found, (dict, list)) and name != "type" or name == "type" and found in TYPES:
            return found
    return None


def fixed(name: str, value: Any) -> Any:
    """What a keyword's value may be meant as, or nothing."""
    if KEYWORDS[name][0] == NUMBER and isinstance(value, str) and re.fullmatch(r"-?[1-9]\d{0,17}|0", value):
        return int(value)
    if name == "required" and isinstance(value, list):
        return sorted({it for it in value if isinstance(it, str)})
    return {OPEN: True} if name == "additionalProperties" and value is True else near(value, "", None) if isinstance(value, str) else None


def of_keyword(crd: Document, program: Program, path: str, node: Dict[str, Any], name: str) -> Tuple[str, List[Edit]]:
    """What is said of a keyword of a node, and its mend."""
    is_root, has = path.endswith(".openAPIV3Schema"), node.get("type")
    if name == "type" or ("type" in node and has not in TYPES) or (is_root and has != "object"):
        told = "properties" in node and "object" or "items" in node and "array" or twin(crd, path, "type") or "string"
        value = "object" if is_root else "integer" if has == "number" else isinstance(has, str) and nearest(has, TYPES) or told
        note = "; numbers with a fraction can't be kept, so make it an integer or a string" if has == "number" else ""
        says = f"`type` has to be {'at the root object, else ' * is_root}{KNOWN_TYPES}; it is {shown(has) if has else 'not there'}{note}"
        return says, [crd.put(node, "type", value)]
    if name not in KEYWORDS:
        slip = nearest(name, [it for it in KEYWORDS if it not in node], 0.8)
        says = f"`{slip}` is meant" if slip else "leave it out, as tools/prepare_crd.py does: then nothing checks it"
        return f"the keyword `{name}` isn't taken; {says}", [crd.rename(node, name, slip) if slip else crd.drop(node, name)]
    if name == "default" and not is_root:
        why = why_not(program, node, node[name])
        return f"the schema doesn't take its default {shown(node[name])}{f': {why}' if why else ''}", [crd.drop(node, name)]
    if name == "default" or name == "additionalProperties" and (is_root or "properties" in node):
        where = "at the root of a schema" if is_root else "beside `properties`"
        return f"`{name}` can't stand {where}; take it out", [crd.drop(node, name)]
    wanted, kind = KEYWORDS[name]
    value = fixed(name, node.get(name)) if kind in ("", has) else None
    value = ORDER if name == "anyOf" and node.get(MIXED) is True else twin(crd, path, name) if value is None and kind == has else value
    value = {OPEN: True} if value is None and name not in node else value
    stands = f", at a node of type {kind}" if kind else ""
    says = f"`{name}` has to be {wanted}{stands}; it is {shown(node[name]) if name in node else 'not there'}"
    return says, [crd.drop(node, name) if value is None or value == node.get(name) else crd.put(node, name, value)]


def definition_told(crd: Document, program: Program, fault: Fault) -> List[Told]:
    """What is told of a fault of a definition; of a keyword that isn't taken, at each node that has it."""
    if fault.word in ("Shape", "Unknown"):
        at_version = re.match(r"spec\.versions\[(\d+)\]", fault.path)
        version = text_at(list_at(crd.value, "spec", "versions")[int(at_version.group(1))], "name") if at_version else ""
        says, mends = of_name(crd, fault.path, fault.word)
        return [Told(fault, f"{version}: {says}" if version else says, mends)]
    if fault.word == "Limit":
        says = f"a version's schema has too many nodes, or this one stands too deep; put `{OPEN}`: true in place of a part further out"
        return [Told(fault, says)]
    told = []
    for i, version in enumerate(list_at(crd.value, "spec", "versions")):
        for path, node in nodes(at(version, "schema", "openAPIV3Schema"), f"spec.versions[{i}].schema.openAPIV3Schema"):
            if path == fault.path or fault.word not in KEYWORDS and fault.word in node:
                says, mends = of_keyword(crd, program, path, node, fault.word)
                told.append(Told(Fault("crd", path, fault.word), f"{text_at(version, 'name')}: {says}", mends))
    holder, step = spot(crd.value, fault.path)
    return told or [Told(fault, "a schema has to be an object", [crd.put(holder, step, {OPEN: True})] if isinstance(holder, dict) else [])]
