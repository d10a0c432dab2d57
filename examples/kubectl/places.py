"""What a request asks of: its target taken apart, the place of the API that its path names, and which objects its selectors take."""

import re
import typing
import urllib.parse

from statuses import Refused

DEFINITIONS = ("apiextensions.k8s.io", "v1", "customresourcedefinitions")
MIGRATIONS = ("storagemigration.k8s.io", "v1alpha1", "storageversionmigrations")
# What `serve` reads of a query. A selector, and what only the front reads, isn't sent on.
PAGING, VERSIONS = ("limit", "continue"), ("resourceVersion", "resourceVersionMatch")
KEY = r"((?:[A-Za-z0-9.-]{1,253}/)?[A-Za-z0-9](?:[A-Za-z0-9_.-]{0,61}[A-Za-z0-9])?)"
VALUE = r"(?:[A-Za-z0-9](?:[A-Za-z0-9_.-]{0,61}[A-Za-z0-9])?)?"
EQUALITY = re.compile(rf"\s*{KEY}\s*(==|=|!=)\s*({VALUE})\s*")
MEMBERSHIP = re.compile(rf"\s*{KEY}\s+(in|notin)\s*\(([^()]*)\)\s*")
PRESENCE = re.compile(rf"\s*(!?)\s*{KEY}\s*")
# A comma that doesn't stand between parentheses.
COMMA = re.compile(r",(?![^(]*\))")
FIELD = re.compile(r"metadata\.(name|namespace)(==|=|!=)([^=!]*)")


class Place(typing.NamedTuple):
    """A list, or one object where there is a name, of a group's version."""

    group: str
    version: str
    plural: str
    namespace: str = ""
    name: str = ""
    part: str = ""

    def of(self):
        """The resource, without namespace and name."""
        return self[:3]


class Request(typing.NamedTuple):
    """A request, with its body read."""

    method: str
    path: str
    segments: tuple
    query: dict
    accept: str
    media: str
    body: bytes

    def asked(self, name):
        return self.query.get(name, "")

    def is_on(self, name):
        return self.asked(name) not in ("", "0", "false", "False", "FALSE", "f", "F")

    def target(self, path=None, names=(*PAGING, *VERSIONS)):
        """What `serve` is asked for, with these parameters."""
        sent = {name: self.query[name] for name in names if name in self.query}
        return (path or self.path) + ("?" + urllib.parse.urlencode(sent) if sent else "")

    def least(self):
        """The resource version that a list must have reached; 0 where any will do. Of a page of a list that isn't asked, since there the
        parameter stands for that very version."""
        number, match = self.asked("resourceVersion"), self.asked("resourceVersionMatch")
        is_page = self.asked("continue") or match == "" and self.asked("limit") not in ("", "0")
        is_least = not is_page and match in ("", "NotOlderThan") and re.fullmatch(r"[0-9]{1,18}", number)
        return int(number) if is_least else 0

    def narrows(self):
        """Whether a list is asked for by what `serve` doesn't read."""
        return bool(self.asked("labelSelector") or self.asked("fieldSelector") or self.least())

    def wants_table(self):
        """Whether the client takes a table, and takes it rather than the plain document."""
        for kind in self.accept.split(","):
            words = [word.strip() for word in kind.split(";")]
            if words[0] in ("application/json", "*/*") and "as=Table" in words:
                return "g=meta.k8s.io" in words and "v=v1" in words
            if words[0] == "application/json" and not any(word.startswith("as=") for word in words):
                return False
        return False


def taken_apart(method, target, headers, body):
    try:
        parts = urllib.parse.urlsplit(target)
        segments = tuple(urllib.parse.unquote(part, errors="strict") for part in parts.path.split("/")[1:])
        pairs = urllib.parse.parse_qsl(parts.query, keep_blank_values=True, errors="strict", max_num_fields=64)
    except ValueError as error:
        raise Refused(400, f"the target can't be read: {error}") from error
    media = headers.get("Content-Type", "").split(";")[0].strip().lower()
    return Request(method, parts.path, segments, dict(reversed(pairs)), headers.get("Accept", ""), media, body)


def place_of(segments, group, plural):
    """The place that a path names, of the definition with this group and plural name, of the definitions or of the migrations; None
    where it is none."""
    if len(segments) < 4 or segments[0] != "apis" or "" in segments:
        return None
    resource, rest = segments[1:4], segments[4:]
    if resource in (DEFINITIONS, MIGRATIONS):
        is_place = rest[1:] in ((), ("status",)) and (resource == DEFINITIONS or len(rest) < 2)
        return Place(*resource, "", *rest) if is_place else None
    if resource[0] == group and resource[2] == plural and not rest:
        return Place(*resource)
    if resource[0] == group and resource[2] == "namespaces" and len(rest) in (2, 3) and rest[1] == plural:
        return Place(group, resource[1], plural, rest[0], *rest[2:])
    return None


# ---- selectors


def requirement(text):
    """What one part of a label selector asks of labels."""
    if found := EQUALITY.fullmatch(text):
        key, sign, value = found.groups()
        return lambda labels: (labels.get(key) == value) == (sign != "!=")
    if found := MEMBERSHIP.fullmatch(text):
        key, word, values = found[1], found[2], {value.strip() for value in found[3].split(",")}
        if all(re.fullmatch(VALUE, value) for value in values):
            return lambda labels: (key in labels and labels[key] in values) == (word == "in")
    elif found := PRESENCE.fullmatch(text):
        key, is_wanted = found[2], not found[1]
        return lambda labels: (key in labels) == is_wanted
    raise Refused(400, f"unable to parse requirement: {text!r}")


def by_labels(selector):
    asked = [requirement(part) for part in COMMA.split(selector)]
    return lambda item: all(holds(item.get("metadata", {}).get("labels") or {}) for holds in asked)


def field(text):
    """What one part of a field selector asks of an object."""
    found = FIELD.fullmatch(text.strip())
    if not found:
        raise Refused(400, f"field label not supported: {text!r}; objects are selected by metadata.name and metadata.namespace")
    return lambda item: (item.get("metadata", {}).get(found[1], "") == found[3]) == (found[2] != "!=")


def selected(document, labels, fields):
    """A list with the items that both selectors take, of which each may be empty. How many follow isn't known then."""
    asked = [field(part) for part in fields.split(",") if part.strip()] + ([by_labels(labels)] if labels.strip() else [])
    if not asked:
        return document
    metadata = {name: value for name, value in document["metadata"].items() if name != "remainingItemCount"}
    return {**document, "items": [item for item in document["items"] if all(takes(item) for takes in asked)], "metadata": metadata}
