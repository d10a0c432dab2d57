"""A schema of a version, as a server holds objects to it: what it prunes, what it fills, and which values it refuses."""
from __future__ import annotations

import copy
import json
import re
from typing import Callable, Dict, Iterator, List, NamedTuple, Optional, Tuple

Path = Tuple[object, ...]
OF_EACH = ("apiVersion", "kind", "metadata")
RANGES = {"int32": (-(2**31), 2**31 - 1), "int64": (-(2**63), 2**63 - 1)}


class Note(NamedTuple):
    """What a server does to a value, or says of it: `pruned`, `filled`, or a rule that is broken, with what the rule asks for."""

    rule: str
    path: Path
    value: object
    limit: object = None


# A value's text: two values are the same where it is.
canonical = json.JSONEncoder(sort_keys=True, separators=(",", ":"), ensure_ascii=False).encode


def is_number(value: object) -> bool:
    return isinstance(value, (int, float)) and not isinstance(value, bool)


def is_whole(value: object) -> bool:
    return is_number(value) and (isinstance(value, int) or float(value).is_integer())  # type: ignore[arg-type]


TYPES: Dict[str, Callable[[object], bool]] = {
    "object": lambda v: isinstance(v, dict),
    "array": lambda v: isinstance(v, list),
    "string": lambda v: isinstance(v, str),
    "boolean": lambda v: isinstance(v, bool),
    "integer": is_whole,
    "number": is_number,
    "an integer or a text": lambda v: is_whole(v) or isinstance(v, str),
}


def matches(pattern: str, text: str) -> bool:
    """Whether a text has the pattern. One that Python doesn't read is passed over."""
    try:
        return re.search(pattern, text) is not None
    except re.error:
        return True


# Each keyword that checks a value by itself: of which values, and whether one keeps it.
CHECKS: Dict[str, Tuple[type, Callable[..., bool]]] = {
    "minLength": (str, lambda v, it: len(v) >= it),
    "maxLength": (str, lambda v, it: len(v) <= it),
    "pattern": (str, lambda v, it: matches(it, v)),
    "minItems": (list, lambda v, it: len(v) >= it),
    "maxItems": (list, lambda v, it: len(v) <= it),
    "uniqueItems": (list, lambda v, it: not it or len({canonical(item) for item in v}) == len(v)),
    "minProperties": (dict, lambda v, it: len(v) >= it),
    "maxProperties": (dict, lambda v, it: len(v) <= it),
    "multipleOf": (float, lambda v, it: v % it == 0),
    "format": (float, lambda v, it: it not in RANGES or RANGES[it][0] <= v <= RANGES[it][1]),
}


class Node:
    """A node of a schema."""

    def __init__(self, doc: dict, is_root: bool = False) -> None:
        self.doc = doc
        self.kind: Optional[str] = "an integer or a text" if doc.get("x-kubernetes-int-or-string") is True else doc.get("type")
        self.nullable = doc.get("nullable") is True
        self.is_open = doc.get("x-kubernetes-preserve-unknown-fields") is True or doc.get("additionalProperties") is True
        self.own = frozenset(OF_EACH if is_root or doc.get("x-kubernetes-embedded-resource") is True else ())
        self.properties = {name: Node(it) for name, it in (doc.get("properties") or {}).items() if name not in self.own}
        more, items = doc.get("additionalProperties"), doc.get("items")
        self.additional = Node(more) if isinstance(more, dict) else None
        self.items = Node(items) if isinstance(items, dict) else None
        self.defaults = [(name, it.doc["default"]) for name, it in self.properties.items() if "default" in it.doc]
        self.enum = {canonical(it) for it in doc["enum"]} if "enum" in doc else None
        self.checks = [(name, *CHECKS[name], doc[name]) for name in CHECKS if name in doc]
        self.branches = {name: [Node(it) for it in doc[name]] for name in ("allOf", "anyOf", "oneOf") if name in doc}
        self.denied = Node(doc["not"]) if "not" in doc else None

    def child(self, name: object) -> Optional[Node]:
        if isinstance(name, int):
            return self.items
        return self.properties.get(name) or self.additional  # type: ignore[arg-type]

    def below(self, path: Path) -> Optional[Node]:
        """The node at a path, where there is one."""
        node: Optional[Node] = self
        for step in path:
            node = node.child(step) if node else None
        return node

    def settle(self, value: object, path: Path, notes: List[Note]) -> None:
        """Prunes a value in place, and fills it, as a server does."""
        if isinstance(value, list):
            if self.items:
                for i, item in enumerate(value):
                    if isinstance(item, (dict, list)):
                        self.items.settle(item, path + (i,), notes)
        elif isinstance(value, dict) and self.kind in ("object", None):
            self.settle_fields(value, path, notes)

    def settle_fields(self, value: dict, path: Path, notes: List[Note]) -> None:
        for name in [name for name in value if name not in self.properties and name not in self.own]:
            if self.additional is None and not self.is_open:
                notes.append(Note("pruned", path + (name,), value.pop(name)))
        for name in [name for name, it in value.items() if it is None]:
            child = self.child(name)
            if child is not None and not child.nullable:
                del value[name]
        for name, default in self.defaults:
            if name not in value:
                value[name] = copy.deepcopy(default)
                notes.append(Note("filled", path + (name,), default))
        for name, it in value.items():
            if isinstance(it, (dict, list)) and name not in self.own:
                child = self.child(name)
                if child is not None:
                    child.settle(it, path + (name,), notes)

    def faults(self, value: object, path: Path = ()) -> Iterator[Note]:
        """The rules that a value breaks."""
        if value is None and self.nullable:
            return
        if self.kind in TYPES and not TYPES[self.kind](value):
            yield Note("Type", path, value, self.kind)
            return
        if self.enum is not None and canonical(value) not in self.enum:
            yield Note("Enum", path, value, self.doc["enum"])
        for name, kind, keeps, limit in self.checks:
            if (is_number(value) if kind is float else isinstance(value, kind)) and not keeps(value, limit):
                yield Note(name[0].upper() + name[1:], path, value, limit)
        if is_number(value):
            yield from self.beyond(value, path)
        yield from self.of_branches(value, path)
        if isinstance(value, dict):
            for name in self.doc.get("required", ()):
                if name not in value:
                    yield Note("Required", path + (name,), None)
            inner = [(name, self.child(name), it) for name, it in value.items() if name not in self.own]
        else:
            inner = [(i, self.items, it) for i, it in enumerate(value)] if isinstance(value, list) and self.items else []
        for step, child, it in inner:
            if child is not None:
                yield from child.faults(it, path + (step,))

    def beyond(self, value: object, path: Path) -> Iterator[Note]:
        least, most = self.doc.get("minimum"), self.doc.get("maximum")
        if least is not None and (value < least or (value == least and self.doc.get("exclusiveMinimum"))):
            yield Note("Minimum", path, value, least)
        if most is not None and (value > most or (value == most and self.doc.get("exclusiveMaximum"))):
            yield Note("Maximum", path, value, most)

    def of_branches(self, value: object, path: Path) -> Iterator[Note]:
        for name, branches in self.branches.items():
            kept = sum(not any(it.faults(value, path)) for it in branches)
            if not {"allOf": kept == len(branches), "anyOf": kept > 0, "oneOf": kept == 1}[name]:
                yield Note(name[0].upper() + name[1:], path, value)
        if self.denied is not None and not any(self.denied.faults(value, path)):
            yield Note("Not", path, value)

    def each(self) -> Iterator[Node]:
        yield self
        for it in [*self.properties.values(), self.additional, self.items]:
            if it is not None:
                yield from it.each()


def spelled(path: Path) -> str:
    """A path as it is told: names joined by points, items in brackets."""
    text = ""
    for step in path:
        text += f"[{step}]" if isinstance(step, int) else f".{step}" if text else str(step)
    return text


def pattern(node: Optional[Node], path: Path) -> str:
    """A path with `[*]` and `*` for the places of items and for the keys of a map, so that many values have one."""
    steps: List[str] = []
    for step in path:
        is_key = isinstance(step, str) and node is not None and step not in node.properties and node.additional is not None
        steps.append("[*]" if isinstance(step, int) else "*" if is_key else str(step))
        node = node.child(step) if node is not None else None
    return ".".join(steps).replace(".[*]", "[*]")


def find(value: object, path: str) -> Tuple[Path, object]:
    """The steps of a path that is spelled, and what stands there in a value. Names may hold points."""
    steps: Path = ()
    while path:
        item = re.match(r"\[(\d+)\]\.?", path)
        if item and isinstance(value, list) and int(item[1]) < len(value):
            name: object = int(item[1])
            value, path = value[int(item[1])], path[item.end() :]
        else:
            names = [it for it in value if path == it or path.startswith((f"{it}.", f"{it}["))] if isinstance(value, dict) else []
            text = max(names, key=len) if names else path
            name, value = text, value.get(text) if isinstance(value, dict) else None
            path = path[len(text) :].lstrip(".")
        steps += (name,)
    return steps, value
