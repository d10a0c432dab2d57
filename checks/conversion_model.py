"""A model of conversion by rules: what an object that is written at one version is at every version. It is written after what
docs/RULES.md and docs/API.md say, and not after the code. It knows the keywords of schemas that conversion.py draws, and no more."""
from __future__ import annotations

import json
from typing import Any, Dict, Iterator, List, Optional, Set, Tuple

HUB_KEY, SPOKE_KEY = "hub.kubeconv.local/kept", "spoke.kubeconv.local/"
SPOKE, HUB = "spoke", "hub"
OTHER = {SPOKE: HUB, HUB: SPOKE}
KINDS = {"string": str, "integer": int, "boolean": bool, "object": dict, "array": list}
Document = Dict[str, Any]
Names = Tuple[str, ...]


class Refused(Exception):
    """A request or a definition that is refused: where, and with which word."""

    def __init__(self, field: str, word: str) -> None:
        super().__init__(f"{field}: {word}")
        self.field, self.word = field, word


def text(value: Any) -> str:
    """The compact text, with names that rise."""
    return json.dumps(value, sort_keys=True, separators=(",", ":"), ensure_ascii=False)


def alike(one: Any, two: Any) -> bool:
    """Whether two values are one JSON value: `true` isn't 1."""
    return text(one) == text(two)


# ---- schemas


def fill(node: Document, value: Any) -> Any:
    """What pruning, taking out nulls and defaulting make of a value."""
    if node["type"] == "array" and isinstance(value, list):
        return [fill(node["items"], it) for it in value]
    if node["type"] != "object" or not isinstance(value, dict):
        return value
    fields, keeps_unknown = node.get("properties", {}), node.get("x-kubernetes-preserve-unknown-fields")
    filled = {name: it for name, it in value.items() if name not in fields and keeps_unknown}
    for name, inner in fields.items():
        if value.get(name) is not None or name in value and inner.get("nullable"):
            filled[name] = fill(inner, value[name])
        elif "default" in inner:
            filled[name] = inner["default"]
    return filled


def check(node: Document, value: Any, path: str = "") -> None:
    """Refuses a value that a schema doesn't take, by the first fault."""
    if value is None and node.get("nullable"):
        return
    if not isinstance(value, KINDS[node["type"]]) or node["type"] == "integer" and isinstance(value, bool):
        raise Refused(path, "Type")
    faults = {
        "Enum": "enum" in node and not any(alike(it, value) for it in node["enum"]),
        "Minimum": "minimum" in node and value < node["minimum"],
        "Maximum": "maximum" in node and value > node["maximum"],
        "MaxLength": "maxLength" in node and len(value) > node["maxLength"],
    }
    for word in (word for word, is_so in faults.items() if is_so):
        raise Refused(path, word)
    if isinstance(value, list):
        for place, it in enumerate(value):
            check(node["items"], it, f"{path}[{place}]")
    elif isinstance(value, dict):
        for name in sorted(set(node.get("required", [])) - set(value)):
            raise Refused(f"{path}.{name}".lstrip("."), "Required")
        for name in sorted(set(value) & set(node.get("properties", {}))):
            check(node["properties"][name], value[name], f"{path}.{name}".lstrip("."))


def is_taken(node: Document, value: Any) -> bool:
    """Whether a value is valid and its own filling."""
    try:
        check(node, value)
    except Refused:
        return False
    return alike(fill(node, value), value)


# ---- rules


class Cell:
    """Fields of the two sides that go over to each other, by one rule. `says` is what the rule has beside its names."""

    def __init__(self, kind: str, says: Any, nodes: Document) -> None:
        if kind in ("spokeOnly", "hubOnly"):
            spoke, hub = ([says], []) if kind == "spokeOnly" else ([], [says])
        elif kind == "split":
            spoke, hub = [says["spoke"]], says["hub"]
        else:
            spoke, hub = ([it] for it in (says if kind == "same" else says["names"]))
        self.kind, self.names, self.nodes, self.says = kind, {SPOKE: spoke, HUB: hub}, nodes, says

    def default(self, side: str) -> List[Any]:
        """The default of a field that is paired with one of the other side, as a list."""
        node = self.nodes[side][self.names[side][0]] if self.kind in ("same", "scale", "table") else {}
        return [node["default"]] if "default" in node else []

    def match(self, side: str, given: Document) -> Optional[Document]:
        """What goes with the present fields of a side at the other; None where nothing does."""
        if not given:
            return {}
        here, there = self.names[side], self.names[OTHER[side]]
        if self.kind == "same":
            return {there[0]: given[here[0]]}
        if self.kind == "table":
            at = [SPOKE, HUB].index(side)
            listed = [it for it in self.says["pairs"] if alike(it[at], given[here[0]])]
            return {there[0]: listed[0][1 - at]} if listed else None
        if self.kind == "scale":
            value, by = given[here[0]], self.says["by"]
            if side == SPOKE:
                return {there[0]: value * by}
            return {there[0]: value // by} if value % by == 0 else None
        if self.kind == "split" and side == SPOKE:
            front, colon, behind = given[here[0]].rpartition(":")
            return dict(zip(there, (front, behind))) if colon else None
        if self.kind == "split" and len(given) == 2 and ":" not in given[here[1]]:
            return {there[0]: f"{given[here[0]]}:{given[here[1]]}"}
        return None

    def show(self, side: str, given: Document) -> Document:
        """What the other side shows of fields that nothing goes with."""
        to = self.names[OTHER[side]]
        if self.kind == "table":
            blank = self.says["hubBlank" if side == SPOKE else "spokeBlank"]
            return {} if blank is None else {to[0]: blank}
        return {to[0]: given[self.names[side][0]] // self.says["by"]} if self.kind == "scale" and side == HUB else {}


class Level:
    """The rules of an object, with its name at each side: its cells, and the objects inside. `schemas` has its schema by side."""

    def __init__(self, rules: List[Document], schemas: Document, names: Document) -> None:
        self.names, self.nodes = names, {side: schema["properties"] for side, schema in schemas.items()}
        self.cells: List[Cell] = []
        self.inner: List[Level] = []
        for [(kind, says)] in (rule.items() for rule in rules):
            if kind == "object":
                inside = dict(zip((SPOKE, HUB), says["names"]))
                self.inner.append(Level(says["rules"], {side: self.nodes[side][name] for side, name in inside.items()}, inside))
            else:
                self.cells.append(Cell(kind, says, self.nodes))
        named = {name for it in self.cells for name in it.names[SPOKE]} | {it.names[SPOKE] for it in self.inner}
        self.cells += [Cell("same", [name, name], self.nodes) for name in sorted(set(self.nodes[SPOKE]) - named)]

    def all(self, at: Names = ()) -> Iterator[Tuple[Names, Level]]:
        """Each level with the names at the hub that lead to it."""
        yield at, self
        for it in self.inner:
            yield from it.all((*at, it.names[HUB]))

    def found(self, side: str, body: Document, at: Any) -> Optional[Tuple[Level, Document]]:
        """The level that names of the other side lead to, and the object of a side there; None where there is none."""
        level = self
        for name in at:
            inside = [it for it in level.inner if it.names[OTHER[side]] == name]
            if not inside or inside[0].names[side] not in body:
                return None
            level, body = inside[0], body[inside[0].names[side]]
        return level, body


# ---- kept entries


def read_entries(key: str, said: str) -> List[Document]:
    """The entries of an annotation, which is the compact text of a list of them."""
    try:
        entries = json.loads(said)
    except ValueError:
        entries = None
    if not is_canonical(entries) or text(entries) != said:
        raise Refused(f"metadata.annotations.{key}", "Kept")
    return entries  # type: ignore[no-any-return]


def is_canonical(entries: Any) -> bool:
    if not isinstance(entries, list) or not all(isinstance(it, dict) and sorted(it) == ["at", "was"] for it in entries):
        return False
    if not all(isinstance(it["at"], list) and isinstance(it["was"], dict) and it["was"] for it in entries):
        return False
    if not all(isinstance(name, str) for it in entries for name in it["at"]):
        return False
    return all(key_of(one) < key_of(two) for one, two in zip(entries, entries[1:]))


def key_of(entry: Document) -> Any:
    return entry["at"], min(entry["was"])


def living(level: Level, side: str, body: Document, entries: List[Document]) -> List[Tuple[Document, Cell]]:
    """The entries beside a body of a side that are alive, each with its cell: values of the other side that can't be said here, are taken
    there, and are shown as what stands here."""
    alive, named = [], set()
    for entry in entries:
        place = level.found(side, body, entry["at"])
        cells = [it for it in place[0].cells if set(entry["was"]) <= set(it.names[OTHER[side]])] if place else []
        if not place or not cells or (tuple(entry["at"]), id(cells[0])) in named:
            continue
        cell, was = cells[0], entry["was"]
        named.add((tuple(entry["at"]), id(cell)))
        here = {name: place[1][name] for name in cell.names[side] if name in place[1]}
        is_unsaid = all(is_taken(cell.nodes[OTHER[side]][name], it) for name, it in was.items()) and cell.match(OTHER[side], was) is None
        if is_unsaid and alike(here, cell.show(OTHER[side], was)):
            alive.append((entry, cell))
    return alive


def cross(level: Level, side: str, body: Document, alive: Any, here: Names = (), there: Names = ()) -> Tuple[Document, List[Document]]:
    """A body at the other side, given the entries beside it that are alive; and what is to be kept there."""
    over: Document = {}
    kept: List[Document] = []
    for cell in level.cells:
        given = {name: body[name] for name in cell.names[side] if name in body}
        was = [entry["was"] for entry, of in alive if of is cell and tuple(entry["at"]) == there]
        matched = was[0] if was else cell.match(side, given)
        if matched is None:
            kept.append({"at": list(here), "was": given})
            matched = cell.show(side, given)
        over.update(matched)
    for it in level.inner:
        if it.names[side] in body:
            ways = (*here, it.names[side]), (*there, it.names[OTHER[side]])
            over[it.names[OTHER[side]]], inside = cross(it, side, body[it.names[side]], alive, *ways)
            kept += inside
    return over, sorted(kept, key=key_of)


# ---- definitions


class Definition:
    """The schemas of each version in their order, the hub, and the rules of each spoke."""

    def __init__(self, schemas: Document, hub: str, rules: Document) -> None:
        self.schemas, self.hub, self.completed = schemas, hub, 0
        self.spokes = [version for version in schemas if version != hub]
        self.levels = {it: Level(rules.get(it, []), {SPOKE: schemas[it], HUB: schemas[hub]}, {}) for it in self.spokes}
        # What the hub's fields become where they aren't there: the first spoke's counts that says it.
        self.fills: Dict[Names, Any] = {}
        for _spoke, at, level, cell, name in self.fields():
            if "default" in level.nodes[HUB][name]:
                self.fills.setdefault((*at, name), level.nodes[HUB][name]["default"])
            for default in cell.default(SPOKE):
                self.fills.setdefault((*at, name), (cell.match(SPOKE, {cell.names[SPOKE][0]: default}) or {})[name])

    def fields(self) -> Iterator[Tuple[str, Names, Level, Cell, str]]:
        """Each field of the hub by each spoke, with its level and its cell."""
        for spoke in self.spokes:
            for at, level in self.levels[spoke].all():
                yield from ((spoke, at, level, cell, name) for cell in level.cells for name in cell.names[HUB])

    def late(self) -> List[str]:
        """The hub's fields without a default that a spoke gives one, and some spoke pairs by neither `same` nor `scale`."""
        given: Set[Names] = set()
        paired: Dict[Names, Set[str]] = {}
        for spoke, at, level, cell, name in self.fields():
            paired.setdefault((*at, name), set()).update({spoke} if cell.kind in ("same", "scale") else ())
            if cell.default(SPOKE) and "default" not in level.nodes[HUB][name]:
                given.add((*at, name))
        return sorted(".".join(it) for it in given if paired[it] != set(self.spokes))

    def complete(self, body: Document) -> Document:
        """A body of the hub with each field that has a default in some version, in the objects that are there."""
        body = json.loads(json.dumps(body))
        for (*at, name), value in self.fills.items():
            inside: Any = body
            for step in at:
                inside = inside.get(step) if inside is not None else None
            if inside is not None and name not in inside:
                inside[name] = value
                self.completed += 1
        return body

    def admit(self, version: str, body: Document, annotations: Document) -> Tuple[Document, Document]:
        """The hub's body and annotations of an object that is written at a version."""
        body = fill(self.schemas[version], body)
        check(self.schemas[version], body)
        known = {f"{SPOKE_KEY}{it}": it for it in self.spokes}
        own = HUB_KEY if version == self.hub else f"{SPOKE_KEY}{version}"
        plain = {key: said for key, said in annotations.items() if key != HUB_KEY and not key.startswith(SPOKE_KEY)}
        entries = {key: read_entries(key, annotations[key]) for key in sorted(annotations) if key != own and (key == HUB_KEY or key in known)}
        if version != self.hub:
            level = self.levels[version]
            body, entries[own] = cross(level, SPOKE, body, living(level, SPOKE, body, entries.pop(HUB_KEY, [])))
        body = self.complete(body)
        for key, found_there in entries.items():
            alive = [entry for entry, _ in living(self.levels[known[key]], HUB, body, found_there)]
            plain.update({key: text(alive)} if alive else {})
        return body, plain

    def form(self, version: str, body: Document, annotations: Document) -> Tuple[Document, Document]:
        """What a body and annotations of the hub are at a version."""
        if version == self.hub:
            return body, annotations
        key, level = f"{SPOKE_KEY}{version}", self.levels[version]
        said = annotations.get(key)
        over, kept = cross(level, HUB, body, living(level, HUB, body, read_entries(key, said) if said else []))
        rest = {name: it for name, it in annotations.items() if name != key}
        return over, {**rest, **({HUB_KEY: text(kept)} if kept else {})}
