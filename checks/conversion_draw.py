"""Draws definitions with defaults in one version only, and objects of them, for conversion.py."""
from __future__ import annotations

import json
import random
from typing import Any, Dict, List, Optional, Tuple

from conversion_model import HUB, HUB_KEY, OTHER, SPOKE, SPOKE_KEY, Cell, Definition, Document, Level, fill, text

TEXTS = ["x", "y", "z", "a:b", "a:b:c", "nocolon", ":", ""]
NUMBERS = [-1, 0, 1, 2, 5, 7, 1000, 1500, 2000, 5000]
FAULTY, NULL, ABSENT, BY = 0.02, 0.1, 0.4, 1000
STRING = {"type": "string"}
NODES: List[Document] = [
    STRING,
    {"type": "boolean"},
    {"type": "integer"},
    {"type": "string", "nullable": True},
    {"type": "integer", "nullable": True},
    {"type": "string", "enum": ["x", "y", "z"]},
    {"type": "string", "maxLength": 3},
    {"type": "array", "items": {"type": "integer"}},
    {"type": "object", "properties": {"p": {"type": "integer"}, "q": {"type": "string", "default": "d"}}},
    {"type": "object", "properties": {"p": {"type": "integer"}}, "x-kubernetes-preserve-unknown-fields": True},
]


class Part:
    """What an object has at a version: its fields, those that it requires, and a spoke's rules."""

    def __init__(self) -> None:
        self.fields: Document = {}
        self.required: List[str] = []
        self.rules: List[Document] = []

    def schema(self) -> Document:
        return {"type": "object", "properties": self.fields, **({"required": self.required} if self.required else {})}


Parts = Dict[str, Part]


class Draw:
    """A definition: the schema of each version, the hub, and the rules of each spoke."""

    def __init__(self, start: int) -> None:
        self.random, self.count = random.Random(start), 0
        versions = ["v1", "v1beta1", "v1alpha1", "v2"][: self.random.choice([2, 3, 3, 4])]
        self.hub = self.random.choice(versions)
        self.random.shuffle(versions)
        self.spokes = [it for it in versions if it != self.hub]
        parts = self.level(0)
        self.rules = {it: parts[it].rules for it in self.spokes}
        self.schemas = {version: parts[version].schema() for version in versions}

    def often(self, part: float) -> bool:
        return self.random.random() < part

    def name(self) -> str:
        """A name of its own: some of them are prefixes of others, and some sort before a point."""
        self.count += 1
        return self.random.choice("abno") + self.random.choice(["", "-", "b"]) + str(self.count)

    # ---- definitions

    def level(self, depth: int) -> Parts:
        """An object at each version."""
        parts = {it: Part() for it in [*self.spokes, self.hub]}
        kinds = [self.equal, self.equal, self.number, self.words, self.texts, self.lonely] + ([self.inside] if depth < 2 else [])
        for _ in range(self.random.randint(1, 4)):
            self.random.choice(kinds)(parts, depth)
        return parts

    def give(self, to: Part, name: str, node: Document, part: float = 0.4) -> None:
        """A field of a version, which may have a default."""
        to.fields[name] = dict(node)
        if self.often(part):
            to.fields[name]["default"] = fill(node, self.value(node))

    def pair(self, to: Part, name: str, node: Document, part: float = 0.4) -> str:
        """A field of a spoke by `same`, maybe by another name or by no rule; its own name is given."""
        own = name if self.often(0.6) else self.name()
        self.give(to, own, node, part)
        if own != name or self.often(0.5):
            to.rules.append({"same": [own, name]})
        return own

    def pair_or_leave(self, to: Part, name: str, node: Document, is_needed: bool, part: float) -> str:
        """A field that a spoke has by `same`, or doesn't have where it needn't."""
        if is_needed or self.often(part):
            return self.pair(to, name, node)
        to.rules.append({"hubOnly": name})
        return ""

    def equal(self, parts: Parts, _depth: int) -> None:
        """A field that each spoke has, or doesn't have where the hub has no default and doesn't require it."""
        hub, node, name, is_required = parts[self.hub], self.random.choice(NODES), self.name(), self.often(0.1)
        self.give(hub, name, node)
        hub.required += [name] if is_required else []
        for to in (parts[version] for version in self.spokes):
            own = self.pair_or_leave(to, name, node, is_required or "default" in hub.fields[name], 0.8)
            to.required += [own] if is_required else []

    def number(self, parts: Parts, _depth: int) -> None:
        """A number, with another unit at some spokes."""
        most, name = self.random.choice([5, 60]), self.name()
        coarse = {"type": "integer", "minimum": 0, "maximum": most}
        fine = {"type": "integer", "minimum": 0, "maximum": most * BY + self.random.choice([0, 999])}
        self.give(parts[self.hub], name, fine)
        for to in (parts[version] for version in self.spokes):
            if self.often(0.6):
                own = self.random.choice([name, self.name()])
                self.give(to, own, coarse)
                to.rules.append({"scale": {"names": [own, name], "by": BY}})
            else:
                self.pair_or_leave(to, name, fine, "default" in parts[self.hub].fields[name], 0.7)

    def words(self, parts: Parts, _depth: int) -> None:
        """A text that is a number, or another text, at some spokes."""
        name = self.name()
        self.give(parts[self.hub], name, STRING)
        has = parts[self.hub].fields[name].get("default")
        for to in (parts[version] for version in self.spokes):
            if self.often(0.6):
                self.table(to, name, has)
            else:
                self.pair_or_leave(to, name, STRING, has is not None, 0.7)

    def table(self, to: Part, name: str, has: Optional[str]) -> None:
        """A table to a text of the hub, with the default that goes with the hub's."""
        own = self.random.choice([name, self.name()])
        node = {"type": "integer"} if self.often(0.5) else STRING
        values: List[Any] = NUMBERS if node["type"] == "integer" else TEXTS
        heres, theres = self.random.sample(values, 3), self.random.sample(TEXTS, 3)
        if has is not None and has not in theres:
            theres[0] = has
        none = [None] if has is None else []
        blanks = [self.random.choice([*values, *none]), self.random.choice([*TEXTS, *none])]
        if has is not None and self.often(0.5):
            blanks = [heres[theres.index(has)], has]
        to.fields[own] = {**node, **({"default": heres[theres.index(has)]} if has is not None else {})}
        pairs = [list(it) for it in zip(heres, theres)]
        to.rules.append({"table": {"names": [own, name], "pairs": pairs, "spokeBlank": blanks[0], "hubBlank": blanks[1]}})

    def texts(self, parts: Parts, _depth: int) -> None:
        """Two texts that are one at some spokes."""
        names = [self.name(), self.name()]
        joined = [it for it in self.spokes if self.often(0.6)]
        for name in names:
            self.give(parts[self.hub], name, STRING, 0 if joined else 0.3)
        for version in self.spokes:
            if version in joined:
                own = self.name()
                self.give(parts[version], own, STRING, 0)
                parts[version].rules.append({"split": {"spoke": own, "hub": names}})
                continue
            for name in names:
                self.pair(parts[version], name, STRING, 0.1 if joined else 0.4)

    def lonely(self, parts: Parts, _depth: int) -> None:
        """A field of one spoke alone."""
        own, version = self.name(), self.random.choice(self.spokes)
        self.give(parts[version], own, self.random.choice(NODES), 0)
        parts[version].rules.append({"spokeOnly": own})

    def inside(self, parts: Parts, depth: int) -> None:
        """An object, which goes over whole at some spokes where its schemas are one."""
        inner, name = self.level(depth + 1), self.name()
        parts[self.hub].fields[name] = inner[self.hub].schema()
        for version in self.spokes:
            if self.often(0.1):
                self.pair(parts[version], name, inner[self.hub].schema(), 0.1)
            elif self.often(0.05):
                parts[version].rules.append({"hubOnly": name})
            else:
                own = self.random.choice([name, name, self.name()])
                parts[version].fields[own] = inner[version].schema()
                parts[version].rules.append({"object": {"names": [own, name], "rules": inner[version].rules}})

    # ---- values

    def value(self, node: Document) -> Any:
        """A value that a schema takes."""
        if node.get("nullable") and self.often(0.2):
            return None
        if node["type"] == "string":
            return self.random.choice(node.get("enum", [it for it in TEXTS if len(it) <= node.get("maxLength", 9)]))
        if node["type"] == "integer":
            return self.random.choice([it for it in NUMBERS if node.get("minimum", it) <= it <= node.get("maximum", it)])
        if node["type"] == "array":
            return [self.value(node["items"]) for _ in range(self.random.randint(0, 2))]
        return self.fields(node) if node["type"] == "object" else self.often(0.5)

    def fields(self, node: Document) -> Document:
        """The fields of an object: some aren't there, some are null, few are no such value or unknown."""
        made: Document = {}
        for name, inner in node["properties"].items():
            is_object = inner["type"] == "object"
            if self.often(FAULTY if name in node.get("required", []) else ABSENT * (0.5 if is_object else 1)):
                continue
            made[name] = None if self.often(NULL) and not is_object else self.value(inner)
        return {**made, "unknown": 1} if self.often(FAULTY) else made

    def written(self, version: str, definition: Definition) -> Tuple[Document, Document]:
        """The body and the annotations of an object that is written at a version, few of them with a value that its schema doesn't take."""
        body = self.fields(self.schemas[version])
        annotations = {"note": "n"} if self.often(0.1) else {}
        for spoke in self.spokes:
            if version == spoke and self.often(0.5):
                annotations[HUB_KEY] = self.entries(definition.levels[spoke], SPOKE, body, True)
            elif version != spoke and self.often(0.4):
                is_hub = version == self.hub
                annotations[f"{SPOKE_KEY}{spoke}"] = self.entries(definition.levels[spoke], HUB, body if is_hub else None, is_hub)
        if self.often(0.05):
            annotations[self.random.choice([HUB_KEY, f"{SPOKE_KEY}{self.hub}", f"{SPOKE_KEY}{version}"])] = "[]"
        if self.often(FAULTY * 2):
            name = self.random.choice([*self.schemas[version]["properties"], "unknown"])
            body[name] = self.random.choice([[], "x" * 9, -3, 70_000, None])
        return body, {key: said for key, said in annotations.items() if said}

    def entries(self, level: Level, side: str, body: Optional[Document], fits: bool) -> str:
        """The text of entries beside a body of a side, some of which hold: where `fits`, the body is made to show them."""
        made: Dict[Any, Document] = {}
        for at, inner in level.all():
            for cell in inner.cells:
                if not cell.names[OTHER[side]] or self.often(0.5):
                    continue
                was = {name: self.value(cell.nodes[OTHER[side]][name]) for name in cell.names[OTHER[side]] if self.often(0.8)}
                if was:
                    self.enter(made, level, side, at, cell, was, body if fits and self.often(0.7) else None)
        said = text([made[key] for key in sorted(made)]) if made else ""
        return f"{said} " if said and self.often(0.01) else said

    @staticmethod
    def enter(made: Dict[Any, Document], level: Level, side: str, at: Any, cell: Cell, was: Document, body: Optional[Document]) -> None:
        """Adds an entry of a cell of the level that these names of the hub lead to."""
        names, inner = [], level
        for step in at:
            inner = next(it for it in inner.inner if it.names[HUB] == step)
            names.append(step if side == SPOKE else inner.names[SPOKE])
        made[tuple(names), min(was)] = {"at": names, "was": was}
        place = level.found(side, body, names) if body is not None else None
        if place and cell.match(OTHER[side], was) is None:
            for name in cell.names[side]:
                place[1].pop(name, None)
            place[1].update(cell.show(OTHER[side], was))

    def edited(self, version: str, shown: Document) -> Tuple[Document, Document]:
        """What a client puts back of an object that it read at a version: fields changed, nulled or left out."""
        body = json.loads(json.dumps({name: it for name, it in shown.items() if name not in ("apiVersion", "kind", "metadata")}))
        self.edit(body, self.schemas[version])
        return body, shown["metadata"].get("annotations", {})

    def edit(self, body: Document, node: Document) -> None:
        for name, inner in node["properties"].items():
            if inner["type"] == "object" and isinstance(body.get(name), dict) and inner.get("properties") and self.often(0.7):
                self.edit(body[name], inner)
            elif self.often(0.15):
                body.pop(name, None)
            elif self.often(0.05) and inner["type"] != "object":
                body[name] = None
            elif self.often(0.1):
                body[name] = self.value(inner)
