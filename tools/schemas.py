"""The levels of a spoke's rules with the schemas of both sides, whether rules fit there, and what differs. It is no command:
tools/find_faults.py finds faults by it, and tools/field_rows.py rows.

A level is the fields of two objects, one of the spoke's version and one of the hub's, with the rules between them. The documents may have
faults: what isn't of its form has no names and no levels inside.
"""
from __future__ import annotations

from typing import Any, Dict, Iterator, List, Optional, Tuple

from fault_texts import Document, Edit, alike, at, inside, list_at, shown
from prepare_schema import CHECKS_ALONE
from program_asks import Program, definition
from rule_fields import HUB, ONLY, SIDES, SPOKE, Rule, Spot, kind_of, names_of

OF_OBJECT = ("apiVersion", "kind", "metadata")
MIXED, OPEN = "x-kubernetes-int-or-string", "x-kubernetes-preserve-unknown-fields"
PASSED = {"description", "title", "example", "externalDocs"}
INSIDE = {"properties", "items", "additionalProperties"}
UNITS = (1000, 60, 3600, 1000000, 1000000000, 1024, 24, 86400, 100)
Node = Dict[str, Any]


def is_closed(node: Any) -> bool:
    """Whether a node is an object with `properties` and nothing else."""
    others = ("additionalProperties", "enum", "nullable", OPEN)
    return at(node, "type") == "object" and isinstance(node.get("properties"), dict) and not any(node.get(it) for it in others)


class Level:
    """A level, by the names of both versions, the two nodes and its list of rules, or none where no rule opens the objects."""

    def __init__(self, versions: List[str], nodes: List[Node], rules: Any, around: Optional[Level] = None, names: Any = ("", "")) -> None:
        self.versions, self.nodes, self.around, self.names = versions, nodes, around, names
        self.rules: Optional[List[Any]] = rules if isinstance(rules, list) else None
        self.steps: List[List[str]] = [[*around.steps[side], names[side]] if around else [] for side in SIDES]
        self.paths = ["".join(f"{it}." for it in steps) for steps in self.steps]

    def fields(self, side: int) -> Dict[str, Node]:
        named = self.nodes[side].get("properties") or {}
        return {name: it for name, it in sorted(named.items()) if self.around or name not in OF_OBJECT}

    def node(self, side: int, name: str) -> Optional[Node]:
        return self.fields(side).get(name)

    def is_required(self, side: int, name: str) -> bool:
        return name in self.nodes[side].get("required", [])

    def free(self, side: int) -> List[str]:
        """The names of a side that no rule has."""
        ruled = [it for rule in self.rules or [] for it in names_of(rule)]
        return [name for name in self.fields(side) if (side, name) not in ruled]

    def equal(self) -> List[str]:
        """The names that no rule has, and that both sides have."""
        there = self.free(HUB)
        return [name for name in self.free(SPOKE) if name in there]

    def all_rules(self) -> List[Rule]:
        """The rules of the level, and one for each name that goes over without one."""
        return [*(self.rules or []), *({"same": [it, it]} for it in self.equal())]

    def unpaired(self, side: int) -> List[str]:
        """The names of a side that no rule has, and that the other side doesn't have so."""
        equal = self.equal()
        return [name for name in self.free(side) if name not in equal]

    def of(self, side: int, name: str) -> str:
        """A name with its path and its version."""
        return f"`{self.paths[side]}{name}` of {self.versions[side]}"

    def inner(self, names: Any, rules: Any) -> Optional[Level]:
        """The level inside two objects."""
        nodes = [self.node(side, name) for side, name in zip(SIDES, names) if isinstance(name, str)]
        there = [it for it in nodes if it and is_closed(it)]
        return Level(self.versions, there, rules, self, names) if len(there) == 2 else None


def root_level(crd: Any, rules: Any, spoke: str) -> Level:
    schemas = {v["name"]: v["schema"]["openAPIV3Schema"] for v in crd["spec"]["versions"]}
    return Level([spoke, rules["hub"]], [schemas[spoke], schemas[rules["hub"]]], at(rules, "spokes", spoke))


def levels(level: Level, with_closed: bool = False) -> Iterator[Level]:
    """A level and those that `object` rules open below it, and on demand those that such rules could open between equal names."""
    yield level
    opened = [(list_at(it, "object", "names"), at(it, "object", "rules")) for it in level.rules or []]
    for below in [level.inner(*it) for it in opened + [([it, it], None) for it in level.equal() if with_closed]]:
        if below:
            yield from levels(below, with_closed)


# ---- whether rules fit


def part(node: Node, rules: List[Rule], side: int) -> Node:
    """What of an object's schema rules name."""
    kept = {}
    for rule in rules:
        for name in [it for where, it in names_of(rule) if where == side]:
            it = at(node, "properties", name) or {}
            kept[name] = part(it, list_at(rule, "object", "rules"), side) if kind_of(rule) == "object" and is_closed(it) else it
    return {**node, "properties": kept, "required": [it for it in node.get("required", []) if it in kept]}


def fits(program: Program, level: Level, rules: List[Rule], nodes: Optional[List[Node]] = None) -> bool:
    """Whether rules fit by themselves at a level."""
    schemas = {}
    for side, name in zip(SIDES, level.versions):
        inner = {key: it for key, it in part((nodes or level.nodes)[side], rules, side).items() if key != "default"}
        if not all(inner["properties"].values()):
            return False
        schemas[name] = {"type": "object", "properties": {"o": inner}}
    around = [{"object": {"names": ["o", "o"], "rules": rules}}]
    return not program.first(definition(schemas), {"hub": level.versions[HUB], "spokes": {level.versions[SPOKE]: around}})


def kept(level: Level, names: List[Spot]) -> List[Rule]:
    """Rules that keep fields at the side that has them."""
    return [{ONLY[side]: name} for side, name in names if level.node(side, name)]


def loosened(node: Node) -> Node:
    """A schema without what only checks, which an API server checks before a webhook is asked."""
    kept = {name: it for name, it in node.items() if name not in CHECKS_ALONE}
    kept.update({name: loosened(kept[name]) for name in ("items", "additionalProperties") if isinstance(kept.get(name), dict)})
    if isinstance(kept.get("properties"), dict):
        kept["properties"] = {name: loosened(it) if isinstance(it, dict) else it for name, it in kept["properties"].items()}
    return kept


def fits_loosely(program: Program, level: Level, rules: List[Rule]) -> bool:
    """Whether rules fit at a level but for what only checks."""
    return fits(program, level, rules, [loosened(it) for it in level.nodes])


def same_shaped(level: Level) -> Dict[str, str]:
    """The fields that only the spoke has, each with the one that only the hub has, where these two alone have one schema that says much."""

    def says_much(node: Node) -> bool:
        inner = [it for it in (node.get("items"), node.get("additionalProperties")) if isinstance(it, dict) and "type" in it]
        return bool(node.get("properties") or inner or len(list_at(node, "enum")) > 1)

    def equal(spoke: str, hub: str) -> bool:
        nodes = level.node(SPOKE, spoke) or {}, level.node(HUB, hub) or {}
        return not any(differences(level.versions, *nodes)) and level.is_required(SPOKE, spoke) == level.is_required(HUB, hub)

    names = [[it for it in level.unpaired(side) if says_much(level.node(side, it) or {})] for side in SIDES]
    pairs = [(one, two) for one in names[SPOKE] for two in names[HUB] if equal(one, two)]
    return {one: two for one, two in pairs if [it[SPOKE] for it in pairs].count(one) == [it[HUB] for it in pairs].count(two) == 1}


def draft(program: Program, level: Level, with_pairs: bool = False) -> List[Rule]:
    """Rules for a level without rules: objects are opened, and what else differs is kept, but for bounds; on demand two fields of one
    schema are the same."""
    rules: List[Rule] = []
    pairs = same_shaped(level) if with_pairs else {}
    for name in sorted({*level.fields(SPOKE), *level.fields(HUB)} - {*pairs.values()}):
        below, rule = level.inner([name, name], None), {"same": [name, pairs.get(name, name)]}
        if name in pairs:
            rules.append(rule)
        elif not fits(program, level, [rule]) and not fits_loosely(program, level, [rule]):
            opened = [{"object": {"names": [name, name], "rules": draft(program, below, with_pairs)}}] if below else []
            rules += opened or kept(level, [(SPOKE, name), (HUB, name)])
    return rules


def drafts(program: Program, level: Level) -> Tuple[List[Rule], List[Rule], str]:
    """Rules for a level without rules; those that keep more, or none; and what is asked of the pairs in the first ones."""

    def renames(rules: List[Rule], paths: Tuple[str, str] = ("", "")) -> Iterator[str]:
        for rule in rules:
            names = [inside(path, name) for path, (_, name) in zip(paths, names_of(rule))]
            if kind_of(rule) == "object":
                yield from renames(rule["object"]["rules"], (names[0], names[1]))
            elif kind_of(rule) == "same" and names_of(rule)[0][1] != names_of(rule)[1][1]:
                yield f"`{names[0]}` and `{names[1]}`"

    first, other = draft(program, level, True), draft(program, level)
    asked = [f"{it} have the same schema: are they the same field? If not, keep both" for it in renames(first)]
    return first, (other if other != first else []), "".join(f"; {it}" for it in asked)


# ---- what differs


def parts(node: Node) -> Dict[str, Any]:
    """The schemas inside of one, by the names of fields or by their keyword."""
    return {**{it: node[it] for it in INSIDE - {"properties"} if it in node}, **(node.get("properties") or {})}


def differences(versions: List[str], one: Node, two: Node, path: str = "") -> Iterator[str]:
    """What differs between two schemas in more than their own defaults."""
    of = f" of {path}" if path else ""
    for name in sorted({*one, *two} - PASSED - INSIDE - (set() if path else {"default"})):
        if not alike(one.get(name), two.get(name)):
            first, second = (shown(it[name]) if name in it else "none" for it in (one, two))
            yield f"`{name}`{of} is {first} at {versions[0]} and {second} at {versions[1]}"
    for name in sorted({*parts(one), *parts(two)}):
        first, second = (parts(it).get(name) for it in (one, two))
        if first and second:
            yield from differences(versions, first, second, inside(path, name))
        elif first or second:
            there, lacks = versions if first else versions[::-1]
            yield f"`{inside(path, name)}` is there at {there} and not at {lacks}"


def is_other_unit(one: Node, two: Node) -> bool:
    """Whether the bounds of two numbers, here or inside, look like those of two units."""
    ends = sorted(it for it in (node.get("maximum") for node in (one, two)) if isinstance(it, int) and it > 0)
    if len(ends) == 2 and any(ends[0] * it <= ends[1] < ends[0] * it + it for it in UNITS):
        return True
    return any(is_other_unit(it, parts(two)[name]) for name, it in parts(one).items() if name in parts(two))


def widening(crd: Document, one: Node, two: Node) -> Optional[List[Edit]]:
    """The edits by which two nodes that differ in bounds alone take the values of both; nothing where more differs."""
    edits: List[Edit] = []
    for name in sorted({*one, *two} - PASSED - INSIDE - {"default"}):
        has = [it[name] for it in (one, two) if name in it]
        if len(has) == 2 and alike(*has):
            continue
        if name[:3] not in ("min", "max") and name not in ("required", "nullable", "format", "enum"):
            return None
        value: Any = True if name == "nullable" else None
        if len(has) == 2 and name[:3] in ("min", "max"):
            value = (min if name[:3] == "min" else max)(has)
        elif len(has) == 2 and name == "required":
            value = [it for it in has[0] if it in has[1]] or None
        edits += [crd.drop(it, name) for it in (one, two) if value is None and name in it]
        edits += [crd.put(it, name, value) for it in (one, two) if value is not None and not alike(it.get(name), value)]
    if sorted(parts(one)) != sorted(parts(two)):
        return None
    for name in sorted(parts(one)):
        both = [parts(it)[name] for it in (one, two)]
        found = widening(crd, *both) if all(isinstance(it, dict) for it in both) else None
        if found is None and not alike(*both):
            return None
        edits += found or []
    return edits
