"""A fault of a spoke's rules: what is said of it, and how it is mended. It is no command: tools/find_faults.py tells faults by it.

The program says what doesn't fit, by its path and its word. Here the rule is found that stands there. Then mends are tried, the likely ones
first, until the program takes one; so what is told to be pasted was taken.
"""
from __future__ import annotations

import re
from itertools import islice
from typing import Any, Callable, Dict, Iterator, List, Optional, Tuple

from document_faults import Told, why_not
from fault_texts import Document, Edit, alike, nearest, shown
from program_asks import Fault, Program
from rule_fields import HUB, ONLY, SIDES, SPOKE, Rule, Spot, kind_of, names_of, with_names
from schemas import (OF_OBJECT, UNITS, Level, Node, differences, drafts, fits, fits_loosely, is_closed, is_other_unit, kept, levels, same_shaped,
                     widening)  # fmt: skip

MOST_TOLD, MOST_TRIED = 6, 6
INT32, INT64 = (-(2**31), 2**31 - 1), (-(2**63), 2**63 - 1)
BLANKS = ("spokeBlank", "hubBlank")
PLAIN = ["enum", "maxLength", "minLength"]
KEPT = "keep the fields at both sides: then neither is shown at the other version"
WIDER = "give both the wider bounds"
WEBHOOK = "or prepare the definition by `tools/prepare_crd.py --webhook`, which leaves {} to the API server"
GO_OVER = "`metadata`, `apiVersion` and `kind` go over by themselves, and no rule names them; take the rule out"


# What the rules of each kind take.
TAKES = {
    "": "fields without a rule, as by `same`, have equal schemas, and both are required or neither",
    "same": "`same` takes equal schemas, and both required or neither",
    "object": "`object` takes two objects with `properties` and nothing beside, without a default, and both required or neither",
    "split": "`split` takes texts with no keyword beside `type`, of which none is required",
    "table": "`table` takes values of both schemas, each once; defaults are a pair, and then, or where it is required, no blank is null",
    "scale": "`scale` takes whole numbers, and at the hub the bounds of the spoke times `by`",
    **{it: "what is kept at one side has no default there, and isn't required" for it in ONLY},
}


class Case:
    """A fault of a spoke's rules, with the level and the rule, if any, and the names that it is about."""

    def __init__(self, program: Program, crd: Document, rules: Document, root: Level, fault: Fault) -> None:
        self.program, self.crd, self.rules, self.root, self.fault = program, crd, rules, root, fault
        every = [(level, rule, names_of(rule)) for level in levels(root) for rule in level.rules or []]
        found: List[Tuple[Level, Any, List[Spot]]] = [it for it in every if self.is_of(it[0], it[2])]
        found.sort(key=lambda it: not self.is_at_fault(it[0], it[2]))
        for level in [] if found else levels(root):
            spots = [(side, fault.path[len(level.paths[side]) :]) for side in SIDES if fault.path.startswith(level.paths[side])]
            spots = [it for it in spots if it[1] in level.free(it[0]) or level.is_required(*it) and not level.node(*it)]
            # a rule at another level may be meant for the name
            found += [it for it in every for spot in spots if spot in it[2] and not any(it[0].node(*name) for name in it[2])]
            found += [(level, None, spots)] if spots else []
        self.level, self.rule, self.spots = found[0] if found else (root, None, [])
        self.kind = kind_of(self.rule)
        self.done: List[str] = []  # the paths of faults that are told with this one

    def with_others(self) -> List[Fault]:
        """The fault, and those of the other names of its level without a rule, where it is of one."""
        others = [level.paths[side] + it for level in [self.level] for side in SIDES for it in level.unpaired(side)]
        is_free = self.rule is None and self.fault.word == "NameMissing"
        return [self.fault, *(Fault("rules", it, "NameMissing") for it in others if is_free and it != self.fault.path)]

    def is_of(self, level: Level, names: List[Spot]) -> bool:
        """Whether the fault is of a rule: NameTwice and NameMissing of one with the name, others of one whose first name it is."""
        near = names if self.fault.word in ("NameTwice", "NameMissing") else names[:1]
        found = [it for it in near if level.paths[it[0]] + it[1] == self.fault.path]
        return any(self.fault.word != "NameMissing" or not level.node(*it) for it in found)

    def is_at_fault(self, level: Level, names: List[Spot]) -> bool:
        """Whether one of a rule's fields is required, or has a default, as the fault says."""
        if self.fault.word == "RequiredLost":
            return any(level.is_required(*it) for it in names)
        return self.fault.word == "UnpairedDefault" and any("default" in (level.node(*it) or {}) for it in names)

    def takes(self, *rules: Rule, level: Optional[Level] = None) -> bool:
        return bool(rules) and fits(self.program, level or self.level, list(rules))

    def nodes(self) -> List[Node]:
        return [self.level.node(*it) or {} for it in self.spots]

    def instead(self, *new: Rule) -> List[Edit]:
        """New rules in the place of the one, or at the end where there is none."""
        rules = self.level.rules if self.level.rules is not None else []
        return [self.rules.add(rules, list(new)) if self.rule is None else self.rules.swap(rules, self.rule, list(new))]

    def needs(self) -> str:
        """That one side alone requires the field, where it does."""
        level, spots = self.level, sorted(self.spots, key=lambda it: not self.level.is_required(*it))
        if len(spots) != 2 or self.kind not in ("", "same", "object") or not level.is_required(*spots[0]) or level.is_required(*spots[1]):
            return ""
        (side, name), (other, like) = spots
        path, as_path = level.paths[side] + name, level.paths[other] + like
        lacks = "" if path == as_path else f" `{as_path}`"
        return f"`{path}` is required at {level.versions[side]} and{lacks} not at {level.versions[other]}"

    def why(self) -> str:
        level, word, two = self.level, self.fault.word, self.nodes()
        if word == "NameTwice" or self.kind == "move":
            return f"`{self.fault.path}` is named twice" if word == "NameTwice" else "there is no rule `move`"
        if word == "NameMissing" and self.rule is None:
            (side, name), = self.spots[:1]
            return f"no rule has {level.of(side, name)}, and {level.versions[1 - side]} has no field of that name that is free"
        if word == "NameMissing":
            absent = [it for it in self.spots if not level.node(*it)]
            return " and ".join(f"{level.versions[side]} has no `{level.paths[side]}{name}`" for side, name in absent)
        found = list(islice(differences(level.versions, *two), MOST_TOLD)) if len(two) == 2 and self.kind in ("", "same") else []
        needs = self.needs() if self.kind in ("", "same") or all(map(is_closed, two)) else ""
        if word == "SchemaDiffers" and (needs or found):
            return "; ".join(filter(None, [needs, f"the two schemas differ: {'; '.join(found)}" if found else ""]))
        facts = [f"{level.of(*it)} is {shown(node)}{' and required' * level.is_required(*it)}" for it, node in zip(self.spots, two)]
        return f"{TAKES[self.kind]}: {', '.join(facts)}"

    def told(self, says: str, mends: List[Edit], others: Optional[List[Edit]] = None) -> Told:
        """The fault as it is told: the rule's place, the versions, what is wrong, and what may be done."""
        place = self.rules.of(self.level.rules) if self.rule is None else f"{self.rules.of(self.rule)} ({self.kind})"
        way = f"{self.level.versions[SPOKE]} to {self.level.versions[HUB]}"
        return Told(self.fault, f"{place}, {way}: {self.why()}; {says}", mends, others or [])


# ---- rules of other names, or at other levels


def reversed_names(rule: Any) -> List[Rule]:
    """A rule with its names the other way round, as a list of none or one."""
    kind = kind_of(rule)
    if kind in ONLY:
        return [{ONLY[1 - ONLY.index(kind)]: rule[kind]}]
    return [with_names(rule, [name for _, name in names_of(rule)][::-1])] if kind not in ("", "split") else []


def turned(case: Case) -> Iterator[Told]:
    """The names, the pairs or both the other way round."""
    tries = reversed_names(case.rule)
    for rule in [case.rule, *tries] if case.kind == "table" else []:
        tries = [{"table": {**rule["table"], "pairs": [it[::-1] for it in rule["table"]["pairs"]]}}, *tries]
    yield from (case.told("the other way round it fits", case.instead(it)) for it in tries if case.takes(it))


def of_object(case: Case) -> Iterator[Told]:
    if case.rule and any(name.split(".")[0] in OF_OBJECT for _, name in case.spots if not case.level.node(HUB, name)):
        yield case.told(GO_OVER, case.instead())


def could_be(level: Level, side: int, name: str) -> bool:
    """Whether a name, perhaps a dotted one, may mean the field of the level that its last part names."""
    steps = [it for it in re.split(r"[./$]+", name) if it]
    around = level.steps[side][len(level.steps[side]) - len(steps) + 1 :]
    return bool(steps) and level.node(side, steps[-1]) is not None and around == steps[:-1]


def moved_to(case: Case, adds: List[Tuple[Level, List[Rule]]]) -> List[Edit]:
    """The edits by which rules stand at their levels, within `object` rules where no rule opens one, and the one rule not any more."""
    lists: Dict[int, Tuple[List[Any], List[Rule]]] = {}
    for level, rules in adds:
        while level.rules is None and level.around:
            rules, level = [{"object": {"names": list(level.names), "rules": rules}}], level.around
        lists.setdefault(id(level.rules), (level.rules or [], []))[1].extend(rules)
    own = sorted(lists.pop(id(case.level.rules), ([], []))[1], key=lambda it: kind_of(it) != "object")
    return case.instead(*own) + [case.rules.add(items, rules) for items, rules in lists.values()]


def elsewhere(case: Case) -> Iterator[Told]:
    """The rule at a level where it fits, or, where its names stand at two levels, both fields kept."""
    rule = {"same": [name for _, name in case.spots]} if case.kind == "move" else case.rule
    if not rule:
        return
    last = with_names(rule, [re.split(r"[./$]", name)[-1] for _, name in case.spots])
    dotted = "a name is one level; " * (last != rule)
    every = list(levels(case.root, with_closed=True))
    for level in every:
        is_other = (level.paths != case.level.paths or last != case.rule) and all(name in level.free(side) for side, name in names_of(last))
        if is_other and all(could_be(level, *it) for it in case.spots) and case.takes(last, level=level):
            fields = " and ".join(dict.fromkeys(level.of(*it) for it in names_of(last)))
            where = f"the `object` rule of `{level.paths[SPOKE][:-1]}`" if level.around else "the list of the spoke"
            yield case.told(f"{dotted}put the rule into {where}, for {fields}", moved_to(case, [(level, [last])]))
    there = [(level, it) for spot, it in zip(case.spots, names_of(last)) for level in [it for it in every if could_be(it, *spot)][:1]]
    adds = [(level, kept(level, [it])) for level, it in there]
    if len({level.paths[side] for level, (side, _) in there}) > 1 and all(case.takes(*rules, level=level) for level, rules in adds):
        moves = " is ".join(level.of(*it) for level, it in there)
        yield case.told(f"{moves}, and no rule moves a field to another level: {KEPT}", moved_to(case, adds))


def renamed(case: Case) -> Iterator[Told]:
    """The nearest names in the place of those that aren't there."""
    level = case.level
    near = [nearest(name, level.free(side)) or nearest(name, level.fields(side)) for side, name in case.spots]
    near = [name if level.node(side, name) else it for it, (side, name) in zip(near, case.spots)]
    if case.rule and all(near) and case.takes(with_names(case.rule, near)):
        names = [it for it, (_, name) in zip(near, case.spots) if it != name]
        yield case.told(f"{' and '.join(f'`{it}`' for it in names)} is meant", case.instead(with_names(case.rule, near)))


def partner(case: Case) -> Iterator[Told]:
    """A field without a rule: kept, or paired with the one of the other side that it may be; then that one is told with it."""
    if case.rule or not case.spots:
        return
    (side, name), level = case.spots[0], case.level
    likely = {SPOKE: same_shaped(level), HUB: {it: own for own, it in same_shaped(level).items()}}[side].get(name, "")
    other = likely or likely_name(case, side, name)
    names = [name, other][:: 1 - 2 * side]
    both = kept(level, list(zip(SIDES, names))) if other else []
    ways = [case.instead({"same": names}), case.instead(*both)]
    if likely and case.takes({"same": names}):
        case.done.append(level.paths[1 - side] + other)
        says = f"{level.of(1 - side, other)} has the same schema: is it the same field? If not, keep both"
        yield case.told(says, ways[0], ways[1] if case.takes(*both) else None)
    elif other and case.takes(*both):
        case.done.append(level.paths[1 - side] + other)
        yield case.told(f"keep it and {level.of(1 - side, other)}, which has no rule too, or pair the two", ways[1], ways[0])
    alone = kept(level, case.spots[:1])
    if case.takes(*alone):
        yield case.told(f"keep it, where {level.versions[1 - side]} has nothing like it", case.instead(*alone))


def likely_name(case: Case, side: int, name: str) -> str:
    """The one field of the other side without a rule that fits by `same`, where no other fits it: by a name that is near, or else of all."""
    near = nearest(name, case.level.unpaired(1 - side))
    if near and nearest(near, case.level.unpaired(side)) != name:
        return ""
    sides = [case.level.unpaired(it) for it in SIDES]
    sides[side], sides[1 - side] = [name] if near else sides[side], [near] if near else sides[1 - side]
    if max(map(len, sides)) > MOST_TRIED:
        return ""
    fitting = [it for it in sides[1 - side] if case.takes({"same": [name, it][:: 1 - 2 * side]})]
    back = [it for other in fitting for it in sides[side] if len(fitting) == 1 and case.takes({"same": [it, other][:: 1 - 2 * side]})]
    return fitting[0] if back == [name] else ""


# ---- other rules


def other_kind(case: Case) -> Iterator[Told]:
    """A `scale` or a `table`, for two fields that differ."""
    if len(case.spots) != 2 or case.kind not in ("", "same", "scale"):
        return
    names, (one, two) = [name for _, name in case.spots], case.nodes()
    rules: List[Tuple[str, Rule]] = []
    if one.get("type") == two.get("type") == "integer":
        rules += [("by the bounds it is another unit", {"scale": {"names": names, "by": it}}) for it in UNITS]
    lists = [it["enum"] for it in (one, two) if "enum" in it]
    shared = [it for it in lists[0] if all(any(alike(it, other) for other in list_) for list_ in lists)] if lists else []
    for blank in (None, *shared[:1]):
        table = {"names": names, "pairs": [[it, it] for it in shared], "spokeBlank": blank, "hubBlank": blank}
        rules += [("pair the values that both have; any other is kept", {"table": table})] if shared else []
    yield from (case.told(says, case.instead(it)) for says, it in rules if it != case.rule and case.takes(it))


def opened(case: Case) -> Iterator[Told]:
    """An `object` rule for two objects that differ; bounds inside that differ are faults of their own."""
    names = [name for _, name in case.spots]
    below = case.level.inner(names, None) if len(names) == 2 and case.kind in ("", "same") else None
    if not below:
        return
    first, others, asked = drafts(case.program, below)
    rule, other = ({"object": {"names": names, "rules": it}} for it in (first, others))
    if fits_loosely(case.program, case.level, [rule]):
        says = f"make them equal, or open both by an `object` rule{asked}"
        yield case.told(says, case.instead(rule), case.instead(other) if others else None)


def needless(case: Case) -> List[Edit]:
    """The edits by which the fields aren't required any more."""
    edits = []
    for side, node in enumerate(case.level.nodes):
        rest = [it for it in node.get("required", []) if (side, it) not in case.spots]
        if len(rest) < len(node.get("required", [])):
            edits.append(case.crd.put(node, "required", rest) if rest else case.crd.drop(node, "required"))
    return edits


def unneeded(case: Case) -> str:
    """How fields that are required are told to be mended."""
    names = dict.fromkeys(f"`{name}`" for side, name in case.spots if case.level.is_required(side, name))
    return f"take {' and '.join(names)} out of `required`"


def checks(case: Case) -> Iterator[Told]:
    """Where two fields differ by what only checks, the wider bounds of both; and required at neither side, where one requires it."""
    if len(case.spots) != 2 or case.kind not in ("", "same", "object"):
        return
    one, two = case.nodes()
    rule = case.rule or {"same": [name for _, name in case.spots]}
    if is_other_unit(one, two) or not fits_loosely(case.program, case.level, [rule]):
        return
    wide = widening(case.crd, one, two) if case.kind != "object" else []
    out = needless(case) if case.needs() else []
    if not wide and not out:
        return
    says = " and ".join([unneeded(case)] * bool(out) + [WIDER] * bool(wide))
    says = f"they differ by bounds alone: {says}" if wide else says
    left = " and ".join(["`required`"] * bool(out) + ["bounds"] * bool(wide))
    new = kept(case.level, case.spots) if wide and not out else []
    others = case.instead(*new) if new and case.takes(*new) else None
    yield case.told(f"{says}, {WEBHOOK.format(left)}{f', or {KEPT}' if others else ''}", [*out, *(wide or [])], others)


def both_kept(case: Case) -> Iterator[Told]:
    """Both fields kept, or where bounds alone differ those that take the values of both."""
    one, two = case.nodes() if len(case.spots) == 2 and case.kind in ("", "same") else ({}, {})
    edits = (widening(case.crd, one, two) if one and two else None) or []
    new = kept(case.level, case.spots)
    if case.takes(*new):
        yield case.told(KEPT + f", or {WIDER}" * bool(edits), case.instead(*new), edits)
    elif edits:
        yield case.told(WIDER, edits)
    if case.rule:
        yield case.told("take out what isn't there", case.instead(*(it for it in new if case.takes(it))))


def other_hub(case: Case) -> Iterator[Told]:
    """A number with the finer unit at the spoke."""
    level = case.level
    for other in reversed_names(case.rule) if case.kind == "scale" else []:
        if case.takes(other, level=Level(level.versions[::-1], level.nodes[::-1], None)):
            spoke, hub = level.versions
            says = f"the finer unit has to stand at the hub: make {spoke} the hub, with {shown(other)} for {hub}, or {KEPT}"
            yield case.told(says, case.instead(*kept(level, case.spots)))


def stripped(case: Case) -> Iterator[Told]:
    """The definition without what the rule doesn't take."""
    names = {"UnpairedDefault": ["default"], "RangeLost": {"split": PLAIN, "scale": PLAIN[:1]}.get(case.kind, [])}
    out = names.get(case.fault.word, ["nullable"] * (case.kind in ("split", "table", "scale")))
    edits = [case.crd.drop(node, it) for node in case.nodes() for it in out if it in node]
    needed = needless(case) if case.fault.word not in names else []
    if needed and not edits:
        yield case.told(f"{unneeded(case)}, {WEBHOOK.format('`required`')}", needed)
    elif edits:
        yield case.told("take it out of the schema", edits + needed)


def undefaulted(case: Case) -> Iterator[Told]:
    """Fields without a rule that can be kept, but for their default."""
    edits = [case.crd.drop(node, "default") for node in case.nodes() if "default" in node and not case.rule]
    if edits:
        yield case.told("a field that is kept has no default; take it out of the schema", edits)


def pair_fault(case: Case, i: int) -> Optional[str]:
    """What is wrong with a pair of a table."""
    pairs = case.rule["table"]["pairs"] if case.rule else []
    for side, node in zip(SIDES, case.nodes()):
        v = pairs[i][side]
        first = next(j for j, it in enumerate(pairs) if alike(it[side], v))
        why = f"it stands in `pairs`[{first}] already" if first < i else why_not(case.program, node, v)
        if why:
            return f"`pairs`[{i}]: {case.level.versions[side]} doesn't take {shown(v)}: {why}"
    return None


def is_text(value: Any) -> bool:
    return isinstance(value, str)


def tables(case: Case) -> Iterator[Told]:
    """A table with pairs and blanks that the schemas take, and with defaults that are a pair."""
    if case.kind != "table":
        return
    table, two = case.rule["table"], case.nodes()
    found = [pair_fault(case, i) for i in range(len(table["pairs"]))]
    pairs = [it for it, why in zip(table["pairs"], found) if not why]
    for pair in [it for it, why in zip(table["pairs"], found) if why]:
        near = [nearest(v, filter(is_text, node.get("enum", []))) or v if is_text(v) else v for v, node in zip(pair, two)]
        pairs += [near] if near != pair and not any(alike(near[side], it[side]) for it in pairs for side in SIDES) else []
    own = [(side, node["default"]) for side, node in enumerate(two) if "default" in node][:1]
    filled = next((it for it in pairs if all(alike(it[side], v) for side, v in own)), [])
    defaults = [case.crd.put(node, "default", v) for node, v in zip(two, filled) if own and not alike(node.get("default"), v)]
    blanks: Dict[str, Any] = {it: None for it, node in zip(BLANKS, two) if table[it] is not None and why_not(case.program, node, table[it])}
    says = "; ".join([it for it in found if it] + [f"`{it}`: {shown(table[it])} isn't taken" for it in blanks]) or "so it fits"
    tries = [blanks, {name: v for name, v in zip(BLANKS, filled) if table[name] is None}]
    for blank in tries[::-1] if own else tries:
        rule = {"table": {**table, "pairs": pairs, **blank}}
        if defaults or rule != case.rule and case.takes(rule):
            yield case.told(says, defaults + (case.instead(rule) if rule != case.rule else []))


def bounds(case: Case) -> Iterator[Told]:
    """The bounds that fit, at the hub or else at the spoke."""
    if case.kind != "scale":
        return
    by, two, level = case.rule["scale"]["by"], case.nodes(), case.level
    wide = [INT32 if it.get("format") == "int32" else INT64 for it in two]
    ends = [(node.get("minimum", low), node.get("maximum", high)) for node, (low, high) in zip(two, wide)]
    fit = [(-(-ends[HUB][0] // by), ends[HUB][1] // by), (ends[SPOKE][0] * by, min(ends[SPOKE][1] * by + by - 1, INT64[1]))]
    for side in (HUB, SPOKE):
        low, high = fit[side]
        node = {**{it: v for it, v in two[side].items() if it not in ("format", "default")}, "minimum": low, "maximum": high}
        nodes = list(level.nodes)
        nodes[side] = {**nodes[side], "properties": {**nodes[side]["properties"], case.spots[side][1]: node}}
        if INT64[0] <= low and fits(case.program, level, [case.rule], nodes):
            edits = [case.crd.put(two[side], it, node[it]) for it in ("minimum", "maximum") if two[side].get(it) != node[it]]
            yield case.told(f"{low} to {high} would fit at {level.versions[side]}", edits)


# ---- what is told

# The ways to mend what a word is of, in the order in which they are tried.
WAYS: Dict[str, List[Callable[[Case], Iterator[Told]]]] = {
    "NameMissing": [of_object, turned, elsewhere, renamed, partner, both_kept, stripped, undefaulted],
    "SchemaDiffers": [turned, elsewhere, other_kind, checks, opened, stripped, both_kept, undefaulted],
    "UnpairedDefault": [tables, stripped],
    "RequiredLost": [tables, stripped],
    "RangeLost": [turned, other_hub, stripped, tables, bounds, both_kept],
    "NameTwice": [],
}


def fit_told(case: Case) -> Told:
    """What is told of rules that don't fit."""
    named = [it for it in case.level.rules or [] if any(case.level.paths[side] + name == case.fault.path for side, name in names_of(it))]
    if case.fault.word == "NameTwice":
        out = min(named, key=lambda it: len(names_of(it)))
        says = f"keep one of {' and '.join(map(case.rules.of, named))}"
        return case.told(says, [case.rules.swap(case.level.rules or [], out, [])])
    return next((it for make in WAYS[case.fault.word] for it in make(case)), case.told("no mend is known", []))
