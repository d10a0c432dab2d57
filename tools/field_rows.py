"""What the rules of a definition that loads do with each field: for each version but the hub a row a field. It is no command:
tools/explain.py tells the rows.
"""
from __future__ import annotations

from typing import Any, Dict, Iterator, List, Tuple

from fault_texts import alike, at, shown
from program_asks import Program
from rule_fields import HUB, ONLY, SIDES, SPOKE, Rule, kind_of, names_of
from schemas import Level, levels, root_level

# How wide the columns are at least.
WIDTHS = (1, 32, 12, 32)
# The mark, the path at the spoke, the rule, the path at the hub, and what is kept.
Row = Tuple[str, str, str, str, str]


def laid_out(found: List[Row]) -> Iterator[str]:
    """Rows as lines, in columns that are as wide as their longest text."""
    widths = [max([least, *(len(it[i]) for it in found)]) for i, least in enumerate(WIDTHS)]
    for row in found:
        yield "".join(f"{it:<{width + 1}}" for it, width in zip(row, widths)) + row[-1]


def kept(rule: Rule, spoke: str, hub: str) -> str:
    """What is kept of the fields of a rule, by the names of the two versions."""
    kind = kind_of(rule)
    v = rule[kind]
    if kind == "same":
        return "nothing is kept"
    if kind == "object":
        return "as its fields, below"
    if kind in ONLY:
        return "never shown at {}; kept there".format(hub if kind == "spokeOnly" else spoke)
    if kind == "split":
        one = f"cut at the last colon; a text without one is not shown at {hub} and kept there"
        return f"{one}; one part alone, or a colon in the second, is not shown at {spoke} and kept there"
    if kind == "scale":
        return f"times {v['by']}; what is no multiple at {hub} is shown at {spoke} rounded down, and kept there"
    ours, theirs = ("no field" if v[it] is None else shown(v[it]) for it in ("spokeBlank", "hubBlank"))
    one = f"{len(v['pairs'])} pairs; another value of {spoke} is shown at {hub} as {theirs} and kept there"
    return f"{one}, one of {hub} at {spoke} as {ours} and kept there"


def unrequired(value: Any) -> Any:
    """A definition in which no field of an object is required."""
    if isinstance(value, list):
        return [unrequired(it) for it in value]
    if not isinstance(value, dict):
        return value
    return {name: unrequired(it) for name, it in value.items() if name != "required" or not isinstance(it, list)}


def filled(program: Program, crd: Any, rules: Any, root: Level, side: int) -> Any:
    """What the program makes at the hub of an object of a side that has no field but the objects around fields."""
    spec = crd["spec"]
    body: Dict[str, Any] = {"apiVersion": f"{spec['group']}/{root.versions[side]}", "kind": spec["names"]["kind"], "metadata": {}}
    for level in levels(root):
        node = body
        for step in level.steps[side]:
            node = node.setdefault(step, {})
    return program.convert(unrequired(crd), rules, body, root.versions[HUB])[0]


def where_absent(level: Level, rule: Rule, bodies: List[Any]) -> str:
    """What the hub's field is set to in an object that lacks it."""
    own, of_spoke = ([at(bodies[side], *level.steps[HUB], name) for where, name in names_of(rule) if where == HUB] for side in (HUB, SPOKE))
    if kind_of(rule) == "object" or own == of_spoke == [None] * len(own):
        return ""
    says = f"; where it isn't there, {level.versions[HUB]} gets {shown(own[0])}"
    return says if alike(own, of_spoke) else f"{says}, and {shown(of_spoke[0])} by an object of {level.versions[SPOKE]}"


def rule_row(level: Level, rule: Rule, bodies: List[Any]) -> Row:
    kind = kind_of(rule)
    spoke, hub = (", ".join(level.paths[side] + name for where, name in names_of(rule) if where == side) or "-" for side in SIDES)
    word = "-" if kind == "same" and spoke == hub else kind
    return "!" if kind in ONLY else "", spoke, word, hub, kept(rule, *level.versions) + where_absent(level, rule, bodies)


def spoke_rows(program: Program, crd: Any, rules: Any, root: Level) -> Iterator[str]:
    """The rows of a spoke: the fields of a level, and then those inside its objects."""
    spoke, hub = root.versions
    there = f"What {hub} can't show stands there in the annotation spoke.kubeconv.local/{spoke}"
    yield ""
    yield f"{spoke} (spoke) and {hub} (hub). {there}, what {spoke} can't show there in hub.kubeconv.local/kept"
    bodies = [filled(program, crd, rules, root, side) for side in SIDES]
    ruled = [(level, rule) for level in levels(root) for rule in sorted(level.all_rules(), key=lambda it: kind_of(it) == "object")]
    yield from laid_out([("", spoke, "rule", hub, "kept"), *(rule_row(*it, bodies) for it in ruled)])


def rows(program: Program, crd: Any, rules: Any) -> str:
    """What is told of the rules of a definition, two documents that load."""
    names = [v["name"] for v in crd["spec"]["versions"] if v["name"] != rules["hub"]]
    roots = [root_level(crd, rules, name) for name in names]
    return "".join(f"{line}\n" for root in roots for line in spoke_rows(program, crd, rules, root))
