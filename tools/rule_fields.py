"""The fields that rules name. It is no command."""
from __future__ import annotations

from typing import Any, Dict, Iterator, List, Tuple

from fault_texts import at, list_at

SPOKE, HUB = SIDES = (0, 1)
ONLY = ("spokeOnly", "hubOnly")
Rule = Dict[str, Any]
Spot = Tuple[int, str]
Names = Tuple[str, ...]


def kind_of(rule: Any) -> str:
    return next(iter(rule)) if isinstance(rule, dict) and len(rule) == 1 else ""


def names_of(rule: Any) -> List[Spot]:
    """The names of a rule with their sides, those of the spoke first; none where it isn't of its form."""
    kind = kind_of(rule)
    v = rule[kind] if kind else None
    if kind in ONLY:
        found = [(ONLY.index(kind), v)]
    else:
        named = [at(v, "spoke"), *list_at(v, "hub")] if kind == "split" else v if kind == "same" else at(v, "names")
        found = list(zip((SPOKE, HUB, HUB), named)) if isinstance(named, list) else []
    return [it for it in found if isinstance(it[1], str)]


def with_names(rule: Rule, names: List[str]) -> Rule:
    """A rule with other names."""
    (kind, v), = rule.items()
    if kind == "split":
        return {kind: {**v, "spoke": names[0], "hub": names[1:]}}
    return {kind: names[0] if kind in ONLY else names if kind == "same" else {**v, "names": names}}


def of_rules(rules: Dict[str, Any]) -> Iterator[Tuple[str, str, str, Names]]:
    """Each field that a rule names: the rule's word, its own version, the other one, and its path. What is no rule is passed over."""

    def look(inner: Any, versions: Tuple[str, str], paths: Tuple[Names, Names]) -> Iterator[Tuple[str, str, str, Names]]:
        for rule in inner if isinstance(inner, list) else []:
            found = [(side, (*paths[side], name)) for side, name in names_of(rule)]
            yield from ((kind_of(rule), versions[side], versions[1 - side], path) for side, path in found)
            if kind_of(rule) == "object" and len(found) == 2:
                yield from look(at(rule, "object", "rules"), versions, (found[0][1], found[1][1]))

    spokes = rules.get("spokes")
    for spoke, inner in spokes.items() if isinstance(spokes, dict) else ():
        yield from look(inner, (spoke, str(rules.get("hub"))), ((), ()))
