"""Finds all faults of a definition and its rules, each with how it is mended. It is no command: tools/explain.py tells faults by it.

The program is the judge. What it refuses first is told, mended in memory, and it is asked again, until it refuses nothing. First the
definition, then the form of the rules, then each spoke by itself, and last all spokes together.
"""
from __future__ import annotations

import re
from typing import Any, Dict, List, Optional, Tuple

from document_faults import Told, definition_told, spot
from fault_texts import Document, at, is_whole, list_at, nearest, shown, text_at
from fit_faults import KEPT, WAYS as FIT, Case, elsewhere, fit_told
from program_asks import Fault, Program
from rule_fields import HUB, ONLY, SIDES, SPOKE, Rule, kind_of, names_of
from schemas import UNITS, Level, drafts, fits, kept, levels, root_level

MOST_ROUNDS = 500
PLAIN = ("same", "scale")
# What is said of a text that isn't read, where more isn't known.
UNREAD = {
    "NotJson": "the text isn't JSON, has more than 127 levels, or a text in it has half of a pair of surrogates",
    "TooDeep": "the text has more than 100 levels of lists and objects",
    "NotWhole": "a number has a fraction or an exponent, or is beyond 64 bits",
}
FORM = '{"hub": VERSION, "spokes": {VERSION: [RULE, ..]}}'
TWO = '["SPOKE", "HUB"]'
# What each rule takes, and the names of its parts.
TAKES = {
    "same": (TWO,), "spokeOnly": ('"NAME"',), "hubOnly": ('"NAME"',),
    "object": (f'{{"names": {TWO}, "rules": [RULE, ..]}}', "names", "rules"),
    "split": ('{"spoke": "NAME", "hub": ["FIRST", "SECOND"]}, and cuts at the last colon, nowhere else', "spoke", "hub"),
    "table": (f'{{"names": {TWO}, "pairs": [[SPOKE, HUB], ..], "spokeBlank": VALUE, "hubBlank": VALUE}}, of texts, numbers, true, false',
              "names", "pairs", "spokeBlank", "hubBlank"),
    "scale": (f'{{"names": {TWO}, "by": NUMBER}}, of a number from 2 to 1000000000', "names", "by"),
}  # fmt: skip
RULE = re.compile(r"spokes\.(.+?)(?:\[\d+\]\.object\.rules)*\[\d+\]")
MOST = "a spoke has at most 64 rules, those inside others among them, and `object` rules stand at most eight deep; equal names need no rule"


def texts(v: Any) -> List[str]:
    """All texts in a value, in their order."""
    if isinstance(v, str):
        return [v]
    return [it for part in (v.values() if isinstance(v, dict) else v if isinstance(v, list) else ()) for it in texts(part)]


def repaired(level: Optional[Level], kind: str, v: Any) -> List[List[Rule]]:
    """What a rule that isn't of its form may be meant as, the likely ones first. A part of another name stands for one that is lacking."""
    names = texts(v)
    if kind in ONLY:
        return [[{kind: it} for it in names]]
    if kind == "same":
        free = level.free(HUB) if level else []
        return [[{kind: names * (3 - len(names))}]] * (0 < len(names) < 3) + [[{kind: [*names, it]}] for it in free if len(names) == 1]
    given, wanted = v if isinstance(v, dict) else {"names": v}, TAKES[kind][1:]
    parts = {name: given[name] for name in wanted if name in given}
    for name in [it for it in given if it not in parts]:
        lacking = [it for it in wanted if it not in parts]
        parts.update({nearest(name, lacking) or lacking[0]: given[name]} if nearest(name, lacking) or len(lacking) == 1 else {})
    if kind == "split":
        is_plain = isinstance(parts.get("spoke"), str) and set(given) <= set(parts)
        return [[{kind: {**parts, "hub": texts(parts.get("hub"))}}]] if is_plain else []
    names = texts(parts.get("names"))[:2]
    if not names:
        return []
    parts["names"] = names * (3 - len(names))
    if kind == "scale":
        by = [int(it) for it in [parts.get("by")] if is_whole(it) or (isinstance(it, str) and it.isdigit())]
        return [[{kind: {**parts, "by": it}}] for it in [*by, *UNITS] if it > 1] + [[{"same": parts["names"]}]]
    if kind == "object":
        inner = parts.get("rules", [])
        return [[{kind: {**parts, "rules": inner if isinstance(inner, list) else [inner]}}]]
    pairs = parts.get("pairs")
    items = [list(it) for it in pairs.items()] if isinstance(pairs, dict) else list_at(parts, "pairs")
    items = [it for it in items if isinstance(it, list) and len(it) == 2 and not any(isinstance(x, (list, dict)) or x is None for x in it)]
    return [[{kind: {"spokeBlank": None, "hubBlank": None, **parts, "pairs": items}}]]


def meant(level: Optional[Level], rule: Any) -> Tuple[str, List[List[Rule]]]:
    """What is said of what is no rule, and what it may be meant as."""
    kind, known = kind_of(rule), f"the rules are {', '.join(TAKES)}"
    v = rule[kind] if kind else None
    if kind in TAKES:
        return f"`{kind}` takes {TAKES[kind][0]}; this is {shown(v)}", repaired(level, kind, v)
    if not kind:
        several = rule.items() if isinstance(rule, dict) else []
        both = [it for name, part in several if name in TAKES for found in repaired(level, name, part)[:1] for it in found]
        return f"a rule has to be an object with one name, and {known}; this is {shown(rule)}", [both]
    if level and any(level.node(side, kind) for side in SIDES):
        inner = [it for it in (v if isinstance(v, list) else [v]) if kind_of(it) in TAKES]
        says = f"`{kind}` is a field, and no rule; rules for what is inside of it stand in an `object` rule"
        return says, [[{"object": {"names": [kind, kind], "rules": inner}}]]
    near = next((it for it in TAKES if it.lower() == nearest(kind.lower(), [it.lower() for it in TAKES])), "")
    return f"there is no rule `{kind}`; " + (f"`{near}` is meant" if near else known), repaired(level, near, v) if near else []


def rule_told(case: Case, items: List[Any], rule: Any, rest: str) -> Told:
    """What is told of a rule in a list that isn't of its form."""
    level = next((it for it in levels(case.root) if it.rules is items), None)
    says, tries = meant(level, rule) if rest or kind_of(rule) not in TAKES else (MOST, [])
    place = case.rules.of(rule) if isinstance(rule, dict) else case.rules.of(items)
    names = [(side, it) for it in texts(rule) for side in SIDES]
    if level and kind_of(rule) == "move" and len(names) == 4:
        case.level, case.rule, case.kind, case.spots = level, rule, "move", list(zip(SIDES, texts(rule)))
        for told in elsewhere(case):
            return told
    if level:
        ruled = [it for other in items if other is not rule for it in names_of(other)]
        tries = [*tries, kept(level, [it for it in dict.fromkeys(names) if it not in ruled])]
    new = next((it for it in tries if it and (not level or fits(case.program, level, it))), [])
    if level and new is tries[-1] and len(new) > 1:
        two = f", or make {level.versions[SPOKE]} the hub, where the two texts stand" * (len(texts(at(rule, "split", "spoke"))) == 2)
        says += f"; else {KEPT}{two}"
    edits = [case.rules.swap(items, rule, new)] if isinstance(rule, dict) else case.rules.sift(items)
    return Told(case.fault, f"{place}: {says}", edits)


class Search:
    """Two documents that are mended, and what is told of them."""

    def __init__(self, program: Program, crd: Any, rules: Any) -> None:
        self.program, self.crd, self.rules = program, Document("crd", crd), Document("rules", rules)
        self.told: List[Told] = []
        self.rounds = 0

    def tell(self, *told: Told) -> bool:
        """Tells faults and mends them, and returns whether there is more to look for: not where a mend was of no use."""
        if told[0][:2] in [it[:2] for it in self.told]:
            return False
        self.told += told
        self.rounds += 1
        for edit in [edit for it in told for edit in it.mends]:
            edit.do()
        return all(it.mends for it in told) and self.rounds < MOST_ROUNDS

    def first(self) -> Optional[Fault]:
        return self.program.first(self.crd.value, self.rules.value)

    def versions(self) -> List[str]:
        return [text_at(v, "name") for v in list_at(self.crd.value, "spec", "versions")]

    def case(self, name: str, fault: Fault) -> Case:
        return Case(self.program, self.crd, self.rules, root_level(self.crd.value, self.rules.value, name), fault)

    def of_form(self, fault: Fault) -> Told:
        """What is told of a fault of a document of rules by itself."""
        doc, path, names = self.rules.value, fault.path, self.versions()
        found = RULE.match(path)
        if found:
            items, i = spot(doc, found.group())
            return rule_told(self.case(found.group(1).split("[")[0], fault), items, items[i], path[found.end() :])
        if path.startswith("spokes."):
            return self.of_spoke(fault, doc["spokes"], path[len("spokes.") :])
        near = nearest(text_at(doc, "hub"), names) or next((it for it in names if at(doc, "spokes", it) is None), names[0])
        other = doc.get(nearest(path, [it for it in doc if it != "hub"])) if isinstance(doc, dict) else None
        value = {"hub": near, "spokes": other if isinstance(other, dict) else {}}.get(path)
        has = f"`{path}` is {shown(doc[path]) if path in doc else 'not there'}" if path else f"this is {shown(doc)}"
        edits = [self.rules.put(doc, path, value) if value is not None else self.rules.drop(doc, path)] if path else []
        return Told(fault, f"rules are {FORM}, of the versions {', '.join(names)}; {has}", edits)

    def of_spoke(self, fault: Fault, spokes: Dict[str, Any], name: str) -> Told:
        """What is told of the name of a spoke, or of what stands there in the place of a list."""
        doc, names = self.rules.value, self.versions()
        lacking = [it for it in names if it not in spokes and it != doc["hub"]]
        if name == doc["hub"]:
            edit = self.rules.put(doc, "hub", lacking[0]) if len(lacking) == 1 and spokes[name] else self.rules.drop(spokes, name)
            return Told(fault, f"`{name}` is the hub, which has no rules; each rule stands at the other version", [edit])
        if name not in names:
            near = nearest(name, lacking)
            says = f"the definition has no version `{name}`{f'; `{near}` is meant' if near else ''}; its versions are {', '.join(names)}"
            return Told(fault, says, [self.rules.rename(spokes, name, near) if near else self.rules.drop(spokes, name)])
        items, others, asked = drafts(self.program, root_level(self.crd.value, doc, name))
        if kind_of(spokes[name]) in TAKES:
            items, others, asked = [spokes[name]], [], ""
        says = f"a spoke has a list of rules, [RULE, ..]; here stands {shown(spokes[name])}{asked}"
        return Told(fault, says, *([self.rules.put(spokes, name, it)] if it else [] for it in (items, others)))

    def forms(self) -> bool:
        """Tells the faults of both documents by themselves, and returns whether there is more to look for."""
        fault = self.first()
        while fault and (fault.file == "crd" or fault.word not in FIT):
            of_crd = fault.file == "crd" and fault.word not in UNREAD
            told = definition_told(self.crd, self.program, fault) if of_crd else [self.of_form(fault)] if fault.word == "Shape" else []
            if not told or not self.tell(*told):
                return False
            fault = self.first()
        return fault is not None

    def spoke(self, name: str) -> bool:
        """Tells the faults of a spoke by itself, and returns whether there is more to look for."""
        hub = self.rules.value["hub"]
        while True:
            crd, spokes = self.crd.value, self.rules.value["spokes"]
            versions = [{**v, "served": True, "storage": v["name"] == hub} for v in crd["spec"]["versions"] if v["name"] in (name, hub)]
            alone = {**crd, "spec": {**crd["spec"], "versions": versions}}
            fault = self.program.first(alone, {"hub": hub, "spokes": {name: spokes[name]} if name in spokes else {}})
            if not fault:
                return True
            if fault.file == "crd":  # a mend brought it about
                if not self.forms():
                    return False
                continue
            if fault.word == "Shape":
                told = [Told(fault, f"spokes.{name}: {MOST}; this is what mends would add")]
            elif name in spokes:
                told, done = [], []  # type: List[Told], List[str]
                for case in [self.case(name, it) for it in self.case(name, fault).with_others()]:
                    if not told or case.rule is None and case.fault.path not in done:
                        told.append(fit_told(case))
                        done += case.done
            else:
                told = [self.no_list(name, fault)]
            if not self.tell(*told):
                return False

    def no_list(self, name: str, fault: Fault) -> Told:
        """What is told of a version that has no list of rules."""
        root = root_level(self.crd.value, self.rules.value, name)
        spokes, (items, others, asked) = self.rules.value["spokes"], drafts(self.program, root)
        says = f"`spokes` has no list for {name}, which differs from {root.versions[HUB]}; to begin with, a list that keeps what differs{asked}"
        return Told(fault, says, [self.rules.put(spokes, name, items)], [self.rules.put(spokes, name, others)] if others else [])

    def late(self, fault: Fault) -> Told:
        """What is told of a field of the hub's whose default comes from a spoke, too late for others."""
        has, lacks, hub = [], [], self.rules.value["hub"]
        for spoke in [it for it in self.versions() if it != hub]:
            every = list(levels(root_level(self.crd.value, self.rules.value, spoke)))
            ruled = [(level, it) for level in every for it in level.all_rules() if kind_of(it) in PLAIN]
            pairs = [(level, own) for level, it in ruled for own, (_, name) in [names_of(it)] if level.paths[HUB] + name == fault.path]
            has += [(level, own) for level, own in pairs if "default" in (level.node(*own) or {})]
            lacks += [] if pairs else [spoke]
        fields, others = " and ".join(level.of(*it) for level, it in has), " and ".join(lacks)
        says = f"{fields} has a default, and {hub} has none. {others} has the field by neither `same` nor `scale`, so that the default "
        cure = "could take the place of a value that is kept for it; take the default out, or pair the field there so"
        return Told(fault, says + cure, [self.crd.drop(level.node(*it) or {}, "default") for level, it in has])

    def all(self) -> List[Told]:
        if self.forms() and all(self.spoke(name) for name in self.versions() if name != self.rules.value["hub"]):
            fault = self.first()
            while fault and self.tell(self.late(fault)):
                fault = self.first()
        return self.told
