"""Takes objects to other versions and back, and notes what that did to them."""
from __future__ import annotations

import re
from typing import Any, Dict, Iterable, Iterator, List, NamedTuple, Optional, Tuple

from . import kept
from .converters import SECONDS, Converter, Refusal
from .definition import Definition
from .differences import ABSENT, between
from .mending import mend
from .schema import Note, Path, canonical, find, pattern, spelled
from .tally import Example, Key, Tally, cut
from .texts import Text

SLOW = 10.0  # seconds
LIMITS = (("ObjectSize", 1_572_864, "an object has at most 1.5 MiB"), ("Annotations", 262_144, "annotations have at most 262,144 bytes together"))
# What kubeconv says of a review with a number that it doesn't read, or with too many levels.
UNREAD = ("NotReview", "NotWhole", "TooDeep")
# What an API server refuses an answer for. It puts back the other fields of metadata, but takes labels and annotations.
FIXED = ("name", "namespace", "uid")


class Subject(NamedTuple):
    """An object at a version: its place among all, its name, and what it is."""

    number: int
    name: str
    value: Dict[str, Any]
    text: str


Subjects = Dict[int, Subject]
Way = Tuple[str, ...]


def metadata_of(value: Any) -> Dict[str, Any]:
    metadata = value.get("metadata")
    return metadata if isinstance(metadata, dict) else {}


def name_of(value: Any) -> str:
    metadata = metadata_of(value)
    return "/".join(str(metadata[it]) for it in ("namespace", "name") if it in metadata) or "an object without a name"


def unread(value: object, path: Path = ()) -> Iterator[Tuple[Path, object]]:
    """The numbers that aren't whole ones of 64 bits."""
    if isinstance(value, float) or (isinstance(value, int) and not -(2**63) <= value < 2**63):
        yield path, value
    inner = value.items() if isinstance(value, dict) else enumerate(value) if isinstance(value, list) else ()
    for step, it in inner:
        yield from unread(it, path + (step,))


def shown(value: object) -> Optional[str]:
    return None if value is ABSENT else cut(canonical(value))


class Trips:
    """The trips of one batch of objects."""

    def __init__(self, definition: Definition, converter: Converter, tally: Tally) -> None:
        self.definition, self.converter, self.tally = definition, converter, tally
        self.broken: List[Tuple[int, Key, Example, str]] = []
        self.refused: Dict[int, bool] = {}

    # What is noted.

    def note(
        self, kind: str, way: Way, one: Subject, path: Path, rule: str = "", before: object = ABSENT, after: object = ABSENT, said: str = ""
    ) -> None:
        key = Key(kind, way, pattern(self.definition.nodes.get(way[0]), path), rule)
        self.tally.note(key, Example(one.number, one.name, spelled(path), shown(before), shown(after)), said)

    def note_settled(self, notes: Iterable[Note], way: Way, one: Subject) -> None:
        for note in notes:
            self.note("pruned" if note.rule == "pruned" else "defaults", way, one, note.path, "", note.value)

    # The objects as they come.

    def read(self, texts: Iterable[Text], first: int) -> Dict[str, Subjects]:
        """The objects by their version, as a server keeps them."""
        found: Dict[str, Subjects] = {}
        for number, text in enumerate(texts, first):
            value = text.value()
            if not isinstance(value, dict):
                said = "what stands here is no object of at most 128 levels"
                self.tally.note(Key("refused", (), "", "NotObject"), Example(number, f"object {number + 1}", "", cut(text.text)), said)
                continue
            one = Subject(number, name_of(value), value, "")
            group, _, version = str(value.get("apiVersion")).rpartition("/")
            if group != self.definition.group or value.get("kind") != self.definition.kind:
                what = f"{value.get('kind')} of {value.get('apiVersion')}"
                self.tally.note(Key("passed over", (), cut(what)), Example(number, one.name, ""))
            elif version not in self.definition.nodes:
                said = f"the versions are {', '.join(self.definition.nodes)}"
                self.note("refused", (version,), one, ("apiVersion",), "Unknown", value["apiVersion"], ABSENT, said)
            else:
                found.setdefault(version, {})[number] = self.settled(one, version)
        return found

    def settled(self, one: Subject, version: str) -> Subject:
        node, notes = self.definition.nodes[version], []  # type: Any, List[Note]
        node.settle(one.value, (), notes)
        self.note_settled(notes, (version,), one)
        for fault in node.faults(one.value):
            key = Key("breaks", (version,), pattern(node, fault.path), fault.rule)
            example = Example(one.number, one.name, spelled(fault.path), shown(fault.value))
            self.broken.append((one.number, key, example, mend(fault.rule, node, fault.path, fault.limit)))
        return one._replace(text=canonical(one.value))

    # One conversion.

    def cross(self, ones: Subjects, at: str, to: str, pair: Way, hoped: Optional[Subjects] = None) -> Subjects:
        """The objects at another version, as a server keeps them. On a way back it is known what they are hoped to be, which is as
        they were; then less is looked at, and noted."""
        counts, there = self.tally.pair(*pair), {}  # type: Any, Subjects
        before = self.converter.seconds
        told = self.converter.convert([it.text for it in ones.values()], self.definition.api_version(to))
        counts.seconds += self.converter.seconds - before
        for one, it in zip(ones.values(), told):
            as_was = hoped and hoped[one.number]
            if as_was and not isinstance(it, Refusal) and canonical(it) == as_was.text:
                there[one.number] = as_was
                continue
            why = it if isinstance(it, Refusal) else self.unlike(it, one, to)
            if why is None:
                there[one.number] = self.arrived(one, it, (at, to), hoped is None)
            else:
                counts.refused += 1
                self.refused[one.number] = True
                self.note_refused(one, why.message, (at, to))
        return there

    def unlike(self, it: Any, one: Subject, to: str) -> Optional[Refusal]:
        """Why a server refuses what an object became, where it does."""
        if not isinstance(it, dict) or not isinstance(it.get("metadata", {}), dict):
            return Refusal("the answer holds what is no object")
        wanted = {"apiVersion": self.definition.api_version(to), "kind": one.value["kind"]}
        for name, want in wanted.items():
            if it.get(name) != want:
                return Refusal(f"the answer has {name} {it.get(name)!r} in place of {want!r}")
        own, its = metadata_of(one.value), metadata_of(it)
        for name in FIXED:
            if own.get(name) != its.get(name):
                return Refusal(f"the answer has metadata.{name} {its.get(name)!r} in place of {own.get(name)!r}")
        return None

    def note_refused(self, one: Subject, message: str, way: Way) -> None:
        said_by_kubeconv = re.fullmatch(r"(?:(\S*): )?([A-Z][A-Za-z]+) ?", message)
        if said_by_kubeconv is None:
            self.note("refused", way, one, (), "", ABSENT, message)
            return
        path, rule = said_by_kubeconv[1] or "", said_by_kubeconv[2]
        steps, value = find(one.value, path)
        if rule in UNREAD:
            steps, value = next(unread(one.value), ((), ABSENT))
            rule = "NotWhole" if steps else "TooDeep"
        said = mend(rule, self.definition.nodes[way[0]], steps)
        self.note("refused", way, one, steps, rule, ABSENT if value is None else value, ABSENT, said)

    def arrived(self, one: Subject, it: Any, way: Way, is_first: bool) -> Subject:
        """The object at the other version as a server keeps it, with its own metadata but for labels and annotations."""
        own, its = metadata_of(one.value), metadata_of(it)
        for found in between({**own, "annotations": 0}, {**its, "annotations": 0}, ("metadata",)):
            self.note("metadata", way, one, found.path, "", found.before, found.after)
        taken = {name: its[name] for name in ("labels", "annotations") if name in its}
        it["metadata"] = {**{name: field for name, field in own.items() if name not in ("labels", "annotations")}, **taken}
        node, notes = self.definition.nodes[way[1]], []  # type: Any, List[Note]
        node.settle(it, (), notes)
        there = one._replace(value=it, text=canonical(it))
        if is_first:
            comes_back = [it for it in notes if it.rule == "pruned" and self.definition.is_default(way[0], it.path, it.value)]
            self.note_settled([it for it in notes if it not in comes_back], way[1:], one)
            self.note_first(one, there, way)
        return there

    def note_first(self, one: Subject, there: Subject, way: Way) -> None:
        node = self.definition.nodes[way[1]]
        for fault in node.faults(there.value):
            said = mend(fault.rule, node, fault.path, fault.limit)
            key = Key("breaks", way, pattern(node, fault.path), fault.rule)
            self.tally.note(key, Example(one.number, one.name, spelled(fault.path), shown(fault.value)), said)
        notes = kept.annotations(there.value)
        sizes = (len(there.text.encode("utf-8", "replace")), sum(len(f"{name}{text}".encode("utf-8", "replace")) for name, text in notes.items()))
        for size, (rule, most, said) in zip(sizes, LIMITS):
            if size > most:
                self.note("large", way, one, (), rule, ABSENT, size, said)
        self.note_kept(one, there, way)

    def note_kept(self, one: Subject, there: Subject, way: Way) -> None:
        found = list(kept.new_in(there.value, one.value))
        self.tally.pair(*way).kept += bool(found)
        values = kept.shown_values(there.value) if found and not self.definition.by_rules else set()
        for it in found:
            is_hidden = self.definition.is_hidden(it.key, way[1], it.path) if self.definition.by_rules else canonical(it.value) not in values
            self.note("hidden" if is_hidden else "kept", way, one, it.path, it.key, it.value)

    # There and back.

    def compare(self, before: Subjects, after: Subjects, way: Way) -> None:
        pair = self.tally.pair(way[0], way[1])
        for number, back in after.items():
            one = before[number]
            pair.objects += 1
            is_lost = one.text != back.text and self.note_lost(one, back, way)
            pair.lost += is_lost
            pair.same += not is_lost

    def note_lost(self, one: Subject, back: Subject, way: Way) -> bool:
        """Notes what differs in an object that came back, and tells whether something of it is lost."""
        found = [it for it in between(body(one.value), body(back.value)) if not self.is_default(it.before, it.after, way, one, it.path)]
        held, there = kept.annotations(one.value), kept.annotations(back.value)
        mine = {key: text for key, text in held.items() if not kept.is_kept(key)}
        found += between(mine, {key: there[key] for key in mine if key in there}, ("metadata", "annotations"))
        for it in found:
            self.note("lost" if it.after is ABSENT else "changed", way, one, it.path, "", it.before, it.after)
        for entry in kept.dropped(one.value, back.value):
            self.note("dropped", way, one, entry.path, entry.key, entry.value)
        return bool(found)

    def is_default(self, before: object, after: object, way: Way, one: Subject, path: Path) -> bool:
        """Whether a value is new since a default of the definition set it, which is noted as such. By rules nothing else is new."""
        if before is not ABSENT:
            return False
        values = [it for _, it in kept.leaves(after)] + [after]
        is_set = self.definition.by_rules or any(canonical(it) in self.definition.defaults for it in values)
        if is_set:
            self.note("defaults", way, one, path, "", after)
        return is_set

    def go(self, texts: Iterable[Text], first: int) -> None:
        """Takes objects to every version and back, and on; and from the hub to each spoke and back."""
        hub = self.definition.hub
        for at, ones in self.read(texts, first).items():
            self.tally.objects[at] = self.tally.objects.get(at, 0) + len(ones)
            for via in [it for it in self.definition.nodes if it != at]:
                there = self.there_and_back(ones, at, via, True)
                if via == hub:
                    for spoke in [it for it in self.definition.nodes if it not in (at, hub)]:
                        self.there_and_back(there, hub, spoke, False)
        for number, key, example, said in self.broken:
            if number not in self.refused:
                self.tally.note(key, example, said)
        took, objects = self.converter.slowest
        self.tally.slowest = max(self.tally.slowest, took)
        if took > SLOW:
            said = f"an API server waits {SECONDS} seconds, for all objects of a page or of a list; make the webhook faster"
            self.tally.note(Key("slow", (), f"a review of {objects} objects"), Example(first, "", "", None, f"{took:.1f} seconds"), said)
            self.converter.slowest = (0.0, 0)

    def there_and_back(self, ones: Subjects, at: str, via: str, goes_on: bool) -> Subjects:
        """What objects are at the other version. Where the trip goes on they are brought there once more."""
        there = self.cross(ones, at, via, (at, via))
        back = self.cross(there, via, at, (at, via), ones)
        self.compare(ones, back, (at, via, at))
        if goes_on:
            self.compare(there, self.cross(back, at, via, (via, at), there), (via, at, via))
        return there


def body(value: Dict[str, Any]) -> Dict[str, Any]:
    return {name: it for name, it in value.items() if name not in ("apiVersion", "kind", "metadata")}
