"""Holds what callers were answered against one history: all writes, in the order of their numbers.

Of each call is known when it was sent and when its answer came, by one clock. Each number is that of one write: creates and replaces tell
theirs, deletes don't, nor do the touches of a migration, which change no object and show where one is seen at a number that nobody wrote. So
whatever a call was answered has to have been so at a number that isn't before one that was told when the call was sent, and isn't behind
a write that was sent when the call was answered."""
from __future__ import annotations

import itertools
from bisect import bisect_left, bisect_right
from typing import Any, Dict, List, NamedTuple, Optional, Tuple

Key = Tuple[str, str]
# The calls, each with the codes of its answers. A `list` has no object, and tells the number of all.
CODES = {"create": (201, 409), "get": (200, 404), "replace": (200, 404, 409), "delete": (200, 404), "list": (200,)}


class Shown(NamedTuple):
    """An object as it is shown."""

    state: Any
    uid: str
    generation: int


class Call(NamedTuple):
    """A call of an object, by its namespace and name, and what came of it: the number that is told, of the object as it stands then or, of a
    conflict, of the one that stands instead; and the object. `given` is the number that a replace names."""

    kind: str
    key: Key
    sent: float
    came: float
    code: int
    number: int = 0
    shown: Optional[Shown] = None
    given: int = 0

    def writes(self) -> bool:
        return self.code < 400 and self.kind in ("create", "replace")


class Span(NamedTuple):
    """What stands from a number on: an object, or None. It begins between `first` and `latest`, and ends before another begins."""

    first: int
    latest: int
    shown: Optional[Shown]


class History:
    """What the calls come to. `wrong` says what isn't as in one history. Where the storage version `is_moved` there are touches."""

    def __init__(self, calls: List[Call], is_moved: bool = False) -> None:
        self.wrong = [f"it is answered otherwise: {it}" for it in calls if it.code not in CODES[it.kind]]
        self.calls = calls = [it for it in calls if it.code in CODES[it.kind]]
        writes, deletes = [it for it in calls if it.writes()], [it for it in calls if it.kind == "delete" and it.code == 200]
        self.written = {it.number: it for it in writes}
        self.wrong += ["a number is told twice"] * (len(self.written) < len(writes))
        self.touched: Dict[int, Key] = {}
        for it in calls:
            if it.number and it.kind != "list" and it.number not in self.written and self.touched.setdefault(it.number, it.key) != it.key:
                self.wrong.append(f"the number is that of {self.touched[it.number]}: {it}")
        # The first write of all has the number 2. With touches, and moves of the storage version, there is no telling how many numbers there are.
        self.end = (max((it.number for it in calls), default=1) if is_moved else 1 + len(writes)) + len(deletes)
        if not is_moved:
            told = [*self.written, *self.touched]
            self.wrong += [f"nobody wrote at {it}, or a number is passed over" for it in told if it in self.touched or not 1 < it <= self.end]
        self.bound()
        self.spans = {key: self.spans_of(key, *of) for key, of in self.by_key(writes, deletes).items()}
        self.starts = {key: [it.first for it in spans] for key, spans in self.spans.items()}
        self.wrong += [f"it wasn't so then: {it}" for it in calls if not self.fits(it)]

    def bound(self) -> None:
        """The numbers that were told, by when that was, with the most of them so far; and the writes, by when they were sent, with the least
        of those behind."""
        told = sorted((it for it in self.calls if it.number), key=lambda it: it.came)
        sent = sorted(self.written.values(), key=lambda it: it.sent)
        self.comes, self.goes = [it.came for it in told], [it.sent for it in sent]
        self.before = list(itertools.accumulate((it.number for it in told), max, initial=0))
        self.behind = list(itertools.accumulate((it.number for it in reversed(sent)), min, initial=self.end + 1))[::-1]

    def within(self, call: Call) -> Tuple[int, int]:
        """The first and the last number at which a call took place, where it wrote nothing; a write is behind the first."""
        return self.before[bisect_left(self.comes, call.sent)], self.behind[bisect_right(self.goes, call.came)] - 1

    def by_key(self, writes: List[Call], deletes: List[Call]) -> Dict[Key, Tuple[List[Tuple[int, Optional[Call]]], List[Call]]]:
        """Of each object the writes and the touches by their numbers, and the deletes."""
        found: Dict[Key, Any] = {it.key: ([], []) for it in self.calls if it.kind != "list"}
        for it in writes:
            found[it.key][0].append((it.number, it))
        for number, key in self.touched.items():
            found[key][0].append((number, None))
        for it in deletes:
            found[it.key][1].append(it)
        return found

    def spans_of(self, key: Key, entries: List[Tuple[int, Optional[Call]]], deletes: List[Call]) -> List[Span]:
        """What stands of an object from number to number."""
        spans = [Span(0, 0, None)]
        for number, call in sorted(entries, key=lambda it: it[0]):
            if call and call.kind == "create" and spans[-1].shown:
                self.delete(key, spans, deletes, number)
            last = spans[-1].shown
            if call and call.kind == "create":
                is_so = not last and call.shown and call.shown.generation == 1
            elif call:
                is_so = last and call.given == spans[-1].first and call.shown and call.shown[1:] == (last.uid, last.generation + 1)
            else:
                is_so = last
            if not is_so:
                self.wrong.append(f"behind {spans[-1]} comes {call or f'a touch of {key} at {number}'}")
            spans.append(Span(number, number, call.shown if call else last))
        if deletes and spans[-1].shown:
            self.delete(key, spans, deletes, self.end + 1)
        self.wrong += [f"nothing is there to be deleted: {it}" for it in deletes]
        return spans

    def delete(self, key: Key, spans: List[Span], deletes: List[Call], before: int) -> None:
        """The delete that came between the last span and a number: of those that may, the one that came soonest."""
        fitting = []
        for it in deletes:
            first, last = self.within(it)
            numbers = self.untold(max(spans[-1].first, first) + 1, min(before - 1, last))
            fitting += [(last, numbers, it)] if numbers else []
        if fitting:
            _last, numbers, delete = min(fitting, key=lambda it: it[0])
            deletes.remove(delete)
            spans.append(Span(numbers[0], numbers[-1], None))
        else:
            self.wrong.append(f"{key} is created before {before}, and wasn't deleted behind {spans[-1].first}")

    def untold(self, first: int, last: int) -> List[int]:
        """The numbers that are no object's: those of deletes."""
        return [it for it in range(first, last + 1) if it not in self.written and it not in self.touched]

    def fits(self, call: Call) -> bool:
        """Whether a call was so at one of the numbers at which it took place."""
        first, last = self.within(call)
        if call.writes():
            return first < call.number <= last
        if call.kind == "list":
            return first <= call.number <= last
        if call.kind == "delete" and call.code == 200:
            return True
        spans = self.spans[call.key]
        at = bisect_right(self.starts[call.key], last) - 1
        # What stands at the last number, and what is before it for as long as that may have stood at the first one.
        while not self.is_of(call, spans[at]):
            if not at or spans[at].latest <= first:
                return False
            at -= 1
        return True

    @staticmethod
    def is_of(call: Call, span: Span) -> bool:
        """Whether a call that wrote nothing is answered so where this stands."""
        if call.code == 404 or not span.shown:
            return call.code == 404 and not span.shown
        if call.kind == "get":
            return (span.first, span.shown) == (call.number, call.shown)
        return call.kind == "create" or span.first == call.number != call.given

    def moment(self, states: Dict[Key, Any], first: int) -> Optional[int]:
        """A number, not before this one, at which objects of these states stood and no others, or None."""
        common: List[Tuple[float, float]] = [(first, float("inf"))]
        for key, spans in self.spans.items():
            ends = [it.latest - 1 for it in spans[1:]] + [float("inf")]
            fitting = [(it.first, end) for it, end in zip(spans, ends) if (it.shown and it.shown.state) == states.get(key)]
            common = [(max(a, c), min(b, d)) for a, b in common for c, d in fitting if max(a, c) <= min(b, d)]
        return int(common[0][0]) if common else None
