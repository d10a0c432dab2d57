#!/usr/bin/env python3
"""Goes through every interleaving of a few passes over the turn lock of `turn_cell`, step by step as `src/turn/waiting.rt` and `give`
take them, and looks whether a wake is lost: whether some pass sleeps for ever.

    python3 bench/turns.py [--long]

A step is one access of a shared word, one sleep or one wake. A sleep begins only where the bell is as it was read, and may also
end for no reason, but no such end counts as a way on. A wake of one wakes any one. A state is stuck where passes are left and none
can step; from every state that can be reached it is looked whether all passes can still end, without an end of a sleep for no
reason. In each state at most one pass has the turn.

Four passes are gone through, one of which has the turn at first, and one of which is about to sleep: the giver, the sleeper and
two takers. The numbers of looks and of sleeps until a pass stands in line are small here; whether the line is reached early or
never makes the rows. Then come bodies that differ in one step, each of which must be found to lose a wake. With --long each row
has more turns. Ends with status 1 where a row isn't as it must be."""

from __future__ import annotations

import sys
import time
from collections import namedtuple
from typing import Dict, Iterator, List, Set, Tuple

# The words: the next ticket, the ticket served, the bell, its sleepers, and the bells of the line with theirs.
Words = namedtuple("Words", "ticket serving bell sleepers line_bells line_sleepers")
# A pass: its place, the turns left to it, its count of looks or sleeps, the bell and the number that it read, its ticket, and whether
# it is counted among the sleepers of its bell.
Pass = namedtuple("Pass", "at turns count rung read ticket counted", defaults=("served", 0, 0, 0, 0, 0, False))
# How many looks come before the sleep and in line, how many sleeps before the line, how many bells the line has; and the edit, if any.
Plan = namedtuple("Plan", "looks wakes line_looks bells edit", defaults=("",))
State = Tuple[Words, Tuple[Pass, ...]]
HOLDING = "turn", "pass on"
# The places of a pass that has no ticket yet, or none any more.
TICKETLESS = "count", "bell", "served", "ticket", "draw", "late bell", "park", "asleep", "next", "end"


def raised(numbers: Tuple[int, ...], place: int, by: int = 1) -> Tuple[int, ...]:
    return (*numbers[:place], numbers[place] + by, *numbers[place + 1 :])


def missed(plan: Plan, it: Pass) -> Pass:
    """A look that found the turn taken."""
    if it.counted:
        return it._replace(at="late bell" if plan.edit == "bell behind the look" else "park")
    if it.count + 1 < plan.looks:
        return it._replace(at="served", count=it.count + 1)
    return it._replace(at="count", count=0)


def drew(it: Pass, ticket: int) -> Pass:
    """A pass that has its ticket."""
    return it._replace(at="uncount" if it.counted else "line bell", ticket=ticket, count=0)


def counted(plan: Plan, sleepers: int, more: int) -> int:
    """The count of sleepers with one more or one less; a flag is set by each that is about to sleep."""
    if plan.edit == "a flag for the count":
        return max(sleepers, more)
    return sleepers if plan.edit == "never counted" else sleepers + more


def woken(plan: Plan, it: Pass) -> Pass:
    """A pass whose sleep is over."""
    if plan.wakes is None:
        return it._replace(at="count" if plan.edit == "a flag for the count" else "bell")
    if it.count + 1 == plan.wakes:
        return it._replace(at="next", count=0)
    return it._replace(at="bell", count=it.count + 1)


def in_line(plan: Plan, w: Words, it: Pass) -> Pass:
    """A pass that looked in line whether it is served."""
    if w.serving == it.ticket:
        return it._replace(at="line uncount" if it.counted else "turn", count=0)
    if it.counted:
        return it._replace(at="line park")
    return it._replace(at="line bell", count=it.count + 1) if it.count < plan.line_looks else it._replace(at="line count")


def over(it: Pass) -> Pass:
    """A pass that gave the turn on."""
    return it._replace(at="served" if it.turns > 1 else "end", turns=it.turns - 1, count=0, rung=0, read=0, ticket=0)


def own(plan: Plan, it: Pass) -> int:
    return it.ticket % plan.bells


def following(plan: Plan, it: Pass) -> int:
    return (it.ticket + 1) % plan.bells


# The one step that a pass takes at each of its places, but for those at which it wakes others or sleeps.
STEPS = {
    # until it has a ticket
    "count": lambda plan, w, it: (w._replace(sleepers=counted(plan, w.sleepers, 1)), it._replace(at="bell", counted=True)),
    "bell": lambda plan, w, it: (w, it._replace(at="served", rung=w.bell)),
    "served": lambda plan, w, it: (w, it._replace(at="ticket", read=w.serving)),
    "ticket": lambda plan, w, it: (w, it._replace(at="draw") if w.ticket == it.read else missed(plan, it)),
    "draw": lambda plan, w, it: (w._replace(ticket=it.read + 1), drew(it, it.read)) if w.ticket == it.read else (w, missed(plan, it)),
    "late bell": lambda plan, w, it: (w, it._replace(at="park", rung=w.bell)),
    "park": lambda plan, w, it: (w, it._replace(at="asleep") if w.bell == it.rung else woken(plan, it)),
    "next": lambda plan, w, it: (w._replace(ticket=w.ticket + 1), drew(it, w.ticket)),
    "uncount": lambda plan, w, it: (w._replace(sleepers=counted(plan, w.sleepers, -1)), it._replace(at="line bell", counted=False)),
    # until it has the turn
    "line bell": lambda plan, w, it: (w, it._replace(at="line look", rung=w.line_bells[own(plan, it)])),
    "line look": lambda plan, w, it: (w, in_line(plan, w, it)),
    "line count": lambda plan, w, it: (w._replace(line_sleepers=raised(w.line_sleepers, own(plan, it))), it._replace(at="line bell", counted=True)),
    "line park": lambda plan, w, it: (w, it._replace(at="line asleep" if w.line_bells[own(plan, it)] == it.rung else "line bell")),
    "line uncount": lambda plan, w, it: (w._replace(line_sleepers=raised(w.line_sleepers, own(plan, it), -1)), it._replace(at="turn", counted=False)),
    # until it has given the turn on
    "turn": lambda plan, w, it: (
        (w, it._replace(at="pass on", read=w.sleepers)) if plan.edit == "sleepers before the turn"
        else (w._replace(serving=w.serving + 1), it._replace(at="drawn"))),
    "pass on": lambda plan, w, it: (w._replace(serving=w.serving + 1), it._replace(at="ring", count=1) if it.read else over(it)),
    "drawn": lambda plan, w, it: (
        w, it._replace(at="line sleepers" if w.ticket != it.ticket + 1 and plan.edit != "line not looked at" else "sleepers")),
    "sleepers": lambda plan, w, it: (w, it._replace(at="ring") if w.sleepers else over(it)),
    "ring": lambda plan, w, it: (
        w._replace(bell=w.bell + (plan.edit != "bell not rung"), sleepers=0 if plan.edit == "a flag for the count" else w.sleepers),
        it._replace(at="wake")),
    "line sleepers": lambda plan, w, it: (w, it._replace(at="line ring") if w.line_sleepers[following(plan, it)] else over(it)),
    "line ring": lambda plan, w, it: (w._replace(line_bells=raised(w.line_bells, following(plan, it))), it._replace(at="line wake")),
}  # fmt: skip


def wakes(plan: Plan, it: Pass, rest: Tuple[Pass, ...]) -> Iterator[Tuple[Pass, ...]]:
    """What may come of a wake: of any one that sleeps, or of all in line that sleep on the next ticket's bell."""
    if it.at == "line wake":
        place = following(plan, it)
        yield tuple(p._replace(at="line bell") if p.at == "line asleep" and own(plan, p) == place else p for p in rest)
        return
    asleep = [other for other, p in enumerate(rest) if p.at == "asleep"]
    for other in asleep:
        yield (*rest[:other], woken(plan, rest[other]), *rest[other + 1 :])
    if not asleep:
        yield rest


def steps(plan: Plan, state: State) -> Tuple[Set[State], Set[State]]:
    """The states behind a step that a pass can take, and those behind an end of a sleep for no reason."""
    words, passes = state
    on, idle = set(), set()
    for number, it in enumerate(passes):
        rest = passes[:number], passes[number + 1 :]
        if it.at in ("wake", "line wake"):
            on.update(state_of(plan, words, after) for after in wakes(plan, it, (*rest[0], over(it), *rest[1])))
        elif it.at in ("asleep", "line asleep"):
            awake = woken(plan, it) if it.at == "asleep" else it._replace(at="line bell")
            idle.add(state_of(plan, words, (*rest[0], awake, *rest[1])))
        elif it.at != "end":
            after, then = STEPS[it.at](plan, words, it)
            on.add(state_of(plan, after, (*rest[0], then, *rest[1])))
    return on, idle


def plain(plan: Plan, words: Words, it: Pass) -> Pass:
    """A pass without what no step looks at any more: of a number that was read only whether it still stands counts."""
    is_line = it.at in ("line look", "line park", "line asleep")
    bell = words.line_bells[own(plan, it)] if is_line else words.bell
    is_read = is_line or (it.counted and it.at in ("served", "ticket", "draw", "park", "asleep"))
    read = words.serving % plan.bells if it.at in ("ticket", "draw") and it.read == words.serving else -1
    shift = words.serving - words.serving % plan.bells
    return it._replace(
        rung=-1 if is_read and it.rung != bell else 0,
        read=min(it.read, 1) if it.at == "pass on" else read,
        ticket=0 if it.at in TICKETLESS else it.ticket - shift,
    )


def state_of(plan: Plan, words: Words, passes: Tuple[Pass, ...]) -> State:
    """The state, counted from small numbers, where no pass is told from another."""
    serving = words.serving % plan.bells
    small = words._replace(ticket=words.ticket - words.serving + serving, serving=serving, bell=0, line_bells=(0,) * plan.bells)
    return small, tuple(sorted(plain(plan, words, it) for it in passes))


def gone_through(plan: Plan, turns: Tuple[int, ...]) -> Tuple[int, int]:
    """How many states there are, and in how many some pass can't come to its end any more. At first one has the turn, one is about to sleep,
    and the others come."""
    none = (0,) * plan.bells
    words = Words(1, 0, 0, int(plan.edit != "never counted"), none, none)
    passes = Pass("turn", turns[0]), Pass("bell", turns[1], counted=True), *(Pass(turns=it) for it in turns[2:])
    start = state_of(plan, words, passes)
    before: Dict[State, List[State]] = {start: []}
    todo, ends = [start], []
    while todo:
        state = todo.pop()
        if sum(p.at in HOLDING for p in state[1]) > 1:
            sys.exit(f"two passes have the turn: {state}")
        if all(p.at == "end" for p in state[1]):
            ends.append(state)
        on, idle = steps(plan, state)
        for after in on | idle:
            if after not in before:
                before[after] = []
                todo.append(after)
            if after in on:
                before[after].append(state)
    reached, todo = set(ends), ends
    while todo:
        behind = set(before[todo.pop()]) - reached
        reached |= behind
        todo += behind
    return len(before), len(before) - len(reached)


# The plans, and the turns of each pass; more of them by --long; and the edits, each of which has to lose a wake.
ONCE = 1, 1, 1, 1
ROWS = [
    ("one look, never in line", Plan(1, None, 0, 1), (2, 1, 1, 1)),
    ("two looks, never in line", Plan(2, None, 0, 1), ONCE),
    ("in line after one sleep, one bell", Plan(1, 1, 0, 1), ONCE),
    ("in line after one sleep, two bells", Plan(1, 1, 0, 2), ONCE),
    ("in line after two sleeps, a look in line", Plan(1, 2, 1, 1), ONCE),
]
LONG_ROWS = [
    ("one look, never in line", Plan(1, None, 0, 1), (2, 2, 1, 1)),
    ("in line after one sleep, one bell", Plan(1, 1, 0, 1), (1, 2, 1, 1)),
    ("in line after two sleeps, two bells", Plan(1, 2, 0, 2), (1, 2, 1, 1)),
]
EDITS = "never counted", "sleepers before the turn", "bell not rung", "bell behind the look", "line not looked at", "a flag for the count"


def main() -> None:
    wrong = False
    edits = [(f"edit: {it}", Plan(1, 1 if it == "line not looked at" else None, 0, 1, it), ONCE) for it in EDITS]
    for name, plan, turns in [*ROWS, *(LONG_ROWS if "--long" in sys.argv[1:] else []), *edits]:
        start = time.monotonic()
        states, stuck = gone_through(plan, turns)
        holds = bool(stuck) == bool(plan.edit)
        wrong = wrong or not holds
        what = "loses a wake" if stuck else "no wake is lost"
        print(f"{'ok' if holds else 'WRONG':<6}{name}, turns {turns}: {states} states, {what} ({time.monotonic() - start:.0f} s)", flush=True)
    sys.exit(1 if wrong else 0)


if __name__ == "__main__":
    main()
