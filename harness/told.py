"""How scripts say what they saw: a line for each thing that was looked at, and at the end the status."""
from __future__ import annotations

import shutil
import sys
import time
from typing import Any, Callable, Iterable, List, NoReturn, Sequence

FAULTS: List[str] = []


class Wrong(AssertionError):
    """Something that isn't as it is to be."""


class Skipped(Exception):
    """What isn't looked at here, and why."""


def check(holds: object, what: str) -> None:
    """Tells whether something is so."""
    print(f"{'ok' if holds else 'WRONG':<6} {what}", flush=True)
    if not holds:
        FAULTS.append(what)


def told_of(wrong: Sequence[object]) -> str:
    """What is told of several things that are wrong, if any."""
    return f": {len(wrong)} wrong, as {list(wrong[:3])}" if wrong else ""


def looked(what: str, look: Callable[..., Any], *words: Any) -> None:
    """Tells whether a look at something came to its end, and what it says; whatever went wrong is told, and the script goes on."""
    try:
        said = look(*words)
    except Skipped as why:
        print(f"skipped {what}: {why}", flush=True)
    except (Exception, SystemExit) as wrong:
        check(False, f"{what}: {type(wrong).__name__}: {wrong}")
    else:
        check(True, what + (f": {said}" if said else ""))


def wants(tool: str) -> None:
    """Passes over a look where the machine doesn't have a program."""
    if shutil.which(tool) is None:
        raise Skipped(f"there is no {tool}")


def same(what: str, came: Any, wanted: Any) -> None:
    """Ends a look where what came isn't what is wanted."""
    if came != wanted:
        raise Wrong(f"{what}:\n  came   {came!r:.1000}\n  wanted {wanted!r:.1000}")


def cases(each: Iterable[Callable[..., object]], *words: object) -> NoReturn:
    """Looks at cases, each a function of these words, and ends the script."""

    def timed(case: Callable[..., object]) -> str:
        begun = time.monotonic()
        case(*words)
        return f"{time.monotonic() - begun:.1f} seconds"

    for case in each:
        looked(case.__name__, timed, case)
    end()


def must(holds: object, what: str) -> None:
    """Ends the script where something isn't so."""
    if not holds:
        sys.exit(f"wrong: {what}")


def end() -> NoReturn:
    """Ends the script: with the status 1 where something was wrong, which is told on standard error then."""
    for it in FAULTS:
        print(f"wrong: {it}", file=sys.stderr)
    sys.exit(1 if FAULTS else 0)
