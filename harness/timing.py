"""Processor time of runs, taken from outside, and the best or the middle of rounds."""
from __future__ import annotations

import resource
import statistics
import subprocess
import sys
import tempfile
import time
from typing import Any, Callable, Dict, Hashable, List, Mapping, NamedTuple, Optional, Sequence, Tuple, TypeVar

Key = TypeVar("Key", bound=Hashable)
Task = Callable[[], float]


class Ran(NamedTuple):
    """A run that ended: its status, what it wrote and told, and its seconds by the clock and of its processor time."""

    status: int
    output: bytes
    errors: bytes
    seconds: float
    processor: float


def processor_seconds() -> float:
    """The processor time of all runs so far."""
    used = resource.getrusage(resource.RUSAGE_CHILDREN)
    return used.ru_utime + used.ru_stime


def ran(line: Sequence[object], given: Any = b"", errors: Optional[int] = subprocess.PIPE, **more: Any) -> Ran:
    """A run of a program over the bytes `given`, or a file of them. Its input and output are files, so that no reader or writer beside it
    counts."""
    with tempfile.TemporaryFile() as source, tempfile.TemporaryFile() as sink:
        if isinstance(given, bytes):
            source.write(given)
            source.seek(0)
            given = source
        used, begin = processor_seconds(), time.perf_counter()
        done = subprocess.run([str(it) for it in line], stdin=given, stdout=sink, stderr=errors, **more)
        seconds, used = time.perf_counter() - begin, processor_seconds() - used
        sink.seek(0)
        return Ran(done.returncode, sink.read(), done.stderr or b"", seconds, used)


def run_of(line: Sequence[object], given: bytes, holds: Callable[[bytes], bool]) -> Task:
    """A run of a program on the bytes `given`, as a call that gives the processor seconds that it took. It ends the script where the status
    is not 0, or where `holds` isn't true of what was written."""

    def run() -> float:
        done = ran(line, given, None)
        if done.status != 0 or not holds(done.output):
            sys.exit(f"{' '.join(map(str, line))} ended with status {done.status} and wrote {done.output[:200]!r}")
        return done.processor

    return run


def is_empty(output: bytes) -> bool:
    return output == b""


def rounds_of(rounds: int, tasks: Mapping[Key, Callable[[], Any]]) -> Dict[Key, List[Any]]:
    """What each task came to in each round. All run once before any runs again, so that what disturbs the machine hits all alike."""
    came = [{name: task() for name, task in tasks.items()} for _ in range(rounds)]
    return {name: [each[name] for each in came] for name in tasks}


def best_of(rounds: int, tasks: Mapping[Key, Task]) -> Dict[Key, float]:
    """The fewest seconds that each task took. `tasks` maps a name to a call that gives seconds."""
    return {name: min(each) for name, each in rounds_of(rounds, tasks).items()}


def each_of(rounds: int, works: Mapping[Key, Tuple[Task, Task]]) -> Dict[Key, float]:
    """The seconds that each work takes beside another, which is taken off. `works` maps a name to the calls of both."""
    best = best_of(rounds, {call: call for calls in works.values() for call in calls})
    return {name: best[whole] - best[less] for name, (whole, less) in works.items()}


def middle_of(rounds: int, tasks: Mapping[Key, Callable[[], Sequence[float]]]) -> Dict[Key, List[float]]:
    """The middle of each number that a task came to."""
    return {name: [statistics.median(column) for column in zip(*each)] for name, each in rounds_of(rounds, tasks).items()}
