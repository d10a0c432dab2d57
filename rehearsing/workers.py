"""Batches of objects over processes, so that each processor is used and no more than some batches are held."""
from __future__ import annotations

import concurrent.futures
import os
import signal
from typing import Any, Dict, Iterable, Iterator, List, Optional, Tuple

from .converters import settings
from .definition import Definition
from .progress import Progress
from .tally import Tally
from .texts import Text
from .trips import Trips

CHARACTERS = 800_000  # of a batch
MOST = 400  # objects of a batch
AHEAD = 2  # batches for each process that are read already

made: Dict[str, Any] = {}  # of this process


def begin(definition: Definition, words: Dict[str, Optional[str]], most: int) -> None:
    signal.signal(signal.SIGINT, signal.SIG_IGN)
    made.update(definition=definition, converter=settings(words), most=most)


def work(texts: List[Text], first: int) -> Tally:
    tally = Tally(made["most"])
    Trips(made["definition"], made["converter"], tally).go(texts, first)
    return tally


def batches(texts: Iterable[Text]) -> Iterator[Tuple[List[Text], int, int]]:
    """Objects in batches, with how many stand before each and how many characters each has."""
    batch: List[Text] = []
    size = count = 0
    for text in texts:
        batch.append(text)
        size += len(text.text)
        if size >= CHARACTERS or len(batch) >= MOST:
            yield batch, count, size
            count, batch, size = count + len(batch), [], 0
    if batch:
        yield batch, count, size


def rehearse(texts: Iterable[Text], definition: Definition, words: Dict[str, Optional[str]], most: int, processes: int, progress: Progress) -> Tally:
    """What becomes of all objects."""
    tally, objects, characters = Tally(most), 0, 0
    with concurrent.futures.ProcessPoolExecutor(processes, initializer=begin, initargs=(definition, words, most)) as pool:
        under_way: Dict[concurrent.futures.Future, Tuple[int, int]] = {}

        def gather(least: int) -> None:
            nonlocal objects, characters
            while len(under_way) > least:
                for done in concurrent.futures.wait(under_way, return_when=concurrent.futures.FIRST_COMPLETED).done:
                    count, size = under_way.pop(done)
                    tally.add(done.result())
                    objects, characters = objects + count, characters + size
                progress.show(objects, characters)

        try:
            for batch, first, size in batches(texts):
                under_way[pool.submit(work, batch, first)] = (len(batch), size)
                gather(processes * AHEAD)
            gather(0)
        except BaseException:
            for it in under_way:
                it.cancel()
            raise
        finally:
            progress.end()
    return tally


def processors() -> int:
    return len(os.sched_getaffinity(0)) if hasattr(os, "sched_getaffinity") else os.cpu_count() or 1
