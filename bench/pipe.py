#!/usr/bin/env python3
"""Times `kubeconv pipe`: creates, gets, replaces and lists of 500 while 1,000, 2,000 and 5,000 objects stand.

Prints what one request takes, in microseconds of processor time, and how many times as long it takes with the most objects as with the
fewest; the run that makes the objects alone is taken off. Every answer is checked: 201 for a create, 200 for all others, status 0 at the end.

The definition is the one that is built in, or with `--shared` the one in `examples/`, whose objects have some 190 bytes and go over by
a split, a table and a factor. With `--beside OTHER` another program is timed in the same rounds, and how many times as long each request
takes as there is printed too: an earlier build of this one, or the programs of `bench/plain`, whose server has no shared definition.

A run answers at most 10,000 requests, the creates among them. With 5,000 objects 4,900 requests are left to be timed over them; with more,
what is left takes too little time beside the creates to be told from them. `serve.py store` goes on to 16,000 by several connections."""
from __future__ import annotations

import sys
from typing import Any, Callable, Iterator, List, NamedTuple, Sequence, Tuple

import parts  # noqa: F401
from harness.client import answers_in, request
from harness.crontabs import path_of
from harness.documents import Document, name_of, object_of
from harness.programs import SHARED_FILES, Word, built, parser_of
from harness.tables import Table
from harness.timing import Task, each_of, run_of

# So many objects stand while a chore is timed, and so many requests of it are made.
SIZES = 1000, 2000, 5000
TIMES, LISTS = 4900, 50
Fields = Callable[[str], Document]


# What an object has beside its name, at an address, by the definition that is built in and by the shared one.
def built_in(address: str) -> Document:
    return {"address": address}


def shared(address: str) -> Document:
    return {"hostPort": f"{address}:1234", "note": "runs nightly", "paused": True, "size": "large", "timeoutSeconds": 30}


def create(fields: Fields, turn: int, size: int) -> bytes:
    """One more object, behind those that stand."""
    return request("POST", path_of("v1beta1"), object_of("v1beta1", name_of(size + turn), **fields("localhost")))


def replace(fields: Fields, turn: int, size: int) -> bytes:
    """An edit of one object after the other. The first was created at the number 2, and each write takes the next, so that the
    object of this turn stands at two more than the turn, in the second round too."""
    body = object_of("v1beta1", name_of(turn % size), **fields(f"host-{turn}"))
    body["metadata"]["resourceVersion"] = str(turn + 2)
    return request("PUT", path_of("v1beta1", name=name_of(turn % size)), body)


class Chore(NamedTuple):
    """A kind of request: its name, one of them by the fields, its turn and how many objects stand, the code that answers it, and how often it
    is made."""

    name: str
    ask: Callable[[Fields, int, int], bytes]
    code: int = 200
    times: int = TIMES


CHORES = (
    Chore("create", create, 201),
    Chore("get at the stored version", lambda _fields, turn, size: request("GET", path_of("v1beta1", name=name_of(turn % size)))),
    Chore("get at the other version", lambda _fields, turn, size: request("GET", path_of("v1", name=name_of(turn % size)))),
    Chore("replace", replace),
    Chore("list of 500, stored", lambda *_: request("GET", f"{path_of('v1beta1')}?limit=500"), times=LISTS),
    Chore("list of 500, converted", lambda *_: request("GET", f"{path_of('v1')}?limit=500"), times=LISTS),
)


def answered(wanted: Sequence[int]) -> Callable[[bytes], bool]:
    """Whether what was written are answers of these codes. Ends the script where they aren't, and tells the first that is another."""

    def holds(output: bytes) -> bool:
        codes = [it.code for it in answers_in(output)]
        if codes != list(wanted):
            wrong = next((at for at, pair in enumerate(zip(codes, wanted)) if pair[0] != pair[1]), min(len(codes), len(wanted)))
            sys.exit(f"answer {wrong + 1} of {len(wanted)} is {codes[wrong] if wrong < len(codes) else 'missing'}")
        return True

    return holds


def works_of(program: Word, words: List[Word], fields: Fields) -> Iterator[Tuple[Any, Tuple[Task, Task]]]:
    """The runs of each chore over each number of objects, with the run that makes these alone."""
    for size in SIZES:
        made = b"".join(create(fields, turn, 0) for turn in range(size))
        filled = run_of([program, *words], made, answered([201] * size))
        for name, ask, code, times in CHORES:
            given = made + b"".join(ask(fields, turn, size) for turn in range(times))
            yield (program, size, name), (run_of([program, *words], given, answered([201] * size + [code] * times)), filled)


def main() -> None:
    parser = parser_of(__doc__, runs=3)
    parser.add_argument("--shared", action="store_true", help="by the definition in examples/, and not by the one that is built in")
    parser.add_argument("--beside", metavar="OTHER", help="another program that answers `OTHER pipe`, timed in the same rounds")
    options = parser.parse_args()
    words, fields = (["pipe", *SHARED_FILES], shared) if options.shared else (["pipe"], built_in)
    programs = [built(it) for it in [options.program, *([options.beside] if options.beside else [])]]
    seconds = each_of(options.runs, dict(work for program in programs for work in works_of(program, words, fields)))
    each = {(program, it.name): [seconds[program, size, it.name] / it.times * 1e6 for size in SIZES] for program in programs for it in CHORES}
    for program in programs:
        table = Table("request:<26", *(f"us, {size} objects:18.1f" for size in SIZES), "last to first:15.2f")
        for it in CHORES:
            table.row(it.name, *each[program, it.name], each[program, it.name][-1] / each[program, it.name][0])
    if options.beside:
        table = Table("the first to the other:<26", *(":18.2f" for _ in SIZES))
        for it in CHORES:
            table.row(it.name, *(mine / its for mine, its in zip(*(each[program, it.name] for program in programs))))


if __name__ == "__main__":
    main()
