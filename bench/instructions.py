#!/usr/bin/env python3
"""Counts the instructions of one request by callgrind, a tool of valgrind: creates, gets, replaces and the touch of a migration, over 300
objects of the shared definition.

    python3 bench/instructions.py --program FILE [--beside OTHER]

What else runs on the machine changes none of them, so they tell a change of one in a hundred. What a run without these requests takes is
taken off, and every answer is checked. With `--beside OTHER` an earlier program is counted too, and how many times as many instructions
this one takes is printed; compare programs that were made alike, by unproved.py or `tools/compile.py --bare`.

The allocator's fast bins are switched off: how often it goes through them hangs on where memory happens to lie, and makes a difference of
two in a hundred by itself. String instructions of the processor (`rep stosb`, `rep movsb`) are kept from too, since callgrind counts each
byte that they write as an instruction, of which the processor makes many at once."""
from __future__ import annotations

import json
import os
import re
from typing import Dict, List, Sequence

import parts  # noqa: F401
from harness.client import request
from harness.crontabs import DEFINITION, GROUP, MIGRATIONS, migration, moved
from harness.programs import SHARED_FILES, TOP, Word, built, parser_of
from harness.tables import Table
from harness.timing import ran
from harness.told import must
from pipe import CHORES, answered, create, shared

SIZE, TURNS = 300, 400
TUNABLES = "glibc.malloc.mxfast=0:glibc.cpu.x86_rep_stosb_threshold=0x7fffffff:glibc.cpu.x86_rep_movsb_threshold=0x7fffffff"


def count(program: Word, requests: List[bytes], codes: Sequence[int], *words: Word) -> int:
    """The instructions of a run of `pipe` over requests that are answered by these codes, behind creates."""
    line = ["valgrind", "--tool=callgrind", "--callgrind-out-file=/dev/null", program, "pipe", *SHARED_FILES, *words]
    created = [create(shared, turn, 0) for turn in range(SIZE)]
    done = ran(line, b"".join(created + requests), env={**os.environ, "GLIBC_TUNABLES": TUNABLES})
    told = re.search(rb"Collected : (\d+)", done.errors)
    must(not done.status and told, f"{program} ended with status {done.status}: {done.errors[-300:]!r}")
    answered([201] * SIZE + list(codes))(done.output)
    return int(told[1]) if told else 0


def counts(program: Word) -> Dict[str, float]:
    """The instructions of each kind of request. Those of a touch are those of a worker's turn behind each of many answers, with a migration
    to `v1` and without one."""
    less, found = count(program, [], []), {}
    for name, ask, code, _ in CHORES[:4]:
        found[name] = (count(program, [ask(shared, turn, SIZE) for turn in range(SIZE)], [code] * SIZE) - less) / SIZE
    turns = [request("GET", GROUP)] * TURNS
    definition = moved(json.loads((TOP / "examples/crontabs.json").read_text()))
    begin = [request("PUT", DEFINITION, definition), request("POST", MIGRATIONS, migration("m"))]
    migrated = count(program, begin + turns, [200, 201] + [200] * TURNS, "--turns", "1")
    idle = count(program, [request("GET", DEFINITION)] * 2 + turns, [200] * (2 + TURNS), "--turns", "1")
    return {**found, "touch of a migration": (migrated - idle) / SIZE}


def main() -> None:
    parser = parser_of(__doc__)
    parser.add_argument("--beside", help="another program, counted too")
    options = parser.parse_args()
    ours, theirs = counts(built(options.program)), counts(built(options.beside)) if options.beside else {}
    table = Table("instructions:<26", "this:10,.0f", *(["other:10,.0f", "to other:10.3f"] if theirs else []))
    for name, here in ours.items():
        table.row(name, here, *([theirs[name], here / theirs[name]] if theirs else []))


if __name__ == "__main__":
    main()
