#!/usr/bin/env python3
"""Looks at `kubeconv migrate`, `dump` and `load` from outside, against servers as they are:

    python3 checks/outside.py KUBECONV

- `migrate` against `kubeconv serve` without workers, while 8 clients write and read, whose answers history.py judges: the storage version is
  moved there and back, and each time `migrate` is run until it ends with a tally. The tally adds up; the trim to the storage version is
  taken, so no object stands at another; the raw text of each object says the same once the clients have ended; and no answer to a client was
  wrong. A list that is forgotten 17 times is told, and `migrate` is run again.
- `dump` and `load` beside such clients, and over lines, inputs and servers that fail: backups.py beside this file says what is looked at.
- Against a server of Go's `net/http` (bench/plain/keeper.go, which says what it does): it answers in chunks, its objects have
  managedFields, and its continue tokens are of its own form. Each count of the tally is the one that follows of what that server does,
  and what is put back is what was given. Pages of more than 1 MiB, and of more than 2, are asked for by halves. Where the server
  ends meanwhile there is no tally. Without `go` this is skipped.
- Through `kubectl proxy`, with `--accept-hosts` and without. Without `kubectl` this is skipped.

Each step says what it saw, and the status is 1 where something is wrong."""
from __future__ import annotations

import pathlib
import re
import shutil
import subprocess
import tempfile
import time
from typing import Dict, List

import parts  # noqa: F401
from backups import backups_against_go, backups_beside, backups_through_kubectl, faults, lines_back
from clients import trimmed
from runs import CLIENTS, LIMITS, SECONDS, SERVER_ENDED, Others, Run, asked_of, begun, keeper, move, proxied
from harness.client import Connection
from harness.crontabs import GROUP
from harness.documents import name_of
from harness.programs import TOP, Word, built, parser_of
from harness.server import Filled
from harness.told import check, end, told_of

# How many objects stand beside those of the clients, how long a client waits behind each request, and how often storage is moved.
BESIDE = (600, 0.05, 2), (100, 0, 2)
COUNTS = ["listed", "written", "unchanged", "gone", "contested"]
# Objects of the server in Go, the number of the one that is contested, and how many are put when it ends.
OBJECTS, CONTESTED, BEGUN = 800, 721, 50


def tally_of(run: Run) -> Dict[str, int]:
    """The tally of a run of `migrate` that adds up and goes with its status, or nothing."""
    found = re.fullmatch("".join(rf"{name} (\d+)\n" for name in COUNTS), run.output.decode())
    tally = dict(zip(COUNTS, map(int, found.groups()))) if found else {}
    is_settled = tally and 2 * tally["listed"] == sum(tally.values()) and run.ended(*((13, "contested") if tally["contested"] else (0,)))
    return tally if is_settled else {}


def beside(program: Word, size: int, pause: float, moves: int) -> None:
    """Migrations while clients write."""
    print(f"migrate beside {CLIENTS} clients of serve, which wait {pause * 1000:.0f} ms behind each request, and {size} objects more", flush=True)
    with Filled(program, size) as server:
        with Others(server.address, f"o{size}", pause) as others:
            for number in range(moves):
                storage = move(server.address)
                run = others.run(program, "migrate", f"v1{'beta1' * (number % 2)}")
                check(tally_of(run).get("listed", 0) >= size, f"to {storage}: {run.said()}")
                with Connection(server.address) as connection:
                    wrong = trimmed(connection)
                check(not wrong, f"the trim to {storage} is taken{wrong}")
        spans = others.look().spans
        keys = [("default", name_of(number)) for number in range(size)] + [key for key, each in spans.items() if each[-1].shown]
        with Connection(server.address) as connection:
            stored = {key: connection.expect(200, "GET", "/raw/{}/{}".format(*key))["apiVersion"] for key in keys}
        others_stored = [f"{key} is stored at {version}" for key, version in stored.items() if version != f"example.com/{storage}"]
        check(not others_stored, f"the raw text of {len(keys)} objects is of {storage}{told_of(others_stored)}")


# ---- against a server in Go


def expected(limit: int) -> Dict[str, int]:
    """The tally that follows of what the server in Go does, where its first page had so many objects and its second one is forgotten."""
    gone, edited = ([at for at in range(limit, OBJECTS) if at % 50 == rest] for rest in (13, 7))
    contested, unchanged = int(limit <= CONTESTED), len([at for at in range(limit) if at % 50 != 13])
    listed = OBJECTS - limit + unchanged
    unchanged += len(edited)
    return dict(zip(COUNTS, [listed, listed - unchanged - len(gone) - contested, unchanged, len(gone), contested]))


def against_go(program: Word, server: Word, size: int, limits: List[int]) -> None:
    """Two migrations: the first meets what others do, and the second finds all done."""
    with keeper(server, "plain", OBJECTS, size) as it:
        headers, _page = asked_of(it.address, f"{GROUP}/v1/crontabs?limit={limits[0]}")
        coding = headers.get("Transfer-Encoding")
        check(coding == "chunked", f"Go, objects of {size} bytes: a page has Transfer-Encoding {coding}, Content-Length {headers.get('Content-Length')}")
        there = OBJECTS - OBJECTS // 50
        for what, wanted in ("", expected(limits[-1])), ("again: ", dict(zip(COUNTS, [there, 0, there, 0, 0]))):
            run = Run(program, "migrate", it.address)
            check(tally_of(run) == wanted, f"{what}{run.said()}")
            told = asked_of(it.address, "/told")[1]
            check(told["Limits"] == limits or what, f"pages of at most {told['Limits']} objects are asked for")
            wrong = [*(told["Wrong"] or []), *(f"{name} wasn't stored anew" for name in told["Old"] or [])]
            check(not wrong, f"{told['Lists']} lists, {told['Gets']} gets, {told['Puts']} puts{told_of(wrong)}")


def against_limits(program: Word, server: Word) -> None:
    for mode, (objects, what) in LIMITS.items():
        for line in "migrate", "dump":
            with keeper(server, mode, objects, 10) as it:
                run = Run(program, line, it.address)
                check(run.ended(12, "answer 0", b""), f"{line} over {what}: {run.said()}")


def against_an_end(program: Word, server: Word) -> None:
    """The server ends when some objects are put."""
    with keeper(server, "plain", OBJECTS, 100) as it:
        migrate = begun(program, "migrate", it.address)
        while asked_of(it.address, "/told")[1]["Puts"] < BEGUN:
            time.sleep(0.001)
    output, told = migrate.communicate(timeout=SECONDS)
    is_so = output == b"" and (migrate.returncode, told) in SERVER_ENDED
    check(is_so, f"a server that ends meanwhile: no tally, status {migrate.returncode}, {told.decode().strip()!r}")


def through_kubectl(program: Word) -> None:
    with Filled(program, 50) as server:
        move(server.address)
        with proxied(server.address) as it:
            run = Run(program, "migrate", it.address)
            check(run.ended(12, "answer 403"), f"kubectl proxy: {run.said()}")
        with proxied(server.address, "--accept-hosts=^kubeconv$") as it:
            run = Run(program, "migrate", it.address)
            check(tally_of(run).get("written") == 50, f"kubectl proxy --accept-hosts='^kubeconv$': {run.said()}")


def main() -> None:
    program = built(parser_of(__doc__, "program").parse_args().program)
    for size, pause, moves in BESIDE:
        beside(program, size, pause, moves)
    for look in backups_beside, lines_back, faults:
        look(program)
    if shutil.which("go"):
        with tempfile.TemporaryDirectory() as folder:
            server = pathlib.Path(folder) / "plain"
            subprocess.run(["go", "build", "-o", server, *(TOP / "bench/plain").glob("*.go")], check=True)
            against_go(program, server, 100, [500])
            against_go(program, server, 5_000, [500, 250, 125])
            for look_at in against_limits, against_an_end, backups_against_go:
                look_at(program, server)
    if shutil.which("kubectl"):
        through_kubectl(program)
        backups_through_kubectl(program)
    for tool in filter(lambda it: not shutil.which(it), ("go", "kubectl")):
        print(f"skipped: the machine has no {tool}, so nothing was looked at by it", flush=True)
    end()


if __name__ == "__main__":
    main()
