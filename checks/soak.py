#!/usr/bin/env python3
"""Soaks `kubeconv serve`: 64 connections of 10,000 requests each, writes and reads at both versions, with 4 workers of migrations beside them.

Each client has objects of its own, which it creates, edits, deletes and lists, and some that all create, edit and delete. history.py holds
every answer against one history of all writes by their numbers: no write is lost, numbers rise, a read shows what stood meanwhile, and a
number that nobody wrote is that of a worker's touch of one object, which changes nothing else. One client moves the storage version and
starts a migration from time to time. Behind each round the last migration is waited for: it succeeds, and then no object stands at another
version, so that the stored versions can be trimmed to the storage version; and what stands is what the history ends with.

Prints requests a second, the processor time a request, the memory before and after, and how many answers were wrong. Ends with status 1
where one was."""
from __future__ import annotations

import argparse
import concurrent.futures
import os
import sys
import time
from typing import List, Tuple

import parts  # noqa: F401
from clients import Beside, Came, Client, judged
from harness.client import Address
from harness.programs import built, parser_of
from harness.server import Server

# The client that moves the storage version, and how many moves a run has room for.
OPERATOR, MOVES = 0, 240


def side_by_side(words: Tuple[Address, str, range, argparse.Namespace]) -> List[Came]:
    """The clients of one process, which goes on in threads."""
    address, mark, numbers, options = words
    between = max(options.between, options.seconds * options.rounds / MOVES) if options.workers else float("inf")
    each = {number: between if number == OPERATOR else float("inf") for number in numbers}
    with Beside([Client(address, mark, it, options.seconds, options.requests, moves_each=moves) for it, moves in each.items()]) as clients:
        return clients.join().came()


def round_of(server: Server, mark: str, options: argparse.Namespace) -> List[str]:
    """Makes a round of requests, and gives what was wrong."""
    used, start, count = server.processor_seconds(), time.monotonic(), min(os.cpu_count() or 1, options.connections)
    words = [(server.address, mark, range(one, options.connections, count), options) for one in range(count)]
    with concurrent.futures.ProcessPoolExecutor(count) as pool:
        came = [it for each in pool.map(side_by_side, words) for it in each]
    used, seconds = server.processor_seconds() - used, time.monotonic() - start
    wrong, history = judged(server.address, mark, came)
    asked, moves = sum(it.asked for it in came), sum(it.moves for it in came)
    conflicts = sum(it.code == 409 for it in history.calls)
    told = f"round {mark}: {asked} requests, {asked / seconds:.0f} a second, {used / asked * 1e6:.0f} us of the server's processor time each, "
    print(f"{told}{conflicts} conflicts, {moves} migrations, {len(history.touched)} touches seen, {len(wrong)} wrong", flush=True)
    print("".join(f"{it}\n" for it in wrong[:20]), end="", file=sys.stderr)
    return wrong


def main() -> None:
    counts = {
        "requests": (10_000, "requests of a connection"),
        "between": (1.0, "seconds between two moves of the storage version at least; a run has room for 240"),
        "workers": (4, "workers of migrations; with 0 the storage version isn't moved"),
        "rounds": (1, "so many rounds, each with objects of its own"),
        "seconds": (600.0, "a round makes requests for so long at most"),
    }
    options = parser_of(__doc__, connections=64, **counts).parse_args()
    with Server(built(options.program), options.workers) as server:
        print(f"memory before: {server.memory():.1f} MB", flush=True)
        wrong = [it for number in range(options.rounds) for it in round_of(server, f"t{number}", options)]
        print(f"memory after: {server.memory():.1f} MB, at most {server.memory('VmHWM'):.1f} MB", flush=True)
    sys.exit(1 if wrong else 0)


if __name__ == "__main__":
    main()
