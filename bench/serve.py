#!/usr/bin/env python3
"""Times `kubeconv serve`, by three tables, of which each is a comparison within one run:

- store: creates, deletes, gets, replaces and lists of 500 by one connection while 1,000, 4,000 and 16,000 objects stand, and migrations of all
  of them: what each takes of the server, in microseconds of processor time, and how many times as long that is as while the fewest stand.
  What makes the objects isn't timed. Of a migration it is what one object takes of it: the storage version is moved, a migration is posted
  and waited for until it says `Succeeded`, there and back, by one worker; what the connection asks meanwhile counts too. Behind it the
  version is looked at, at which an object is stored.
- memory: what the process holds with as many objects as a server may hold, and at most with 64 connections that write.
- idle: the part of a processor that the server takes with 2 and 15 workers while nobody asks, and how long behind its 201 a
  migration that has nothing to move is marked then.

Every answer is checked for its code. A connection is answered 10,000 requests at most, so several come one after the other."""
from __future__ import annotations

import argparse
import contextlib
import functools
import time
from typing import Callable, Dict, List

import parts  # noqa: F401
from harness.client import Connection, request
from harness.crontabs import MIGRATIONS, VERSIONS, body_of, creation, drawn_state, generator, looked_at, migration, move, number_in, number_of, path_of
from harness.documents import name_of
from harness.programs import Word, built, parser_of, tables_of
from harness.server import CREATED, Filled, Server, at_once
from harness.tables import Table
from harness.timing import best_of
from harness.told import must

# So many gets and replaces are made by one connection, creates, since a server holds few objects more, and lists.
TIMES, CREATES, LISTS = 4_800, 300, 48
# What the limits reserve of a server: 80 MiB of chunks; and of a connection: an inbox, and as much again for what is written.
CHUNKS_MB, LINK_MB = 80 * 2**20 / 1e6, 2 * 2**20 / 1e6
# So many connections write beside each other, so often.
WRITERS, WRITES = 64, 100
# So many workers rest beside nobody's requests, for so many seconds behind those in which their rests grow.
IDLE_WORKERS, IDLE_SECONDS, GROWING_SECONDS = (2, 15), 20, 2
# So many migrations are started then, each behind such a rest.
MARKS, RESTED_SECONDS = 9, 2
Chore = Callable[[Filled], float]


# ---- store


def migrated_after(connection: Connection, pause: float) -> float:
    """The seconds behind its 201 in which a migration is seen to have succeeded, that is looked at so often."""
    name = f"m{time.time_ns()}"
    connection.expect(201, "POST", MIGRATIONS, migration(name))
    start = time.monotonic()
    condition, shown = looked_at(connection, name, pause)
    must(condition == "Succeeded", f"{name} is {condition}: {shown}")
    return time.monotonic() - start


def further(filled: Filled) -> range:
    """The numbers of the objects behind those that stand."""
    return range(len(filled.numbers), len(filled.numbers) + CREATES)


def each(requests_of: Callable[[Filled], List[bytes]], wanted: int = 200) -> Chore:
    """What one of these requests takes of the server."""

    def chore(filled: Filled) -> float:
        requests = requests_of(filled)
        return filled.asked(requests, wanted)[0] / len(requests)

    return chore


def get(version: str) -> Chore:
    return each(lambda filled: [request("GET", path_of(version, name=name_of(turn % len(filled.numbers)))) for turn in range(TIMES)])


def lists(version: str) -> Chore:
    return each(lambda _filled: [request("GET", f"{path_of(version)}?limit=500")] * LISTS)


def replace(filled: Filled) -> float:
    """Edits of the objects that were written longest ago, one after the other."""
    turns = sorted(range(len(filled.numbers)), key=filled.numbers.__getitem__)[:TIMES]

    def edit(turn: int) -> bytes:
        name, number = name_of(turn), filled.numbers[turn]
        return request("PUT", path_of("v1beta1", name=name), body_of("v1beta1", name, drawn_state(generator("edit", number)), number))

    seconds, bodies = filled.asked([edit(turn) for turn in turns], 200)
    for turn, text in zip(turns, bodies):
        filled.numbers[turn] = number_in(text)
    return seconds / len(turns)


def migrate(filled: Filled) -> float:
    """Migrations of all objects to v1 and back."""
    with filled.alone() as connection:
        before = filled.thread_seconds()
        for version in VERSIONS:
            move(connection)
            migrated_after(connection, 0.01)
            stored = connection.expect(200, "GET", f"/raw/default/{name_of(0)}")["apiVersion"]
            must(stored.endswith(f"/{version}"), f"an object is stored at {stored}")
        return (filled.thread_seconds() - before) / len(VERSIONS) / len(filled.numbers)


# What is timed, without a worker and with one.
CHORES: Dict[int, Dict[str, Chore]] = {
    0: {
        "create": each(lambda filled: [creation(number) for number in further(filled)], 201),
        "delete": each(lambda filled: [request("DELETE", path_of("v1beta1", name=name_of(number))) for number in further(filled)]),
        "get at the stored version": get("v1beta1"),
        "get at the other version": get("v1"),
        "replace": replace,
        "list of 500, stored": lists("v1beta1"),
        "list of 500, converted": lists("v1"),
    },
    1: {"migration, an object": migrate},
}


def print_store(program: Word, options: argparse.Namespace) -> None:
    first, *others = options.sizes
    table = Table("request:<26", f"us, {first}:12.1f", *(it for size in others for it in (f"us, {size}:12.1f", "ratio:8.2f")))
    for workers, chores in CHORES.items():
        servers = {size: Filled(program, size, workers) for size in options.sizes}
        tasks = {(size, name): functools.partial(chore, it) for name, chore in chores.items() for size, it in servers.items()}
        best = best_of(options.runs, tasks)
        for name in chores:
            least = best[first, name]
            table.row(name, least * 1e6, *(it for size in others for it in (best[size, name] * 1e6, best[size, name] / least)))
        for it in servers.values():
            it.stop()


# ---- memory


def write(connection: Connection, number: int) -> None:
    """Creates an object, and edits it at both versions."""
    name, draw, shown = f"w{number}", generator("write", number), None
    for turn in range(WRITES):
        version, at = VERSIONS[turn % 2], number_of(shown) if shown else None
        path = path_of(version, "work", name if shown else None)
        shown = connection.expect(200 if shown else 201, "PUT" if shown else "POST", path, body_of(version, name, drawn_state(draw), at))


def print_memory(program: Word, options: argparse.Namespace) -> None:
    """What the process holds at first, with as many objects as there may be, and beside many connections."""
    with Server(program, options.workers) as server:
        made, code, empty = 0, 201, server.memory()
        while code == 201:
            with Connection(server.address) as connection:
                for number in range(made, made + CREATED):
                    body = body_of("v1beta1", name_of(number), drawn_state(generator("full", number)))
                    code, _shown = connection.ask("POST", path_of("v1beta1", "full"), body)
                    if code != 201:
                        break
                    made += 1
        must(code == 507, f"create {made} is answered {code}")
        print(f"memory: {empty:.1f} MB at the start, {server.memory():.1f} MB with {made} objects")
    with Server(program, options.workers) as server, contextlib.ExitStack() as stack:
        at_once(write, [(stack.enter_context(Connection(server.address)), number) for number in range(WRITERS)])
        print(f"memory: {server.memory('VmHWM'):.1f} MB at most with {WRITERS} connections that write")
    print(f"the chunks for objects are {CHUNKS_MB:.1f} MB, and what a connection reads and writes by {LINK_MB:.1f} MB", flush=True)


# ---- idle


def print_idle(program: Word, _options: argparse.Namespace) -> None:
    """What the workers take while there is nothing to do, and how soon they find a migration where all had rested a while."""
    for workers in IDLE_WORKERS:
        with Server(program, workers) as server, Connection(server.address) as connection:
            time.sleep(GROWING_SECONDS)
            used, start = server.thread_seconds(), time.monotonic()
            time.sleep(IDLE_SECONDS)
            used, seconds = server.thread_seconds() - used, time.monotonic() - start
            print(f"idle: {used / seconds:.2%} of a processor with {workers} workers", flush=True)
            waits = []
            for _ in range(MARKS):
                time.sleep(RESTED_SECONDS)
                waits.append(migrated_after(connection, 0.0003) * 1000)
            waits.sort()
            print(f"idle: a migration is marked {waits[0]:.1f} to {waits[-1]:.1f} ms behind its 201, {waits[MARKS // 2]:.1f} in the middle", flush=True)


TABLES = {"store": print_store, "memory": print_memory, "idle": print_idle}


def main() -> None:
    sizes = (1_000, 4_000, 16_000), "so many objects stand for store"
    parser = parser_of(__doc__, runs=3, sizes=sizes, workers=(2, "workers beside the memory"))
    for look, options in tables_of(parser, TABLES):
        look(built(options.program), options)


if __name__ == "__main__":
    main()
