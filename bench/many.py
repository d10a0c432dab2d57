#!/usr/bin/env python3
"""Times `kubeconv serve` by 4, 16 and 60 connections, beside other programs and beside a plain server, all in one run:

    go build -o plain bench/plain/*.go
    python3 bench/many.py --plain ./plain [--alone] [--program FILE [--program FILE ..]]
    python3 bench/many.py --plain ./plain --slow 20 --connections 1 16 --requests 400 --runs 1

Each connection asks one request after the other and waits for each answer: gets of one object, creates, or a mix of seven gets, two
replaces and a create of ten. In a round each program and the plain server make each row once, so that what disturbs the machine hits all
alike, and each row begins with a server of its own. Prints for each row the middle of the rounds: the requests a second, how many times as
many that is as with the fewest connections, and as the plain server makes; the processor time of the server that a request takes, and how
many times as much that is as with the fewest connections; and the wait in which 99 of 100 answers came, and the longest, in milliseconds. The
client takes processors too. It checks every answer's code.

With `--slow` the server asks a converter in Go, which answers after so many milliseconds, and creates alone are made, without the plain
server. No turn of the server is held while an object is converted, so that as many creates wait for the converter as there are connections.
It is wrong where these make less than three quarters of so many times the creates of the fewest."""
from __future__ import annotations

import argparse
import contextlib
import subprocess
from typing import Callable, Dict, List, Tuple

import parts  # noqa: F401
from harness.programs import FIRST_FILES, Word, built, parser_of
from harness.server import Listening, Server
from harness.tables import Table
from harness.timing import middle_of
from harness.told import must

KINDS = "get", "create", "mix"
NONE = [float("nan")] * 2
Key = Tuple[str, str, int]


def row(server: Listening, client: Word, connections: int, requests: int, kind: str) -> Tuple[float, ...]:
    """Requests a second, the server's processor microseconds a request, and the waits that the client tells, in milliseconds."""
    line = [client, "client", f"127.0.0.1:{server.port}", str(connections), str(requests), kind]
    with server, subprocess.Popen(line, stdin=subprocess.PIPE, stdout=subprocess.PIPE, text=True) as asked:
        assert asked.stdin and asked.stdout
        told = asked.stdout.readline().strip()
        must(told == "ready", f"the client told {told!r}")
        used = server.thread_seconds()
        asked.stdin.write("\n")
        asked.stdin.flush()
        numbers = [float(it) for it in asked.stdout.readline().split()]
        used = server.thread_seconds() - used
        must(len(numbers) == 3, f"the client told {numbers}")
        asked.communicate("\n")
    made = requests // connections * connections
    return made / numbers[0], used / made * 1e6, numbers[1] / 1e3, numbers[2] / 1e3


def print_rows(middle: Dict[Key, List[float]], first: int, is_slow: bool) -> None:
    """The table."""
    columns = ["a second:10.0f", "to first:9.2f", "to plain:9.2f", "us each:9.1f", "to first:9.2f", "99th ms:9.2f", "longest:9.1f"]
    table = Table(":<8", "program:<12", "connections:11", *columns)
    for (kind, name, connections), (a_second, each, late, longest) in middle.items():
        fewest, beside = middle[kind, name, first], middle.get((kind, "plain", connections), NONE)
        table.row(kind, name, connections, a_second, a_second / fewest[0], a_second / beside[0], each, each / fewest[1], late, longest)
        must(not is_slow or a_second / fewest[0] >= 0.75 * connections / first, "a turn is held while an object is converted")


def servers_of(options: argparse.Namespace, stack: contextlib.ExitStack) -> Dict[str, Callable[[], Listening]]:
    """What begins the servers, by name."""
    found: Dict[str, Callable[[], Listening]] = {}
    files = FIRST_FILES
    if options.slow:
        converter = stack.enter_context(Listening([options.plain, "converter", options.slow]))
        files = [*FIRST_FILES[:2], "--hub", "v1", "--converter", f"http://127.0.0.1:{converter.port}/"]
    for path in options.program or [None]:
        found[built(path).name] = lambda program=built(path): Server(program, options.workers, files=files)  # type: ignore[misc]
    if not options.alone and not options.slow:
        found["plain"] = lambda: Listening([options.plain, "serve"])
    return found


def main() -> None:
    counts = {"requests": (8_000, "requests of each row, at most 10,000 a connection"), "workers": (2, "workers beside the connections")}
    slow = 0, "creates by a converter that answers after so many milliseconds"
    parser = parser_of(__doc__, None, runs=5, connections=((4, 16, 60), ""), slow=slow, **counts)
    parser.add_argument("--program", action="append", help="a built program (default: crates/kubeconv/out/kubeconv)")
    parser.add_argument("--plain", required=True, help="the programs in Go, of which one is the client")
    parser.add_argument("--alone", action="store_true", help="without the plain server")
    parser.add_argument("--kinds", nargs="+", choices=KINDS, default=KINDS)
    options = parser.parse_args()
    kinds = ["create"] if options.slow else options.kinds
    with contextlib.ExitStack() as stack:
        servers = servers_of(options, stack)

        def task(kind: str, name: str, connections: int) -> Callable[[], Tuple[float, ...]]:
            return lambda: row(servers[name](), options.plain, connections, options.requests, kind)

        keys = [(kind, name, connections) for kind in kinds for connections in options.connections for name in servers]
        print_rows(middle_of(options.runs, {key: task(*key) for key in keys}), options.connections[0], bool(options.slow))


if __name__ == "__main__":
    main()
