#!/usr/bin/env python3
"""Times `kubeconv migrate`, `dump` and `load`, which ask a server over loopback:

    go build -o plain bench/plain/*.go
    python3 bench/outside.py migrate --plain ./plain [--program FILE] [--sizes N ..] [--runs N]
    python3 bench/outside.py memory --plain ./plain [--program FILE] [--sizes N ..]

`migrate`: against `kubeconv serve`, beside the exchanges alone. So many objects stand, and the storage version is moved. Then `migrate` puts
all of them back; and once the storage version is moved again, a plain client makes the same exchanges, by the same bytes, each over a
connection of its own. Of the plain client only what its exchanges take is counted, which is the time of the server and the system. Both begin
again where the server forgets the list, as it does behind 1,024 superseded objects. At first a few objects are migrated through a relay, which
looks whether both send the same bytes. Prints for each number of objects how many exchanges there are, the seconds of the best run of each,
what an exchange takes of both in microseconds, and how many times as long `migrate` takes as the exchanges alone: by the clock, and by the
processor time of the server and the client together.

`memory`: `dump` and `migrate` against a server in Go, which makes up so many objects, and `load` of so many lines, of which it keeps nothing.
Prints the most memory that each held of the machine's, in MB, and the seconds that 10,000 objects take, by the clock and of its processor time. It
is wrong where the memory is 1 MB more than for the fewest objects. A million is asked for by --sizes 1000 1000000, and takes minutes.

Each tally and each code is looked at, how many lines there are, and what is put. The status is 1 where something is wrong."""
from __future__ import annotations

import os
import pathlib
import re
import socket
import subprocess
import tempfile
import threading
import time
from typing import Any, Callable, Dict, List, Sequence, Tuple

import parts  # noqa: F401
from harness.client import Address, Connection, end_of
from harness.crontabs import GROUP, move
from harness.programs import Word, built, parser_of
from harness.server import Filled, Listening
from harness.tables import Table
from harness.timing import ran
from harness.told import must

# So many objects a relay hands on. An object of the server in Go has so many bytes more than its metadata, and so many MB more are no growth.
FEW, BYTES, SLACK = 20, 100, 1
RESOURCE = f"{GROUP}/v1/crontabs"


def url_of(address: Address) -> str:
    return "http://{}:{}{}".format(*address, RESOURCE)


# ---- migrate


def alone(plain: Word, address: Address) -> Tuple[float, float, int]:
    """A run of the plain client: the seconds of its exchanges, those of its processor time in them, and how many there are."""
    done = ran([plain, "migrate", "{}:{}".format(*address), RESOURCE])
    must(done.status == 0, f"the plain client: {done}")
    exchanges, seconds, processor = done.output.split()
    return float(seconds), float(processor), int(exchanges)


def migrated(program: Word, address: Address, size: int) -> Tuple[float, float]:
    """A run of `migrate`: its seconds, and those of its processor time."""
    done = ran([program, "migrate", url_of(address)])
    tally = dict(line.split() for line in done.output.decode().splitlines())
    is_whole = done.status == 0 and int(tally["listed"]) == size and int(tally["written"]) + int(tally["unchanged"]) == size
    must(is_whole, f"migrate ended with status {done.status}, {done.output!r} and {done.errors!r}")
    return done.seconds, done.processor


def sent(address: Address, run: Callable[[Address], Any]) -> List[bytes]:
    """The requests that a run sends to an address, which a relay hands on to a server."""
    kept: List[bytes] = []

    def relay(listener: socket.socket) -> None:
        for _ in range(FEW + 1):
            peer, _from = listener.accept()
            with peer, Connection(address, 60) as connection:
                asked = b""
                while len(asked) < (end_of(asked) or len(asked) + 1):
                    asked += peer.recv(1 << 18)
                kept.append(asked)
                connection.send(asked)
                peer.sendall(connection.rest())

    with socket.create_server(("127.0.0.1", 0)) as listener:
        thread = threading.Thread(target=relay, args=(listener,), daemon=True)
        thread.start()
        run(listener.getsockname())
        thread.join()
    return kept


def beside(program: Word, plain: Word, filled: Filled, size: int) -> List[float]:
    """The seconds by the clock, and those of the processor time of both sides, of `migrate` and of the exchanges alone, and how many these are."""
    came: List[float] = []
    for run in (lambda: migrated(program, filled.address, size)), (lambda: alone(plain, filled.address)):
        with filled.alone() as connection:
            move(connection)
        used = filled.processor_seconds()
        seconds, processor, *exchanges = run()
        came += [seconds, processor + filled.processor_seconds() - used, *exchanges]
    return came


def migrations(program: Word, plain: Word, sizes: Sequence[int], runs: int) -> None:
    with Filled(program, FEW) as filled:
        ours = sent(filled.address, lambda address: migrated(program, address, FEW))
        plains = sent(filled.address, lambda address: alone(plain, address))
    for one, other in zip(ours, plains):
        must(one == other, f"migrate sends {one!r}, and the plain client {other!r}")
    columns = ["migrate, s:12.2f", "alone, s:10.2f", "us each:9.0f", "alone:8.0f", "ratio:8.2f", "processor:11.2f"]
    table = Table("objects:8", "exchanges:11", *columns)
    for size in sizes:
        with Filled(program, size) as filled:
            best = [min(it) for it in zip(*(beside(program, plain, filled, size) for _ in range(runs)))]
        own, own_used, other, other_used, exchanges = best
        table.row(size, int(exchanges), own, other, own / exchanges * 1e6, other / exchanges * 1e6, own / other, own_used / other_used)


# ---- memory


def line_of(number: int) -> bytes:
    metadata = f'{{"name":"o{number:07d}","namespace":"default"}}'
    return f'{{"apiVersion":"example.com/v1","host":"{"t" * BYTES}","kind":"CronTab","metadata":{metadata}}}\n'.encode()


def held(process: "subprocess.Popen[bytes]") -> Tuple[float, float]:
    """The most memory that a program held of the machine's until it ended, in MB (10^6 bytes), and the seconds of its processor time."""
    most, ended = 0, 0
    while not ended:
        told = re.search(r"VmHWM:\s*(\d+) kB", pathlib.Path(f"/proc/{process.pid}/status").read_text())
        most = max(most, int(told[1]) if told else 0)
        time.sleep(0.005)
        ended, status, used = os.wait4(process.pid, os.WNOHANG)
    process.returncode = os.WEXITSTATUS(status) if os.WIFEXITED(status) else -os.WTERMSIG(status)
    return most * 1024 / 1e6, used.ru_utime + used.ru_stime


# What a line writes over so many objects, or how many lines that are, and whether it makes a put and a post of each.
WANTED = {
    "dump": ("{0}\n", 0, 0),
    "migrate": ("listed {0}\nwritten {0}\nunchanged 0\ngone 0\ncontested 0\n", 1, 0),
    "load": ("created {0}\npresent 0\n", 0, 1),
}


def made_up(program: Word, line: str, server: Word, size: int) -> Tuple[float, float, float]:
    """The most memory that a line held over so many made up objects, in MB, and its seconds: by the clock, and of its processor time."""
    text, puts, posts = WANTED[line]
    with Listening([server, "far", size * (not posts), BYTES]) as far, tempfile.TemporaryFile() as lines, tempfile.TemporaryFile() as told:
        lines.writelines(line_of(number) for number in range(size * posts))
        lines.seek(0)
        begin = time.perf_counter()
        ours = subprocess.Popen([program, line, url_of(far.address)], stdin=lines, stdout=subprocess.PIPE, stderr=told)
        output = subprocess.Popen(["wc", "-l"] if line == "dump" else ["cat"], stdin=ours.stdout, stdout=subprocess.PIPE, text=True)
        assert ours.stdout
        ours.stdout.close()
        memory, used = held(ours)
        seconds, written, errors = time.perf_counter() - begin, output.communicate()[0], told.seek(0) or told.read()
        with Connection(far.address) as connection:
            came = connection.expect(200, "GET", "/told", fields="Host: x\r\n")
    seen = ours.returncode, errors, came["wrong"], written, came["puts"], came["posts"]
    must(seen == (0, b"", 0, text.format(size), size * puts, size * posts), f"{line} of {size} made up objects: {seen}")
    return memory, seconds, used


def memories(program: Word, plain: Word, sizes: Sequence[int], _runs: int) -> None:
    table = Table("line:<8", "objects:9", "MB:8.2f", "s a 10,000:12.2f", "of it:8.2f")
    first: Dict[str, float] = {}
    for size in sizes:
        for name in WANTED:
            memory, *seconds = made_up(program, name, plain, size)
            table.row(name, size, memory, *(it / size * 10_000 for it in seconds))
            must(memory < first.setdefault(name, memory) + SLACK, f"the memory of {name} grows with the objects")


# What is timed, and by so many objects or lines.
WORKS = {"migrate": (migrations, (1_000, 4_000, 16_000)), "memory": (memories, (1_000, 20_000, 100_000))}


def main() -> None:
    parser = parser_of(__doc__, runs=3)
    parser.add_argument("work", choices=WORKS, help="what is timed")
    parser.add_argument("--plain", required=True, help="the programs in Go: a client for migrate, a server for memory")
    parser.add_argument("--sizes", type=int, nargs="+", help="so many objects, or lines")
    options = parser.parse_args()
    work, sizes = WORKS[options.work]
    work(built(options.program), options.plain, options.sizes or sizes, options.runs)


if __name__ == "__main__":
    main()
