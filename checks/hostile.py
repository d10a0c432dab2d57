#!/usr/bin/env python3
"""Puts hostile peers in front of `kubeconv serve`, and looks whether the others are served meanwhile:

- one that sends a byte a second: it is answered in the end;
- one that asks for lists and never reads an answer: it is let go a minute after the last byte was written to it;
- 200 connections on which nothing is sent: where there are so many, those that have a thread are let go after some seconds;
- 80 such connections, and 80 that send a byte a second of a request: one that comes behind them is answered within 5 seconds.

While they are there another connection makes requests, and migrations are started, which the workers are to finish. A connection that
comes behind the 200 is to be answered too: the system's queue holds 129, and whose try comes next when others are behind these is by
chance. Prints what each came to, and ends with status 1 where something was stopped. It takes some four minutes, nearly all of which it
waits; with --short some seconds. Peers that are gone in the middle are those of connections.py."""
from __future__ import annotations

import concurrent.futures
import contextlib
import pathlib
import socket
import threading
import time
from typing import Any, Iterator, Optional, Sequence

import parts  # noqa: F401
from harness.client import Address, Connection, Gone, request
from harness.crontabs import MIGRATIONS, body_of, looked_at, migration, move, path_of
from harness.programs import built, parser_of
from harness.server import Server
from harness.told import check, end

# So many connections are idle, and so long one is kept; so many are idle in a crowd and so many slow, and so long one behind them may wait.
IDLE, IDLE_SECONDS = 200, 60
CROWD, CROWD_SECONDS = 80, 5
# So many seconds late an end may come, and so many an answer may take that others hold up.
LATE_SECONDS, SLOW_SECONDS = 15, 5
# So little is held of what is sent to one that doesn't read. So many objects are worth not reading, and so many each look creates.
HELD_BYTES, LISTED, PAIRS = 16_384, 500, 100
SHOWN = path_of("v1", "many", "m000")


class Early(Connection):
    """A connection that was there before, which asks every second, and how long its slowest answer took."""

    def __init__(self, address: Address) -> None:
        super().__init__(address)
        self.lock, self.over, self.slowest = threading.Lock(), threading.Event(), 0.0
        self.thread = threading.Thread(target=self.go_on, daemon=True)
        self.thread.start()

    def ask(self, method: str, path: str, body: Any = None, fields: str = "") -> Any:
        with self.lock:
            start = time.monotonic()
            came = super().ask(method, path, body, fields)
            self.slowest = max(self.slowest, time.monotonic() - start)
        return came

    def go_on(self) -> None:
        try:
            while not self.over.wait(1):
                self.ask("GET", SHOWN)
        except Gone as gone:
            check(False, f"the connection that was there before is gone: {gone}")

    def close(self) -> None:
        self.over.set()
        self.thread.join()
        super().close()


def serves(early: Early, mark: str) -> None:
    """Creates objects and reads them, moves the storage version, and sees a migration to its end."""
    for number in range(PAIRS):
        early.expect(201, "POST", path_of("v1", "hostile"), body_of("v1", f"{mark}{number}", ("h", str(number), 1)))
        early.expect(200, "GET", path_of("v1beta1", "hostile", f"{mark}{number}"))
    move(early)
    early.expect(201, "POST", MIGRATIONS, migration(f"m{mark}"))
    condition, _shown = looked_at(early, f"m{mark}")
    check(condition == "Succeeded", f"the workers finish a migration: {condition}")


def slow(address: Address) -> None:
    """Sends a request by one byte a second, which takes longer than a peer that sends nothing is waited for."""
    with Connection(address, 3 * IDLE_SECONDS) as connection:
        try:
            for byte in request("GET", path_of("v1", "hostile", "slow")):
                connection.send(bytes([byte]))
                time.sleep(1)
            came: Any = connection.next().code
        except Gone as gone:
            came = gone
    check(came == 404, f"the one that sends a byte a second is answered {came}")


def waiting(address: Address, port: int) -> int:
    """How many bytes the system holds that the server wrote to this port of ours, and that aren't read yet."""
    for row in pathlib.Path("/proc/net/tcp").read_text().splitlines()[1:]:
        _number, here, there, _state, queues = row.split()[:5]
        if here.endswith(f":{address[1]:04X}") and there.endswith(f":{port:04X}"):
            return int(queues.partition(":")[0], 16)
    return 0


def deaf(address: Address) -> None:
    """Asks for lists, and reads nothing, until it is let go, so many seconds from when the last byte was written to it."""
    asked = request("GET", "/apis/example.com/v1/crontabs?limit=500") * 10
    with contextlib.closing(socket.socket()) as peer:
        peer.setsockopt(socket.SOL_SOCKET, socket.SO_RCVBUF, HELD_BYTES)
        peer.connect(address)
        peer.settimeout(1)
        start = wrote = time.monotonic()
        held, seconds = 0, 0.0
        while not seconds and time.monotonic() - start < 10 * IDLE_SECONDS:
            now = waiting(address, peer.getsockname()[1])
            if now > held:
                held, wrote = now, time.monotonic()
            try:
                peer.send(asked)
                time.sleep(0.1)
            except socket.timeout:
                continue
            except OSError:
                seconds = time.monotonic() - wrote
    near = IDLE_SECONDS - 2 <= seconds <= IDLE_SECONDS + LATE_SECONDS
    check(near, f"the one that never reads is let go {seconds:.0f} seconds after the last byte")


@contextlib.contextmanager
def silent(address: Address, count: int) -> Iterator[Sequence[socket.socket]]:
    """Connections on which nothing is sent. They aren't waited for, since the system's queue of connections may be full."""
    with contextlib.ExitStack() as stack:
        held = [stack.enter_context(contextlib.closing(socket.socket())) for _ in range(count)]
        for it in held:
            it.setblocking(False)
            it.connect_ex(address)
        yield held


def behind(address: Address, what: str, most: float = float("inf")) -> None:
    """A connection that comes behind others: what it is answered, and when."""
    start = time.monotonic()
    try:
        with Connection(address, 6 * IDLE_SECONDS) as connection:
            came: Any = connection.ask("GET", SHOWN)[0]
    except (Gone, OSError) as fault:
        came = fault
    seconds = time.monotonic() - start
    check(came == 200 and seconds < most, f"a connection behind {what} is answered {came}, after {seconds:.1f} seconds")


def seconds_to_end(held: socket.socket) -> Optional[float]:
    """The seconds after which a connection on which nothing was sent is closed, or none where it isn't."""
    start = time.monotonic()
    held.settimeout(IDLE_SECONDS + LATE_SECONDS)
    with contextlib.suppress(OSError):
        return time.monotonic() - start if held.recv(1) == b"" else None
    return None


def idle(address: Address, early: Early) -> None:
    """Many send nothing, while one that was there before makes requests; then one more comes, which is answered in the end."""
    with silent(address, IDLE) as held, concurrent.futures.ThreadPoolExecutor() as pool:
        ended, last = pool.submit(seconds_to_end, held[0]), pool.submit(behind, address, f"{IDLE} idle ones")
        serves(early, "idle")
        seconds, _came = ended.result(), last.result()
        check(seconds is not None and seconds < LATE_SECONDS, f"an idle connection was closed, seconds after the last came: {seconds}")


def crowd(address: Address) -> None:
    """Connections that say nothing and connections that say a byte a second of a request, and one that comes behind them."""
    over, asked = threading.Event(), request("GET", path_of("v1", "hostile", "drip"))

    def drip() -> None:
        for byte in asked:
            for it in dripping:
                with contextlib.suppress(OSError):
                    it.send(bytes([byte]))
            if over.wait(1):
                return

    with silent(address, CROWD), silent(address, CROWD) as dripping:
        thread = threading.Thread(target=drip, daemon=True)
        thread.start()
        time.sleep(0.1)
        behind(address, f"{CROWD} idle ones and {CROWD} slow ones", CROWD_SECONDS)
        over.set()
        thread.join()


def main() -> None:
    parser = parser_of(__doc__, workers=2)
    parser.add_argument("--short", action="store_true", help="without what takes a minute and more")
    options = parser.parse_args()
    with Server(built(options.program), options.workers) as server, concurrent.futures.ThreadPoolExecutor() as pool:
        address = server.address
        with Connection(address) as connection:
            for number in range(LISTED):
                connection.expect(201, "POST", path_of("v1", "many"), body_of("v1", f"m{number:03}", ("h" * 200, str(number), 1)))
        with Early(address) as early:
            peers = [] if options.short else [pool.submit(it, address) for it in (slow, deaf)]
            serves(early, "first")
            for peer in peers:
                peer.result()
            if not options.short:
                idle(address, early)
            crowd(address)
        check(early.slowest < SLOW_SECONDS, f"another connection is answered meanwhile, the slowest time after {early.slowest:.3f} seconds")
        check(server.process.poll() is None, "the server still runs")
        print(f"memory: {server.memory():.1f} MB, at most {server.memory('VmHWM'):.1f} MB; {server.count()} threads")
    end()


if __name__ == "__main__":
    main()
