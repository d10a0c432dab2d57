#!/usr/bin/env python3
"""Looks at what the connections of `kubeconv serve` come to over TCP:

    python3 checks/connections.py PROGRAM

PROGRAM is a built kubeconv, or the launcher ./kubeconv. It serves at a port of the system's choice, by the definition that is built in
where no other is named. Each function of CASES is a case. Answers are compared byte for byte, but for moments and the first half of a uid,
which differ in each run; those of the last case are held against one history by history.py. So are the output, which is the one line that
tells the address, the error line and the status. Prints a line for each case; what differs is told on standard error, and then the status
is 1. It takes some seconds. A case for which the machine lacks something is passed over.
"""
import fcntl
import json
import re
import resource
import select
import socket
import struct
import subprocess
import sys
import termios
import time

import parts  # noqa: F401
from clients import Beside, Client, judged
from harness.client import Connection, request
from harness.crontabs import DEFINITION, MIGRATIONS, body_of, migration, moved, path_of
from harness.documents import object_of, spelled
from harness.programs import FIRST_FILES, SHARED_FILES, TOP
from harness.server import Server
from harness.told import Skipped, Wrong, cases, same, wants

# So many seconds an answer, or the end of the program, is waited for, and what isn't to come.
SECONDS, MOMENT = 30, 0.2
# So many connections have a thread of their own at once, and so many handles each.
THREADS, HANDLES = 64, 2
HEAD_BYTES = 16_384
TASKS = 4_000  # requests of each of two callers
NOT_LISTENING = 8, b"", b"kubeconv: listening failed\n"

STAMPS = re.compile(rb'(?<="creationTimestamp":")\d{4}-\d\d-\d\dT\d\d:\d\d:\d\dZ(?=")')
UIDS = re.compile(rb'(?<="uid":")[0-9a-f]{8}-[0-9a-f]{4}-8[0-9a-f]{3}-[89ab][0-9a-f]{3}(?=-)')


def masked(text):
    """A text with one moment and one first half of a uid in the places of all."""
    return UIDS.sub(b"00000000-0000-8000-8000", STAMPS.sub(b"2024-01-02T03:04:05Z", text))


def response(line, document):
    text = spelled(document).decode()
    return f"HTTP/1.1 {line}\r\nContent-Type: application/json\r\nContent-Length: {len(text)}\r\n\r\n{text}".encode()


def shown(line, version, host, number):
    """The answer that shows the object, which was created first of all, at a version and a number."""
    uid, stamp = "00000000-0000-8000-8000-000000000002", "2024-01-02T03:04:05Z"
    metadata = {"creationTimestamp": stamp, "generation": 1, "name": "a", "namespace": "default", "resourceVersion": str(number), "uid": uid}
    fields = {"address" if version == "v1beta1" else "host": host, "metadata": metadata}
    return response(line, dict(sorted({**object_of(version, "a"), **fields}.items())))


def absent(name):
    """The answer that there is no such object."""
    details = {"group": "example.com", "kind": "crontabs", "name": name}
    status = {"apiVersion": "v1", "code": 404, "details": details, "kind": "Status", "message": f'crontabs.example.com "{name}" not found'}
    return response("404 Not Found", {**status, "metadata": {}, "reason": "NotFound", "status": "Failure"})


def creates(host):
    return request("POST", path_of("v1beta1"), object_of("v1beta1", "a", address=host))


def gets(name):
    return request("GET", path_of("v1", name=name))


class Peer(Connection):
    """The peer of one connection."""

    def answer(self):
        return masked(self.next().text)

    def told(self, asked):
        self.send(asked)
        return self.answer()

    def end(self):
        """Sends nothing more, and is told nothing more."""
        self.socket.shutdown(socket.SHUT_WR)
        same("what comes behind the last answer", self.held + self.socket.recv(1), b"")
        self.close()

    def is_told(self, seconds):
        """Whether something comes within so many seconds."""
        return bool(select.select([self.socket], [], [], seconds)[0])

    def is_held_up(self):
        """Waits until nothing more comes, as what came isn't read."""
        before, count = -1, 0
        while before != count or not count:
            before, count = count, struct.unpack("i", fcntl.ioctl(self.socket, termios.FIONREAD, b"\0" * 4))[0]
            time.sleep(MOMENT)


class Ending(Server):
    """The program over a line of `serve`, for so many connections and with so many workers, until it ends so."""

    def __init__(self, program, connections, workers, status=0, errors=b"", files=FIRST_FILES, place="127.0.0.1:0"):
        super().__init__(program, workers, connections, files=files, place=place, stderr=subprocess.PIPE)
        self.wanted = status, b"", errors
        if not re.fullmatch(r"listening on (127\.0\.0\.1|\[::1\]):[1-9][0-9]*\n", self.told):
            self.stop()
            raise Wrong(f"it told {self.told!r}")

    def __exit__(self, kind, _why, _where):
        if kind is None:
            output, errors = self.process.communicate(timeout=SECONDS)
            same("status, output and errors", (self.process.returncode, output, errors), self.wanted)
        self.stop()

    def connect(self):
        return Peer(self.address, SECONDS)


def one_connection_over_tcp(program):
    """Two requests are answered, and the program ends behind the one connection."""
    with Ending(program, 1, 2) as server:
        peer = server.connect()
        same("the create", peer.told(creates("localhost") + gets("a")), shown("201 Created", "v1beta1", "localhost", 2))
        same("the get", peer.answer(), shown("200 OK", "v1", "localhost", 2))
        peer.end()


def three_connections_and_a_worker_of_serve(program):
    """Two connections, which came first, wait until a third was told that the migration succeeded which it started and a worker carried
    out beside the three. A program with one thread would wait for the first one, and never answer the third."""
    stores_v1 = request("PUT", DEFINITION, moved(json.loads(FIRST_FILES[1].read_text())))
    with Ending(program, 3, 1) as server:
        first, second, third = server.connect(), server.connect(), server.connect()
        third.send(creates("localhost") + stores_v1 + request("POST", MIGRATIONS, migration("m")))
        same("the create", third.answer(), shown("201 Created", "v1beta1", "localhost", 2))
        same("the storage version and the start", [third.answer().split(b" ")[1] for _ in range(2)], [b"200", b"201"])
        until = time.monotonic() + SECONDS
        while b'"Succeeded"' not in third.told(request("GET", f"{MIGRATIONS}/m")):
            same("whether the migration comes to its end in time", time.monotonic() < until, True)
            time.sleep(0.01)
        for peer in first, second:
            same("the get", peer.told(gets("a")), shown("200 OK", "v1", "localhost", 5))
        for peer in first, second, third:
            peer.end()


def one_more_connection_than_threads(program):
    """As many connections as have a thread at once wait with a part of a request for one that comes behind them, which the accepting
    thread serves; one more isn't answered before that one has ended. A long part keeps a connection for a minute."""
    part, rest = gets("x")[:-4] + b"\r\nX: " + b"x" * 15_000, b"\r\n\r\n"
    with Ending(program, THREADS + 2, 0) as server:
        waiting = [server.connect() for _ in range(THREADS)]
        for peer in waiting:
            peer.send(part)
        last, behind = server.connect(), server.connect()
        same("the one behind them", last.told(gets("x")), absent("x"))
        same("threads", server.count("task"), THREADS + 1)
        last.send(part)
        behind.send(gets("x"))
        same("whether the last one is answered meanwhile", behind.is_told(MOMENT), False)
        same("the one behind them, again", last.told(rest), absent("x"))
        last.end()
        same("the last one", behind.answer(), absent("x"))
        behind.end()
        for peer in waiting:
            same("one that waited", peer.told(rest), absent("x"))
            peer.end()


def connections_that_fail_in_the_middle(program):
    """One breaks in the middle of a request, one ends there, and one breaks in the middle of answers that it doesn't read. The others, one
    before and one behind these, are answered, and the program ends as if nothing had been."""
    host = "h" * 200_000
    with Ending(program, 5, 1) as server:
        first, half, cut, deaf = (server.connect() for _ in range(4))
        same("the create", first.told(creates(host)), shown("201 Created", "v1beta1", host, 2))
        for peer in half, cut:
            peer.send(creates("localhost").replace(b'"a"', b'"b"')[:-10])
        deaf.send(gets("a") * 100)
        deaf.is_held_up()
        half.breaks()
        cut.close()
        deaf.breaks()
        last = server.connect()
        for peer in last, first:
            same("the get", peer.told(gets("a")), shown("200 OK", "v1", host, 2))
            same("what was cut", peer.told(gets("b")), absent("b"))
            peer.end()


def a_head_without_an_end(program):
    """A head of more bytes than there is room for is answered 431, and the connection ends."""
    with Ending(program, 1, 0) as server:
        peer = server.connect()
        same("its answer", peer.told(b"GET / HTTP/1.1\r\nX: ".ljust(HEAD_BYTES, b"x")).split(b" ")[1], b"431")
        same("what comes behind", peer.rest(), b"")


def an_accept_that_fails(program):
    """There are handles for three connections. These are answered to their end, and then the program ends, as it can't listen."""
    with Ending(program, 4, 2, 8, b"kubeconv: listening failed\n") as server:
        most = server.count("fd") + 3 * HANDLES
        resource.prlimit(server.process.pid, resource.RLIMIT_NOFILE, (most, most))
        peers = [server.connect() for _ in range(3)]
        for peer in reversed(peers):
            same("the get", peer.told(gets("x")), absent("x"))
        for peer in peers:
            peer.end()


def an_address_that_is_taken(program):
    """Nothing is told, and the status is the same; and so where an address is none."""
    with socket.create_server(("127.0.0.1", 0)) as taken:
        for place in f"127.0.0.1:{taken.getsockname()[1]}", "127.0.0.1:70000", "nowhere", "192.0.2.1:80":
            line = [program, "serve", *FIRST_FILES, "--listen", place]
            came = subprocess.run(line, stdin=subprocess.DEVNULL, capture_output=True, timeout=SECONDS)
            same(f"status, output and errors at {place}", (came.returncode, came.stdout, came.stderr), NOT_LISTENING)


def is_answered_as_by_pipe(program, files, asked, place, pieces):
    """What one connection is answered is what `pipe` writes for the same requests."""
    wanted = subprocess.run([program, "pipe", *files], input=asked, stdout=subprocess.PIPE, timeout=SECONDS).stdout
    with Ending(program, 1, 0, files=files, place=place) as server, server.connect() as peer:
        for at in range(0, len(asked), pieces):
            peer.send(asked[at : at + pieces])
        peer.socket.shutdown(socket.SHUT_WR)
        same(f"the answers at {server.told.strip()}, by pieces of {pieces} bytes", masked(peer.rest()), masked(wanted))


def the_bytes_of_pipe(program):
    """By both definitions, by a name, also where each byte comes by itself."""
    first, shared = ((TOP / f"examples/{name}.http").read_bytes() for name in ("first", "crontabs"))
    shared += b"GET /apis/example.com/v1/crontabs HTTP/1.1\r\nConnection: close\r\n\r\n"
    is_answered_as_by_pipe(program, FIRST_FILES, first, "localhost:0", len(first))
    for pieces in len(shared), 1:
        is_answered_as_by_pipe(program, SHARED_FILES, shared, "127.0.0.1:0", pieces)


def the_bytes_of_pipe_over_ipv6(program):
    try:
        socket.create_server(("::1", 0), family=socket.AF_INET6).close()
    except OSError as why:
        raise Skipped(str(why)) from why
    first = (TOP / "examples/first.http").read_bytes()
    is_answered_as_by_pipe(program, FIRST_FILES, first, "[::1]:0", len(first))


def by_client(program, *words):
    """A client of the machine is shown an object, which it or another creates, and the program ends behind its connection."""
    wants(words[0])
    with Ending(program, 2, 0, files=SHARED_FILES) as server:
        with server.connect() as peer:
            peer.expect(201, "POST", path_of("v1beta1"), body_of("v1beta1", "a", ("localhost", "1234", 5)))
        line = [it.replace("URL", "http://{}:{}".format(*server.address)) for it in words]
        came = json.loads(subprocess.run(line, stdout=subprocess.PIPE, timeout=SECONDS).stdout)
        same("what it is shown", (came["host"], came["port"]), ("localhost", "1234"))


def curl(program):
    body = spelled(body_of("v1", "b", ("localhost", "1234", 5))).decode()
    by_client(program, "curl", "-s", "-d", body, "URL" + path_of("v1"))


def kubectl(program):
    by_client(program, "kubectl", "--server=URL", "--kubeconfig=/dev/null", "get", "--raw", path_of("v1", name="a"))


class Sharing(Client):
    """A caller that has no objects of its own, of a migration or in lists, so that each number is that of one of the calls."""

    steps = {"shared": 100}


def two_callers(program):
    """Two callers create, read, replace and delete the same objects beside each other. There is one history of writes, one after another, so that
    what each call was answered was so at a moment of it between its request and its answer, and what stands at the end is what all come to."""
    with Ending(program, 3, 0, files=SHARED_FILES) as server:
        with Beside([Sharing(server.address, "t", number, requests=TASKS) for number in range(2)]) as callers:
            came = callers.join().came()
        wrong, history = judged(server.address, "t", came)
        same("the faults of the history", wrong[:3], [])
        same("requests", sum(it.asked for it in came), 2 * TASKS)
        same("the number behind all writes", history.calls[-1].number, history.end)


CASES = [
    one_connection_over_tcp, three_connections_and_a_worker_of_serve, one_more_connection_than_threads, connections_that_fail_in_the_middle,
    a_head_without_an_end, an_accept_that_fails, an_address_that_is_taken, the_bytes_of_pipe, the_bytes_of_pipe_over_ipv6, curl, kubectl,
    two_callers,
]  # fmt: skip


if __name__ == "__main__":
    if len(sys.argv) != 2:
        sys.exit(__doc__)
    cases(CASES, sys.argv[1])
