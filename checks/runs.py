"""What the steps of outside.py share: runs of `migrate`, `dump` and `load`, and the servers that they ask."""
from __future__ import annotations

import json
import subprocess
import sys
import time
import urllib.request
from typing import Any, Tuple

import parts  # noqa: F401
from clients import Beside, Client, judged
from history import History
from harness import crontabs
from harness.client import Address, Connection
from harness.crontabs import GROUP
from harness.programs import Word
from harness.server import Listening
from harness.told import check, told_of

CLIENTS, SECONDS = 8, 300
# How a run may end whose server ends meanwhile: its last answer may have been begun, which is an answer of another form.
SERVER_ENDED = (11, b"kubeconv: link failed\n"), (12, b"kubeconv: answer 0\n")
# Objects that the server in Go has by these modes, at which a line ends with `answer 0`, as docs/COMMANDS.md says.
LIMITS = {"etcd": (40, "namespaces `a` and `a-b` in the order of etcd"), "fraction": (2, "numbers with a fraction"), "cluster": (2, "no namespaces")}


def move(address: Address) -> str:
    """The other storage version."""
    with Connection(address) as connection:
        return crontabs.move(connection)


def keeper(server: Word, mode: str, objects: int, size: int) -> Listening:
    """The server in Go."""
    return Listening([server, "keeper", mode, objects, size])


def proxied(address: Address, *words: str) -> Listening:
    """`kubectl proxy` before a server."""
    return Listening(["kubectl", "--server=http://{}:{}".format(*address), "--kubeconfig=/dev/null", "proxy", "--port=0", *words])


def asked_of(address: Address, path: str) -> Tuple[Any, Any]:
    """The head and the document of an answer, which may come in chunks."""
    with urllib.request.urlopen("http://{}:{}{}".format(*address, path), timeout=SECONDS) as answer:
        return answer.headers, json.load(answer)


def begun(program: Word, line: str, address: Address, version: str = "v1", **streams: Any) -> "subprocess.Popen[bytes]":
    streams = {"stdin": subprocess.DEVNULL, "stdout": subprocess.PIPE, "stderr": subprocess.PIPE, **streams}
    return subprocess.Popen([program, line, "http://{}:{}{}/{}/crontabs".format(*address, GROUP, version)], **streams)


class Run:
    """One run of a line to its end: its status, what it wrote, and what it told."""

    def __init__(self, program: Word, line: str, address: Address, version: str = "v1", given: Any = None, **streams: Any) -> None:
        begin = time.monotonic()
        with begun(program, line, address, version, **({"stdin": subprocess.PIPE} if given else {}), **streams) as run:
            try:
                output, told = run.communicate(given, SECONDS)
            except subprocess.TimeoutExpired:
                run.kill()
                sys.exit(f"no end of {line} in {SECONDS} s")
        self.seconds, self.status, self.output = time.monotonic() - begin, run.returncode, output or b""
        self.lines = self.output.splitlines(keepends=True)
        self.told = told.decode().strip().replace("kubeconv: ", "", 1)

    def ended(self, status: int, told: str = "", output: Any = None) -> bool:
        return (self.status, self.told) == (status, told) and (output is None or self.output == output)

    def loaded(self, created: int, present: int = 0) -> bool:
        return self.ended(0, "", b"created %d\npresent %d\n" % (created, present))

    def said(self) -> str:
        wrote = self.output.decode().strip().replace("\n", ", ") if len(self.output) < 100 else f"{len(self.lines)} lines"
        return f"{wrote or 'nothing'}; status {self.status}{f', {self.told!r}' if self.told else ''}, {self.seconds:.2f} s"


class Others(Beside):
    """Clients that write beside, until the end of the block; the storage version is moved by who uses them."""

    def __init__(self, address: Address, mark: str, pause: float) -> None:
        super().__init__([Client(address, mark, number, pause=pause) for number in range(CLIENTS)])
        self.address, self.mark = address, mark

    def run(self, program: Word, line: str, version: str) -> Run:
        """A run beside the clients, which wait longer where its list is forgotten meanwhile."""
        while True:
            run = Run(program, line, self.address, version)
            if not run.ended(13, "contested", b""):
                return run
            print(f"       {run.said()}: the list was forgotten; the clients wait twice as long now", flush=True)
            for it in self.clients:
                it.pause = 2 * max(it.pause, 0.005)

    def look(self) -> History:
        """What the clients were answered, by one history, in which a put of `migrate` looks like a worker's touch."""
        wrong, history = judged(self.address, self.mark, self.came(), is_moved=True)
        asked, writes = sum(it.asked for it in self.clients), len(history.written)
        check(not wrong, f"{asked} requests of clients, {writes} writes, {len(history.touched)} puts of migrate seen{told_of(wrong)}")
        return history
