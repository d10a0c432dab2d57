#!/usr/bin/env python3
"""Looks at `kubeconv serve --converter` from outside, with converters as they are, which are killed and started again meanwhile:

    python3 checks/converters.py KUBECONV [look] [soak] [--seconds N] [--connections N] [--words WORD ..]

`look`, with the converter of examples/converter: what is created at one version is read at the other, as the converter turns it. With the
converter killed a create is answered 502 and enters nothing, and so is a read at a version at which the object isn't stored; the connection
goes on. Once it is started again all goes on, and a migration that was begun meanwhile ends: each object stands at the new version then, as it
was written.

`soak`, with the same one, by Content-Length and in chunks, and with `kubeconv review` behind the webhook of examples/webhook, of the shared
definition: for so many seconds (20) so many connections (16) write and read at both versions, history.py judges their answers, and one of them
moves the storage version and starts migrations, while the converter is killed every few seconds, and started again a second later at the same
port. Where a request is answered 502 for want of a converter, nothing was entered, so that it is made again. At the end nothing is lost, the
last migration ends, and no object stands at another version.

Both are made where none is named. Each step says what it saw, and the status is 1 where something is wrong. WORDs are more words of `serve`."""
from __future__ import annotations

import argparse
import json
import sys
import threading
import time
from typing import Any, List, Tuple, Type

import parts  # noqa: F401
from clients import Beside, Client, judged
from harness.client import Address, Connection
from harness.crontabs import CERTIFICATES, MIGRATIONS, head_of, looked_at, migration, move, number_of
from harness.programs import SHARED_FILES, TOP, Word, built, parser_of, tables_of
from harness.server import Listening, Server, at_once
from harness.told import check, end, looked, same, told_of

EXAMPLE, WEBHOOK = TOP / "examples/converter", TOP / "examples/webhook/serve.py"
CONVERTER, DEFINITION = EXAMPLE / "converter.py", EXAMPLE / "certificates.json"
KEPT = "converter.example.com/v1"
OBJECTS, CALLERS = 300, 16  # a migration has so many objects, which so many callers create
# So long a converter runs and is away, so long a request waits that had none, and behind so many seconds storage is moved.
RUNS, AWAY, AGAIN, MOVES = 4, 1, 0.1, 3
WORKERS, OPERATOR = 2, 0
# The code and the reason of an answer for want of a converter.
FAILED = 502, "ConverterFailed"


class Converter:
    """A converter at a port that the system chose first, which can be killed and started again there. None stands for the port."""

    def __init__(self, *line: Any) -> None:
        self.line, self.port = line, 0
        self.start()

    def __enter__(self) -> "Converter":
        return self

    def __exit__(self, *_why: object) -> None:
        self.kill()

    def start(self, *line: Any) -> None:
        """Starts it, by another line where one is given."""
        self.line = line or self.line
        self.running = Listening([sys.executable, *(self.port if it is None else it for it in self.line)])
        self.port = self.running.port

    def kill(self) -> None:
        self.running.stop()

    def come_and_go(self, over: threading.Event) -> None:
        """Kills it and starts it again, until `over` is set. Then it runs."""
        while not over.wait(RUNS):
            self.kill()
            over.wait(AWAY)
            self.start()

    def server(self, program: Word, definition: Word, words: Tuple[str, ...] = ()) -> Server:
        """A server that asks it."""
        return Server(program, WORKERS, words=words, files=["--crd", definition, "--hub", "v1", "--converter", f"http://127.0.0.1:{self.port}/"])


# ---- what is looked at


def path(version: str, name: Any = None) -> str:
    return CERTIFICATES.path_of(version, "default", name)


def create(caller: Connection, version: str, name: str, spec: Any) -> Tuple[int, Any]:
    return caller.ask("POST", path(version), {**head_of("Certificate", version, name), "spec": spec})


def shows(caller: Connection, version: str, name: str, wanted: Any) -> Any:
    shown = caller.expect(200, "GET", path(version, name))
    same(f"the spec of {name} at {version}", shown["spec"], wanted)
    return shown


def failed(answer: Tuple[int, Any]) -> None:
    same("code and reason", (answer[0], answer[1].get("reason")), FAILED)


def both_ways(caller: Connection) -> None:
    """Each version is read as the converter turns it, and what v1beta1 has no field for comes back."""
    old = json.loads((EXAMPLE / "certificate.json").read_text())
    caller.expect(201, "POST", path("v1beta1"), old)
    shows(caller, "v1", "a", {"dnsName": "a.example.com", "privateKey": {"algorithm": "RSA", "size": 2048}})
    shows(caller, "v1beta1", "a", old["spec"])
    new = {"dnsName": "b.example.com", "privateKey": {"algorithm": "RSA", "rotationPolicy": "Always", "size": 4096}}
    same("a create", create(caller, "v1", "b", new)[0], 201)
    shows(caller, "v1", "b", new)
    shown = shows(caller, "v1beta1", "b", {"dnsName": "b.example.com", "keyAlgorithm": "RSA", "keySize": 4096})
    same("what is kept", json.loads(shown["metadata"]["annotations"][KEPT]), {"privateKey": {"rotationPolicy": "Always"}})


def without_a_converter(address: Address) -> None:
    """A create is 502 and enters nothing; what is stored as it is asked for needs none. All over one connection, which has shown nothing yet."""
    with Connection(address) as caller:
        for version in "v1", "v1beta1":
            failed(create(caller, version, "c", {}))
        failed(caller.ask("GET", path("v1", "a")))
        same("what is stored", caller.expect(200, "GET", path("v1beta1", "a"))["spec"]["keySize"], 2048)
        same("what was refused", caller.ask("GET", path("v1beta1", "c"))[0], 404)


def goes_on(caller: Connection, last: int) -> None:
    """The next create has the next number."""
    code, item = create(caller, "v1", "d", {"dnsName": "d.example.com"})
    same("code and number", (code, number_of(item)), (201, last + 1))
    shows(caller, "v1beta1", "d", {"dnsName": "d.example.com"})


def fill(address: Address) -> None:
    """Creates objects by callers beside each other."""
    codes: List[int] = []

    def some(first: int) -> None:
        with Connection(address) as caller:
            for number in range(first, OBJECTS, CALLERS):
                codes.append(create(caller, "v1", f"m{number}", {"dnsName": f"{number}.example.com", "privateKey": {"size": number}})[0])

    at_once(some, [(first,) for first in range(CALLERS)])
    same("codes", codes, [201] * OBJECTS)


def still_runs(caller: Connection) -> None:
    """A migration begins, and doesn't end."""
    move(caller, CERTIFICATES)
    caller.expect(201, "POST", MIGRATIONS, migration("m", "certificates"))
    time.sleep(1)
    same("its condition", caller.expect(200, "GET", f"{MIGRATIONS}/m")["status"]["conditions"][-1]["type"], "Running")


def migrated(caller: Connection, converter: Converter) -> None:
    """The migration ends by a converter that fails at times. By one that doesn't, each object then stands at v1, as it was written."""
    same("its condition", looked_at(caller, "m")[0], "Succeeded")
    converter.kill()
    converter.start(CONVERTER, None)
    for number in range(OBJECTS):
        stored = caller.expect(200, "GET", f"/raw/default/m{number}")
        wanted = {"dnsName": f"{number}.example.com", "privateKey": {"size": number}}
        same("what is stored", (stored["apiVersion"], stored["spec"]), ("example.com/v1", wanted))
        shows(caller, "v1beta1", f"m{number}", {"dnsName": f"{number}.example.com", "keySize": number})


def look(program: Word, _options: argparse.Namespace) -> None:
    """What is looked at, while the converter comes and goes."""
    with Converter(CONVERTER, None) as converter, converter.server(program, DEFINITION) as server, Connection(server.address) as caller:
        looked("objects of one version are read at the other", both_ways, caller)
        last = number_of(caller.expect(200, "GET", path("v1beta1", "b")))
        converter.kill()
        looked("without a converter a create is 502 and enters nothing, and its connection goes on", without_a_converter, server.address)
        converter.start()
        looked("with the converter started again the next create has the next number", goes_on, caller, last)
        looked(f"{OBJECTS} objects are created by {CALLERS} callers", fill, server.address)
        converter.kill()
        looked("a migration begins without a converter, and doesn't end", still_runs, caller)
        converter.start(CONVERTER, "--chunked", "--fail", "7", None)
        looked("with one that fails each seventh time it ends, and nothing is lost", migrated, caller, converter)


# ---- clients of a soak


class Patient(Client):
    """A client that asks again where there was no converter, and counts how often."""

    failed = 0

    def ask(self, method: str, path: str, body: Any = None) -> Tuple[int, Any]:
        code, shown = super().ask(method, path, body)
        while code == FAILED[0] and time.monotonic() < self.until + AWAY + MOVES:
            self.check(shown.get("reason") == FAILED[1], f"another refusal: {shown}")
            self.failed += 1
            time.sleep(AGAIN)
            code, shown = super().ask(method, path, body)
        return code, shown


class Holder(Patient):
    """A client that writes certificates."""

    resource = CERTIFICATES


def soak_by(what: str, program: Word, converter: Converter, kind: Type[Patient], definition: Word, options: argparse.Namespace) -> None:
    """So many clients for so many seconds, while the converter comes and goes."""
    print(f"{what}: {options.connections} connections for {options.seconds} s", flush=True)
    with converter, converter.server(program, definition, options.words) as server:
        each = [MOVES if number == OPERATOR else float("inf") for number in range(options.connections)]
        clients = [kind(server.address, "k", number, options.seconds, moves_each=moves) for number, moves in enumerate(each)]
        over = threading.Event()
        keeper = threading.Thread(target=converter.come_and_go, args=(over,), daemon=True)
        keeper.start()
        with Beside(clients) as beside:
            beside.join()
        over.set()
        keeper.join()
        wrong, history = judged(server.address, "k", beside.came(), kind.resource)
        with Connection(server.address) as connection:
            ended = [it["status"]["conditions"][0]["type"] for it in connection.expect(200, "GET", MIGRATIONS)["items"]]
        failed, asked = sum(it.failed for it in clients), sum(it.asked for it in clients)
        said = f"{asked} requests, {failed} of them without a converter, {len(history.written)} writes, {len(history.touched)} touches seen, migrations "
        said += ", ".join(f"{it} {ended.count(it)}" for it in sorted(set(ended)))
        check(failed and history.written and ended and "Running" not in ended and not wrong, said + told_of(wrong))


def soak(program: Word, options: argparse.Namespace) -> None:
    for what, words in ("the example's converter", []), ("the example's converter, in chunks", ["--chunked"]):
        soak_by(what, program, Converter(CONVERTER, *words, None), Holder, DEFINITION, options)
    review = Converter(WEBHOOK, None, program, "review", *SHARED_FILES)
    soak_by("kubeconv review behind the webhook", program, review, Patient, SHARED_FILES[1], options)


def main() -> None:
    counts = {"seconds": (20, "so long each converter is asked"), "connections": (16, "of which one moves the storage version")}
    parser = parser_of(__doc__, "program", **counts)
    parser.add_argument("--words", nargs="*", default=[], help="more words of serve")
    for step, options in tables_of(parser, {"look": look, "soak": soak}):
        step(built(options.program), options)
    end()


if __name__ == "__main__":
    main()
