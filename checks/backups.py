"""The steps of outside.py about `kubeconv dump` and `kubeconv load`:

- beside 8 clients that write and read: each dump that ends with 0 shows what stood at one moment, which isn't before what was answered
  when it began; its lines are in order, and have what they are to have; what is loaded meanwhile is there;
- a dump that is loaded into an empty server and dumped again is the same bytes, at each version; loaded once more all is present;
- lines that aren't posted or are refused, an input that is cut or comes in pieces, a `load` that is killed, servers that end meanwhile,
  and an output that fails: the status, the error line, and what stands behind it;
- against a server of Go's `net/http`, and through `kubectl proxy`."""
from __future__ import annotations

import json
import os
import subprocess
import tempfile
import time
from typing import Any, Dict, List, Tuple

from clients import SHARED
from history import Key
from runs import SECONDS, SERVER_ENDED, Others, Run, asked_of, begun, keeper, move, proxied
from harness.client import Address, Connection
from harness.crontabs import GROUP, VERSIONS, body_of, drawn_state, generator, path_of, state_of
from harness.documents import Document, name_of, object_of
from harness.programs import Word
from harness.server import Filled, Server
from harness.told import check, told_of

# Set anew by a server.
ANEW = "creationTimestamp", "deletionTimestamp", "generation", "resourceVersion", "uid"
# So many objects stand beside those of the clients; so often they are dumped, and each time so many lines are loaded.
OBJECTS, DUMPS, LINES = 2_000, 4, 100
# Lines of a `load` that is killed, or whose server ends, and how many stand before; and objects of the server in Go.
MANY, BEGUN, FAR = 600, 50, 520
# Objects whose lines have more than a state, and what each second one has besides.
ODD = [
    object_of("v1beta1", "kept", hostPort="nocolon", legacy="l", size="huge"),
    object_of("v1beta1", "texts", hostPort="ü:\U0001f600", note="\"\\\n\u0001\u007f", extra={"<&>": [None, {"b": -1, "a": 2**62}]}, unknown=1),
    object_of("v1", "bare"),
    object_of("v1", "owned", host="h", owner="me", level=3, paused=True, note=None),
]
MORE = {"labels": {"b": "1", "a": ""}, "annotations": {"example.com/n": "ß"}, "finalizers": ["example.com/f"]}


# ---- lines


def line_of(shown: Document) -> bytes:
    """The line of an object that is shown: its compact text, in the order of names, without what a server sets anew."""
    metadata = {name: value for name, value in shown["metadata"].items() if name not in ANEW}
    return json.dumps({**shown, "metadata": metadata}, separators=(",", ":"), sort_keys=True, ensure_ascii=False).encode() + b"\n"


def key_of(document: Document) -> Key:
    return document["metadata"]["namespace"], document["metadata"]["name"]


def lines_for(namespace: str, count: int) -> List[bytes]:
    """So many lines at v1, as a dump has them."""
    shown = [body_of("v1", f"o{number:06d}", drawn_state(generator(namespace, number))) for number in range(count)]
    return [line_of({**it, "paused": False, "metadata": {**it["metadata"], "namespace": namespace}}) for it in shown]


def stand_in(program: Word, address: Address, namespace: str) -> List[bytes]:
    """The lines of a namespace that a dump has."""
    return [it for it in Run(program, "dump", address).lines if f'"namespace":"{namespace}"'.encode() in it]


def faults_of_lines(lines: List[bytes], version: str) -> Tuple[List[str], List[Document]]:
    """What is wrong with the lines of a dump by themselves, and its documents."""
    documents = [json.loads(line) for line in lines]
    keys = [key_of(it) for it in documents]
    wrong = [f"a line is {line[:300]!r}" for line, it in zip(lines, documents) if line != line_of(it) or it["apiVersion"] != f"example.com/{version}"]
    return wrong + ["the lines are in another order, or an object has two"] * (keys != sorted(set(keys))), documents


# ---- beside clients of `serve`


def dump_beside(program: Word, others: Others, version: str) -> Tuple[int, Dict[Key, Any]]:
    """One dump while clients write. Gives the number that was seen before it, and the state of each object of the clients in it."""
    least = max(it.seen for it in others.clients)
    run = others.run(program, "dump", version)
    wrong, documents = faults_of_lines(run.lines, version)
    states = {key_of(it): state_of(it) for it in documents}
    filled = {("default", name_of(one)): drawn_state(generator("fill", one)) for one in range(OBJECTS)}
    wrong += [f"{key} is {states.get(key)}" for key, state in filled.items() if states.get(key) != state]
    check(run.ended(0) and not wrong, f"dump at {version}: {run.said()}{told_of(wrong)}")
    return least, {key: state for key, state in states.items() if key[0] == SHARED or key[0].startswith(others.mark)}


def load_beside(program: Word, others: Others, namespace: str) -> List[bytes]:
    """Lines are loaded while clients write, and then once more with as many behind them."""
    lines = lines_for(namespace, 2 * LINES)
    first, again = (Run(program, "load", others.address, given=b"".join(it)) for it in (lines[:LINES], lines))
    check(first.loaded(LINES) and again.loaded(LINES, LINES), f"load: {first.said()}; again with more: {again.said()}")
    return lines


def backups_beside(program: Word) -> None:
    """Dumps and loads while clients write."""
    print(f"dump and load beside the clients, which wait 20 ms behind each request, and {OBJECTS} objects more", flush=True)
    with Filled(program, OBJECTS) as server:
        with Others(server.address, "w", 0.02) as others:
            dumps, loaded = [], {}
            for number in range(DUMPS):
                if number % 2 == 0:
                    move(server.address)
                dumps.append(dump_beside(program, others, VERSIONS[number % 2]))
                loaded[f"loaded-{number}"] = load_beside(program, others, f"loaded-{number}")
        history = others.look()
        moments = [history.moment(states, least) for least, states in dumps]
        strange = [key for _least, states in dumps for key in states if key not in history.spans]
        check(None not in moments and not strange, f"the objects of the clients stood so at the numbers {moments}{told_of(strange)}")
        wrong = [it for it, lines in loaded.items() if stand_in(program, server.address, it) != lines]
        check(not wrong, f"what was loaded stands at the end: {sum(map(len, loaded.values()))} lines{told_of(wrong)}")


# ---- there and back


def odd_objects(address: Address) -> None:
    """Makes objects whose lines have more than a state."""
    with Connection(address) as connection:
        for number, body in enumerate(ODD):
            for namespace in "a", "a-b":
                metadata = {**body["metadata"], **(MORE if number % 2 else {})}
                connection.expect(201, "POST", path_of(body["apiVersion"].partition("/")[2], namespace), {**body, "metadata": metadata})
        # One that is to be deleted stays, as it has finalizers.
        connection.expect(200, "DELETE", path_of("v1", "a-b", "owned"))


def lines_back(program: Word) -> None:
    """A dump is loaded into an empty server, and dumped again."""
    with Filled(program, 510) as server:
        odd_objects(server.address)
        dumps = {version: Run(program, "dump", server.address, version) for version in VERSIONS}
        for version, dump in dumps.items():
            wrong, documents = faults_of_lines(dump.lines, version)
            shown = asked_of(server.address, f"{GROUP}/{version}/crontabs")[1]["items"]
            wrong += ["the lines aren't those of the list"] * ([line_of(it) for it in shown] != dump.lines)
            check(dump.ended(0) and not wrong, f"dump at {version}: {dump.said()}{told_of(wrong)}")
            with Server(program) as empty:
                first, again = (Run(program, "load", empty.address, version, dump.output) for _ in range(2))
                is_so = first.loaded(len(documents)) and again.loaded(0, len(documents))
                check(is_so, f"load at {version}: {first.said()}; again: {again.said()}")
                same = [it for it in VERSIONS if Run(program, "dump", empty.address, it).output == dumps[it].output]
                check(same == list(VERSIONS), f"dumped again it is the same bytes at {' and '.join(same)}")


# ---- what fails


def deep(levels: int) -> bytes:
    return b'{"a":' * (levels - 1) + b"{}" + b"}" * (levels - 1)


# Edits of a line by which it isn't posted, or is refused, with the status and the error line; the namespace is `bad`.
BAD_LINE, MIB = (4, "line 3"), b" " * (1 << 20)
BAD_LINES: Dict[str, Tuple[bytes, bytes, Tuple[int, str]]] = {
    "no JSON": (b'{"apiVersion"', b'"apiVersion"', BAD_LINE),
    "another version": (b"com/v1", b"com/v1beta1", BAD_LINE),
    "no namespace": (b',"namespace":"bad"', b"", BAD_LINE),
    "no name that is one": (b"o000002", b"O", BAD_LINE),
    "bytes that are no text": (b'"paused"', b'"p\xff"', BAD_LINE),
    "65 levels": (b"false", deep(64), BAD_LINE),
    "more than 1 MiB": (b"false", MIB + b"false", BAD_LINE),
    "a value that the schema refuses": (b'"timeoutMillis":', b'"timeoutMillis":-1', (12, "answer 422")),
    "another kind": (b"CronTab", b"Other", (12, "answer 400")),
    "a resource version": (b'"name"', b'"resourceVersion":"1","name"', (12, "answer 422")),
    "an end inside of it": (b"}\n", b"", (9, "request cut or refused")),
    "an empty line": (lines_for("bad", 3)[2], b"\n", BAD_LINE),
}


def faults_of_inputs(program: Word) -> None:
    """Behind two good lines one is bad, and a good one follows; then the bad one is mended."""
    first, second, good, last = lines_for("bad", 4)
    for what, (old, new, ends) in BAD_LINES.items():
        with Server(program) as server:
            bad = good.replace(old, new)
            run = Run(program, "load", server.address, given=b"".join([first, second, bad, last if bad.endswith(b"\n") else b""]))
            stand = stand_in(program, server.address, "bad")
            again = Run(program, "load", server.address, given=b"".join([first, second, good, last]))
            is_so = bad != good and run.ended(*ends, b"") and stand == [first, second] and again.loaded(2, 2)
            check(is_so, f"load, {what}: {run.said()}; mended: {again.said()}")


def begun_load(program: Word, address: Address, lines: List[bytes], namespace: str) -> "subprocess.Popen[bytes]":
    """A `load` of which so many lines stand."""
    with tempfile.TemporaryFile() as source, Connection(address) as connection:
        source.write(b"".join(lines))
        source.seek(0)
        load, until = begun(program, "load", address, stdin=source), time.monotonic() + SECONDS
        while connection.ask("GET", path_of("v1", namespace, f"o{BEGUN:06d}"))[0] != 200:
            if time.monotonic() > until:
                raise TimeoutError(namespace)
            time.sleep(0.01)
        return load


def interrupted(program: Word, address: Address) -> None:
    """A `load` that is killed, and one whose input comes in small pieces, with waits."""
    lines = lines_for("killed", MANY)
    load = begun_load(program, address, lines, "killed")
    load.kill()
    load.communicate()
    again = Run(program, "load", address, given=b"".join(lines))
    tally = [int(it.split()[1]) for it in again.lines]
    is_so = again.ended(0) and BEGUN < tally[1] < MANY and sum(tally) == MANY and stand_in(program, address, "killed") == lines
    check(is_so, f"load, killed; again: {again.said()}, and each of {MANY} lines stands")
    with begun(program, "load", address, stdin=subprocess.PIPE) as load:
        assert load.stdin
        text = b"".join(lines_for("pieces", 3))
        for first in range(0, len(text), 50):
            load.stdin.write(text[first : first + 50])
            load.stdin.flush()
            time.sleep(0.02)
        output, told = load.communicate(timeout=SECONDS)
    check((load.returncode, output, told) == (0, b"created 3\npresent 0\n", b""), f"load of an input in pieces: {output!r}")


def faults_of_streams(program: Word, address: Address) -> None:
    """An input that is a folder, an output that is full, one whose reader ends, and nobody who listens."""
    folder = os.open("/", os.O_RDONLY)
    run = Run(program, "load", address, stdin=folder)
    os.close(folder)
    check(run.ended(5, "read failed", b""), f"load of a folder: {run.said()}")
    with open("/dev/full", "wb") as full:
        run = Run(program, "dump", address, stdout=full)
    check(run.ended(6), f"dump to a full device: {run.said()}")
    with begun(program, "dump", address) as dump:
        assert dump.stdout
        dump.stdout.readline()
        dump.stdout.close()
        status = dump.wait(SECONDS)
    check(status == 6, f"dump whose reader ends behind a line: status {status}")
    for line in "migrate", "dump", "load":
        run = Run(program, line, ("127.0.0.1", 1), given=lines_for("x", 1)[0])
        check(run.ended(11, "link failed", b""), f"{line} where nobody listens: {run.said()}")


def faults(program: Word) -> None:
    """What ends a dump or a load, and what stands behind it."""
    faults_of_inputs(program)
    with Filled(program, OBJECTS) as server:
        interrupted(program, server.address)
        faults_of_streams(program, server.address)
        load = begun_load(program, server.address, lines_for("ended", MANY), "ended")
        server.stop()
        output, told = load.communicate(timeout=SECONDS)
    is_so = output == b"" and (load.returncode, told) in SERVER_ENDED
    check(is_so, f"load whose server ends meanwhile: status {load.returncode}, {told.decode().strip()!r}")


# ---- against a server in Go, and through kubectl proxy


def backups_against_go(program: Word, server: Word) -> None:
    """A list that is forgotten, then a dump, which is loaded into an empty server of that kind, and dumped again."""
    for size in 100, 3_000:
        with keeper(server, "plain", FAR, size) as it:
            first, dump = (Run(program, "dump", it.address) for _ in range(2))
            told = asked_of(it.address, "/told")[1]
            lines = [line_of(it) for it in asked_of(it.address, f"{GROUP}/v1/crontabs?limit={FAR}")[1]["items"]]
        is_cut = first.ended(13, "contested", b"".join(lines[: told["Limits"][-1]]))
        check(is_cut, f"Go, objects of {size} bytes: a list that is forgotten: {first.said()}")
        check(dump.ended(0, "", b"".join(lines)) and not told["Wrong"], f"pages of at most {told['Limits']}: {dump.said()}{told_of(told['Wrong'] or [])}")
        with keeper(server, "plain", 0, 0) as it:
            loads = [Run(program, "load", it.address, given=dump.output) for _ in range(2)]
            # The first of these lists is forgotten, too.
            again = [Run(program, "dump", it.address) for _ in range(2)][1]
            told = asked_of(it.address, "/told")[1]
        is_so = loads[0].loaded(FAR) and loads[1].loaded(0, FAR) and not told["Wrong"]
        check(is_so, f"load: {loads[0].said()}; again: {loads[1].said()}; {told['Posts']} posts{told_of(told['Wrong'] or [])}")
        check(again.ended(0, "", dump.output), "dumped again it is the same bytes")


def backups_through_kubectl(program: Word) -> None:
    with Filled(program, 50) as server, Server(program) as empty:
        with proxied(server.address, "--accept-hosts=^kubeconv$") as it, proxied(empty.address, "--accept-hosts=^kubeconv$") as other:
            dump = Run(program, "dump", it.address)
            check(dump.ended(0, "", Run(program, "dump", server.address).output), f"dump through kubectl proxy: {dump.said()}")
            load = Run(program, "load", other.address, given=dump.output)
            check(load.loaded(50), f"load through kubectl proxy: {load.said()}")
