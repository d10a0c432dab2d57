#!/usr/bin/env python3
"""Puts clients in front of the front that send what kubectl doesn't, go away, or all edit one object at once, and ends `serve` behind
it: `hostile.py [PROGRAM]`, where PROGRAM is kubeconv, `./kubeconv` where it isn't given. It prints a line for each case, and the status
is 1 where one was answered otherwise than it should be."""

import http.client
import json
import pathlib
import socket
import ssl
import sys
import threading
import time

from running import HERE, Running, certificate
from harness.client import Connection, Gone, address_of
from harness.server import at_once
from harness.told import check, end
import patches
import places
import statuses
import tables

LIST = "/apis/example.com/v1/namespaces/default/crontabs"
MERGE, OPERATIONS = "application/merge-patch+json", "application/json-patch+json"
CLIENTS, EDITS = 8, 20
MIB = 1 << 20
# The rows of RFC 7386, appendix A: a value, a patch, and what it makes.
MERGES = [
    ({"a": "b"}, {"a": "c"}, {"a": "c"}), ({"a": "b"}, {"b": "c"}, {"a": "b", "b": "c"}), ({"a": "b"}, {"a": None}, {}),
    ({"a": "b", "b": "c"}, {"a": None}, {"b": "c"}), ({"a": ["b"]}, {"a": "c"}, {"a": "c"}), ({"a": "c"}, {"a": ["b"]}, {"a": ["b"]}),
    ({"a": {"b": "c"}}, {"a": {"b": "d", "c": None}}, {"a": {"b": "d"}}), ({"a": [{"b": "c"}]}, {"a": [1]}, {"a": [1]}),
    (["a", "b"], ["c", "d"], ["c", "d"]), ({"a": "b"}, ["c"], ["c"]), ({"a": "foo"}, None, None), ({"a": "foo"}, "bar", "bar"),
    ({"e": None}, {"a": 1}, {"e": None, "a": 1}), ([1, 2], {"a": "b", "c": None}, {"a": "b"}),
    ({}, {"a": {"bb": {"ccc": None}}}, {"a": {"bb": {}}}),
]  # fmt: skip
# Rows of RFC 6902, appendix A, and beside them: a value, an operation, and what it makes, or None where it is refused.
STEPS = [
    ({"foo": "bar"}, ("add", "/baz", "qux"), {"baz": "qux", "foo": "bar"}),
    ({"foo": ["bar", "baz"]}, ("add", "/foo/1", "qux"), {"foo": ["bar", "qux", "baz"]}),
    ({"baz": "qux", "foo": "bar"}, ("remove", "/baz"), {"foo": "bar"}),
    ({"foo": ["bar", "qux", "baz"]}, ("remove", "/foo/1"), {"foo": ["bar", "baz"]}),
    ({"baz": "qux", "foo": "bar"}, ("replace", "/baz", "boo"), {"baz": "boo", "foo": "bar"}),
    ({"a": {"w": "f"}, "q": {"c": "g"}}, ("move", "/q/t", "/a/w"), {"a": {}, "q": {"c": "g", "t": "f"}}),
    ({"foo": ["all", "grass", "cows", "eat"]}, ("move", "/foo/3", "/foo/1"), {"foo": ["all", "cows", "eat", "grass"]}),
    ({"baz": "qux", "foo": ["a", 2, "c"]}, ("test", "/foo/1", 2), {"baz": "qux", "foo": ["a", 2, "c"]}),
    ({"baz": "qux"}, ("test", "/baz", "bar"), None),
    ({"foo": "bar"}, ("add", "/child", {"grandchild": {}}), {"foo": "bar", "child": {"grandchild": {}}}),
    ({"foo": "bar"}, ("add", "/baz/bat", "qux"), None),
    ({"/": 9, "~1": 10}, ("test", "/~01", 10), {"/": 9, "~1": 10}),
    ({"/": 9, "~1": 10}, ("test", "/~01", "10"), None),
    ({"foo": ["bar"]}, ("add", "/foo/-", ["abc", "def"]), {"foo": ["bar", ["abc", "def"]]}),
    ({"foo": ["bar"]}, ("add", "/foo/2", 1), None), ({"foo": ["bar"]}, ("add", "/foo/01", 1), None),
    ({"foo": ["bar"]}, ("remove", "/foo/-"), None), ({"foo": ["bar"]}, ("remove", "/foo/-1"), None),
    ({"foo": 1}, ("test", "/foo", True), None), ({"foo": [0]}, ("test", "/foo", [False]), None),
    ({"foo": 1}, ("replace", "/bar", 1), None), ({"foo": {"a": 1}}, ("move", "/foo/b", "/foo"), None),
    ({"foo": {"a": 1}}, ("copy", "/foo/b", "/foo"), {"foo": {"a": 1, "b": {"a": 1}}}), ({"a": 1}, ("replace", "", {"b": 2}), {"b": 2}),
    ({"a": 1}, ("remove", ""), None), ({"a": 1}, ("grow", "/a"), None), ({"a": 1}, ("add", "a", 1), None),
    ({"a": 1}, ("add", "/b"), None),
]  # fmt: skip
# Labels, a selector, and whether it takes them.
SELECTORS = [
    ({"a": "1"}, "a=1", True), ({"a": "1"}, "a==2", False), ({}, "a!=1", True), ({"a": "1"}, "a in (1,2),a", True),
    ({}, "a in ()", False), ({"a": ""}, "a in ()", True), ({}, "a notin (1)", True), ({"a": "1"}, "a notin (1, 2)", False),
    ({"a": "1"}, "!a", False),
    ({"x.io/a": "1"}, "x.io/a = 1", True), ({"a": "1"}, "a=1,", None), ({"a": "1"}, "a>1", None), ({"a": "1"}, "a in (1", None),
    ({"a": "1"}, "=1", None), ({"a": "1"}, "a=b c", None),
]  # fmt: skip
# Seconds, and how kubectl writes them.
AGES = [
    (-5, "<invalid>"), (-1, "0s"), (119, "119s"), (120, "2m"), (185, "3m5s"), (600, "10m"), (10799, "179m"), (10800, "3h"), (11100, "3h5m"),
    (28800, "8h"), (172799, "47h"), (172800, "2d"), (176400, "2d1h"), (691200, "8d"), (63072000, "2y"), (63158400, "2y1d"),
    (252288000, "8y"),
]  # fmt: skip


class Client:
    def __init__(self, address):
        self.address = address_of(address)
        self.connection = http.client.HTTPConnection(*self.address, timeout=90)

    def ask(self, method, path, body=None, media="application/json", **headers):
        """The code of an answer, and its document, which is its text where it isn't JSON."""
        data = body if body is None or isinstance(body, bytes) else json.dumps(body).encode()
        self.connection.request(method, path, data, {"Content-Type": media, **headers})
        response = self.connection.getresponse()
        text = response.read()
        try:
            return response.status, json.loads(text)
        except ValueError:
            return response.status, text.decode()

    def raw(self, data, wait=True):
        """What a new connection is answered to these bytes, until it ends; nothing where nobody waits for it."""
        try:
            with Connection(self.address, 10) as peer:
                peer.send(data)
                return peer.rest() if wait else b""
        except (ConnectionError, Gone) as error:
            return str(error).encode()


def tell(heading, held, why=""):
    check(held, heading + ("" if held else f"\n{why}"))


class Cases:
    """The programs, and a client of the front."""

    def __init__(self, program):
        self.running = Running(program)
        self.server = self.running.serve()
        self.address = self.running.front()
        self.client = Client(self.address)

    def case(self, heading, code, *request, says="", **headers):
        """A request that is to be answered by a code, with a Status document where it is refused."""
        found, document = self.client.ask(*request, **headers)
        status = code < 400 or isinstance(document, dict) and (document.get("kind"), document.get("code")) == ("Status", code)
        tell(heading, found == code and status and says in str(document), f"{found} {document}")

    def raw(self, heading, code, data):
        """Bytes that are to be answered by one code, after which the connection ends; what is refused, by a Status document."""
        found = self.client.raw(data if isinstance(data, bytes) else data.encode())
        held = found.startswith(b"HTTP/1.1 %d " % code) and (code < 400 or b'"kind":"Status"' in found)
        tell(heading, held, str(found[:400]))


def crontab(name, **fields):
    return {"apiVersion": "example.com/v1", "kind": "CronTab", "metadata": {"name": name}, **fields}


def operation(verb, path, *more):
    name = "from" if verb in ("move", "copy") else "value"
    return {"op": verb, "path": path, **({name: more[0]} if more else {})}


def parts(_cases):
    """Patches, selectors and ages by themselves."""

    def came(made, *given):
        """What a function makes, or None where it refuses."""
        try:
            return made(*given)
        except statuses.Refused:
            return None

    for what, rows, made in (
        ("merge patches", MERGES, patches.merged),
        ("operations of JSON patches", STEPS, lambda value, step: patches.operated(value, [operation(*step)])),
        ("label selectors", SELECTORS, lambda labels, selector: places.by_labels(selector)({"metadata": {"labels": labels}})),
        ("ages", AGES, tables.spelled),
    ):
        wrong = [row for row in rows if came(made, *row[:-1]) != row[-1]]
        tell(f"{len(rows)} {what}", not wrong, str(wrong))


def bodies(cases):
    """Bodies that are nothing, or too much."""
    at = f"{LIST}/a"
    cases.case("a create", 201, "POST", LIST, crontab("a", host="h"))
    for text in (b"", b"{", b"\xff\xfe", b"[NaN]", b"{} {}", b"[" * 100_000, b"9" * 5_000):
        cases.case(f"a create of {text[:8]!r}", 400, "POST", LIST, text)
        cases.case(f"a strict create of {text[:8]!r}", 400, "POST", f"{LIST}?fieldValidation=Strict", text)
        cases.case(f"a merge patch of {text[:8]!r}", 400, "PATCH", at, text, MERGE)
        cases.case(f"a JSON patch of {text[:8]!r}", 400, "PATCH", at, text, OPERATIONS)
    for text in (b"7", b"[]", b'"x"', b"null"):
        cases.case(f"a merge patch of {text!r}", 400, "PATCH", at, text, MERGE)
    for text in (b"7", b"{}", b"[7]", b'[{"op":"add"}]', b'[{"path":7,"op":"add","value":1}]'):
        cases.case(f"a JSON patch of {text!r}", 400, "PATCH", at, text, OPERATIONS)
    cases.case("a number that is no JSON", 400, "PATCH", at, b'{"level":1e999}', MERGE)
    cases.case("a number that isn't whole", 400, "PATCH", at, b'{"level":1.5}', MERGE)
    whole = json.dumps(crontab("long")).encode()
    cases.case("a body of 1 MiB", 201, "POST", LIST, whole + b" " * (MIB - len(whole)))
    cases.client.connection.close()
    cases.raw("a longer body", 413, f"POST {LIST} HTTP/1.1\r\nContent-Length: {MIB + 1}\r\n\r\n".encode() + b" " * (MIB + 1))
    waits = f"POST {LIST} HTTP/1.1\r\nContent-Length: 99999999999\r\nExpect: 100-continue\r\n\r\n"
    cases.raw("a longer body that isn't sent", 413, waits.encode())
    chunk = b"10000\r\n" + b" " * 65536 + b"\r\n"
    cases.raw("longer chunks", 413, f"POST {LIST} HTTP/1.1\r\nTransfer-Encoding: chunked\r\n\r\n".encode() + chunk * 17 + b"0\r\n\r\n")
    copies = [operation("add", "/extra", {"a": "x" * 1000})] + [operation("copy", f"/extra/{i}", "/extra") for i in range(40)]
    cases.case("copies of copies", 422, "PATCH", at, copies, OPERATIONS, says="copies are longer")


def heads(cases):
    """Heads that say two things, or nothing."""
    post = f"POST {LIST} HTTP/1.1\r\n"
    one = post + "Transfer-Encoding: chunked\r\nConnection: close\r\n\r\n"
    pieces = "".join(f"1;a=b\r\n{it}\r\n" for it in json.dumps(crontab("chunks")))
    cases.raw("a body in chunks of one byte, with a trailer", 201, one + pieces + "0\r\nA: b\r\n\r\n")
    for size in (b"", b"x", b"-1", b"0x1", b"1" * 20):
        cases.raw(f"a chunk of length {size!r}", 400, one.encode() + size + b"\r\nx\r\n0\r\n\r\n")
    for heading, code, data in (
        ("a chunk that is longer than it says", 400, one + "1\r\nxx\r\n0\r\n\r\n"),
        ("a line between chunks without end", 400, one + "1" * 10_000),
        ("trailers without end", 400, one + "0\r\n" + "A: b\r\n" * 200),
        ("two lengths", 400, post + "Content-Length: 2\r\nContent-Length: 3\r\n\r\n{}"),
        ("a length and chunks", 400, post + "Content-Length: 2\r\nTransfer-Encoding: chunked\r\n\r\n0\r\n\r\n"),
        ("another coding", 400, post + "Transfer-Encoding: gzip, chunked\r\n\r\n0\r\n\r\n"),
        ("a length that is no number", 400, post + "Content-Length: +2\r\n\r\n{}"),
        ("a space behind a field's name", 400, post + "Transfer-Encoding : chunked\r\n\r\n0\r\n\r\n"),
        ("a line that is no field", 400, post + "hello\r\nContent-Length: 2\r\n\r\n{}"),
        ("a field that goes on", 400, post + " hello: a\r\nContent-Length: 2\r\n\r\n{}"),
        ("no request", 400, "hello\r\n\r\n"),
        ("a method that is none", 405, "BREW / HTTP/1.1\r\n\r\n"),
        ("a field without end", 431, "GET / HTTP/1.1\r\nA: " + "a" * 70_000 + "\r\n\r\n"),
        ("200 fields", 431, "GET / HTTP/1.1\r\n" + "A: a\r\n" * 200 + "\r\n"),
        ("a path without end", 414, "GET /" + "a" * 70_000 + " HTTP/1.1\r\n\r\n"),
        ("a path of bytes that are no text", 400, b"GET /apis/\xc3\x28 HTTP/1.1\r\nConnection: close\r\n\r\n"),
    ):
        cases.raw(heading, code, data)
    get = f"GET {LIST}/a HTTP/1.1\r\n"
    found = cases.client.raw(((get + "\r\n") * 9 + get + "Connection: close\r\n\r\n").encode())
    tell("ten requests at once", found.count(b"HTTP/1.1 200 OK") == 10, str(found[:300]))


def targets(cases):
    at = f"{LIST}/a"
    at_objects = f"{LIST}/a/status", f"{LIST}/A_", f"{LIST}/"
    for path in ("/", "/api/v2", "/apis/none", "/apis/example.com/v9", "/apis//", "/openapi/v3/apis/x/v1", *at_objects):
        cases.case(f"GET {path}", 404, "GET", path)
    cases.case("an escape that is no text", 400, "GET", "/apis/%ff/v1")
    cases.case("a watch", 405, "GET", f"{LIST}?watch=true", says="watch isn't served")
    cases.case("a dry run", 400, "DELETE", f"{at}?dryRun=All", says="dry run")
    cases.case("a dry run of a patch", 400, "PATCH", f"{at}?dryRun=All", {}, MERGE, says="dry run")
    cases.case("a selector that isn't one", 400, "GET", f"{LIST}?labelSelector=a%3E1")
    cases.case("a field that isn't selected by", 400, "GET", f"{LIST}?fieldSelector=spec.a%3D1")
    cases.case("a fieldValidation that isn't one", 400, "POST", f"{LIST}?fieldValidation=Harsh", crontab("x"))
    cases.case("a create in YAML", 415, "POST", LIST, b"a: b", "application/yaml")
    cases.case("a create in protocol buffers", 415, "POST", LIST, b"k8s", "application/vnd.kubernetes.protobuf")
    cases.case("a strategic patch", 415, "PATCH", at, {}, "application/strategic-merge-patch+json", says="application/json-patch+json")
    cases.case("server-side apply", 415, "PATCH", at, {}, "application/apply-patch+yaml")
    cases.case("a patch of a list", 405, "PATCH", LIST, {}, MERGE)
    cases.case("a patch of no place", 404, "PATCH", "/apis/x/v1/y", {}, MERGE)
    cases.case("a delete of a list", 405, "DELETE", LIST)
    cases.case("a write of a discovery document", 405, "POST", "/apis", {})
    cases.case("a media type that isn't served", 406, "GET", "/openapi/v3", Accept="text/html")
    cases.case("HEAD", 200, "HEAD", at)
    other = "application/json;as=Table;v=v9;g=meta.k8s.io,application/json"
    cases.case("a table of another version", 200, "GET", LIST, says="CronTabList", Accept=other)


def edits(cases):
    at = f"{LIST}/a"
    _, seen = cases.client.ask("GET", at)
    number = seen["metadata"]["resourceVersion"]
    cases.case("a patch of nothing", 404, "PATCH", f"{LIST}/zz", {}, MERGE, says="not found")
    cases.case("a patch that names its number", 200, "PATCH", at, {"metadata": {"resourceVersion": number}, "host": "i"}, MERGE)
    cases.case("a patch of an old number", 409, "PATCH", at, {"metadata": {"resourceVersion": number}, "host": "j"}, MERGE)
    stale = [operation("replace", "/metadata/resourceVersion", number), operation("replace", "/host", "j")]
    cases.case("a JSON patch of an old number", 409, "PATCH", at, stale, OPERATIONS)
    cases.case("a patch that takes the number away", 200, "PATCH", at, {"metadata": {"resourceVersion": None}, "host": "k"}, MERGE)
    cases.case("a patch of another uid", 422, "PATCH", at, {"metadata": {"uid": "x"}}, MERGE)
    cases.case("a patch of another name", 400, "PATCH", at, {"metadata": {"name": "b"}}, MERGE)
    cases.case("a patch of another kind", 400, "PATCH", at, {"kind": "Other"}, MERGE)
    cases.case("a patch that takes metadata away", 400, "PATCH", at, {"metadata": None}, MERGE)
    cases.case("a patch to no object", 400, "PATCH", at, [operation("replace", "", 7)], OPERATIONS)
    cases.case("a patch that isn't admitted", 422, "PATCH", at, {"timeoutMillis": -1}, MERGE, says="Minimum")
    strict = f"{at}?fieldValidation=Strict"
    cases.case("a strict patch of an unknown field", 400, "PATCH", strict, {"hots": "x"}, MERGE, says='unknown field "hots"')
    cases.case("a strict patch that says a field twice", 400, "PATCH", strict, b'{"host":"x","host":"y"}', MERGE, says="duplicate")
    cases.case("a patch of a migration", 404, "PATCH", "/apis/storagemigration.k8s.io/v1alpha1/storageversionmigrations/m", {}, MERGE)
    code, seen = cases.client.ask("GET", at)
    tell("what was refused left nothing behind", seen["host"] == "k" and "hots" not in seen, str(seen))


def patchers(cases):
    """Clients at two fronts that each add labels to one object, all at once."""
    at = f"{LIST}/shared"
    cases.case("an object that all edit", 201, "POST", LIST, crontab("shared"))
    addresses, codes = [cases.address, cases.running.front()], []

    def add(client):
        """Adds labels, by a merge patch or by a JSON patch."""
        peer = Client(addresses[client % 2])
        for edit in range(EDITS):
            key = f"c{client}-{edit}"
            if edit % 2:
                codes.append(peer.ask("PATCH", at, {"metadata": {"labels": {key: "x"}}}, MERGE)[0])
            else:
                codes.append(peer.ask("PATCH", at, [operation("add", f"/metadata/labels/{key}", "x")], OPERATIONS)[0])

    cases.client.ask("PATCH", at, {"metadata": {"labels": {"first": "x"}}}, MERGE)
    begun = time.monotonic()
    at_once(add, [(client,) for client in range(CLIENTS)])
    _, seen = cases.client.ask("GET", at)
    wanted = {"first"} | {f"c{client}-{edit}" for client in range(CLIENTS) for edit in range(EDITS)}
    held = codes == [200] * CLIENTS * EDITS and set(seen["metadata"]["labels"]) == wanted
    heading = f"{CLIENTS} clients at two fronts add {EDITS} labels each to one object, in {time.monotonic() - begun:.1f} s"
    tell(heading, held, f"{sorted(set(codes))} {len(seen['metadata']['labels'])}")


def absent(cases):
    """Clients that go away, or say nothing."""
    body = json.dumps(crontab("gone")).encode()
    head = f"POST {LIST} HTTP/1.1\r\nContent-Length: {len(body)}\r\n\r\n".encode()
    cases.client.raw(head + body[:-1], wait=False)
    cases.client.raw(f"POST {LIST} HTTP/1.1\r\nTransfer-Encoding: chunked\r\n\r\n".encode() + b"%x\r\n" % len(body) + body, wait=False)
    for _ in range(20):
        cases.client.raw(f"GET {LIST} HTTP/1.1\r\n\r\n".encode() * 50, wait=False)
    time.sleep(0.2)
    cases.case("a create that was cut left nothing behind", 404, "GET", f"{LIST}/gone")
    silent = [socket.create_connection(cases.client.address) for _ in range(100)]
    cases.case("100 silent clients beside", 200, "GET", LIST)
    for peer in silent:
        peer.close()


def encrypted(cases):
    """Clients that don't speak TLS to a front that does, or say nothing."""
    made = certificate(cases.running.path)
    if made is None:
        return
    cert, key = made
    plain = Client(cases.running.front("--cert", cert, "--key", key))
    silent = [socket.create_connection(plain.address) for _ in range(20)]
    found = plain.raw(b"GET /livez HTTP/1.1\r\n\r\n")
    tell("a client that doesn't speak TLS", not found.startswith(b"HTTP"), str(found))
    context = ssl.create_default_context(cafile=cert)
    secret = http.client.HTTPSConnection(*plain.address, timeout=20, context=context)
    for number in range(3):
        secret.request("GET", LIST)
        response = secret.getresponse()
        held = response.status == 200 and response.read()
        tell(f"list {number} of one that does, beside 20 that say nothing", held, str(response.status))
    secret.putrequest("POST", LIST)
    secret.putheader("Content-Length", str(2 * MIB))
    secret.endheaders(b" " * MIB)
    tell("a longer body over TLS is 413", secret.getresponse().status == 413)
    for peer in silent:
        peer.close()


def behind(cases):
    """`serve` that is down, comes back, and something else in its place."""
    cases.server.stop()
    for path in (LIST, "/apis", "/apis/example.com/v1", "/openapi/v3", "/api/v1/namespaces"):
        cases.case(f"GET {path} while serve is down", 503, "GET", path, says="can't be reached")
    cases.case("a create while serve is down", 503, "POST", LIST, crontab("x"), says="can't be reached")
    cases.case("a patch while serve is down", 503, "PATCH", f"{LIST}/a", {}, MERGE, says="can't be reached")
    for path, code in (("/livez", 200), ("/readyz", 503), ("/healthz", 503), ("/api", 200), ("/version", 200)):
        found, text = cases.client.ask("GET", path)
        tell(f"GET {path} while serve is down is {code}", found == code, f"{found} {text}")
    cases.server = cases.running.serve(cases.running.server)
    cases.case("a list once serve is back", 200, "GET", LIST)
    cases.case("a create once serve is back", 201, "POST", LIST, crontab("a"))
    with socket.create_server(("127.0.0.1", 0)) as odd:
        told = [b"", b"HTTP/1.1 200 OK\r\nContent-Length: 10\r\n\r\n{", b"hello\r\n\r\n"]
        told.append(b"HTTP/1.1 200 OK\r\nContent-Length: 1\r\n\r\n{")
        threading.Thread(target=pretend, args=(odd, told), daemon=True).start()
        cases.running.server = "127.0.0.1:%d" % odd.getsockname()[1]
        cases.client = Client(cases.running.front())
        for answer, code in zip(told[:3], (503, 502, 502)):
            cases.case(f"a server behind that answers {answer[-12:]!r}", code, "POST", LIST, crontab("x"), says="may have been done")
        cases.case("a server behind whose text is no JSON", 502, "GET", "/apis")


def pretend(server, told):
    """Answers each connection with the next of these texts, and closes it."""
    for text in told:
        peer = server.accept()[0]
        peer.recv(65536)
        peer.sendall(text)
        peer.close()


def main(words):
    cases = Cases(pathlib.Path(words[0] if words else HERE.parent.parent / "kubeconv").resolve())
    try:
        for part in (parts, bodies, heads, targets, edits, patchers, absent, encrypted, behind):
            part(cases)
    finally:
        cases.running.stop()
    end()


if __name__ == "__main__":
    main(sys.argv[1:])
