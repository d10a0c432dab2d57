#!/usr/bin/env python3
"""Checks the converter from outside, with no server beside it:

    python3 examples/converter/check.py

converter.py is started as its own process, and asked ConversionReviews as an API server asks them: both ways, with Content-Length and in
chunks, slow, failing, and by many callers at once. One line is printed for each thing that was looked at. What is wrong is told on
standard error, and then the status is 1.
"""
import concurrent.futures
import copy
import http.client
import json
import pathlib
import random
import signal
import sys
import time

HERE = pathlib.Path(__file__).resolve().parent
sys.path.append(str(HERE.parent.parent))
from harness.client import Connection  # noqa: E402
from harness.crontabs import head_of  # noqa: E402
from harness.documents import review_of  # noqa: E402
from harness.server import Listening  # noqa: E402
from harness.told import end, looked, same  # noqa: E402

KEPT = "converter.example.com/v1"


class Converter(Listening):
    """converter.py at a port that the system chose."""

    def __init__(self, *options):
        super().__init__([sys.executable, HERE / "converter.py", *options, "0"])

    def __exit__(self, *_why):
        self.process.send_signal(signal.SIGTERM)
        same("the status", self.ended(10), 0)
        self.stop()

    def request(self, method, path, body=None, **headers):
        caller = http.client.HTTPConnection("127.0.0.1", self.port, timeout=20)
        caller.request(method, path, body, {"Content-Type": "application/json", **headers})
        answer = caller.getresponse()
        text = answer.read()
        caller.close()
        return answer.status, text

    def asked(self, uid, wanted, objects):
        """The objects of a review, each looked at as an API server looks at it."""
        status, text = self.request("POST", "/convert?timeout=30s", review_of(objects, wanted, uid), Connection="close")
        told = json.loads(text)
        response = told["response"]
        came = status, told["apiVersion"], told["kind"], response["uid"], response["result"]["status"]
        same("the answer", came, (200, "apiextensions.k8s.io/v1", "ConversionReview", uid, "Success"))
        looks = [(it["apiVersion"], it["kind"], fixed(it)) for it in response["convertedObjects"]]
        same("versions and metadata", looks, [(f"example.com/{wanted}", it["kind"], fixed(it)) for it in objects])
        return response["convertedObjects"]

    def raw(self, request):
        """The bytes of an answer, up to the end of its connection."""
        with Connection(self.address, 20) as peer:
            peer.send(request)
            return peer.rest()


def fixed(item):
    """The fields of metadata that no conversion may change."""
    return {name: field for name, field in item["metadata"].items() if name not in ("labels", "annotations")}


def certificate(version, name="a", spec=None, annotations=None):
    item = head_of("Certificate", version, name, 7)
    item["metadata"].update(namespace="default", uid=f"uid-{name}", generation=1, **({} if annotations is None else {"annotations": annotations}))
    return item if spec is None else {**item, "spec": spec}


def drawn(draw, number):
    """A certificate at v1, of any form that its schema allows."""
    key = {"algorithm": draw.choice(["RSA", "ECDSA", ""]), "size": draw.randrange(8193), "rotationPolicy": draw.choice(["Always", "Never"])}
    key = {name: value for name, value in key.items() if draw.random() < 0.6}
    spec = {"dnsName": f"{number}.example.com"} if draw.random() < 0.7 else {}
    if draw.random() < 0.8:
        spec["privateKey"] = key
    notes = {"other": "1"} if draw.random() < 0.3 else {}
    if draw.random() < 0.3:
        notes[KEPT] = draw.choice(["", "{}", "[]", "forged", '{"annotation":"x"}', '{"privateKey":{"rotationPolicy":"Z"}}', '{"privateKey":3}'])
    return certificate("v1", f"c{number}", spec if spec or draw.random() < 0.5 else None, notes or None)


def ways(converter):
    """One of each way, spelled out."""
    spec, key = {"keyAlgorithm": "RSA", "keySize": 2048}, {"algorithm": "RSA", "size": 2048}
    more = certificate("v1", spec={"privateKey": {**key, "rotationPolicy": "Always"}})
    kept = {KEPT: '{"privateKey":{"rotationPolicy":"Always"}}'}
    named = {"dnsName": "a.example.com"}
    for wanted, given, came in (
        ("v1", certificate("v1beta1", spec={**named, **spec}), certificate("v1", spec={**named, "privateKey": key})),
        ("v1beta1", more, certificate("v1beta1", spec=spec, annotations=kept)),
        ("v1", more, more),
    ):
        same(f"to {wanted}", converter.asked("u1", wanted, [given]), [came])


def there_and_back(converter):
    """Each object at v1 comes back as it was."""
    draw = random.Random(1)
    items = [drawn(draw, number) for number in range(500)]
    before = copy.deepcopy(items)
    same("the objects", converter.asked("back", "v1", converter.asked("there", "v1beta1", items)), before)


def example(converter):
    """The review of the README is answered as it says."""
    came = converter.request("POST", "/", (HERE / "review.json").read_bytes())
    same("the answer", came, (200, (HERE / "answer.json").read_bytes()))


def forged(converter):
    """What isn't of its form keeps nothing, and goes."""
    for text in ("", "[]", "forged", '{"privateKey":3}', '{"privateKey":{"algorithm":"X","other":1}}', '{"annotation":1}'):
        came = converter.asked("f", "v1", [certificate("v1beta1", spec={"keySize": 2048}, annotations={KEPT: text})])
        same(text, came, [certificate("v1", spec={"privateKey": {"size": 2048}})])


def refusals(converter):
    for wanted, item in (("v2", certificate("v1")), ("v1", certificate("v0")), ("v1", {**certificate("v1"), "kind": "Other"})):
        status, text = converter.request("POST", "/", review_of([item], wanted, "no"))
        told = json.loads(text)["response"]
        came = status, told["uid"], told["result"]["status"], "convertedObjects" in told
        same("a review that fails", came, (200, "no", "Failure", False))
    for body in ("", "[]", "{}", "[" * 100_000, '{"request":3}', '{"request":{}}'):
        same(f"the code of {body:.20}", converter.request("POST", "/", body)[0], 400)
    same("without a length", converter.raw(b"POST / HTTP/1.1\r\nHost: a\r\n\r\n")[:12], b"HTTP/1.1 411")
    same("too long", converter.raw(b"POST / HTTP/1.1\r\nHost: a\r\nContent-Length: 16777217\r\n\r\n")[:12], b"HTTP/1.1 413")
    same("its health", converter.request("GET", "/healthz"), (200, b"ok"))
    same("another path", converter.request("GET", "/other")[0], 404)


def chunks():
    with Converter("--chunked") as converter:
        ways(converter)
        there_and_back(converter)
        asked = review_of([certificate("v1", spec={"dnsName": "a" * 5_000})], "v1beta1").decode()
        head = f"POST / HTTP/1.1\r\nHost: a\r\nConnection: close\r\nContent-Length: {len(asked)}\r\n\r\n"
        head, _, body = converter.raw((head + asked).encode()).partition(b"\r\n\r\n")
        same("the fields", (b"Transfer-Encoding: chunked" in head, b"Content-Length" in head), (True, False))
        same("the chunks", (body.startswith(b"800\r\n"), body.endswith(b"\r\n0\r\n\r\n")), (True, True))


def slow():
    with Converter("--slow", "200") as converter:
        began = time.monotonic()
        with concurrent.futures.ThreadPoolExecutor(16) as pool:
            list(pool.map(lambda number: converter.asked(f"u{number}", "v1", [certificate("v1beta1")]), range(16)))
        past = time.monotonic() - began
        same(f"{past:.1f} seconds", (0.2 <= past, past < 1.6), (True, True))


def failing():
    with Converter("--fail", "3") as converter:
        codes = [converter.request("POST", "/", review_of([]))[0] for _ in range(9)]
        same("the codes", codes, [200, 200, 500] * 3)


def main():
    with Converter() as converter:
        looked("the review of the README", example, converter)
        looked("one of each way", ways, converter)
        looked("500 objects there and back", there_and_back, converter)
        looked("annotations that aren't of their form", forged, converter)
        looked("what is refused, and the health path", refusals, converter)
    looked("the same in chunks", chunks)
    looked("16 callers at once of one that waits 200 ms", slow)
    looked("each third review fails", failing)
    end()


if __name__ == "__main__":
    main()
