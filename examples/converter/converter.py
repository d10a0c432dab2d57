#!/usr/bin/env python3
"""A converter: answers the ConversionReviews of a definition that rules can't say, of certificates.json beside this file.

    converter.py [--address ADDRESS] [--chunked] [--slow MS] [--fail EVERY] PORT

At v1beta1 a certificate has spec.keyAlgorithm and spec.keySize, which are spec.privateKey.algorithm and .size at v1. What v1beta1 has
no field for is kept there in the annotation converter.example.com/v1, so that each object at v1 comes back as it was.

ADDRESS is 127.0.0.1 unless it is given, and at port 0 the system chooses one: the first line of standard output tells which. A POST of
any path is a review, and GET /healthz answers 200. With --chunked answers are sent in chunks, as Go's net/http sends one of more than
2,048 bytes. With --slow each review waits so many milliseconds before it is answered, and with --fail each EVERYth one is answered 500.
SIGTERM and SIGINT end it.
"""
import argparse
import itertools
import json
import pathlib
import sys
import time

sys.path.append(str(pathlib.Path(__file__).resolve().parent.parent))
import serving  # noqa: E402
from serving import Answer  # noqa: E402

GROUP = "example.com"
KIND = "Certificate"
KEPT = "converter.example.com/v1"
MOVED = {"algorithm": "keyAlgorithm", "size": "keySize"}  # of spec.privateKey to spec
REVIEW = {"apiVersion": "apiextensions.k8s.io/v1", "kind": "ConversionReview"}
CHUNK, CONNECTIONS = 2_048, 512  # bytes of a chunk, and connections at once


class Refused(Exception):
    """What can't be converted, and why."""


def annotated(item, text):
    """The object with that text as what is kept, or without it. An object without annotations has no such field."""
    meta = dict(item.get("metadata", {}))
    notes = {name: note for name, note in (meta.pop("annotations", None) or {}).items() if name != KEPT}
    if text is not None:
        notes[KEPT] = text
    return {**item, "metadata": {**meta, "annotations": notes} if notes else meta}


def annotation_of(item):
    return (item.get("metadata", {}).get("annotations") or {}).get(KEPT)


def compact(value):
    return json.dumps(value, separators=(",", ":"), sort_keys=True)


def to_v1beta1(item):
    """The fields of a key one level up. Kept is the rest of the key where there is one, that there is a key where none of its fields
    moves, and an annotation of the same name that stands at v1."""
    spec = dict(item.get("spec", {}))
    key = spec.pop("privateKey", None)
    kept = {}
    if (foreign := annotation_of(item)) is not None:
        kept["annotation"] = foreign
    if key is not None:
        spec.update({MOVED[name]: value for name, value in key.items() if name in MOVED})
        rest = {name: value for name, value in key.items() if name not in MOVED}
        if rest or not key:
            kept["privateKey"] = rest
    moved = annotated(item, compact(kept) if kept else None)
    return {**moved, "spec": spec} if "spec" in item else moved


def kept_of(item):
    """What was kept. An annotation that isn't of its form keeps nothing."""
    try:
        kept = json.loads(annotation_of(item) or "{}")
    except (ValueError, RecursionError):
        return {}
    is_kept = isinstance(kept, dict) and isinstance(kept.get("annotation", ""), str) and isinstance(kept.get("privateKey", {}), dict)
    return kept if is_kept else {}


def to_v1(item):
    """The fields of a key one level down, with what was kept of it."""
    kept = kept_of(item)
    spec = dict(item.get("spec", {}))
    moved = {name: spec.pop(field) for name, field in MOVED.items() if field in spec}
    rest = {name: value for name, value in kept.get("privateKey", {}).items() if name == "rotationPolicy" and isinstance(value, str)}
    if moved or "privateKey" in kept:
        spec["privateKey"] = {**rest, **moved}
    back = annotated(item, kept.get("annotation"))
    return {**back, "spec": spec} if spec or "spec" in item else back


def converted(item, wanted):
    if not isinstance(item, dict) or item.get("kind") != KIND:
        raise Refused(f"kind isn't {KIND}")
    here = item.get("apiVersion")
    if here == wanted:
        return item
    there = {f"{GROUP}/v1": to_v1, f"{GROUP}/v1beta1": to_v1beta1}
    if here not in there or wanted not in there:
        raise Refused(f"no way from {here} to {wanted}")
    return {**there[wanted](item), "apiVersion": wanted}


def response(request):
    try:
        wanted = request.get("desiredAPIVersion")
        objects = [converted(item, wanted) for item in request.get("objects", [])]
        result = {"convertedObjects": objects, "result": {"status": "Success"}}
    except Refused as why:
        result = {"result": {"message": str(why), "status": "Failure"}}
    return {**REVIEW, "response": {**result, "uid": request["uid"]}}


class Converter(serving.Handler):
    seconds, longest = 30, 16_777_216
    wants_length = True

    def do_GET(self):
        self.say(Answer(200, b"ok", "text/plain") if self.path == "/healthz" else self.refusal(404, "not found"))

    def do_POST(self):
        self.serve()

    def answered(self, body):
        asked = self.server.asked
        time.sleep(asked.slow / 1000)
        if asked.fail and next(self.server.numbers) % asked.fail == 0:
            return self.refusal(500, "told to fail")
        try:
            return Answer(200, json.dumps(response(json.loads(body)["request"])).encode())
        except (ValueError, KeyError, TypeError, AttributeError, RecursionError) as wrong:
            return self.refusal(400, f"no review: {type(wrong).__name__}")

    def framed(self, body):
        if not self.server.asked.chunked:
            return super().framed(body)
        pieces = [body[begin : begin + CHUNK] for begin in range(0, len(body), CHUNK)]
        return "Transfer-Encoding: chunked", b"".join(b"%x\r\n%b\r\n" % (len(it), it) for it in [*pieces, b""])

def at_least(least):
    def number(text):
        if not text.isdecimal() or int(text) < least:
            raise argparse.ArgumentTypeError(f"{text} is no number from {least} on")
        return int(text)

    return number


def main():
    parser = argparse.ArgumentParser(description=__doc__, formatter_class=argparse.RawDescriptionHelpFormatter)
    parser.add_argument("--address", default="127.0.0.1")
    parser.add_argument("--chunked", action="store_true")
    parser.add_argument("--slow", type=at_least(0), default=0, metavar="MS")
    parser.add_argument("--fail", type=at_least(1), default=0, metavar="EVERY")
    parser.add_argument("port", type=at_least(0), metavar="PORT")
    asked = parser.parse_args()
    server = serving.Server((asked.address, asked.port), Converter, CONNECTIONS)
    server.asked, server.numbers = asked, itertools.count(1)
    server.run("http://")


if __name__ == "__main__":
    main()
