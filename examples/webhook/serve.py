#!/usr/bin/env python3
"""A conversion webhook: answers each POST, of any path, by a run of `kubeconv review`.

    serve.py [--cert FILE --key FILE] [--address ADDRESS] [--processes N] PORT PROGRAM review --crd FILE --rules FILE

With --cert and --key it serves HTTPS, and reads the two files again where they change; without them HTTP. ADDRESS is 127.0.0.1
unless it is given, and at port 0 the system chooses one: the first line of standard output tells which. N reviews are answered at
once, as many as there are processors unless it is given.

A review that PROGRAM doesn't take gets a response of its uid with `Failure`, the word and, where one object is at fault, its place;
what can't be read as a review at all is answered 400. A review of more than 4,194,304 bytes goes to PROGRAM in several. GET /healthz
answers 200. A peer has 30 seconds for each request, for its answer and for the handshake, and may be silent for as long between them;
a review has 30 seconds too. SIGTERM and SIGINT end it once the requests that are there are answered.

PROGRAM is run once at the start, so that faulty files are told there. Where it is the launcher ./kubeconv, that run builds what isn't
built; from then on the program that it went over to is run by its own path, without a look at the sources.
"""
import argparse
import concurrent.futures
import json
import os
import pathlib
import re
import shutil
import subprocess
import sys
import threading
import time

sys.path.append(str(pathlib.Path(__file__).resolve().parent.parent))
import serving  # noqa: E402
from serving import Answer, Refused  # noqa: E402

SECONDS = 30
LONGEST = 4_194_304  # bytes that one run of PROGRAM reads
DEEPEST = 64  # levels of an object
CONNECTIONS = 512
REVIEW = {"apiVersion": "apiextensions.k8s.io/v1", "kind": "ConversionReview"}
HEAD = b'{"apiVersion":"apiextensions.k8s.io/v1","kind":"ConversionReview","response":{"convertedObjects":['
FOOT = b'],"result":{"status":"Success"},"uid":'


def compact(value):
    return json.dumps(value, separators=(",", ":")).encode()


def failure(uid, message):
    return compact({**REVIEW, "response": {"result": {"message": message, "status": "Failure"}, "uid": uid}}) + b"\n"


def review_of(body, word):
    """The document of what can be read as a review, since its request has a uid; else it is refused by that word."""
    try:
        review = json.loads(body)
        if isinstance(review["request"]["uid"], str) and review["request"]["uid"]:
            return review
    except (ValueError, KeyError, TypeError, RecursionError):
        pass
    raise Refused(400, word)


def objects_of(review):
    objects = review["request"].get("objects")
    return objects if isinstance(objects, list) else []


def not_whole(value, path=""):
    """The path of the first number inside that isn't whole, or has more than 64 bits. Else None."""
    if isinstance(value, float) or (type(value) is int and not -(2**63) <= value < 2**63):
        return path
    within = ((f"{path}[{place}]", item) for place, item in enumerate(value)) if isinstance(value, list) else ()
    if isinstance(value, dict):
        within = ((f"{path}.{name}" if path else name, value[name]) for name in sorted(value))
    return next((found for where, item in within if (found := not_whole(item, where)) is not None), None)


def is_deeper(value, most):
    """Whether a value has more levels than these."""
    within = value.values() if isinstance(value, dict) else value if isinstance(value, list) else None
    return within is not None and (most == 0 or any(is_deeper(item, most - 1) for item in within))


def placed(review, word):
    """The word of a refusal. A review that isn't read is looked through for the first object that can't be."""
    for place, item in enumerate(objects_of(review)) if word in ("NotReview", "NotWhole", "TooDeep") else ():
        if is_deeper(item, DEEPEST):
            return f"object {place}: TooDeep"
        if (path := not_whole(item)) is not None:
            return f"object {place}: {path}: NotWhole"
    return word


def pieces(review):
    """A long review as several that can be read, each with where its objects begin."""
    rest = {name: field for name, field in review["request"].items() if name != "objects"}
    head = compact({**{name: field for name, field in review.items() if name != "request"}, "request": {**rest, "objects": []}})[: -len("]}}")]
    begin, size, part = 0, len(head), []
    for text in map(compact, objects_of(review)):
        if part and size + len(text) + len(",]}}") > LONGEST:
            yield begin, head + b",".join(part) + b"]}}"
            begin, size, part = begin + len(part), len(head), []
        part.append(text)
        size += len(text) + len(",")
    yield begin, head + b",".join(part) + b"]}}"


class Reviews:
    """Answers reviews, some at once, each by runs of the command."""

    def __init__(self, command, processes):
        self.command = command
        self.pool = concurrent.futures.ThreadPoolExecutor(processes)

    def run(self, body, until):
        """The answer of one run, or the word with which it refused."""
        try:
            done = subprocess.run(self.command, input=body, capture_output=True, timeout=max(0, until - time.monotonic()))
        except subprocess.TimeoutExpired:
            return None, f"no answer in {SECONDS} seconds"
        except OSError as error:
            return None, str(error)
        said = done.stderr.decode(errors="replace").strip().removeprefix("kubeconv: ")
        return (None, said or f"the program ended with {done.returncode}") if done.returncode else (done.stdout, None)

    def answer(self, body):
        """The response to a review; Refused where it is none."""
        until = time.monotonic() + SECONDS
        if len(body) > LONGEST:
            return self.joined(review_of(body, "TooLong, and no review"), until)
        text, word = self.pool.submit(self.run, body, until).result()
        if text is not None:
            return text
        review = review_of(body, word)
        return failure(review["request"]["uid"], placed(review, word))

    def joined(self, review, until):
        """The response to a long review, of the responses to its pieces."""
        uid, told = review["request"]["uid"], []
        for begin, running in [(begin, self.pool.submit(self.run, piece, until)) for begin, piece in pieces(review)]:
            text, word = running.result()
            if text is None:
                return failure(uid, placed(review, word))
            if not text.startswith(HEAD) or FOOT not in text:
                message = json.loads(text)["response"]["result"]["message"]
                return failure(uid, re.sub(r"^object (\d+)", lambda place: f"object {begin + int(place[1])}", message))
            told.append(text[len(HEAD) : text.rindex(FOOT)])
        return HEAD + b",".join(filter(None, told)) + FOOT + json.dumps(uid).encode() + b"}}\n"


class Webhook(serving.Handler):
    seconds, longest = SECONDS, 67_108_864
    wants_length = is_told = True

    def do_GET(self):
        if self.path == "/healthz":
            self.say(Answer(200, b"ok\n", "text/plain"))
        else:
            self.say(self.refusal(404, "a review is posted, and /healthz is there to be read"))

    def do_POST(self):
        self.serve()

    def answered(self, body):
        try:
            text = self.server.reviews.answer(body)
        except Refused as refused:
            return self.refusal(refused.code, str(refused))
        if not text.startswith(HEAD):
            self.log_message("%s", text.decode(errors="replace").strip())
        return Answer(200, text)

    def refusal(self, code, why):
        self.log_message("%s %s: %s", self.requestline, code, why)
        return super().refusal(code, f"kubeconv: {why}\n")


# ---- the program and the words


def executed(process, path):
    """The program that a process runs: of a script, the one that it goes over to by `exec`, as soon as it does."""
    with open(path, "rb") as file:
        first = file.readline(256)
    shell = os.path.realpath(first[2:].split()[0].decode()) if first.startswith(b"#!") else None
    while shell and process.poll() is None:
        try:
            now = os.readlink(f"/proc/{process.pid}/exe")
        except OSError:
            break
        if now != shell:
            return now
        time.sleep(0.02)
    return path


def relay(lines):
    """Hands on what a program says at the start, but that nothing is no review."""
    for line in lines:
        if line.strip() != "kubeconv: NotReview":
            print(line, end="", file=sys.stderr, flush=True)


def program_of(command):
    """The command that answers a review, tried once: of the launcher, the program that it runs."""
    path = shutil.which(command[0]) or sys.exit(f"serve.py: there is no program {command[0]}")
    tried = subprocess.Popen(command, stdin=subprocess.PIPE, stdout=subprocess.DEVNULL, stderr=subprocess.PIPE, text=True)
    said = threading.Thread(target=relay, args=[tried.stderr])
    said.start()
    program = executed(tried, path)
    tried.stdin.close()
    said.join()
    if tried.wait() != 4:  # 4: the files are good, and nothing is no review
        sys.exit(f"serve.py: {path} ended with {tried.returncode} at the start")
    return [program, *command[1:]]


def main():
    parser = argparse.ArgumentParser(description=__doc__, formatter_class=argparse.RawDescriptionHelpFormatter)
    parser.add_argument("--cert", help="the server's certificate, with those between it and the authority, in PEM")
    parser.add_argument("--key", help="its key, in PEM")
    parser.add_argument("--address", default="127.0.0.1")
    processors = len(os.sched_getaffinity(0)) if hasattr(os, "sched_getaffinity") else os.cpu_count()
    parser.add_argument("--processes", type=int, default=processors)
    parser.add_argument("port", type=int, metavar="PORT")
    parser.add_argument("command", nargs=argparse.REMAINDER, metavar="PROGRAM review --crd FILE --rules FILE")
    given = parser.parse_args()
    if not given.command or (given.cert is None) != (given.key is None) or given.processes < 1:
        parser.error("a program is wanted, a certificate with its key or neither, and one process at least")
    try:
        tls = serving.Tls(given.cert, given.key) if given.cert else None
        reviews = Reviews(program_of(given.command), given.processes)
        server = serving.Server((given.address, given.port), Webhook, CONNECTIONS, tls)
    except OSError as error:
        sys.exit(f"serve.py: {error}")
    server.reviews = reviews
    server.run("https://" if tls else "http://")


if __name__ == "__main__":
    main()
