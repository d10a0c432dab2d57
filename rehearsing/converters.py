"""What converts objects: the program by its rules, or a conversion webhook. A review that is refused is asked again in parts, until each
object that is refused is known."""
from __future__ import annotations

import http.client
import json
import re
import ssl
import subprocess
import time
import urllib.parse
from typing import Dict, List, NamedTuple, Optional, Sequence, Tuple, Union

LONGEST = 4_000_000  # bytes of a review; kubeconv reads 4,194,304
SECONDS = 30  # an API server waits as long for a webhook


class Unreachable(Exception):
    """There is nothing to ask, and why."""


class Refusal(NamedTuple):
    message: str


class Answer(NamedTuple):
    """The objects that came back, or why none did, and at which place the fault is where that is told."""

    objects: Optional[List[object]]
    message: str = ""
    place: Optional[int] = None


def review(texts: Sequence[str], to: str) -> bytes:
    return (
        '{"apiVersion":"apiextensions.k8s.io/v1","kind":"ConversionReview","request":{"uid":"rehearse","desiredAPIVersion":'
        f'{json.dumps(to)},"objects":[{",".join(texts)}]}}}}'
    ).encode("utf-8", "backslashreplace")  # half a surrogate pair stays an escape


def read(body: bytes, count: int) -> Answer:
    """What a review's answer says, held to what an API server asks of one."""
    try:
        response = json.loads(body)["response"]
        result = response["result"]
        if result["status"] != "Success":
            message = str(result.get("message", "Failure without a message"))
            place = re.match(r"object (\d+): ", message)
            return Answer(None, message, int(place[1]) if place and int(place[1]) < count else None)
        objects = response["convertedObjects"]
        if response["uid"] != "rehearse" or len(objects) != count:
            return Answer(None, f"the answer isn't to this review: {len(objects)} objects for {count}, uid {response['uid']!r}")
        return Answer(objects)
    except (ValueError, KeyError, TypeError, RecursionError) as why:
        return Answer(None, f"the answer is no ConversionReview with a response: {type(why).__name__} {why}")


class Converter:
    """Converts objects, and keeps the time."""

    trusts_place = False

    def __init__(self) -> None:
        self.seconds, self.slowest = 0.0, (0.0, 0)  # in all; of one review, with its objects

    def ask(self, body: bytes, count: int) -> Answer:
        raise NotImplementedError

    def timed(self, texts: Sequence[str], to: str) -> Answer:
        begun = time.monotonic()
        answer = self.ask(review(texts, to), len(texts))
        took = time.monotonic() - begun
        self.seconds += took
        self.slowest = max(self.slowest, (took, len(texts)))
        return answer

    def convert(self, texts: Sequence[str], to: str) -> List[Union[Refusal, object]]:
        """Each object at a version, or why it is refused."""
        told: List[Union[Refusal, object]] = [None] * len(texts)
        parts = list(self.parts(texts))[::-1]
        while parts:
            begin, end = parts.pop()
            answer = self.timed(texts[begin:end], to)
            if answer.objects is not None:
                told[begin:end] = answer.objects
            elif end - begin == 1:
                told[begin] = Refusal(re.sub(r"^object 0: ", "", answer.message))
            elif self.trusts_place and answer.place is not None:
                at = begin + answer.place
                told[at] = Refusal(answer.message.partition(": ")[2])
                parts += [(a, b) for a, b in ((at + 1, end), (begin, at)) if a < b]
            else:
                middle = (begin + end) // 2
                parts += [(middle, end), (begin, middle)]
        return told

    def parts(self, texts: Sequence[str]) -> List[Tuple[int, int]]:
        """The objects in reviews that aren't too long."""
        found, begin, size = [], 0, 0
        for i, text in enumerate(texts):
            if size + len(text) > LONGEST // 4 and i > begin:  # a character has at most four bytes
                found.append((begin, i))
                begin, size = i, 0
            size += len(text)
        return found + [(begin, len(texts))] if texts else []


class Program(Converter):
    """`kubeconv review`: a run for each batch, which takes a few milliseconds to begin."""

    trusts_place = True

    def __init__(self, program: str, crd: str, rules: str) -> None:
        super().__init__()
        self.words = [program, "review", "--crd", crd, "--rules", rules]

    def ask(self, body: bytes, count: int) -> Answer:
        done = subprocess.run(self.words, input=body, stdout=subprocess.PIPE, stderr=subprocess.PIPE)
        if done.returncode == 0:
            return read(done.stdout, count)
        said = done.stderr.decode("utf-8", "replace").strip().rpartition("\n")[2]
        said = said[len("kubeconv: ") :] if said.startswith("kubeconv: ") else said or f"kubeconv ended with {done.returncode}"
        if done.returncode == 4:
            return Answer(None, said)
        raise Unreachable(said)

    def fault(self) -> str:
        """What is said of the two files where they don't load."""
        try:
            self.ask(review([], "none/none"), 0)
        except Unreachable as why:
            return str(why)
        return ""


class Webhook(Converter):
    """A conversion webhook over http or https, by one connection that stays."""

    def __init__(self, url: str, ca: Optional[str]) -> None:
        super().__init__()
        self.url, self.ca = urllib.parse.urlsplit(url), ca
        self.link: Optional[http.client.HTTPConnection] = None

    def connect(self) -> http.client.HTTPConnection:
        """The connection, made anew where there is none."""
        if self.link is not None:
            return self.link
        host, port = self.url.hostname or "", self.url.port
        if self.url.scheme == "https":
            context = ssl.create_default_context(cafile=self.ca)
            link: http.client.HTTPConnection = http.client.HTTPSConnection(host, port, timeout=SECONDS, context=context)
        else:
            link = http.client.HTTPConnection(host, port, timeout=SECONDS)
        try:
            link.connect()
        except OSError as why:
            raise Unreachable(f"{self.url.geturl()}: {why}") from None
        self.link = link
        return link

    def close(self) -> None:
        if self.link is not None:
            self.link.close()
        self.link = None

    def post(self, body: bytes) -> Tuple[int, bytes]:
        path = urllib.parse.urlunsplit(("", "", self.url.path or "/", self.url.query, ""))
        link = self.connect()
        link.request("POST", path, body, {"Content-Type": "application/json", "Accept": "application/json"})
        came = link.getresponse()
        text = came.read()
        if came.will_close:
            self.close()
        return came.status, text

    def ask(self, body: bytes, count: int) -> Answer:
        is_new = self.link is None
        try:
            code, text = self.post(body)
        except (OSError, http.client.HTTPException) as why:
            self.close()
            is_late = isinstance(why, OSError) and "timed out" in str(why)
            if not is_new and not is_late:  # it may have been closed while nothing was asked
                return self.ask(body, count)
            return Answer(None, f"no answer in {SECONDS} seconds" if is_late else f"the connection broke: {type(why).__name__} {why}".strip())
        if code != 200:
            return Answer(None, f"the webhook answered {code}: {text[:160].decode('utf-8', 'replace').strip()}")
        return read(text, count)


def settings(words: Dict[str, Optional[str]]) -> Converter:
    """The converter by its settings, which go to each process."""
    if words.get("webhook"):
        return Webhook(words["webhook"] or "", words.get("ca"))
    return Program(words["program"] or "", words["crd"] or "", words["rules"] or "")
