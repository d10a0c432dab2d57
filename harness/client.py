"""Requests and their answers, over a connection that is kept."""
from __future__ import annotations

import json
import re
import socket
import struct
import sys
from typing import Any, Dict, List, Optional, Tuple

from harness.documents import spelled

Address = Tuple[str, int]
LENGTH = re.compile(rb"\r\nContent-Length: *(\d+)", re.IGNORECASE)
# So many requests are sent before the first answer is read.
BATCH = 16


class Gone(Exception):
    """The server closed the connection, or broke it."""


def address_of(text: str) -> Address:
    host, _, port = text.rpartition(":")
    return host.strip("[]"), int(port)


def request(method: str, path: str, body: Any = None, fields: str = "") -> bytes:
    """The bytes of a request, whose body is what is to be spelled."""
    if body is None:
        return f"{method} {path} HTTP/1.1\r\n{fields}\r\n".encode()
    text = spelled(body)
    return f"{method} {path} HTTP/1.1\r\n{fields}Content-Length: {len(text)}\r\n\r\n".encode() + text


def end_of(text: bytes, begin: int = 0) -> Optional[int]:
    """Where the message ends that begins there, or none where its head isn't whole."""
    end = text.find(b"\r\n\r\n", begin)
    if end < 0:
        return None
    length = LENGTH.search(text, begin, end + 2)
    return end + 4 + (int(length[1]) if length else 0)


def messages_of(text: bytes) -> List[bytes]:
    """The requests, or the answers, that stand in a text one behind the other; what is no whole one is the last."""
    found, begin = [], 0
    while begin < len(text):
        end = end_of(text, begin) or len(text)
        found.append(text[begin:end])
        begin = end
    return found


class Answer:
    """An answer: its bytes, its code and its body."""

    def __init__(self, text: bytes) -> None:
        self.text = text
        self.head, _, self.body = text.partition(b"\r\n\r\n")
        self.code = int(self.head[9:12])

    def fields(self) -> Dict[str, str]:
        """The fields of its head, by their names in lower case."""
        split = (line.partition(": ") for line in self.head.decode().split("\r\n")[1:])
        return {name.lower(): value for name, _, value in split}

    def shown(self) -> Any:
        """What the body reads as, if anything."""
        return json.loads(self.body) if self.body else None


def answers_in(output: bytes) -> List[Answer]:
    """The answers of a text in which each is whole."""
    texts = messages_of(output)
    if texts and end_of(texts[-1]) != len(texts[-1]):
        sys.exit("the last answer is cut")
    return [Answer(it) for it in texts]


class Connection:
    """One connection: requests, and their answers in turn."""

    def __init__(self, address: Address, seconds: float = 120) -> None:
        self.socket = socket.create_connection(address, seconds)
        self.socket.setsockopt(socket.IPPROTO_TCP, socket.TCP_NODELAY, 1)
        self.held = b""

    def __enter__(self) -> "Connection":
        return self

    def __exit__(self, *_why: object) -> None:
        self.close()

    def send(self, data: bytes) -> None:
        try:
            self.socket.sendall(data)
        except OSError as fault:
            raise Gone(str(fault)) from fault

    def more(self) -> None:
        try:
            data = self.socket.recv(1 << 18)
        except OSError as fault:
            raise Gone(str(fault)) from fault
        if not data:
            raise Gone(f"closed behind {self.held[:1000]!r}")
        self.held += data

    def next(self) -> Answer:
        """The next answer."""
        end = end_of(self.held)
        while end is None or len(self.held) < end:
            self.more()
            end = end or end_of(self.held)
        text, self.held = self.held[:end], self.held[end:]
        return Answer(text)

    def ask(self, method: str, path: str, body: Any = None, fields: str = "") -> Tuple[int, Any]:
        """Asks, and gives the code and what the body reads as, if anything."""
        self.send(request(method, path, body, fields))
        came = self.next()
        return came.code, came.shown()

    def expect(self, wanted: int, method: str, path: str, body: Any = None, fields: str = "") -> Any:
        """What is shown to one who asks. Ends the script where the code isn't the one that is wanted."""
        code, shown = self.ask(method, path, body, fields)
        if code != wanted:
            sys.exit(f"{method} {path} is answered {code}: {json.dumps(shown)[:300]}")
        return shown

    def expect_all(self, requests: List[bytes], wanted: int) -> List[bytes]:
        """The bodies of the answers to these requests, of which some are sent before the first answer is read. Ends the script where a
        code isn't the one that is wanted."""
        bodies = []
        for first in range(0, len(requests), BATCH):
            batch = requests[first : first + BATCH]
            self.send(b"".join(batch))
            for asked in batch:
                came = self.next()
                if came.code != wanted:
                    sys.exit(f"{asked!r} is answered {came.code}")
                bodies.append(came.body)
        return bodies

    def rest(self) -> bytes:
        """All that comes until the server closes the connection."""
        answer = bytearray(self.held)
        while piece := self.socket.recv(1 << 18):
            answer += piece
        return bytes(answer)

    def breaks(self) -> None:
        """The connection is broken, and not ended."""
        self.socket.setsockopt(socket.SOL_SOCKET, socket.SO_LINGER, struct.pack("ii", 1, 0))
        self.close()

    def close(self) -> None:
        self.socket.close()
