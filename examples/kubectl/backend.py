"""What one client's request asks `kubeconv serve` by: a connection of its own from its first question to its last, so that what it reads is
never older than what it read or wrote before."""

import contextlib
import http.client
import threading
import typing

from statuses import Refused, read

# `serve` has threads for 64 connections, of which a front takes so many at most. A request that finds none free waits for one.
MOST_CONNECTIONS, MOST_WAIT_SECONDS = 24, 60


class Reply(typing.NamedTuple):
    """What `serve` answered."""

    code: int
    body: bytes

    def document(self):
        try:
            return read(self.body)
        except Refused as refused:
            raise Refused(502, "kubeconv serve answered what isn't JSON") from refused


class Asker(http.client.HTTPConnection):
    """The connection of one request."""

    def ask(self, method, target, body=None):
        try:
            self.request(method, target, body, {"Content-Type": "application/json"} if body else {})
            response = self.getresponse()
            return Reply(response.status, response.read())
        except UnicodeError as error:
            raise Refused(400, "the path isn't written in ASCII") from error
        except (OSError, http.client.HTTPException) as error:
            self.close()
            raise fault(error, method) from error


def fault(error, method):
    """What a request is refused by whose question to `serve` failed."""
    if isinstance(error, http.client.InvalidURL):
        return Refused(400, str(error))
    undone = "" if method == "GET" or isinstance(error, ConnectionRefusedError) else "; it may have been done"
    if isinstance(error, TimeoutError):
        return Refused(504, f"kubeconv serve didn't answer in {MOST_WAIT_SECONDS} seconds{undone}")
    if not isinstance(error, OSError):
        return Refused(502, f"kubeconv serve answered what isn't HTTP: {type(error).__name__}{undone}")
    return Refused(503, f"kubeconv serve can't be reached: {error or type(error).__name__}{undone}")


class Backend:
    """Where `serve` is, and how many connections to it there may be."""

    def __init__(self, address):
        self.address, self.places = address, threading.BoundedSemaphore(MOST_CONNECTIONS)

    @contextlib.contextmanager
    def asker(self):
        if not self.places.acquire(timeout=MOST_WAIT_SECONDS):
            raise Refused(503, "all connections to kubeconv serve are in use")
        try:
            with contextlib.closing(Asker(*self.address, timeout=MOST_WAIT_SECONDS)) as asker:
                yield asker
        finally:
            self.places.release()
