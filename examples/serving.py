"""What the servers of these examples share: a server with a thread for each connection, with TLS on demand, that reads bodies of a
given length or in chunks, lets silent peers go, and answers the requests that are there before it ends."""
import contextlib
import http.server
import io
import os
import re
import signal
import socket
import socketserver
import ssl
import sys
import threading
import time
import traceback
import typing

FIELD_NAME = re.compile(r"[!#$%&'*+.^_`|~0-9A-Za-z-]+")
LINE, TRAILERS = 4_096, 64  # bytes of a line between chunks, and lines behind the last chunk
LINGER = 2  # seconds that a refused peer may still send, so that it gets to read the answer


class Refused(Exception):
    """A request that is answered by a code and a line."""

    def __init__(self, code, line):
        super().__init__(line)
        self.code = code


class Answer(typing.NamedTuple):
    code: int
    body: bytes
    media: str = "application/json"
    headers: typing.Sequence[typing.Tuple[str, str]] = ()


class Peer(io.RawIOBase):
    """A connection whose reads and writes end at one time, so many seconds behind the last call of `renew`."""

    def __init__(self, connection, seconds):
        self.connection, self.seconds = connection, seconds
        self.renew(seconds)

    def renew(self, seconds=None):
        self.until = time.monotonic() + (self.seconds if seconds is None else seconds)

    def wait(self):
        left = self.until - time.monotonic()
        if left <= 0:
            raise TimeoutError(f"no whole request or answer in {self.seconds} seconds")
        self.connection.settimeout(left)

    def readable(self):
        return True

    def writable(self):
        return True

    def readinto(self, buffer):
        self.wait()
        return self.connection.recv_into(buffer)

    def write(self, data):
        rest = memoryview(data)
        while rest:
            self.wait()
            rest = rest[self.connection.send(rest) :]
        return len(data)


class Handler(http.server.BaseHTTPRequestHandler):
    """The requests of one connection. A server says what answers one (`answered`), and may say what refuses one."""

    protocol_version = default_request_version = "HTTP/1.1"
    seconds, longest = 60, 1 << 20  # for a request and for its answer; bytes of a body
    wants_length = is_told = False  # whether a body has to have a length, and whether refusals are told on standard error

    def setup(self):
        self.peer = self.wfile = Peer(self.request, self.seconds)
        self.rfile, self.unread = io.BufferedReader(self.peer, 65536), False

    def finish(self):
        if self.unread:
            self.peer.renew(LINGER)
            with contextlib.suppress(OSError):
                self.request.shutdown(socket.SHUT_WR)
                while self.rfile.read1(65536):
                    pass
        super().finish()

    def handle_one_request(self):
        self.peer.renew()
        try:
            first = self.rfile.peek(1)
        except (TimeoutError, ConnectionError):
            first = b""
        if not first or self.server.stopping:
            self.close_connection = True
            return
        self.peer.renew()
        with self.server.at_work():
            super().handle_one_request()

    def serve(self):
        """Answers one request. Where its body couldn't be read, the connection ends behind the answer."""
        try:
            body = self.body()
        except Refused as refused:
            self.unread = self.close_connection = True
            self.say(self.refusal(refused.code, str(refused)))
            return
        answer = self.answered(body)
        self.peer.renew()
        self.say(answer)

    def refusal(self, code, why):
        return Answer(code, why.encode(), "text/plain")

    def log_message(self, form, *words):
        if self.is_told:
            super().log_message(form, *words)

    def send_error(self, code, message=None, explain=None):
        """Refuses a head that can't be read, or a method that is none."""
        self.unread = self.close_connection = True
        self.say(self.refusal(int(code), message or explain or "the head can't be read"))

    def say(self, answer):
        if self.server.stopping:
            self.close_connection = True
        head = [f"HTTP/1.1 {answer.code} {self.responses.get(answer.code, ('Unknown',))[0]}", f"Date: {self.date_time_string()}"]
        length, body = self.framed(answer.body)
        head += [f"Content-Type: {answer.media}", length]
        head += [f"{name}: {value}" for name, value in answer.headers] + ["Connection: close"] * self.close_connection
        self.wfile.write("\r\n".join([*head, "", ""]).encode("latin-1", "replace") + (b"" if self.command == "HEAD" else body))

    def framed(self, body):
        """The field that tells how long a body is, and the bytes that carry it."""
        return f"Content-Length: {len(body)}", body

    # ---- the body

    def handle_expect_100(self):
        """Lets a peer send its body that asks first, but none that is too long."""
        length = self.headers.get("Content-Length", "0")
        return length.isdecimal() and int(length[:18]) > self.longest or super().handle_expect_100()

    def body(self):
        """The request's body, of a given length or in chunks."""
        if self.headers.defects or not all(FIELD_NAME.fullmatch(name) for name in self.headers):
            raise Refused(400, "a line of the head is no field")
        lengths = set(self.headers.get_all("Content-Length", []))
        codings = self.headers.get_all("Transfer-Encoding", [])
        if codings:
            if lengths or [coding.strip().lower() for coding in codings] != ["chunked"]:
                raise Refused(400, "a body has a Content-Length, or is in chunks")
            return b"".join(self.chunks())
        if not lengths and self.wants_length:
            raise Refused(411, "a body has a Content-Length, or is in chunks")
        if len(lengths) > 1 or not re.fullmatch("[0-9]{1,18}", length := min(lengths, default="0").strip()):
            raise Refused(400, "the Content-Length is no number")
        return self.exactly(int(length), 0)

    def exactly(self, size, before):
        """So many bytes of the peer, behind those that were read of the body before."""
        if before + size > self.longest:
            raise Refused(413, f"a body has at most {self.longest} bytes")
        data = self.rfile.read(size)
        if len(data) < size:
            raise ConnectionError("the body is cut")
        return data

    def chunks(self):
        """The parts of a body in chunks, and its trailers, which are dropped."""
        total = 0
        while True:
            line = re.fullmatch(rb"[ \t]*([0-9A-Fa-f]{1,8})[ \t]*(;[^\n]*)?\r?\n", self.rfile.readline(LINE))
            if line is None:
                raise Refused(400, "a chunk begins with its size")
            size = int(line[1], 16)
            if size == 0:
                break
            yield self.exactly(size, total)
            total += size
            if self.rfile.readline(3) not in (b"\r\n", b"\n"):
                raise Refused(400, "a chunk ends with a line's end")
        for _ in range(TRAILERS):
            line = self.rfile.readline(LINE)
            if line in (b"\r\n", b"\n"):
                return
            if not line.endswith(b"\n"):
                break
        raise Refused(400, "the trailers have no end")


class Tls:
    """The certificate and its key, as they stand in their files now."""

    def __init__(self, cert, key):
        self.files = cert, key
        self.seen = self.context = None
        self.current()

    def current(self):
        seen = [os.stat(file).st_mtime_ns for file in self.files]
        if seen != self.seen:
            context = ssl.SSLContext(ssl.PROTOCOL_TLS_SERVER)
            context.minimum_version = ssl.TLSVersion.TLSv1_2
            try:
                context.load_cert_chain(*self.files)
            except (OSError, ValueError):  # half written: the last pair that fitted goes on
                if self.context is None:
                    raise
                return self.context
            self.seen, self.context = seen, context
        return self.context


class Server(socketserver.ThreadingMixIn, socketserver.TCPServer):
    """A thread for each connection, of which so many are open at most. What ended one is told, where its handler is to tell."""

    allow_reuse_address = daemon_threads = True
    block_on_close = False
    request_queue_size = 256

    def __init__(self, address, handler, most, tls=None):
        self.address_family = socket.getaddrinfo(*address, type=socket.SOCK_STREAM)[0][0]
        super().__init__(address, handler)
        self.tls, self.stopping, self.working = tls, False, 0
        self.rest, self.places = threading.Condition(), threading.BoundedSemaphore(most)

    @contextlib.contextmanager
    def at_work(self):
        """Counts the requests that have begun."""
        with self.rest:
            self.working += 1
        try:
            yield
        finally:
            with self.rest:
                self.working -= 1
                self.rest.notify_all()

    def process_request(self, request, client_address):
        self.places.acquire()
        super().process_request(request, client_address)

    def process_request_thread(self, request, client_address):
        try:
            super().process_request_thread(request, client_address)
        finally:
            self.places.release()

    def finish_request(self, request, client_address):
        request.setsockopt(socket.IPPROTO_TCP, socket.TCP_NODELAY, True)
        request.settimeout(self.RequestHandlerClass.seconds)
        if self.tls is None:
            super().finish_request(request, client_address)
            return
        with self.tls.current().wrap_socket(request, server_side=True) as inside:
            super().finish_request(inside, client_address)

    def handle_error(self, request, client_address):
        error = sys.exc_info()[1]
        said = str(error) if isinstance(error, OSError) else traceback.format_exc()
        print(f"{client_address[0]}: {said}", file=sys.stderr, flush=True)

    def stop(self, *_):
        """Takes no further connection; the answers to the requests that have begun are the last of theirs."""
        self.stopping = True
        threading.Thread(target=self.shutdown).start()

    def run(self, scheme=""):
        """Says where it listens, and serves until SIGTERM or SIGINT and the answers to the requests that have begun."""
        for number in (signal.SIGTERM, signal.SIGINT):
            signal.signal(number, self.stop)
        host, port = self.server_address[:2]
        print(f"listening on {scheme}{f'[{host}]' if ':' in host else host}:{port}", flush=True)
        self.serve_forever()
        with self.rest:
            self.rest.wait_for(lambda: self.working == 0, self.RequestHandlerClass.seconds)
