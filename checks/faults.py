#!/usr/bin/env python3
"""Looks at what the built program does where the system fails it. Each call fails in turn that it makes for memory, to read and to write,
one a run: `pipe` answers requests of the shared example, and `convert` converts an object of it.

| what fails | what is wanted |
|---|---|
| an allocation | status 7 with nothing written; or 0, and one request at most is answered by 503, the others as where it wasn't sent |
| a read | status 5, and what was written is a front of the right answer |
| a write | status 6, and the same |
| a read, a write: they take one byte of several | status 0 and the right answer |
| words of the command line aren't UTF-8 | status 2 and its line |
| there is no memory for the words of the command line | status 7 and its line |
| a request asks for far more than its body holds: 1 MiB of items by whose defaults it has 300 MB | 503, and less than 200 MB are held |

A small library that is loaded before the program's own counts the calls and makes one fail, and lets a read take 200 bytes at most, so that
there are many; a C compiler makes it, that of the kit where there is no other. For the words without memory the least is found with which a
run of one bad word ends as it should; many long words get a little more than that, 64 KiB more each time, until they end as they should too.

    python3 checks/faults.py --program FILE
    python3 checks/faults.py --kit

Prints how many calls of each kind failed and which statuses came, and each run that isn't as wanted. Ends with status 1 where there is one.
With --kit the kit's `rt try` compiles the program with its checks and does the same to `convert`: it prints each run with a bad access, without
an end, or with the right status and other output."""
from __future__ import annotations

import collections
import concurrent.futures
import functools
import os
import pathlib
import re
import resource
import shutil
import subprocess
import sys
import tempfile
from typing import Any, Callable, List, Optional, Sequence, Tuple

import parts  # noqa: F401
from harness.client import answers_in, messages_of, request
from harness.crontabs import GROUP, path_of
from harness.documents import definition_of, files_of, object_of, object_schema, pair_of, spelled
from harness.programs import CRATE, SHARED_FILES, TOP, Word, built, parser_of
from harness.told import FAULTS, check, end

Ended = Tuple[int, bytes, bytes]
LIBRARY = r"""
typedef unsigned long size;
struct piece { void *at; size len; };
extern void *__libc_malloc(size);
extern void *__libc_realloc(void *, size);
extern char *getenv(const char *);
extern long strtol(const char *, char **, int);
extern long syscall(long, ...);
extern int *__errno_location(void);
static char kind;
static long number, calls, told;
__attribute__((constructor)) static void begin(void) {
    if (!getenv("FAULT_KIND")) return;
    number = strtol(getenv("FAULT_NUMBER"), 0, 10);
    told = strtol(getenv("FAULT_TOLD"), 0, 10);
    kind = *getenv("FAULT_KIND");
}
static int is_meant(char it) {
    if (it != kind) return 0;
    calls++;
    if (number && calls != number) return 0;
    syscall(1, told, "!", 1L);
    return number != 0;
}
static long failed(int why) { *__errno_location() = why; return -1; }
void *malloc(size len) {
    if (is_meant('a')) { failed(12); return 0; }
    return __libc_malloc(len);
}
void *realloc(void *old, size len) {
    if (is_meant('a')) { failed(12); return 0; }
    return __libc_realloc(old, len);
}
long read(int from, void *into, size len) {
    if (is_meant('r')) return failed(5);
    if (kind && len > 200) len = 200;
    return syscall(0, from, into, len > 1 && is_meant('R') ? 1L : len);
}
long write(int to, const void *piece, size len) {
    if (is_meant('w')) return failed(5);
    return syscall(1, to, piece, len > 1 && is_meant('W') ? 1L : len);
}
"""
# The kinds of calls: the library's letter, what fails, and how a run ends then; the error line of status 6 is empty.
NO_MEMORY = 7, b"kubeconv: out of memory\n"
KINDS = {
    "a": ("allocations that fail", NO_MEMORY),
    "r": ("reads that fail", (5, b"kubeconv: read failed\n")),
    "w": ("writes that fail", (6, b"")),
    "R": ("reads of one byte", (0, b"")),
    "W": ("writes of one byte", (0, b"")),
}
# What differs from run to run: the moment, and the half of a uid that is the start's.
DIFFERS = re.compile(rb'(?<=Timestamp":")[0-9TZ:-]{20}(?=")|(?<="uid":")[0-9a-f-]{18}(?=-)')
# The words of `rt try` by which each call fails in turn.
KIT_WORDS = ["--fail-alloc", "--fail-io", "--short-io"]
BAD_WORDS = 2, b"kubeconv: bad command line\n"
# Memory is given in steps of bytes, so many at most, and so many more than the least. Of ten words each has nearly as many bytes as one may.
STEP, MOST, MORE, LONG_WORDS = 64 * 1024, 16_384, 256, ["w" * 100 * 1024] * 10
BODY_BYTES, MOST_MB = 1_048_576, 200


# ---- each call


def requests() -> bytes:
    """Those of the example, and an edit, a delete, and lists behind them."""
    edited = object_of("v1", "a", host="other", port="80")
    edited["metadata"]["resourceVersion"] = "2"
    more = ("PUT", path_of("v1", name="a"), edited), ("GET", path_of("v1beta1")), ("DELETE", path_of("v1", name="b")), ("GET", path_of("v1")), ("GET", GROUP)
    return (TOP / "examples/crontabs.http").read_bytes() + b"".join(request(*it) for it in more)


def no_memory() -> bytes:
    """The response to a request for which there was no memory."""
    status = {"apiVersion": "v1", "code": 503, "kind": "Status", "message": "out of memory", "metadata": {}, "reason": "ServiceUnavailable", "status": "Failure"}
    body = spelled(status)
    return b"HTTP/1.1 503 Service Unavailable\r\nContent-Type: application/json\r\nContent-Length: %d\r\n\r\n%s" % (len(body), body)


def is_front(text: bytes, right: bytes) -> bool:
    """Whether a text is a front of the right one, but for what differs from run to run."""
    alike = bytearray(right[: len(text)])
    for place in DIFFERS.finditer(right):
        alike[place.start() : place.end()] = text[place.start() : place.end()]
    return bytes(alike) == text


def is_same(text: bytes, right: bytes) -> bool:
    return len(text) == len(right) and is_front(text, right)


class Line:
    """A line of the program with its input, and what it comes to where nothing fails."""

    def __init__(self, program: Word, library: str, words: List[Word], given: bytes) -> None:
        self.program, self.library, self.words, self.given = program, library, words, given
        self.right = self.run(given)[0]
        if self.right[0] != 0 or self.right[2]:
            sys.exit(f"{words[0]} ended with {self.right}")

    def run(self, given: bytes, kind: str = "", number: int = 0) -> Tuple[Ended, int]:
        """How a run ended whose call of this number fails: its status, output and errors; and how many calls were meant."""
        with tempfile.TemporaryFile() as told:
            faults = {"LD_PRELOAD": self.library, "FAULT_KIND": kind, "FAULT_NUMBER": str(number), "FAULT_TOLD": str(told.fileno())} if kind else {}
            run = subprocess.run([self.program, *self.words], input=given, capture_output=True, env=faults, pass_fds=[told.fileno()], timeout=60)
            return (run.returncode, run.stdout, run.stderr), os.fstat(told.fileno()).st_size

    @functools.lru_cache(maxsize=None)
    def without(self, place: int) -> bytes:
        """The answers to all requests but one."""
        given = messages_of(self.given)
        return self.run(b"".join(given[:place] + given[place + 1 :]))[0][1]

    def is_wanted(self, kind: str, ended: Ended) -> bool:
        """Whether a run in which a call of this kind failed ended as it should."""
        status, output, errors = ended
        if kind == "a" and (status, errors) == (0, b""):
            answers = messages_of(output)
            if no_memory() not in answers:
                return is_same(output, self.right[1])
            place = answers.index(no_memory())
            return is_same(b"".join(answers[:place] + answers[place + 1 :]), self.without(place))
        is_right = output == b"" if kind == "a" else (is_same if status == 0 else is_front)(output, self.right[1])
        return (status, errors) == KINDS[kind][1] and is_right

    def sweep(self, kind: str) -> None:
        """Lets each call of a kind fail in a run of its own, and says what came."""
        calls = self.run(self.given, kind)[1]
        with concurrent.futures.ThreadPoolExecutor(os.cpu_count()) as pool:
            runs = list(pool.map(lambda number: self.run(self.given, kind, number), range(1, calls + 1)))
        bad = [f"at call {number}: {ended}" for number, (ended, hit) in enumerate(runs, 1) if hit != 1 or not self.is_wanted(kind, ended)]
        came = collections.Counter(ended[0] for ended, _ in runs)
        short = sum(no_memory() in ended[1] for ended, _ in runs)
        said = ", ".join(f"status {it}: {came[it]}" for it in sorted(came)) + (f"; answered by 503: {short}" if short else "")
        check(calls and not bad, "\n    ".join([f"{self.words[0]}: {calls} {KINDS[kind][0]}; {said}", *bad[:5]]))


def library_in(folder: pathlib.Path) -> str:
    """Makes the library that is loaded before the program's own."""
    kit = pathlib.Path(os.path.realpath(shutil.which("rt") or "rt")).parent.parent
    source, made = folder / "faults.c", folder / "faults.so"
    source.write_text(LIBRARY)
    compiler = shutil.which("cc") or kit / "toolchain/bin/clang"
    subprocess.run([compiler, "-O1", "-w", "-fno-builtin", "-fPIC", "-shared", "-nostdlib", source, "-o", made], check=True)
    return str(made)


def object_given() -> bytes:
    return spelled(pair_of("a", timeoutSeconds=5)[0])


def calls_that_fail(program: Word, folder: pathlib.Path) -> None:
    library = library_in(folder)
    for words, given in ([["pipe", *SHARED_FILES], requests()], [["convert", *SHARED_FILES, "--to", "v1"], object_given()]):
        line = Line(program, library, words, given)
        for kind in KINDS:
            line.sweep(kind)


def by_the_kit(word: str) -> None:
    """What `rt try` ends with, and says, where it lets each call fail in turn."""
    files = [part for it in SHARED_FILES[1::2] for part in ("--data", f"{it.name}={it}")]
    words = [str(getattr(it, "name", it)) for it in SHARED_FILES]
    line = ["rt", "try", word, "1..", *files, "--", "convert", *words, "--to", "v1"]
    run = subprocess.run(line, cwd=CRATE, input=object_given(), stdout=subprocess.DEVNULL, stderr=subprocess.PIPE)
    told = [f"    {it}" for it in run.stderr.decode(errors="replace").splitlines() if "call" in it or run.returncode]
    check(run.returncode == 0, "\n".join([f"{word}: status {run.returncode}", *told]))


# ---- the start, and memory


def ended(program: Word, words: Sequence[Any], steps: Optional[int] = None) -> Optional[Tuple[int, bytes]]:
    """How a run of these words ended, with so many steps of memory: its status and its error line. None where the process didn't begin, or
    was ended from outside."""
    limit: Optional[Callable[[], None]] = (lambda: resource.setrlimit(resource.RLIMIT_AS, (steps * STEP,) * 2)) if steps is not None else None
    try:
        run = subprocess.run([program, *words], stdin=subprocess.DEVNULL, capture_output=True, preexec_fn=limit)
    except (OSError, subprocess.SubprocessError):
        return None
    return (run.returncode, run.stderr) if 0 <= run.returncode != 127 else None


def words_of_the_line(program: Word, _folder: pathlib.Path) -> None:
    for words in ([b"\xff"], [b"pipe\xc3"], [b"pipe", b"--turns", b"\xed\xa0\x80"]):
        came = ended(program, words)
        check(came == BAD_WORDS, f"{words}: {came}")
    low, high = 0, MOST
    while low + 1 < high:
        middle = (low + high) // 2
        low, high = (low, middle) if ended(program, ["x"], middle) == BAD_WORDS else (middle, high)
    came_each = [ended(program, LONG_WORDS, high + more) for more in range(MORE)]
    wanted = came_each.index(BAD_WORDS) if BAD_WORDS in came_each else MORE
    short = [it for it in came_each[:wanted] if it is not None]
    said = f"{len(LONG_WORDS)} long words, from {high * STEP // 1024} KiB on: {short.count(NO_MEMORY)} of {len(short)} runs ended with 7"
    check({*short} == {NO_MEMORY} and wanted < MORE, f"{said}, and with {STEP * wanted // 1024} KiB more the words are bad")


def much_of_little(program: Word, folder: pathlib.Path) -> None:
    """The most memory that is held while one request asks for far more than its body holds, and with no input."""
    texts = {f"p{number:02}": {"default": "d" * 40, "type": "string"} for number in range(20)}
    schema = object_schema({"l": {"items": object_schema(texts), "type": "array"}})
    files = files_of(folder, "wide", definition_of({"v1": schema, "v1beta1": schema}), {})
    body = spelled(object_of("v1", "a", l=[]))[:-2]
    body += b",".join([b"{}"] * ((BODY_BYTES - len(body) - 2) // 3)) + b"]}"
    peaks = {}
    for given in b"", b"POST %s HTTP/1.1\r\nContent-Length: %d\r\n\r\n%s" % (path_of("v1").encode(), len(body), body):
        with tempfile.TemporaryFile() as source, tempfile.TemporaryFile() as sink:
            source.write(given)
            source.seek(0)
            process = subprocess.Popen([program, "pipe", *files], stdin=source, stdout=sink)
            _pid, status, used = os.wait4(process.pid, 0)
            process.returncode = status
            sink.seek(0)
            peaks[tuple(it.code for it in answers_in(sink.read()))] = used.ru_maxrss * 1024 / 1e6
    said = f"a body of {len(body)} bytes that asks for 300 MB: answers and peaks in MB {peaks}"
    check([*peaks] == [(), (503,)] and peaks[503,] < MOST_MB, said)


def main() -> None:
    parser = parser_of(__doc__)
    parser.add_argument("--kit", action="store_true", help="by the kit's rt try")
    options = parser.parse_args()
    if options.kit:
        with concurrent.futures.ThreadPoolExecutor(len(KIT_WORDS)) as pool:
            list(pool.map(by_the_kit, KIT_WORDS))
        end()
    program = built(options.program)
    with tempfile.TemporaryDirectory() as folder:
        for look in words_of_the_line, much_of_little, calls_that_fail:
            look(program, pathlib.Path(folder))
    print(f"{len(FAULTS)} kinds of runs weren't as wanted" if FAULTS else "each run was as wanted")
    end()


if __name__ == "__main__":
    main()
