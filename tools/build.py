#!/usr/bin/env python3
"""Builds a program with the libraries below it side by side, as many at once as there are processors.

    python3 tools/build.py                 builds kubeconv, and keeps it for ./kubeconv
    python3 tools/build.py --log FILE      what rt says goes to FILE, and not to standard output
    python3 tools/build.py --only CRATE..  builds only these libraries and what is below them, and no program

`rt` builds one crate after another, and waits where a second one works in the same copy of the repository. But it takes a library
as built where its folder `out/rlib` was built of the same text, in whichever copy. So this makes a few copies of the sources among the
temporary files, and has a library built in one of them as soon as those below it stand and were put there, those with the longest chain
above them first. What stands is put here too; then `rt run` in this copy builds the program over it. Each library is proved as it always
is, once. The copies are removed at the end, and also after an interrupt; what one left that was killed is removed by the next. No other
`rt` works in this copy meanwhile: this waits for one that does, and keeps others out until `rt run`.

A line for each library that stands goes to standard error, with how many are left. Where anything fails, `rt run` goes on from
what stands, one crate after another. The status is that of the last command: 0 where the program stands; and 1
where a source changed meanwhile, so that it isn't kept.
"""
import argparse
import contextlib
import fcntl
import glob
import os
import queue
import re
import shutil
import signal
import subprocess
import sys
import tempfile
import time
from concurrent.futures import FIRST_COMPLETED, Future, ThreadPoolExecutor, wait
from types import FrameType
from typing import IO, Dict, Iterator, List, Optional, Set

import kept

TOP = os.path.dirname(os.path.dirname(os.path.realpath(__file__)))
PROGRAM = "kubeconv"
PARTS = ("src", "specs", "proofs")
ENDING = (signal.SIGINT, signal.SIGTERM, signal.SIGHUP)
# The memory that one build may take, so that fewer are begun where less is free.
BUILD_BYTES = 2_500_000_000
# The libraries of this repository that each crate names.
Named = Dict[str, List[str]]


def listed() -> Named:
    """What crates.txt says."""
    with open(f"{TOP}/crates.txt") as it:
        lines = [line.split("#")[0].partition(":") for line in it]
    named = {head.split()[0]: rest.split() for head, colon, rest in lines if colon and head.split()}
    return {crate: [it for it in names if it in named] for crate, names in named.items()}


def lowest_first(crates: List[str], named: Named) -> List[str]:
    """The crates and all below them, each behind those below it."""
    found: List[str] = []
    for crate in crates:
        found += [it for it in [*lowest_first(named[crate], named), crate] if it not in found]
    return found


def work_of(crate: str) -> int:
    """A guess of the work: each crate reads the libraries below it, and then proves its own lines."""
    files = [it for part in PARTS for it in glob.glob(f"{TOP}/crates/{crate}/{part}/**", recursive=True) if os.path.isfile(it)]
    return 1_000 + sum(open(it, "rb").read().count(b"\n") for it in files)


def chains(order: List[str], named: Named) -> Dict[str, int]:
    """How much work each crate and the longest chain above it have."""
    behind: Dict[str, int] = {}
    for crate in reversed(order):
        behind[crate] = work_of(crate) + max((behind[it] for it in behind if crate in named[it]), default=0)
    return behind


def places() -> int:
    """How many builds may go on at once."""
    found = len(os.sched_getaffinity(0))
    with contextlib.suppress(OSError, TypeError), open("/proc/meminfo") as it:
        free = int(re.search(r"MemAvailable:\s+(\d+)", it.read())[1]) * 1024  # type: ignore[index]
        found = min(found, max(1, free // BUILD_BYTES))
    return found


def sweep() -> None:
    """Removes the copies, and the libraries put somewhere in part, that a run left which was killed."""
    for it in glob.glob(f"{tempfile.gettempdir()}/kubeconv-build-*") + glob.glob(f"{TOP}/crates/*/out/rlib.*"):
        of = re.search(r"(?:/kubeconv-build-(\d+)-[^/]*|/rlib\.(\d+))$", it)
        if of and not os.path.exists(f"/proc/{of[1] or of[2]}"):
            shutil.rmtree(it, ignore_errors=True)


@contextlib.contextmanager
def alone_in(crates: List[str]) -> Iterator[None]:
    """Waits until no other rt works in these crates' folders here, as rt itself does, and keeps others out."""
    with contextlib.ExitStack() as held:
        for folder in sorted(f"{TOP}/crates/{it}" for it in crates):
            at = os.open(folder, os.O_RDONLY)
            held.callback(os.close, at)
            try:
                fcntl.flock(at, fcntl.LOCK_EX | fcntl.LOCK_NB)
            except BlockingIOError:
                print(f"kubeconv: waiting for another rt to finish in {folder}", file=sys.stderr, flush=True)
                fcntl.flock(at, fcntl.LOCK_EX)
            except OSError:
                pass  # a file system without locks
        yield


def copy_to(to: str, crates: List[str]) -> None:
    """Copies what these crates are made of, and their lines: rt wants a folder for each crate that crates.txt names."""
    os.mkdir(to)
    shutil.copy2(f"{TOP}/HANDLES", f"{to}/HANDLES")
    with open(f"{TOP}/crates.txt") as given, open(f"{to}/crates.txt", "w") as it:
        it.writelines(line for line in given if line.partition(":")[0].split()[:1] in [[crate] for crate in crates])
    for it in (f"crates/{crate}/{part}" for crate in crates for part in PARTS):
        if os.path.isdir(f"{TOP}/{it}"):
            shutil.copytree(f"{TOP}/{it}", f"{to}/{it}")


def stamp_of(at: str, crate: str) -> Optional[str]:
    """What rt wrote beside a library that it built: a sum of the text that it was built of. None where there is no library."""
    with contextlib.suppress(OSError), open(f"{at}/crates/{crate}/out/rlib/stamp") as it:
        return it.read()
    return None


def link_or_copy(of: str, to: str) -> None:
    """Gives a file of a library a second name, as rt does, which writes into no library that stands; or copies it to another disk."""
    try:
        os.link(of, to)
    except OSError:
        shutil.copy2(of, to)


def give(crate: str, of: str, to: str) -> None:
    """Gives a library that stands in one copy to another, where it isn't there yet. It stands there whole or not at all."""
    stamp, out = stamp_of(of, crate), f"{to}/crates/{crate}/out"
    if stamp is None or stamp == stamp_of(to, crate):
        return
    os.makedirs(out, exist_ok=True)
    new = f"{out}/rlib.{os.getpid()}"
    shutil.rmtree(new, ignore_errors=True)
    shutil.copytree(f"{of}/crates/{crate}/out/rlib", new, symlinks=True, copy_function=link_or_copy)
    shutil.rmtree(f"{out}/rlib", ignore_errors=True)
    os.rename(new, f"{out}/rlib")


class Builds:
    """The builds that go on, and in which copy each library stands that does."""

    def __init__(self, order: List[str], named: Named, log: Optional[IO[bytes]]) -> None:
        self.order, self.named, self.log = order, named, log
        self.running: Dict[str, "subprocess.Popen[bytes]"] = {}
        self.stand: Dict[str, str] = {}
        self.is_ended, self.began = False, time.monotonic()

    def run(self, words: List[str], at: str) -> int:
        """Runs rt in a folder, and gives its status."""
        how = {"stdin": subprocess.DEVNULL, "stdout": self.log, "stderr": subprocess.STDOUT, "start_new_session": True}
        with subprocess.Popen(["rt", *words], cwd=at, **how) as started:
            self.running[at] = started
            if self.is_ended:
                self.end()
            try:
                return started.wait()
            finally:
                self.end_one(started)
                del self.running[at]

    def end_one(self, started: "subprocess.Popen[bytes]") -> None:
        if started.poll() is None:
            with contextlib.suppress(OSError):
                os.killpg(started.pid, signal.SIGTERM)

    def end(self) -> None:
        """Ends the builds that go on, and those that are begun from now on."""
        self.is_ended = True
        for it in list(self.running.values()):
            self.end_one(it)

    def build(self, crate: str, is_alone: bool, copies: "queue.Queue[str]") -> None:
        """Builds one library in a copy, where it doesn't stand here already. Only the library is left of it."""
        at, began = copies.get(), time.monotonic()
        try:
            for it in lowest_first([crate], self.named)[:-1]:
                give(it, self.stand[it], at)
            give(crate, TOP, at)
            if self.run(["lib", *([] if is_alone else ["--jobs", "1"])], f"{at}/crates/{crate}"):
                raise OSError(f"{crate} doesn't stand")
            shutil.rmtree(f"{at}/crates/{crate}/out/incremental", ignore_errors=True)
            give(crate, at, TOP)
            self.stand[crate] = at
        finally:
            copies.put(at)
        now = time.monotonic()
        after = f"after {(now - self.began) / 60:.1f} minutes" if now - began >= 5 else "taken as it stands"
        print(f"kubeconv: {crate} stands, {after}; {len(self.order) - len(self.stand)} left", file=sys.stderr, flush=True)

    def side_by_side(self, room: str) -> bool:
        """Builds the libraries, and gives whether all stand."""
        behind, left, count = chains(self.order, self.named), list(self.order), places()
        copies: "queue.Queue[str]" = queue.Queue()
        for it in (f"{room}/{at}" for at in range(count)):
            copy_to(it, self.order)
            copies.put(it)
        going: "Set[Future[None]]" = set()
        with ThreadPoolExecutor(count) as pool:
            try:
                while going or left:
                    ready = sorted((it for it in left if all(below in self.stand for below in self.named[it])), key=lambda it: -behind[it])
                    for it in ready[: count - len(going)]:
                        left.remove(it)
                        going.add(pool.submit(self.build, it, len(ready) == 1 and not going, copies))
                    done, going = wait(going, 0.5, FIRST_COMPLETED)
                    for it in done:
                        it.result()
            except OSError:
                pass
            finally:
                self.end()
        self.is_ended = False
        return len(self.stand) == len(self.order)


def interrupted(number: int, _frame: Optional[FrameType]) -> None:
    raise KeyboardInterrupt(number)


def build(crates: List[str], log: Optional[IO[bytes]]) -> int:
    """Builds these libraries, or else the program, and gives the status."""
    named = listed()
    order = [it for it in lowest_first(crates or [PROGRAM], named) if it != PROGRAM or crates]
    builds = Builds(order, named, log)
    sweep()
    room = tempfile.mkdtemp(prefix=f"kubeconv-build-{os.getpid()}-")
    try:
        if not crates:
            kept.begin(f"{room}/begun")
        with alone_in(order):
            is_well = builds.side_by_side(room)
        if not is_well:
            print("kubeconv: not all libraries could be built side by side: one crate after another now", file=sys.stderr, flush=True)
        for crate in crates or [PROGRAM]:
            status = builds.run(["lib"] if crates else ["run", "--", "pipe"], f"{TOP}/crates/{crate}")
            if status:
                return status
        return int(not crates and not kept.keep("proved", f"{TOP}/crates/{PROGRAM}/out/{PROGRAM}", f"{room}/begun"))
    finally:
        # (a second interrupt would leave them)
        for it in ENDING:
            signal.signal(it, signal.SIG_IGN)
        shutil.rmtree(room, ignore_errors=True)


def main() -> int:
    """Reads the words, and builds."""
    parser = argparse.ArgumentParser(description=__doc__, formatter_class=argparse.RawDescriptionHelpFormatter)
    parser.add_argument("--log", help="the file that what rt says goes to")
    parser.add_argument("--only", nargs="+", metavar="CRATE", default=[], help="libraries to be built, and no program")
    options = parser.parse_args()
    for it in ENDING:
        signal.signal(it, interrupted)
    try:
        return build(options.only, open(options.log, "ab") if options.log else None)
    except KeyboardInterrupt as it:
        return 128 + (it.args[0] if it.args else signal.SIGINT)


if __name__ == "__main__":
    sys.exit(main())
