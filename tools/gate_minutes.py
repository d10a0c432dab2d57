#!/usr/bin/env python3
"""The processor minutes that a run of the gate takes.

    python3 tools/gate_minutes.py                   runs `rt ci`
    python3 tools/gate_minutes.py --anew            runs `rt ci --anew`, which takes nothing that earlier runs kept
    python3 tools/gate_minutes.py COMMAND WORD..    runs any other command, such as `rt ci NAME`
    python3 tools/gate_minutes.py --times LOG       prints the table once more from a log that an earlier run wrote
    python3 tools/gate_minutes.py --tell PROCESS    tells how long a run of `rt ci` below a process takes, as `.ci/run` has it do

It prints what the command prints, and then the sum: the processor time of the command and of all that it waited for, as the
system counts it when it ends (what the word `times` of a shell gives of its children), the minutes of the clock, and the number
of processors that it could use. That sum is exact.

Then comes a table by crate for CONTRIBUTING.md, in processor minutes: the proof of the crate, its tests with the proof that these
begin with, its edits with the check that these begin with, and how many edits it has. It is made of looks: twice a second it
notes for each process below the command which crate its words name (`--crate-name`), whether they have `--test`, whether it works
in an edit's folder, and the processor time that it has taken. What a process takes after the last look is lost, so the table
sums to a little less than the exact sum; the rest of that is the work of rt itself, and running the tests and the programs. What
an earlier run kept, or this one didn't come to, takes nothing: its place says `kept`, and crates of which nothing was seen stand below
the table. So a whole table needs --anew, or a machine that kept nothing.

With --tell it looks every few seconds instead, and after ten minutes, and each ten that follow, tells on standard error which share of the
work is done and how long the rest takes at this pace. The work of a crate is guessed by its lines, and that of an edit is the same for all;
what an earlier run kept counts for nothing. It ends with the process.

It ends with the command's status. --log FILE before the other words writes the looks into FILE, a line a process, each minute and at
the end, so that a run that is cut off leaves its table too. Linux only.
"""
import contextlib
import os
import pathlib
import re
import resource
import subprocess
import sys
import time
from typing import Dict, Iterator, List, Optional, Set, Tuple

LOOK_SECONDS, LOG_SECONDS = 0.5, 60
# With --tell: so often it looks, and tells, in seconds.
TELL_LOOK, TELL_SECONDS = 5, 600
# The work of a proof is its lines and these, which is what it reads of others; an edit is as much work, on the average, as so many lines.
PROOF_LINES, EDIT_LINES = 1_000, 1_200
TICKS = os.sysconf("SC_CLK_TCK")
KINDS = ("proof", "tests", "edits")
EDIT = "rt-edit-"
# What may be asked of a process that has ended meanwhile.
GONE = (OSError, ValueError, IndexError)
# For how many seconds each process, by its number and when it began, was seen to check a crate, and for what.
Seen = Dict[Tuple[int, str], Tuple[str, str, float]]


# ---- what goes on


def stat_of(pid: int) -> List[str]:
    """What the system tells of a process, from its state on."""
    return pathlib.Path(f"/proc/{pid}/stat").read_text().rpartition(")")[2].split()


def below(root: int) -> List[int]:
    """The processes that come from one, itself left out."""
    children: Dict[int, List[int]] = {}
    for pid in map(int, filter(str.isdigit, os.listdir("/proc"))):
        with contextlib.suppress(*GONE):
            children.setdefault(int(stat_of(pid)[1]), []).append(pid)
    found = [root]
    for it in found:
        found += children.get(it, [])
    return found[1:]


def folder_of(pid: int) -> str:
    """The name of the folder that a process works in."""
    return os.path.basename(os.readlink(f"/proc/{pid}/cwd"))


def kind_of(pid: int) -> Optional[Tuple[str, str]]:
    """The crate that a process checks or builds, and for what, or None."""
    words = pathlib.Path(f"/proc/{pid}/cmdline").read_text(errors="replace").split("\0")
    if "--crate-name" not in words or "rattle" not in os.path.basename(words[0]):
        return None
    kind = "edits" if folder_of(pid).startswith(EDIT) else "tests" if "--test" in words else "proof"
    return words[words.index("--crate-name") + 1], kind


def look(root: int, seen: Seen) -> None:
    """Notes what each process below the root, and what it waited for, has taken until now."""
    for pid in below(root):
        with contextlib.suppress(*GONE):
            stat = stat_of(pid)
            kind = seen[pid, stat[19]][:2] if (pid, stat[19]) in seen else kind_of(pid)
            if kind:
                seen[pid, stat[19]] = (*kind, sum(map(int, stat[11:15])) / TICKS)


# ---- the crates


def order() -> List[str]:
    """The crates of crates.txt, in its order."""
    with contextlib.suppress(OSError):
        lines = [line.split("#")[0].partition(":") for line in pathlib.Path("crates.txt").read_text().split("\n")]
        return [head.split()[0] for head, colon, _ in lines if colon and head.split()]
    return []


def files(crate: str, *parts: str) -> Iterator[bytes]:
    """The texts of these folders of a crate."""
    return (it.read_bytes() for part in parts for it in pathlib.Path("crates", crate, part).rglob("*") if it.is_file())


def edits_of(crate: str) -> int:
    return len(list(pathlib.Path("crates", crate, "must-fail").glob("*.edit")))


def has_tests(crate: str) -> bool:
    return any(re.search(rb"^\s*#\[test\]", it, re.M) for it in files(crate, "src"))


def table(seen: List[Tuple[str, str, float]]) -> None:
    """Prints the minutes of each crate, as CONTRIBUTING.md has them."""
    minutes: Dict[str, Dict[str, float]] = {}
    for crate, kind, seconds in seen:
        minutes.setdefault(crate, dict.fromkeys(KINDS, 0.0))[kind] += seconds / 60
    listed = order()
    print("| crate | proof | tests | edits |\n|---|---|---|---|")
    for crate in sorted(minutes, key=lambda it: (listed.index(it) if it in listed else len(listed), it)):
        of, count = minutes[crate], edits_of(crate)
        cells = [f"{of[it]:.1f}" if of[it] else "kept" for it in KINDS]
        if not of["tests"] and not has_tests(crate):
            cells[1] = "none"
        cells[2] = f"{cells[2]}, {count}" if of["edits"] or count else "none"
        print(f"| `{crate}` | {' | '.join(cells)} |")
    each = [sum(of[it] for of in minutes.values()) for it in KINDS]
    print(f"| all | {' | '.join(f'{it:.1f}' for it in each)} |")
    unseen = [it for it in listed if it not in minutes]
    if unseen:
        print(f"\nNothing was seen of these, since an earlier run kept them, or this one was stopped: {', '.join(unseen)}.")
    over = [it for it in minutes if sum(minutes[it].values()) > 10]
    print(f"\nBy looks: {sum(each):.0f} processor minutes. Over ten in all: {', '.join(sorted(over)) or 'no crate'}.")


# ---- how long it takes


class Work:
    """What a run of `rt ci` has done. A crate that stands was proved by it where a process was seen that did, and is else kept; so are its
    edits, then, unless one was seen to be tried: a run that was cut off may have proved a crate and not tried its edits."""

    def __init__(self) -> None:
        self.edits = {it: edits_of(it) for it in order()}
        # (the tests of a crate are proved beside it, so they stand about as early)
        lines = {it: PROOF_LINES + sum(text.count(b"\n") for text in files(it, "src", "specs", "proofs")) for it in self.edits}
        self.lines = {it: lines[it] * (2 if has_tests(it) else 1) for it in lines}
        self.began: Set[str] = set()
        self.editing: Set[str] = set()
        self.tried: Dict[str, bool] = {}

    def look(self, root: int) -> None:
        """Notes what is going on."""
        going = set()
        for pid in below(root):
            with contextlib.suppress(*GONE):
                folder = folder_of(pid)
                is_edit = folder.startswith(EDIT)
                if is_edit:
                    going.add(folder)
                found = kind_of(pid)
                if found:
                    (self.editing if is_edit else self.began).add(found[0])
        self.tried = {it: it not in going for it in {*self.tried, *going}}

    def told(self, seconds: float) -> str:
        """How far it is after so many seconds, and how long the rest takes."""
        stand = {it for it in self.lines if os.path.isdir(f"crates/{it}/out/rlib") or os.path.isfile(f"crates/{it}/out/{it}")}
        kept, proved = stand - self.began, stand & self.began
        to_do = [it for it in self.lines if it not in kept]
        edits, tried = sum(self.edits[it] for it in {*to_do, *self.editing}), sum(self.tried.values())
        whole = sum(self.lines[it] for it in to_do) + EDIT_LINES * edits
        done = sum(self.lines[it] for it in proved) + EDIT_LINES * tried
        text = f"after {seconds / 60:.0f} minutes {len(proved)} of {len(to_do)} crates are proved and {min(tried, edits)} of {edits} edits tried"
        text += f", besides {len(kept)} crates that an earlier run kept" if kept else ""
        if not done:
            return f"{text}: too little to say how long it takes"
        share = min(0.99, done / whole)
        return f"{text}, {share * 100:.0f} % of the work: some {seconds / 60 * (1 - share) / share:.0f} more minutes"


def tell(root: int) -> int:
    """Tells how long a run takes that goes on below a process, until that ends."""
    began, work, times = time.monotonic(), Work(), 1
    while os.path.exists(f"/proc/{root}"):
        time.sleep(TELL_LOOK)
        work.look(root)
        now = time.monotonic() - began
        if now >= times * TELL_SECONDS:
            times += 1
            print(f".ci/run: {work.told(now)}", file=sys.stderr, flush=True)
    return 0


# ---- a run


def note(log: Optional[str], seen: Seen) -> None:
    """Writes the looks into the file, if there is one."""
    if log:
        new = pathlib.Path(f"{log}.new")
        new.write_text("".join(f"{crate} {kind} {seconds:.2f}\n" for crate, kind, seconds in seen.values()))
        new.replace(log)


def run(words: List[str], log: Optional[str]) -> int:
    """Runs a command, and prints what it took."""
    began, before, noted = time.monotonic(), resource.getrusage(resource.RUSAGE_CHILDREN), 0.0
    seen: Seen = {}
    started = subprocess.Popen(words)
    while started.returncode is None:
        # (an interrupt comes to the command as well, which is waited for)
        with contextlib.suppress(subprocess.TimeoutExpired, KeyboardInterrupt):
            started.wait(LOOK_SECONDS)
            break
        with contextlib.suppress(KeyboardInterrupt):
            look(started.pid, seen)
            if time.monotonic() - began - noted >= LOG_SECONDS:
                noted = time.monotonic() - began
                note(log, seen)
    status, after, clock = started.returncode, resource.getrusage(resource.RUSAGE_CHILDREN), time.monotonic() - began
    user, system = after.ru_utime - before.ru_utime, after.ru_stime - before.ru_stime
    note(log, seen)
    sys.stdout.flush()
    print(f"\n`{' '.join(words)}` ended with status {status}, on {len(os.sched_getaffinity(0))} processors:")
    print(f"{(user + system) / 60:.1f} processor minutes ({user / 60:.1f} of them user), {clock / 60:.1f} minutes of the clock\n")
    table(list(seen.values()))
    return status if status >= 0 else 128 - status


def main(words: List[str], here: str) -> int:
    log: Optional[str] = None
    if words[:1] == ["--log"]:
        log, words = os.path.join(here, words[1]), words[2:]
    if words[:1] in (["-h"], ["--help"]):
        print(__doc__, end="")
        return 0
    if words[:1] == ["--tell"] and len(words) == 2:
        return tell(int(words[1]))
    if words[:1] == ["--times"]:
        lines = map(str.split, pathlib.Path(here, words[1]).read_text().splitlines())
        table([(crate, kind, float(seconds)) for crate, kind, seconds in lines])
        return 0
    return run(["rt", "ci", *words] if words in ([], ["--anew"]) else words, log)


if __name__ == "__main__":
    came = os.getcwd()
    os.chdir(f"{os.path.dirname(os.path.realpath(__file__))}/..")
    sys.exit(main(sys.argv[1:], came))
