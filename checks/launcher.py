#!/usr/bin/env python3
"""Looks at what `./kubeconv` does around the program: which words it answers itself, what it builds, what it passes on.

    python3 checks/launcher.py

It launches in a folder of its own, with a program, a compiler and a prover that only say what they are asked. A line tells each thing that
was looked at; what is wrong is told on standard error, and then the status is 1. It takes some seconds.
"""

import contextlib
import os
import pathlib
import pty
import re
import shutil
import signal
import subprocess
import sys
import tempfile
import time
from typing import Any, Callable, Dict, Iterator, List, Tuple

TOP = pathlib.Path(__file__).resolve().parent.parent
# So many seconds something is waited for.
PATIENCE = 120
REFUSED = "kubeconv: bad command line\n"
UNPROVED = "kubeconv: compiled, not proved here: .ci/run proves it\n"
HINT = "./explain with the same files tells where and how to mend it\n"
# The program in the place of kubeconv: by its second word it ends, waits or tells.
PROGRAM = """#!/bin/sh
case $2 in
bad) echo 'kubeconv: bad command line' >&2 && exit 2 ;;
status) exit "$3" ;;
wait) echo "$$" && exec sleep 60 ;;
cat) cat ;;
*) echo "$*" ;;
esac
"""
# The compiler and the prover: each notes its words, and may keep the program.
BUILDER = """import pathlib, subprocess, sys
here = pathlib.Path(__file__).resolve()
top = here.parent.parent
with open(top / "asked", "a") as it:
    it.write(f"{here.name} {' '.join(sys.argv[1:])}\\n")
status = int((top / "status").read_text())
if "--behind" not in sys.argv and (not status or here.name == "build.py"):
    status = subprocess.run(["sh", "-c", (top / "keep").read_text(), top, "proved" if status else "first"]).returncode
sys.exit(status)
"""


# The words by which a shell keeps the program as one of a kind.
KEEP = 'top=$0 && . "$top/tools/kept.sh" && begin "$top/begun" && keep "$1" "$top/fake" "$top/begun"'
# The status, the output and what was told on standard error.
Came = Tuple[int, str, str]


class Wrong(Exception):
    """Something that isn't as it is to be."""


def same(what: str, came: Any, wanted: Any) -> None:
    if came != wanted:
        raise Wrong(f"{what}:\n  came   {came!r}\n  wanted {wanted!r}")


def lines_of(word: str = "") -> str:
    """The table of docs/COMMANDS.md as the launcher prints it, or the lines of one word."""
    rows = re.findall(r"^\| `(([a-z-]+)[^`]*)` \| (.*) \|$", (TOP / "docs/COMMANDS.md").read_text().partition("| line | does |")[2].partition("\n\n")[0], re.M)
    return "".join(f"  kubeconv {line}\n      {does}\n" for line, first, does in rows if first == word or not word)


class Folder:
    """A checkout with a launcher, and nothing in it that takes time."""

    def __init__(self, room: pathlib.Path, kind: str = "", fails: int = 0) -> None:
        self.top = room
        for it in ("kubeconv", "tools/kept.sh", "docs/COMMANDS.md"):
            (room / it).parent.mkdir(exist_ok=True)
            shutil.copy2(TOP / it, room / it)
        for it in ("src/lib.rt", "specs/Lib.antt", "proofs/Lib.antt"):
            (room / "crates/one" / it).parent.mkdir(parents=True, exist_ok=True)
            (room / "crates/one" / it).write_text("")
        self.script("fake", PROGRAM)
        for name, text in (("crates.txt", "one:\n"), ("HANDLES", ""), ("status", str(fails)), ("asked", ""), ("keep", KEEP)):
            (room / name).write_text(text)
        for name in ("compile.py", "build.py"):
            (room / "tools" / name).write_text(BUILDER)
        self.script("bin/rt", "#!/bin/sh\n")
        self.env = {"PATH": f"{room}/bin:{os.environ['PATH']}", "PYTHONDONTWRITEBYTECODE": "1"}
        if kind:
            subprocess.run(["sh", "-c", KEEP, room, kind], check=True)

    def script(self, name: str, text: str) -> None:
        (self.top / name).parent.mkdir(exist_ok=True)
        (self.top / name).write_text(text)
        (self.top / name).chmod(0o755)

    def run(self, *words: str, **how: Any) -> Came:
        ran = subprocess.run([self.top / "kubeconv", *words], env=self.env, capture_output=True, text=True, timeout=PATIENCE, **(how or {"stdin": subprocess.DEVNULL}))
        return ran.returncode, ran.stdout, ran.stderr

    def started(self, *words: str) -> "subprocess.Popen[str]":
        return subprocess.Popen([self.top / "kubeconv", *words], env=self.env, stdin=subprocess.DEVNULL, stdout=subprocess.PIPE, stderr=subprocess.PIPE, text=True)

    def asked(self) -> List[str]:
        """What was asked of the builders so far."""
        return (self.top / "asked").read_text().splitlines()


@contextlib.contextmanager
def folder(kind: str = "", fails: int = 0) -> Iterator[Folder]:
    with tempfile.TemporaryDirectory(prefix="kubeconv-launcher-") as to:
        yield Folder(pathlib.Path(to).resolve(), kind, fails)


def until(holds: Callable[[], bool], what: str) -> None:
    """Waits until something holds."""
    began = time.monotonic()
    while not holds():
        if time.monotonic() - began > PATIENCE:
            raise Wrong(f"{what} didn't come within {PATIENCE} seconds")
        time.sleep(0.02)


def is_gone(pid: int) -> bool:
    """Whether a process has ended, also where nobody asked for its status."""
    try:
        return pathlib.Path(f"/proc/{pid}/stat").read_text().rpartition(")")[2].split()[0] == "Z"
    except OSError:
        return True


def no_line() -> None:
    """No words, and a first word that begins no line, are refused, and nothing is built or summed."""
    with folder() as it:
        for words in ([], [""], ["x"], ["pip"], ["pipes"], ["-h"], ["--x"], ["pipe "], ["Pipe"], ["p.pe"], ["[a-z]*"], ["--help", "x"], ["--help,"], ["x", "--help"], ["--version", ""]):
            same(f"words {words}", it.run(*words), (2, "", REFUSED + lines_of()))
        same("builders", (it.asked(), (it.top / "out").exists()), ([], False))


def helps() -> None:
    """--help, and that of a command, is answered from the table, and nothing is built."""
    with folder() as it:
        same("--help", it.run("--help"), (0, lines_of(), ""))
        for word in ("pipe", "serve", "drill", "load"):
            same(f"{word} --help", it.run(word, "--help"), (0, lines_of(word), ""))
        same("builders", (it.asked(), (it.top / "out").exists()), ([], False))


def versions() -> None:
    """--version tells the commit and the kind of program, and nothing is built."""
    for kind, told in (("", "not built"), ("first", "compiled"), ("compiled", "compiled"), ("proved", "proved")):
        with folder(kind) as it:
            same(f"--version, {kind}", it.run("--version"), (0, f"kubeconv of no commit, {told}\n", ""))
            subprocess.run("git init -q && git add . && git -c user.name=n -c user.email=e commit -qm m && git tag v1", shell=True, check=True, cwd=it.top)
            commit = subprocess.run(["git", "rev-parse", "--short=12", "HEAD"], cwd=it.top, stdout=subprocess.PIPE, text=True, check=True).stdout.strip()
            same(f"--version, {kind}", it.run("--version"), (0, f"kubeconv {commit}, {told}\n", ""))
            same("builders", it.asked(), [])


def passes_on() -> None:
    """Words, input, output and status are the program's, also by a symbolic link, from elsewhere, and without an input."""
    with folder("proved") as it:
        words = ["drill", "a b", "", "*", "--x=1"]
        same("words", it.run(*words), (0, "drill a b  * --x=1\n", ""))
        same("input", it.run("pipe", "cat", input="one\ntwo"), (0, "one\ntwo", ""))
        for status in (0, 1, 3, 13):
            same("status", it.run("pipe", "status", str(status), "--rules"), (status, "", ""))
        same("its refusal", it.run("pipe", "bad"), (2, "", REFUSED + lines_of()))
        link = it.top / "elsewhere/linked"
        link.parent.mkdir()
        link.symlink_to("../kubeconv")
        ran = subprocess.run(["./linked", "drill", "1"], cwd=link.parent, env=it.env, stdout=subprocess.PIPE, text=True, timeout=PATIENCE)
        same("by a link", (ran.returncode, ran.stdout), (0, "drill 1\n"))
        closed = subprocess.run(["sh", "-c", 'exec "$0" pipe cat <&-', it.top / "kubeconv"], env=it.env, stdout=subprocess.PIPE, text=True, timeout=PATIENCE)
        same("no input", (closed.returncode, closed.stdout), (0, ""))


def tells_kinds() -> None:
    """A program that isn't proved says so on each run; the first one has the other made behind it."""
    for kind in ("first", "compiled"):
        with folder(kind) as it:
            same(kind, it.run("drill", "1"), (0, "drill 1\n", UNPROVED))
            if kind == "first":
                until(lambda: it.asked() == ["compile.py --behind"], "the other program")
            same("asked", it.asked(), ["compile.py --behind"] if kind == "first" else [])


def builds() -> None:
    """Where no program stands one is compiled, and proved where that fails, but not where it was interrupted; without rt nothing is tried."""
    compiled, proved = "compile.py --first", "build.py --log {}/out/build.log"
    with folder() as it:
        same("compiled", it.run("drill", "1"), (0, "drill 1\n", UNPROVED))
        same("asked", it.asked()[0], compiled)
    with folder(fails=1) as it:
        came = it.run("drill", "1")
        same("proved", came[:2], (0, "drill 1\n"))
        same("asked", it.asked(), [compiled, proved.format(it.top)])
    with folder(fails=143) as it:
        same("interrupted", it.run("drill", "1"), (143, "", ""))
        same("asked", it.asked(), [compiled])
    with folder() as it:
        for name in ("dirname", "readlink", "sed", "find", "sort", "sha256sum", "grep", "cut", "touch", "mv", "rm", "mkdir", "cat", "git", "setpriv", "echo", "python3"):
            found = shutil.which(name)
            if found:
                (it.top / "bin" / name).symlink_to(found)
        (it.top / "bin/rt").unlink()
        it.env["PATH"] = f"{it.top}/bin"
        came = it.run("drill", "1")
        same("without rt", (came[0], came[1], came[2].count("\n"), it.asked()), (1, "", 1, []))


def ends() -> None:
    """What ends the launcher ends the program, and the status tells the signal."""
    for number in (signal.SIGTERM, signal.SIGHUP, signal.SIGINT, signal.SIGKILL):
        if number == signal.SIGKILL and not shutil.which("setpriv"):
            continue
        with folder("proved") as it, it.started("serve", "wait") as launched:
            assert launched.stdout is not None
            pid = int(launched.stdout.readline())
            launched.send_signal(number)
            status = launched.wait(PATIENCE)
            same(f"the status by {number!r}", status, -number if number == signal.SIGKILL else 128 + signal.SIGTERM)
            until(lambda: is_gone(pid), f"the program's end by {number!r}")


def on_terminal(words: List[str], env: Dict[str, str]) -> Tuple[int, str]:
    """The status of a run whose standard error is a terminal, and what it told there."""
    at, terminal = pty.openpty()
    try:
        ran = subprocess.run(words, env=env, stdin=subprocess.DEVNULL, stdout=subprocess.DEVNULL, stderr=terminal, timeout=PATIENCE)
        os.write(terminal, b"\0")
        told = b""
        while not told.endswith(b"\0"):
            told += os.read(at, 4096)
        return ran.returncode, told[:-1].decode().replace("\r\n", "\n")
    finally:
        os.close(at)
        os.close(terminal)


def hints() -> None:
    """On a terminal a refusal of a definition or rules is followed by what explains it, and nothing else is."""
    with folder("proved") as it:
        launcher = str(it.top / "kubeconv")
        same("a refusal", on_terminal([launcher, "pipe", "status", "3", "--crd=a", "--rules", "b"], it.env), (3, HINT))
        same("one without rules", on_terminal([launcher, "pipe", "status", "3", "--crd=a"], it.env), (3, ""))
        same("another status", on_terminal([launcher, "pipe", "status", "4", "--rules", "b"], it.env), (4, ""))


def short() -> None:
    """The launcher is a page."""
    count = len((TOP / "kubeconv").read_text().splitlines())
    if count > 60:
        raise Wrong(f"the launcher has {count} lines, at most 60")


def main() -> int:
    """Looks at each thing."""
    # (what this process ignores, as under nohup, its children would ignore as well)
    for it in (signal.SIGHUP, signal.SIGQUIT, signal.SIGTERM):
        signal.signal(it, signal.SIG_DFL)
    signal.signal(signal.SIGINT, signal.default_int_handler)
    wrong = 0
    for look in (short, no_line, helps, versions, passes_on, tells_kinds, builds, ends, hints):
        try:
            look()
            print(f"ok     {look.__name__}: {(look.__doc__ or '').splitlines()[0]}", flush=True)
        except (Wrong, OSError, ValueError, subprocess.SubprocessError) as it:
            wrong += 1
            print(f"wrong  {look.__name__}: {it}", file=sys.stderr, flush=True)
    return int(bool(wrong))


if __name__ == "__main__":
    sys.exit(main())
