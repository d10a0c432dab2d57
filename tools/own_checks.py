#!/usr/bin/env python3
"""The repository's own checks, all but proofs and programs of cases. `.ci/run` and `./check` both run these.

    python3 tools/own_checks.py --by NAME [--program PROGRAM]

What a check refused is told on standard error, with a line `NAME: refused: WHAT`; nothing is printed where all is well. The status is the
first one that isn't 0. Without a PROGRAM what looks at a program's answers is left out.
"""

import argparse
import ast
import contextlib
import os
import pathlib
import subprocess
import sys
import tempfile
from typing import Callable, Dict, Iterator, List, NamedTuple, Optional, Set, Tuple

TOP = pathlib.Path(__file__).resolve().parent.parent
# The oldest Python that the scripts are for.
PYTHON = (3, 8)
# So many seconds a check may take.
PATIENCE = 600
Came = Tuple[int, str]


class Check(NamedTuple):
    """A check: in a word, what is so where it refuses, and what it does, by a program where it wants one."""

    name: str
    refused: str
    look: Callable[[Optional[str]], Came]
    wants_program: bool = False


def run(*words: str) -> Came:
    """Runs a command at the top, and gives its status and what it told where it isn't 0."""
    # (what it prints may be long, and its pipes may be kept open by what it left)
    with tempfile.TemporaryFile("w+", errors="replace") as out, tempfile.TemporaryFile("w+", errors="replace") as told:
        env = {**os.environ, "PYTHONDONTWRITEBYTECODE": "1"}
        with contextlib.suppress(subprocess.TimeoutExpired):
            status = subprocess.run(words, cwd=TOP, stdin=subprocess.DEVNULL, stdout=out, stderr=told, env=env, timeout=PATIENCE).returncode
            for it in (told, out):
                it.seek(0)
            return status, "" if not status else told.read() or out.read()
    return 1, f"it hadn't ended after {PATIENCE} seconds\n"


def script(*words: str) -> Callable[[Optional[str]], Came]:
    """A script that looks at files alone."""
    return lambda _: run(sys.executable, *words)


def by_program(*words: str) -> Callable[[Optional[str]], Came]:
    """A script that looks at what a program answers."""
    return lambda program: run(sys.executable, *words, str(program))


def told(lines: List[str]) -> Came:
    return int(bool(lines)), "".join(f"{it}\n" for it in lines)


def files(*endings: str) -> Iterator[pathlib.Path]:
    """The files of the repository that end so, but what is built."""
    for at, folders, names in os.walk(TOP):
        folders[:] = sorted(it for it in folders if it not in (".git", "out", "__pycache__"))
        yield from (pathlib.Path(at) / it for it in sorted(names) if it.endswith(endings))


def launchers(_: Optional[str]) -> Came:
    found = [TOP / it for it in sorted(os.listdir(TOP)) if (TOP / it).is_file() and os.access(TOP / it, os.X_OK)]
    shells = [it for it in found if it.read_bytes().startswith(b"#!/bin/sh")]
    for it in [*shells, *TOP.glob("tools/*.sh")]:
        status, said = run("sh", "-n", str(it))
        if status:
            return status, said
    return 0, ""


def scripts(_: Optional[str]) -> Came:
    """Each script is Python of the oldest kind."""
    wrong = []
    for it in [*files(".py"), TOP / "check"]:
        try:
            ast.parse(it.read_text(encoding="utf-8"), str(it), feature_version=PYTHON)
        except (SyntaxError, UnicodeDecodeError) as fault:
            wrong.append(f"{it.relative_to(TOP)}: {fault}")
    return told(wrong)


def own_tests(_: Optional[str]) -> Came:
    """The tests of the scripts, in each folder `tests`."""
    for folder in sorted({it.parent for it in files(".py") if it.parent.name == "tests" and it.name.startswith("test")}):
        within = ["-t", str(TOP)] if (folder / "__init__.py").is_file() else []
        status, said = run(sys.executable, "-m", "unittest", "discover", "-s", str(folder), *within)
        if status:
            return status, said
    return 0, ""


def places(_: Optional[str]) -> Came:
    """Each .rt file stands in the src/ of a listed crate, each .antt file in its specs/ or proofs/."""
    named: Set[str] = set()
    for line in (TOP / "crates.txt").read_text().split("\n"):
        head, colon, _rest = line.split("#")[0].partition(":")
        named.update(head.split()[:1] if colon else ())
    parts: Dict[str, Tuple[str, ...]] = {".rt": ("src",), ".antt": ("specs", "proofs")}
    stray = []
    for it in files(".rt", ".antt"):
        at = it.relative_to(TOP).parts
        if len(at) < 4 or at[0] != "crates" or at[1] not in named or at[2] not in parts[it.suffix]:
            stray.append(str(it.relative_to(TOP)))
    return told(stray)


def handles(_: Optional[str]) -> Came:
    return told([] if (TOP / "HANDLES").read_bytes() == b"Handles allowed: Threads, Wait, Net.\n" else ["HANDLES"])


def examples(_: Optional[str]) -> Came:
    """The shared definition stands in the code, and its rules; the files of examples/ are the same texts, which the script `# example: ..` of
    test_program prints behind its title."""
    lines = (TOP / "crates/test_program/stdout").read_text(errors="replace").split("\n")
    at = next((at for at, line in enumerate(lines) if line.startswith("# example: ")), None)
    shown = lines[at + 1 :] if at is not None else []
    shown = shown[: shown.index("")] if "" in shown else shown
    wanted = "".join((TOP / "examples" / it).read_text() for it in ("crontabs.json", "crontabs.rules.json"))
    return told([] if "".join(f"{it}\n" for it in shown) == wanted else ["examples/crontabs.json"])


def documents(program: Optional[str]) -> Came:
    return run(sys.executable, "tools/check_documents.py", *(["--program", program] if program else []))


CHECKS = (
    Check("launchers", "a launcher is no shell script", launchers),
    Check("scripts", "a script is no Python of 3.8 or later", scripts),
    Check("tests", "a test of the scripts fails", own_tests),
    Check("places", "these files stand outside the folders of listed crates", places),
    Check("handles", "HANDLES is not the line that it is to be", handles),
    Check("examples", "examples/crontabs.json and its rules are not what test_program prints behind its title example", examples),
    Check("documents", "the documents are not as tools/check_documents.py says", documents),
    Check("definitions", "tools/definitions.py --check: docs/DEFINITIONS.md is stale, or a file of specs/ is in the wrong place", script("tools/definitions.py", "--check")),
    Check("promises", "docs/PROMISES.md names what there is not, or lacks an edit", script("tools/check_promises.py")),
    Check("words", "docs/API.md lacks a word of an answer, or has one that there is not", script("tools/check_words.py")),
    Check("pictures", "a picture of docs/ is an old one: python3 tools/pictures.py", script("tools/pictures.py", "--check")),
    Check("launching", "./kubeconv does not launch a program as checks/launcher.py says", script("checks/launcher.py")),
    Check("connections", "connections of serve are not answered as checks/connections.py says", by_program("checks/connections.py"), True),
    Check("rules", "an example of rules is not what it says", by_program("examples/rules/check.py"), True),
    Check("mistakes", "a mistake is not explained as it is written", by_program("examples/mistakes/check.py"), True),
    Check("upgrade", "the walk of docs/OPERATORS.md does not end as it is written", by_program("examples/upgrade/operators.py"), True),
    Check("converter", "the converter of examples/converter does not answer as its check says", script("examples/converter/check.py")),
)  # fmt: skip


def chosen(program: Optional[str]) -> List[Check]:
    """The checks that can be made."""
    return [it for it in CHECKS if program or not it.wants_program]


def main() -> int:
    """Reads the words, and runs the checks."""
    parser = argparse.ArgumentParser(description=__doc__, formatter_class=argparse.RawDescriptionHelpFormatter)
    parser.add_argument("--by", required=True, help="who asks")
    parser.add_argument("--program", help="a built kubeconv")
    options = parser.parse_args()
    first = 0
    for it in chosen(options.program):
        status, said = it.look(options.program)
        if status:
            print(f"{said}{options.by}: refused: {it.refused}", file=sys.stderr, flush=True)
        first = first or status
    return first if first >= 0 else 128 - first


if __name__ == "__main__":
    sys.exit(main())
