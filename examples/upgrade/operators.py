#!/usr/bin/env python3
"""Runs the walks of docs/OPERATORS.md and of the README.md beside this file as they are written there:

    python3 examples/upgrade/operators.py PROGRAM

Each line of a page's code blocks that begins with `$ ` is a command, which goes on over the next line where it ends with a backslash or
a `|`; all of them are run by one shell at the top of the repository, in their order. What stands behind a command is what it prints,
where `...` stands for any text. PROGRAM is run in the place of ./kubeconv, and another port is taken than 8080. What differs is told on
standard error, and then the status is 1. Where there is no curl it says that nothing was looked at.
"""
import os
import pathlib
import re
import shutil
import socket
import subprocess
import sys

TOP = pathlib.Path(__file__).resolve().parent.parent.parent
sys.path.append(str(TOP / "tools"))
from check_documents import commands_of, kinds_of  # noqa: E402

PAGES = "docs/OPERATORS.md", "examples/upgrade/README.md"
SECONDS = 120
MARK = "-- end of a command --"


def run(script):
    """What the shell printed behind each command. What it started ends with it."""
    pipes = {"stdin": subprocess.DEVNULL, "stdout": subprocess.PIPE, "stderr": subprocess.STDOUT}
    shell = subprocess.Popen(["bash", "-c", script], cwd=TOP, start_new_session=True, **pipes)
    try:
        told, _ = shell.communicate(timeout=SECONDS)
    except subprocess.TimeoutExpired:
        os.killpg(shell.pid, 9)
        told, _ = shell.communicate()
    return [part.strip() for part in told.decode(errors="replace").replace("\r", "").split(MARK)]


def walked(page, program):
    """Whether a page's commands print what is written behind them."""
    with socket.create_server(("127.0.0.1", 0)) as taken:
        place = f"127.0.0.1:{taken.getsockname()[1]}"
    text = (TOP / page).read_text().replace("./kubeconv", program).replace("127.0.0.1:8080", place)
    walk = commands_of([line[4:] for line, kind in kinds_of(text.split("\n")) if kind == "code"])
    came = run("trap 'kill $(jobs -p) 2>&-' EXIT\n" + "".join(f"{command}\necho; echo '{MARK}'\n" for command, _ in walk))
    wrong = []
    for (command, shown), told in zip(walk, came):
        wanted = (shown or "").strip()
        if not re.fullmatch(".*".join(map(re.escape, wanted.split("..."))), told, re.DOTALL):
            wrong.append(f"$ {command}\n  came:\n{told}\n  wanted:\n{wanted}\n")
    if len(came) != len(walk) + 1:
        wrong.append(f"{len(walk)} commands, and {len(came) - 1} of them came to an end")
    print("".join(f"{page}: {it}\n" for it in wrong), end="", file=sys.stderr)
    print(f"{page}: {len(walk)} commands, as written\n" * (not wrong), end="")
    return not wrong


def main(words):
    if len(words) != 1:
        sys.exit(__doc__)
    if not all(map(shutil.which, ("bash", "curl"))):
        print("skipped: there is no bash, or no curl")
        return 0
    return int(not all([walked(page, os.path.abspath(words[0])) for page in PAGES]))


if __name__ == "__main__":
    sys.exit(main(sys.argv[1:]))
