#!/usr/bin/env python3
"""The walk of an upgrade: `walk.py [--check] PROGRAM..`, where the words behind it run the program that answers requests from
standard input on standard output, with one worker turn after each answer:

    python3 examples/upgrade/walk.py ./kubeconv pipe --crd examples/crontabs.json --rules examples/crontabs.rules.json --turns 1

The requests stand in the files 1-*.http to 6-*.http beside this one, each behind a line `### ` with its heading and lines `# ` that
say what its answer shows. A body may be another file, named behind `< `. Their lengths are counted here. All requests go through
one run of the program, and each answer is printed with its heading; stamps and the uids are shown as "...", since they differ from
run to run. With --check nothing is printed but where the answers differ from expected.txt, and then the status is 1.
"""

import difflib
import pathlib
import re
import subprocess
import sys

HERE = pathlib.Path(__file__).resolve().parent
sys.path.append(str(HERE.parent.parent))
from harness.client import Answer, messages_of  # noqa: E402


def steps():
    """The heading of each request, what its answer shows, its line and its bytes."""
    for part in [part for file in sorted(HERE.glob("[0-9]-*.http")) for part in re.split(r"(?m)^### ", file.read_text())[1:]]:
        heading, *lines = part.split("\n")
        said = [line[2:] for line in lines if line.startswith("# ")]
        line, _, body = "\n".join(lines[len(said) :]).strip().partition("\n\n")
        data = (HERE / body[2:].strip()).read_bytes() if body.startswith("< ") else body.encode()
        length = f"Content-Length: {len(data)}\r\n" if data else ""
        yield heading.strip(), " ".join(said), line, f"{line} HTTP/1.1\r\n{length}\r\n".encode() + data


def answers(output):
    """The answers that stand one behind the other, each as its status and its body."""
    found = [Answer(it) for it in messages_of(output) if it.startswith(b"HTTP/1.1 ")]
    return [(it.head.partition(b"\r\n")[0].decode().partition(" ")[2], it.body.decode()) for it in found]


def masked(text):
    return re.sub(r'("(?:uid|creationTimestamp|deletionTimestamp)":)"[^"]*"', r'\1"..."', text)


def main(words):
    check = words[:1] == ["--check"]
    program, walk, lines = words[check:], list(steps()), []
    if not program:
        sys.exit(__doc__)
    run = subprocess.run(program, input=b"".join(request for *_, request in walk), stdout=subprocess.PIPE)
    came = answers(run.stdout)
    for number, ((heading, shows, line, _), (status, body)) in enumerate(zip(walk, came), 1):
        lines += [f"{number}. {heading}", f"   {shows}", f"   {line}", f"   {status}", masked(body), ""]
    if len(came) != len(walk):
        lines.append(f"{len(walk)} requests, {len(came)} answers; the status is {run.returncode}.")
    if not check:
        print("\n".join(lines))
        return len(came) != len(walk)
    wanted = (HERE / "expected.txt").read_text().split("\n")
    differ = list(difflib.unified_diff(wanted, "\n".join(lines + [""]).split("\n"), "expected.txt", "the answers", lineterm="", n=3))
    print("\n".join(differ) if differ else f"{len(came)} answers, as expected")
    return bool(differ)


if __name__ == "__main__":
    sys.exit(main(sys.argv[1:]))
