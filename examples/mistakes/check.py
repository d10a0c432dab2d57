#!/usr/bin/env python3
"""Checks what is said of the mistakes beside this file:

    python3 examples/mistakes/check.py KUBECONV [--write]

KUBECONV is a built kubeconv, which tools/explain.py asks of each case: what that tells has to be what answers.txt has, and the line of
kubeconv for the two files has to be the first one of it. Where each fault has something to paste, it is pasted, and then kubeconv has to
take the two files; so with what may be pasted instead. README.md says how a case is written. Prints how many cases were looked at; what
differs is told on standard error, and then the status is 1. --write writes answers.txt anew, to be read by hand.
"""
from __future__ import annotations

import json
import pathlib
import re
import subprocess
import sys
import tempfile
from typing import Any, Iterator, List, Optional, Tuple

HERE = pathlib.Path(__file__).resolve().parent
sys.path.insert(0, str(HERE.parent.parent / "tools"))

from explain import FAULTY, explained  # noqa: E402

NAMES = ("crd.json", "rules.json")
OBJECT = "object.json"
PASTE = re.compile(r" {4}(or|and|) ?(crd|rules)\.json: (in place of|take out|add to|add|rename) ?(.*)")
Case = Tuple[str, List[str], Optional[List[str]]]


class Many(list):  # type: ignore
    """What stands in the place of one item of a list."""


def cases() -> Iterator[Case]:
    """The title, the two texts, and the version and the text of an object, of each case."""
    base, texts, title, old, further = ["", ""], ["", ""], "", "", None
    for line in (HERE / "cases.txt").read_text().splitlines():
        word, _, text = line.partition(" ")
        if word in ("definition", "rules"):
            base[word == "rules"] = text
        elif word == "#":
            title, texts, further = text, list(base), None
        elif word == "-":
            old = text
        elif word == "+":
            at = old not in texts[0]
            texts[at] = texts[at].replace(old, text.replace("\\n", "\n"), 1)
        elif word == "swap":
            texts.reverse()
        elif word == "object":
            further = text.split(" ", 1)
        elif word == ".":
            yield title, texts, further


def first_told(kubeconv: str, folder: pathlib.Path) -> str:
    """The line of kubeconv for the two files."""
    words = [kubeconv, "review", "--crd", NAMES[0], "--rules", NAMES[1]]
    done = subprocess.run(words, cwd=folder, stdin=subprocess.DEVNULL, capture_output=True, text=True)
    return done.stderr.rstrip() if done.returncode == FAULTY else ""


# ---- what is to be pasted


def at(value: Any, path: str) -> Any:
    """What stands at a path, whose names have no points."""
    for step in re.findall(r"[^.\[\]]+", path):
        value = value[int(step)] if isinstance(value, list) else value[step]
        value = value[0] if isinstance(value, Many) else value
    return value


def paste(value: Any, how: str, text: str) -> None:
    """Does one of the edits that are told."""
    path, _, to = text.partition(" to ") if how in ("take out", "rename") else ("", "", text[2:]) if how == "add" else text.partition(": ")
    there = at(value, path) if how in ("add", "add to") else None
    if isinstance(there, list):
        there.extend(json.loads(f"[{to}]"))
    elif there is not None:
        there.update(json.loads(f"{{{to}}}"))
    else:
        around, step = re.fullmatch(r"(.*?)\.?([^.\[\]]+)\]?", path).groups()  # type: ignore
        there = at(value, around.rstrip("["))
        if isinstance(there, list):
            there[int(step)] = Many(json.loads(f"[{to}]"))
        elif how == "in place of":
            there[step] = json.loads(to)
        else:
            moved = there.pop(step)
            there.update({to: moved} if how == "rename" else {})


def flat(value: Any) -> Any:
    if isinstance(value, dict):
        return {name: flat(it) for name, it in value.items()}
    if not isinstance(value, list):
        return value
    return [flat(it) for item in value for it in (item if isinstance(item, Many) else [item])]


def pasted(texts: List[str], said: str, is_other: bool) -> Optional[List[str]]:
    """The two texts with what is to be pasted, or with what may be instead; nothing where a fault has nothing, or there is no other."""
    documents, found = [json.loads(it) for it in texts], 0
    for told in re.split(r"\n(?=\S)", said.strip())[:-1]:
        edits, others = [], []  # type: ignore
        for it in filter(None, map(PASTE.fullmatch, told.split("\n"))):
            (others if it[1] == "or" or others else edits).append(it.groups()[1:])
        if not edits:
            return None
        found += bool(others)
        for file, how, text in others if is_other and others else edits:
            paste(documents[file == "rules"], how, text)
    return [json.dumps(flat(it)) for it in documents] if found or not is_other else None


# ---- cases


def differs(wanted: str, said: str, status: int, texts: List[str], kubeconv: str, folder: pathlib.Path) -> Optional[str]:
    """What is wrong with what is said of two texts, or of an object, or nothing."""
    is_faulty = wanted.rstrip().endswith((" fault", " faults"))
    if said != wanted or status != (FAULTY if is_faulty else 0):
        return f"status {status}, and it says\n{said}\nwhere is wanted\n{wanted}"
    told = first_told(kubeconv, folder)
    if told and not told.endswith(wanted.splitlines()[0]):
        return f"kubeconv tells {told}"
    for is_other in (False, True) if is_faulty and ": NotJson\n" not in said else ():
        for name, text in zip(NAMES, pasted(texts, said, is_other) or []):
            (folder / name).write_text(text)
        left = first_told(kubeconv, folder)
        if left and pasted(texts, said, is_other):
            return f"what is to be pasted{' instead' * is_other} isn't taken: {left}"
    return None


def main(kubeconv: str, is_written: bool) -> int:
    kubeconv = str(pathlib.Path(kubeconv).resolve())
    parts = (HERE / "answers.txt").read_text().split("# ")[1:]
    wanted, written, told = dict(part.split("\n", 1) for part in parts), "", []
    with tempfile.TemporaryDirectory() as room:
        folder, found = pathlib.Path(room), list(cases())
        for title, texts, further in found:
            for name, text in zip((*NAMES, OBJECT), texts + (further[1:] if further else [])):
                (folder / name).write_text(text)
            of_object = [str(folder / OBJECT), further[0]] if further else []
            said, status = explained(kubeconv, *(str(folder / name) for name in NAMES), NAMES, *of_object)
            written += f"# {title}\n{said}"
            why = differs(said if is_written else wanted.pop(title, ""), said, status, texts, kubeconv, folder)
            told += [f"{title}: {why}"] if why else []
    if is_written:
        (HERE / "answers.txt").write_text(written)
    else:
        told += [f"{title}: there is no such case" for title in wanted]
    print("".join(f"{it}\n" for it in told), end="", file=sys.stderr)
    print(f"{len(found)} cases")
    return int(bool(told))


if __name__ == "__main__":
    if len(sys.argv) not in (2, 3) or sys.argv[2:] not in ([], ["--write"]):
        sys.exit(__doc__)
    sys.exit(main(sys.argv[1], len(sys.argv) == 3))
