#!/usr/bin/env python3
"""Prints cases of a crate's program of cases with their answers.

    python3 tools/case.py CRATE NAME    the cases whose title, or a line of which, has this text
    python3 tools/case.py CRATE         all titles

A program of cases reads `stdin` of its crate's folder, and prints what is wanted in `stdout` there. Lines that begin with `#` are titles in
both. Where each line behind a title is answered by one line, and no title has the text, only the lines that have it are printed, each with
its answer. `CASES.md` of the crate's folder says how a case is written. The status is 1 where nothing has the text.
"""

import itertools
import pathlib
import sys
from typing import List, Optional, Tuple

TOP = pathlib.Path(__file__).resolve().parent.parent
# A title and the lines behind it.
Block = Tuple[str, List[str]]


def blocks_of(lines: List[str], titles: Optional[List[str]] = None) -> List[Block]:
    """The lines behind each title, without empty ones at the end. Where titles are given, only these count, one behind the other."""
    found: List[Block] = [("", [])]
    for line in lines:
        is_title = line.startswith("#") if titles is None else line == next(iter(titles[len(found) - 1 :]), None)
        if is_title:
            found.append((line, []))
        else:
            found[-1][1].append(line)
    return [(title, "\n".join(behind).rstrip("\n").split("\n") if any(behind) else []) for title, behind in found]


def compared(given: str, wanted: str, printed: str) -> Tuple[int, List[str]]:
    """How many titles an input has, and of each behind which something else is printed than is wanted, what differs first."""
    titles = [title for title, _ in blocks_of(given.split("\n"))[1:]]
    answers, came = (blocks_of(it.split("\n"), titles) for it in (wanted, printed))
    wrong = []
    for (title, lines), (_, others) in itertools.zip_longest(answers, came[: len(answers)], fillvalue=("", [])):
        if lines != others:
            differs = next((pair for pair in itertools.zip_longest(lines, others, fillvalue="") if pair[0] != pair[1]), ("", ""))
            wrong.append(f"{title or 'before the first title'}\n  wanted   {differs[0]:.300}\n  printed  {differs[1]:.300}\n")
    return len(titles), wrong


def main(words: List[str]) -> int:
    if len(words) not in (1, 2) or words[0] in ("-h", "--help"):
        print(__doc__, end="", file=sys.stdout if words[:1] in (["-h"], ["--help"]) else sys.stderr)
        return int(words not in (["-h"], ["--help"]))
    folder = TOP / "crates" / words[0]
    if not (folder / "stdin").is_file() or not (folder / "stdout").is_file():
        having = sorted(it.parent.name for it in TOP.glob("crates/test_*/stdin"))
        sys.exit(f"{words[0]} has no cases; these have: {' '.join(having)}")
    given, wanted = ((folder / it).read_text(errors="replace").split("\n") for it in ("stdin", "stdout"))
    cases = blocks_of(given)
    answers = blocks_of(wanted, [title for title, _ in cases[1:]])
    if len(answers) != len(cases):
        sys.exit(f"stdout of {words[0]} lacks the title {cases[len(answers)][0]!r}")
    if len(words) == 1:
        print("\n".join(title for title, _ in cases[1:]))
        return 0
    both = [(title, lines, behind) for (title, lines), (_, behind) in zip(cases, answers)]
    found = [it for it in both if words[1] in it[0]]
    for title, lines, behind in [] if found else [it for it in both if any(words[1] in line for line in it[1])]:
        pairs = [(line, answer) for line, answer in zip(lines, behind) if words[1] in line] if len(lines) == len(behind) else []
        found.append((title, [it for it, _ in pairs] or lines, [it for _, it in pairs] or behind))
    for title, lines, behind in found:
        print("\n".join([title, *lines, *(f"=> {it}" for it in behind), ""]))
    if not found:
        print(f"no case of {words[0]} has {words[1]!r}; without it this prints all titles", file=sys.stderr)
    return int(not found)


if __name__ == "__main__":
    sys.exit(main(sys.argv[1:]))
