#!/usr/bin/env python3
"""Tells which words of answers and error lines docs/API.md doesn't have, and which of its words there are none: `check_words.py`.

The words are those that the definitions write as `codes "Word"`, with one capital letter at the front, in the specs of the crates below
the program, and the texts of error lines. Names of kinds, methods and the like stand in NAMES. Ends with 1 where something differs."""

import pathlib
import re
import sys

TOP = pathlib.Path(__file__).resolve().parent.parent
NAMES = set("APIGroup ConversionReview CustomResourceDefinition DELETE GET List Namespaced POST PUT Status "
            "StorageVersionMigration StorageVersionMigrationList True".split())
ELSEWHERE = re.compile(r"_tests/|/test_|_fixture/|_example/|/built_in/|/drill_")
# Rows of other words; `Duplicate` is one of ./explain.
EXTRA = {"NotReview", "answer", "line", "no version", "Duplicate"}


def main():
    texts = set()
    for file in TOP.glob("crates/*/specs/**/*.antt"):
        if not ELSEWHERE.search(str(file.relative_to(TOP))):
            texts.update(re.findall(r'codes "([^"]*)"', file.read_text()))
    bad = {text[len("bad request: ") :] for text in texts if text.startswith("bad request: ")} - {""}
    status = re.findall(r'(?:then|else) codes "([^"]*)"', (TOP / "crates/kubeconv_cmd/specs/Status.antt").read_text())
    there = {it for it in texts | bad if it in bad or re.fullmatch(r"[A-Z][A-Za-z]+", it)} - NAMES | set(status)
    table = (TOP / "docs/API.md").read_text().split("\n## Words\n")[1].split("\n## ")[0]
    cells = " ".join(re.findall(r"(?m)^\| (`.*?) \|", table))
    said = {re.sub(r" [A-Z]+$", "", word) for word in re.findall(r"`([^`]*)`", cells)}
    wrong = [f"docs/API.md has no row for the word {word}" for word in sorted(there - said)]
    wrong += [f"docs/API.md has a row for {word}, which no definition writes" for word in sorted(said - there - EXTRA)]
    print("".join(f"{it}\n" for it in wrong), end="", file=sys.stderr)
    return int(bool(wrong))


if __name__ == "__main__":
    sys.exit(main())
