#!/usr/bin/env python3
"""Whether docs/PROMISES.md names what there is.

    python3 tools/check_promises.py

Each row of docs/PROMISES.md has a promise; the crates that keep it with their calls and clauses, as `crate`: `call` (`clause`); its edits; and
a test. Told is, on standard error, with status 1:

- a row that names no crate, and a call or a clause whose name the crates of its row don't have,
- an edit that no crate has in must-fail/, and one in must-fail/ that no row names,
- a test that is no function, no case behind `# ` on the `stdin` of a program of cases, no crate, no file of proofs/, and no
  function of a script that `.ci/run` or tools/own_checks.py names.

It says nothing of what a row promises: that is held against the clause by who writes it.
"""
import os
import pathlib
import re
import sys

TOP = pathlib.Path(__file__).resolve().parent.parent
DOCUMENT = "docs/PROMISES.md"


class Tree:
    """The words of each crate's sources and specs, its edits, its functions and those of scripts, the heads of all cases, and the files of
    proofs."""

    def __init__(self):
        self.words = {it.name: set() for it in TOP.glob("crates/*")}
        self.functions = set()
        for path in [*TOP.glob("crates/*/src/**/*.rt"), *TOP.glob("crates/*/specs/*.antt")]:
            text = path.read_text(encoding="utf-8")
            self.words[path.relative_to(TOP).parts[1]].update(re.findall(r"\w+", text))
            self.functions.update(re.findall(r"\bfn (\w+)", text))
        runs = "".join((TOP / it).read_text() for it in (".ci/run", "tools/own_checks.py"))
        for script in filter(os.path.exists, (TOP / it for it in re.findall(r"[\w/]+\.py", runs))):
            self.functions.update(re.findall(r"^def (\w+)", script.read_text(encoding="utf-8"), re.MULTILINE))
        self.edits = {it.stem for it in TOP.glob("crates/*/must-fail/*.edit")}
        self.heads = "\n".join(re.findall(r"(?m)^#.*", "\n".join(it.read_text(encoding="utf-8") for it in TOP.glob("crates/*/stdin"))))
        self.proofs = {it.stem for it in TOP.glob("crates/*/proofs/*.antt")}

    def has_call(self, crates, name):
        """Whether one of the crates has a call, a clause or a definition of the name."""
        first, *rest = name.split("::")
        if first in self.words:
            return all(word in self.words[first] for word in rest)
        known = set().union(*(self.words[crate] for crate in crates))
        return all(word in known for word in [first, *rest])

    def has_test(self, name):
        """Whether there is a test, a case, a crate, a file of proofs or a function of a script of the name."""
        if name in self.words or name in self.functions or any(it.startswith(name.rstrip("*")) for it in self.proofs):
            return True
        return re.search(rf"(?<!\w){re.escape(name)}(?!\w)", self.heads) is not None


def faults(tree, document):
    """What is wrong with the rows, of which those in bold are heads of what follows."""
    named = set()
    for number, line in enumerate(document.split("\n"), 1):
        cells = [cell.strip() for cell in line[1:-1].split("|")] if line.startswith("|") else []
        if len(cells) != 4 or cells[0] in ("promise", "---") or line.startswith("| **"):
            continue
        calls, edits = re.findall(r"`([\w:]+)`", cells[1]), re.findall(r"`(\w+)`", cells[2])
        within = [name for name in calls if name in tree.words]
        named.update(edits)
        tests = ["".join(name) for name in re.findall(r"`([^`]+)`|\"([^\"]+)\"", cells[3])]
        wrong = [] if within else ["no crate is named"]
        wrong += [f"{it} is no call or clause of {', '.join(within) or 'any crate'}" for it in calls if not tree.has_call(within, it)]
        wrong += [f"{it} is no edit" for it in edits if it not in tree.edits] + [f"{it} is no test" for it in tests if not tree.has_test(it)]
        yield from (f"{number}: {it}" for it in wrong)
    yield from (f"the edit {name} has no row" for name in sorted(tree.edits - named))


def main():
    wrong = list(faults(Tree(), (TOP / DOCUMENT).read_text(encoding="utf-8")))
    print("".join(f"{DOCUMENT}:{it}\n" for it in wrong), end="", file=sys.stderr)
    return int(bool(wrong))


if __name__ == "__main__":
    sys.exit(main())
