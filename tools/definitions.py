#!/usr/bin/env python3
"""Which files of definitions (crates/*/specs/) have to be read to believe what the program promises.

    python3 tools/definitions.py --dictionary   prints each file by its room: its lines, what it says, and the words that it defines
    python3 tools/definitions.py --word NAME..  where a word is defined
    python3 tools/definitions.py --counts       writes the counts of docs/DEFINITIONS.md anew
    python3 tools/definitions.py --check        tells what of docs/DEFINITIONS.md is stale or wrong, with status 1

A public clause is a `requires` or `ensures` of a public function, of a method of a trait or of an implementation, or a ghost member of
one. What it reaches: each definition that it names, each that those name, and so on, through `use` lines and what a file hands on by
`pub use`. A lemma's proof counts for nothing: only the definition that a clause names is followed. The first list of the dictionary is
what the clauses of `kubeconv_cmd` and `kubeconv` reach, which is what has to be read to believe the program; the second is what only
other public clauses reach. Files that neither reaches serve private clauses, or are laws that other crates cite.

The document names no file that isn't there or isn't reached, and no definition, as "`A`, `B` of `crate/specs/File`", or file, as "`A`, `B`
of `crate`", that isn't there. What a public clause reaches stands in `specs/` itself, what only private clauses reach in `specs/inner/`,
and laws that other crates cite in `specs/laws/`.
"""
from __future__ import annotations

import argparse
import os
import pathlib
import re
import sys
from itertools import groupby
from typing import Dict, Iterable, Iterator, List, Optional, Set, Tuple

os.chdir(pathlib.Path(__file__).resolve().parent.parent)
DOCUMENT = pathlib.Path("docs/DEFINITIONS.md")
PROGRAMS = ("kubeconv_cmd", "kubeconv")
PATH = "## The path"
BEGIN, END = "<!-- counts: tools/definitions.py -->", "<!-- end of counts -->"
NOT_COUNTED = re.compile(r"(_tests|_fixture|_example)$|^test_")
CHAIN = re.compile(r"[^\s(){}\[\],;\"«»]+")
TAIL = re.compile(r"[A-Za-z0-9_]+$")
USE = re.compile(
    r"(?<![A-Za-z0-9_])((?:pub\s+)?(?:ghost\s+)?use)\s+(Rattle(?:\.[A-Za-z0-9_+'«»\-]+)+)"
    r"(?:\s*\.\s*\{([^}]*)\})?(?:\s+as\s+([A-Za-z0-9_]+))?"
)
HEAD = re.compile(r"(?:(?:abbrev|unfoldable|opaque)\s+)*(?:pub\s+)?(?:(?:data|record|abbrev)\s+)?([^\s:(){}]+)")
MEMBER = re.compile(r"\s+(?:(?:abbrev|unfoldable)\s+)?(?:pub\s+)?(?:data\s+|record\s+)?([^\s:(){}]+)\s[^=]*:")
SPECS_TEXT = re.compile(r'"(?:\\.|[^"\\])*"|--(?<!\S--)[^\n]*')
RUST_TEXT = re.compile(r"""'\\?"'|"(?:\\.|[^"\\])*"|//(?<!\S//)[^\n]*""")
# A word with the one that stands before its point, if any; and a definition, by the module of its file.
Word = Tuple[str, Optional[str]]
Spot = Tuple[str, str]


def bare(text: str, pattern: re.Pattern[str]) -> str:
    """The text without comments, and with nothing in its texts."""
    return pattern.sub(lambda m: '""' if '"' in m[0][:2] else "", text)


def imports(text: str) -> Tuple[Dict[str, Spot], Dict[str, str], Dict[str, Spot]]:
    """Names to what they are of, aliases to modules, and what is handed on."""
    names, modules, handed = {}, {}, {}
    for use, module, listed, alias in USE.findall(text):
        if not listed:
            short = alias or module.rpartition(".")[2]
            modules[short], names[short] = module, tuple(module.rsplit(".", 1))
        for words in filter(None, (part.split() for part in listed.split(","))):
            names[words[-1]] = (module, words[0])
            if use.startswith("pub"):
                handed[words[-1]] = (module, words[0])
    return names, modules, handed


def words_of(text: str) -> Iterator[Word]:
    for chain in CHAIN.findall(text):
        before = ""
        for word in chain.split("."):
            head = TAIL.search(before)
            if word:
                yield word, head and head[0]
            before = word


class Definitions:
    """A file of specs/: the lines of each name in it, and what it says."""

    def __init__(self, path: str) -> None:
        whole = pathlib.Path(path).read_text(encoding="utf-8")
        self.lines = whole.count("\n")
        self.says = " ".join(re.match(r"(?:--[^\n]*\n)*", whole)[0].replace("--", " ").split())
        text = bare(whole, SPECS_TEXT)
        self.names, self.modules, self.handed = imports(text)
        self.blocks: Dict[str, List[str]] = {}
        block, found = None, {}  # type: Optional[List[str]], Dict[str, List[Word]]
        self.found = found
        for line in filter(str.strip, USE.sub("", text).split("\n")):
            if not line[0].isspace():
                head = None if re.match(r"(?:\w+\s+)*mutual\b", line) else HEAD.match(line)
                block = self.blocks.setdefault(head[1], []) if head else []
            elif block is not None and ":" in line and (member := MEMBER.match(line)):
                self.blocks.setdefault(member[1], block)  # a name of a mutual block, or a constructor
            if block is not None:
                block.append(line)

    def words(self, name: str) -> List[Word]:
        if name not in self.found:
            self.found[name] = list(words_of("\n".join(self.blocks.get(name, ()))))
        return self.found[name]


def short(module: str) -> str:
    return module[len("Rattle.") :].replace(".", "/")


def crate_of(module: str) -> str:
    return module.split(".")[1]


class Tree:
    """The crates in their order, with the rooms that they stand in, their files of definitions, and what public clauses reach of these."""

    def __init__(self) -> None:
        self.rooms: Dict[str, str] = {}
        self.files: Dict[str, Definitions] = {}
        room = ""
        for line in pathlib.Path("crates.txt").read_text().split("\n"):
            if line.startswith("#"):
                room = re.match(r"# ([^:]*)", line)[1].capitalize()
            elif line.strip():
                self.rooms[line.split(":")[0].split()[0]] = room
        for crate in self.rooms:
            for path in files_of(f"crates/{crate}/specs", ".antt"):
                self.files["Rattle." + path[len("crates/") : -len(".antt")].replace("/", ".")] = Definitions(path)
        starts: Dict[bool, List[Spot]] = {True: [], False: []}
        for crate in (it for it in self.rooms if not NOT_COUNTED.search(it)):
            for path in files_of(f"crates/{crate}/src", ".rt"):
                text = bare(pathlib.Path(path).read_text(encoding="utf-8"), RUST_TEXT)
                names, modules, _ = imports(text)
                for clause in clauses(text):
                    starts[crate in PROGRAMS] += self.named(words_of(clause), names, modules)
        program, others = self.reached(starts[True]), self.reached(starts[False])
        self.program = [it for it in self.files if it in program]
        self.others = [it for it in self.files if it in others - program]

    def home(self, module: str, name: str) -> Spot:
        """Where a name that a file hands on is defined."""
        seen: Set[Spot] = set()
        while module in self.files and (module, name) not in seen:
            file = self.files[module]
            if name not in file.handed or name in file.blocks:
                break
            seen.add((module, name))
            module, name = file.handed[name]
        return module, name

    def named(self, found: Iterable[Word], names: Dict[str, Spot], modules: Dict[str, str]) -> Iterator[Spot]:
        """The definitions of this repository that words name."""
        for word, head in found:
            if head is None and word in names:
                yield self.home(*names[word])
            elif head in modules:
                yield self.home(modules[head], word)

    def reached(self, starts: Iterable[Spot]) -> Set[str]:
        """The files whose definitions are named, by the starts or by what these reach."""
        done, rest = set(), list(starts)
        while rest:
            module, name = rest.pop()
            if module in self.files and (module, name) not in done:
                done.add((module, name))
                file = self.files[module]
                found = file.words(name)
                rest += [(module, word) for word, head in found if head is None and word != name and word in file.blocks]
                rest += self.named(found, file.names, file.modules)
        return {module for module, name in done if self.files[module].blocks.get(name)}


def files_of(folder: str, ending: str) -> Iterator[str]:
    for root, _, names in sorted(os.walk(folder)):
        yield from (os.path.join(root, name) for name in sorted(names) if name.endswith(ending))


# ---- clauses


def balanced(text: str, start: int) -> int:
    """The place behind the bracket that closes the one at the start."""
    depth = 0
    for m in re.compile(r"[{}]").finditer(text, start):
        depth += 1 if m[0] == "{" else -1
        if depth == 0:
            return m.end()
    return len(text)


def clauses(text: str) -> Iterator[str]:
    """The clauses of public functions, of traits and of implementations, and ghost members; how a value is counted and coded serves the
    checker alone."""
    blocks = re.finditer(r"(?m)^\s*(?:pub\s+trait\b|impl\b)[^{;]*\{", text)
    open_to_all = [(m.end(), balanced(text, m.end() - 1)) for m in blocks if re.search(r"trait|\bfor\b", m[0])]
    for m in re.finditer(r"(?m)^\s*(pub\s+)?(?:const\s+|unsafe\s+)*fn\s+\w+", text):
        at = m.end() if m[1] or any(a < m.start() < b for a, b in open_to_all) else len(text)
        while (opens := text.find("{", at)) >= 0 and not 0 <= text.find(";", at) < opens:
            if not re.search(r"\b(?:requires|ensures|ghost)\b\*?(?:\s+\w+)?\s*$", text[at:opens]):
                break
            at = balanced(text, opens)
            yield text[opens:at]
    for m in re.finditer(r"\bghost\s+(?!use\b|coded\b|size\b|size_decreases\b)\w+\s*[=:]\s*\{", text):
        yield text[m.end() - 1 : balanced(text, m.end() - 1)]


# ---- what is printed, and what the document has


def dictionary(tree: Tree) -> Iterator[str]:
    for title, modules in (("what the program's clauses reach", tree.program), ("what only other public clauses reach", tree.others)):
        yield f"# {title}"
        for room, group in groupby(modules, lambda it: tree.rooms[crate_of(it)]):
            yield f"\n## {room}\n"
            for module in group:
                file = tree.files[module]
                yield f"{short(module)}, {file.lines} lines: {file.says}\n    {' '.join(name for name, block in file.blocks.items() if block)}"
        yield ""


def with_counts(tree: Tree, document: str) -> str:
    """The document with its counts as they are to be: how many files and lines there are of each kind."""
    front, _, rest = document.partition(BEGIN)
    headings = [line for line in document.partition(PATH)[2].partition("\n## ")[0].split("\n") if line.startswith("### ")]
    path = {name for line in headings for name in re.findall(r"`(\w+/specs/[\w/]+)`", line)}
    kinds = {
        "the path below": [it for it in tree.files if short(it) in path],
        "all that the program's contract reaches, the path among it": tree.program,
        "what only public clauses of libraries reach": tree.others,
        "the other files of `specs/`, which nobody has to read to believe a public clause":
            [it for it in tree.files if it not in {*tree.program, *tree.others}],
    }  # fmt: skip
    rows = [f"| {what} | {len(found)} | {sum(tree.files[it].lines for it in found):,} |" for what, found in kinds.items()]
    return "\n".join([f"{front}{BEGIN}", "", "| what | files | lines |", "|---|---|---|", *rows, "", END]) + rest.partition(END)[2]


def faults(tree: Tree, document: str) -> Iterator[str]:
    """What the document names wrongly, and whether its counts are stale."""
    reached, known = {short(it) for it in tree.program + tree.others}, {short(it): file for it, file in tree.files.items()}
    for name in sorted(set(re.findall(r"`(\w+/specs/[\w/]+)`", document)) - reached):
        yield f"{name}: named, and {'no public clause reaches it' if name in known else 'not there'}"
    for listed, of in re.findall(r"((?:`\w+`(?:, | and )?)+) of `(\w+(?:/specs/[\w/]+)?)`", document):
        for name in re.findall(r"`(\w+)`", listed):
            if of in known and name not in known[of].blocks:
                yield f"{name} of {of}: named, and the file has no such definition"
            elif of in tree.rooms and not any(it.startswith(f"{of}/") and it.endswith(f"/{name}") for it in known):
                yield f"{name} of {of}: named, and the crate has no such file in specs/"
    if BEGIN not in document or with_counts(tree, document) != document:
        yield "stale: run python3 tools/definitions.py --counts"


def misplaced(tree: Tree) -> Iterator[str]:
    """What stands apart and has to be read, or stands among what has to be read and hasn't to."""
    reached = {*tree.program, *tree.others}
    for module in tree.files:
        is_apart = re.search(r"\.specs\.(?:inner|laws)\.", module) is not None
        if NOT_COUNTED.search(crate_of(module)) or module.endswith((".Lib", ".inner", ".laws")) or is_apart != (module in reached):
            continue
        should = "a public clause reaches it: move it to specs/"
        if not is_apart:
            should = "no public clause reaches it: move it to specs/inner/, or to specs/laws/ where other crates cite it"
        yield f"crates/{short(module)}.antt: {should}"


def main() -> int:
    parser = argparse.ArgumentParser(description=__doc__, formatter_class=argparse.RawDescriptionHelpFormatter)
    asked = parser.add_mutually_exclusive_group(required=True)
    asked.add_argument("--word", nargs="+", metavar="NAME")
    for it in ("--dictionary", "--counts", "--check"):
        asked.add_argument(it, action="store_true")
    given, tree = parser.parse_args(), Tree()
    document = DOCUMENT.read_text(encoding="utf-8")
    wrong = [f"{DOCUMENT}: {it}" for it in faults(tree, document)] + list(misplaced(tree)) if given.check else []
    if given.counts:
        DOCUMENT.write_text(with_counts(tree, document), encoding="utf-8")
    elif given.dictionary:
        print("\n".join(dictionary(tree)))
    for name in given.word or ():
        print(*(f"{name}: crates/{short(it)}.antt: {file.says}" for it, file in tree.files.items() if name in file.blocks), sep="\n")
    print("".join(f"{it}\n" for it in wrong), end="", file=sys.stderr)
    return int(bool(wrong))


if __name__ == "__main__":
    sys.exit(main())
