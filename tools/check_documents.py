#!/usr/bin/env python3
"""Holds the documents to their bounds, their links to what is there, and their marked commands to what the program prints.

    python3 tools/check_documents.py                      bounds, links, and the functions of docs/POST.md
    python3 tools/check_documents.py --program PROGRAM    also marked commands, the lines of docs/COMMANDS.md and the examples

It prints a line for each thing that is wrong, and then ends with status 1.

Bounds: a line of text has at most 110 columns, a line of a code block at most 160, and a row of a table, which can't be broken, at most
300; in README.md each line has 110. PAGES says how many lines and words a document has at most, WORDS how many words a row of its
tables, ROWS how many rows a part of it. The words of OWN, which docs/GLOSSARY.md explains, stand in none of PLAIN.

Links: each relative link leads to a file or folder that is there, and its `#anchor` to a heading there. Text in code isn't looked at.

Commands: a line `<!-- run -->` before a code block marks its commands. A command is a line that begins with `$ `, and goes on where a line
ends with `\\` or `|`; what stands behind it is what it prints on standard output. Where nothing does, only its status is looked at, as in
a block without `$ `, of which each line is a command. It runs at the top of the repository, where `./kubeconv` stands for PROGRAM. Its
status is 0, or N by `<!-- run: status N -->`, of the last command of a block; by `<!-- run: as FILE -->` that prints the text of FILE.
`...` stands for any text. Stamps, uids, carriage returns, blanks at the ends of lines, empty lines at the ends, and whether an answer
begins on a line of its own, don't count.
"""

import argparse
import difflib
import itertools
import pathlib
import re
import shlex
import subprocess
import sys
import textwrap

TOP = pathlib.Path(__file__).resolve().parent.parent
sys.path[:0] = [str(TOP / "examples/upgrade"), str(TOP / "checks")]
sys.dont_write_bytecode = True
import drill_model  # noqa: E402
import walk  # noqa: E402

TEXT, CODE, ROW = 110, 160, 300
PAGES = {
    "README.md": (110, 740),
    "CONTRIBUTING.md": (115, 1400),
    "docs/API.md": (160, 2300),
    "docs/ARCHITECTURE.md": (200, 2570),
    "docs/COMMANDS.md": (280, 3050),
    "docs/DECISIONS.md": (285, 4040),
    "docs/GLOSSARY.md": (95, 1540),
    "docs/OPERATORS.md": (140, 960),
    "docs/PERFORMANCE.md": (65, 750),
    "docs/POST.md": (45, 500),
    "docs/PROMISES.md": (250, 6000),
    "docs/RULES.md": (210, 2620),
    "bench/README.md": (22, 275),
    "checks/README.md": (20, 310),
}
WORDS = {"docs/PROMISES.md": 45}
# The part of a document, by its heading, and how many rows its table has at most.
ROWS = {"docs/GLOSSARY.md": ("## Words of ours", 40)}
# Words of ours that these documents, for who doesn't read contracts, do without.
OWN = re.compile(r"\b(?:birth|cells?|claims?|floor|honest|hub value|kept text|loose|pass|sealed|settle[sd]?|spans?|superseded|trim|tuples?)\b")
PLAIN = ("README.md", "docs/COMMANDS.md", "docs/RULES.md", "docs/OPERATORS.md")
# So many marked commands stand in these documents at least.
MARKED = {"README.md": 1, "docs/COMMANDS.md": 3}
MARK = re.compile(r"<!-- run(?:: (.*))? -->")
PATIENCE = 60
SHARED = "--crd examples/crontabs.json --rules examples/crontabs.rules.json"


def documents():
    """The path of each document in the repository, and its lines with what each is."""
    found = [it for at in ("*", "docs/*", "bench/*", "checks/*", "examples/**/*", "crates/*/*") for it in TOP.glob(f"{at}.md")]
    return {str(it.relative_to(TOP)): kinds_of(it.read_text().split("\n")[:-1]) for it in sorted(found)}


def kinds_of(lines):
    """Each line with what it is: `fence`, `code`, `row` or `text`. A code block is fenced, or indented behind an empty line."""
    told, is_fenced, before = [], False, ""
    for line in lines:
        if line.lstrip().startswith("```"):
            is_fenced = not is_fenced
            kind = "fence"
        elif is_fenced or line.startswith("    ") and (not before or told[-1][1] == "code"):
            kind = "code"
        else:
            kind = "row" if line.startswith("|") else "text"
        told.append((line, kind))
        before = line.strip()
    return told


def bounds(name, lines):
    """What goes beyond the bounds of a document."""
    widest = {} if name == "README.md" else {"code": CODE, "row": ROW}
    for number, (line, kind) in enumerate(lines, 1):
        most, words = widest.get(kind, TEXT), len(line.replace("|", " ").split())
        if len(line) > most:
            yield f"{name}:{number}: {len(line)} columns, at most {most}"
        if kind == "row" and words > WORDS.get(name, words):
            yield f"{name}:{number}: a row of {words} words, at most {WORDS[name]}"
        own = OWN.search(line) if name in PLAIN and kind in ("text", "row") else None
        if own:
            yield f"{name}:{number}: {own[0]} is a word of ours"
    has = {"lines": len(lines), "words": sum(len(line.split()) for line, _ in lines)}
    yield from (f"{name}: {has[it]} {it}, at most {most}" for it, most in zip(has, PAGES.get(name, ())) if has[it] > most)
    heading, most_rows = ROWS.get(name, (None, 0))
    if heading:
        kinds = [kind for _, kind in lines[[line for line, _ in lines].index(heading) :]]
        first = kinds.index("row")
        rows = next((at for at, kind in enumerate(kinds[first:]) if kind != "row"), len(kinds) - first) - 2
        if rows > most_rows:
            yield f"{name}: {rows} rows below {heading}, at most {most_rows}"


# ---- links


def anchors_of(lines):
    """The anchors of a document's headings, as they are made of them."""
    found, times = set(), {}
    for line, kind in lines:
        found.update(re.findall(r'<[^>]+\b(?:id|name)="([^"]+)"', line))
        heading = re.match(r"#{1,6} +(.*?)[ #]*$", line) if kind == "text" else None
        if heading:
            plain = re.sub(r"\[([^\]]*)\]\([^)]*\)|[`*]", r"\1", heading[1])
            slug = re.sub(r"[^\w\- ]", "", plain.lower()).replace(" ", "-")
            times[slug] = times.get(slug, -1) + 1
            found.add(f"{slug}-{times[slug]}" if times[slug] else slug)
    return found


def links(name, lines, all_lines):
    """The links of a document that lead nowhere."""
    text = "\n".join(re.sub(r"(`+).+?\1", "", line) if kind in ("text", "row") else "" for line, kind in lines)
    for target in re.findall(r"\]\(<?([^)\s>]+)>?(?: [^)]*)?\)|\b(?:src|href)=\"([^\"]+)\"", text):
        target = "".join(target)
        if re.match(r"[a-z]+:", target):
            continue
        path, _, anchor = target.partition("#")
        found = (TOP / name).parent / path if path else TOP / name
        if not found.exists():
            yield f"{name}: a link leads to {target}, which isn't there"
        elif anchor:
            of = str(found.resolve().relative_to(TOP))
            if anchor not in anchors_of(all_lines.get(of, [])):
                yield f"{name}: a link leads to {target}, and {of} has no such heading"


# ---- the functions of docs/POST.md


def functions(lines):
    """The functions, written as `crate::function`, that their crates don't have."""
    named = re.findall(r"\b([a-z_]+)::([a-z_]+)\b", "\n".join(line for line, _ in lines))
    for crate, function in sorted(set(named)):
        sources = "".join(it.read_text() for it in TOP.glob(f"crates/{crate}/src/**/*.rt"))
        if not re.search(rf"\bfn {function}\b", sources):
            yield f"docs/POST.md names {crate}::{function}, which isn't there"


# ---- the lines of the program

VALUES = {
    "FILE": "/nowhere/file", "VERSION": "v1", "URL": "http://127.0.0.1:1/apis/example.com/v1/crontabs", "ADDRESS": "127.0.0.1:0",
    "N": "1", "START": "1", "COUNT": "1",
}  # fmt: skip


def lines_of_program(lines):
    """The lines of the first table of docs/COMMANDS.md, with values, each with and without what may be left out."""
    start = next(at for at, (line, _) in enumerate(lines) if line == "| line | does |")
    for line, _ in itertools.takewhile(lambda it: it[1] == "row", lines[start + 2 :]):
        words = re.match(r"\| `([^`]*)` \|", line)[1]
        for shown in {re.sub(r"\[.*?\]", "", words), re.sub(r"[\[\]]", "", words)}:
            yield [VALUES.get(word, word) for word in shown.split()]


def refused_lines(lines, program):
    """The lines of docs/COMMANDS.md that the program doesn't take for a line."""
    for words in lines_of_program(lines):
        if subprocess.run([program, *words], stdin=subprocess.DEVNULL, capture_output=True, timeout=PATIENCE).returncode == 2:
            yield f"docs/COMMANDS.md tells a line that the program refuses: {' '.join(words)}"


# ---- marked commands


def plain(text):
    """A text without what doesn't count."""
    lines = walk.masked(text.replace("\r", "")).replace("}HTTP/1.1 ", "}\nHTTP/1.1 ").split("\n")
    return "\n".join(line.rstrip() for line in lines).strip("\n")


def is_shown(wanted, printed):
    """Whether what is printed is what is shown, in which `...` stands for any text, and alone on a line also for no line."""
    marked = re.sub(r"(?:\A|\n)\.\.\.(?=\n|\Z)", "\0", plain(wanted))
    pattern = re.escape(marked).replace(re.escape("\0"), r"(?:(?:\A|\n).*)?").replace(re.escape("..."), ".*")
    return re.fullmatch(pattern, plain(printed), re.S) is not None


def marked_blocks(lines):
    """The number of the line of each mark, what it says, and the block behind it, without the blanks that make it one."""
    for at, (line, kind) in enumerate(lines):
        found = MARK.fullmatch(line.strip()) if kind == "text" else None
        block = []
        for more, of in lines[at + 1 :] if found else ():
            if of != "code" and block and (more.strip() or of == "fence"):
                break
            block += [more] if of == "code" else [""] * bool(block)
        if found:
            yield at + 1, found[1] or "", textwrap.dedent("\n".join(block)).rstrip("\n").split("\n") if block else []


def commands_of(block):
    """The commands of a block, each with the text that is shown behind it, or None."""
    is_shown_with = any(line.startswith("$ ") for line in block)
    found, goes_on = [], False
    for line in block:
        if goes_on or line.startswith("$ ") or not is_shown_with:
            text = line if goes_on or not is_shown_with else line[2:]
            if goes_on:
                found[-1][0] += "\n" + text
            elif text.strip():
                found.append([text, []])
            goes_on = text.rstrip().endswith(("\\", "|"))
        elif found:
            found[-1][1].append(line)
    return [(command, "\n".join(shown) if any(it.strip() for it in shown) else None) for command, shown in found]


def run(command, program):
    """The status of a command and what it prints, with the program in the place of ./kubeconv."""
    line = re.sub(r"(?<![\w./-])\./kubeconv(?![\w./-])", lambda _: shlex.quote(str(program)), command)
    try:
        ran = subprocess.run(["sh", "-c", line], cwd=TOP, stdin=subprocess.DEVNULL, capture_output=True, timeout=PATIENCE)
    except subprocess.TimeoutExpired:
        return None, ""
    return ran.returncode, ran.stdout.decode(errors="replace")


def compared(where, wanted, printed):
    """A complaint where what is printed isn't what is wanted, with the lines that differ."""
    if not is_shown(wanted, printed):
        yield f"{where} prints something else:"
        yield from (f"    {it}" for it in difflib.unified_diff(plain(wanted).split("\n"), plain(printed).split("\n"), "wanted", "printed", lineterm="", n=1))


def marked(name, lines, program):
    """What is wrong with the marked commands of a document."""
    count = 0
    for number, said, block in marked_blocks(lines):
        words = dict(it.split(" ", 1) for it in said.split(", ")) if said else {}
        commands = commands_of(block)
        count += len(commands)
        if not commands or set(words) - {"status", "as"}:
            yield f"{name}:{number}: a mark without commands, or with a word that isn't known"
        for at, (command, shown) in enumerate(commands):
            is_last, where = at == len(commands) - 1, f"{name}:{number}: {command.splitlines()[0]}"
            status, printed = run(command, program)
            wanted = int(words.get("status", 0)) if is_last else 0
            if status != wanted:
                yield f"{where} ended with status {status}, and not {wanted}"
            if shown is not None:
                yield from compared(where, shown, printed)
            if is_last and "as" in words:
                yield from compared(where, (TOP / words["as"]).read_text(), printed)
    if count < MARKED.get(name, 0):
        yield f"{name}: {count} marked commands, at least {MARKED[name]}"


# ---- the examples


def of_examples(program):
    """What the examples tell: the requests of each rule are answered as the file beside them tells."""
    for file in sorted(TOP.glob("examples/rules/*.http")):
        name, wanted = file.relative_to(TOP).with_suffix(""), file.with_suffix(".answers").read_text()
        status, told = run(f"./kubeconv pipe --crd {name}.json --rules {name}.rules.json < {name}.http", program)
        if status:
            yield f"{name}.http ended with status {status}"
        told = "".join(f"{status}\n{walk.masked(body)}\n" for status, body in walk.answers(told.encode()))
        yield from compared(f"{name}.http", wanted, told)
    steps = f"./kubeconv pipe {SHARED} --turns 1"
    for command in (f"python3 examples/upgrade/walk.py --check {steps}", f"./kubeconv pipe {SHARED} < examples/crontabs.http"):
        status, printed = run(command, program)
        if status:
            yield f"{command} ended with status {status}: {printed}"
    review = f"./kubeconv review {SHARED} < examples/webhook/review.json"
    yield from compared(review, (TOP / "examples/webhook/answer.json").read_text(), run(review, program)[1])
    yield from compared("drill 7 1000", drill_model.drill(7, 1000), run("./kubeconv drill 7 1000", program)[1])


def main():
    parser = argparse.ArgumentParser(description=__doc__, formatter_class=argparse.RawDescriptionHelpFormatter)
    parser.add_argument("--program", type=pathlib.Path, help="the built program")
    program = parser.parse_args().program
    program = program and program.resolve()
    all_lines, wrong = documents(), []
    for name, lines in all_lines.items():
        wrong += [*bounds(name, lines), *links(name, lines, all_lines)]
    wrong += functions(all_lines["docs/POST.md"])
    if program:
        wrong += refused_lines(all_lines["docs/COMMANDS.md"], program)
        for name, lines in all_lines.items():
            wrong += marked(name, lines, program)
        wrong += of_examples(program)
    print("".join(f"{it}\n" for it in wrong), end="", file=sys.stderr)
    return 1 if wrong else 0


if __name__ == "__main__":
    sys.exit(main())
