#!/usr/bin/env python3
"""Prints a document of YAML as JSON.

    tools/yaml2json.py FILE > FILE.json

FILE is one document of YAML, or JSON, which is YAML too; `-` is standard input. It is read as Kubernetes reads it, with the standard library
alone: mappings, lists, scalars of each style, flow collections, comments, anchors and merge keys. `yes` and `on` are truth values, and a
moment stays the text that it is. What JSON can't say is told on standard error with its place, and nothing is printed: a name that is no
text or stands twice, a tag, a number that isn't finite, several documents. The status is 2 then, and where a file isn't read.
"""
from __future__ import annotations

import json
import re
import sys
from typing import Any, Callable, Dict, Iterable, Iterator, List, NoReturn, Optional, Tuple

WORDS: Dict[str, Any] = {"": None, "~": None}
for spelling, meant in (("null", None), ("true", True), ("yes", True), ("on", True), ("false", False), ("no", False), ("off", False)):
    WORDS.update({spelling: meant, spelling.title(): meant, spelling.upper(): meant})
NUMBER = re.compile(r"[-+]?(0b[01_]+|0x[0-9a-fA-F_]+|0o?[0-7_]+|0|[1-9][0-9_]*)$")
FRACTION = re.compile(r"[-+]?(\.[0-9]+|[0-9][0-9_]*(\.[0-9]*)?)([eE][-+]?[0-9]+)?$")
ENDLESS = re.compile(r"([-+]?\.(inf|Inf|INF)|\.(nan|NaN|NAN))$")
ESCAPES = {**dict(zip("0abt\tnvfreN_LP", "\0\a\b\t\t\n\v\f\r\x1b\x85\xa0\u2028\u2029")), **{it: it for it in '"/\\ '}, "\n": ""}
WIDE = {"x": 2, "u": 4, "U": 8}
# A name before a colon: in quotes, or plain.
NAME = re.compile(r"""("(?:[^"\\]|\\.)*"|'(?:[^']|'')*'|[^\s#,\[\]{}&*!|>'"%@`-][^#]*?(?:[^\s:]#[^#]*?)*?|-[^\s#][^#]*?)[ \t]*:(?=[ \t]|$)""")
HEAD = re.compile(r"[|>]([-+]?)([1-9]?)([-+]?)[ \t]*(#.*)?$")
IS_ITEM = re.compile(r"-([ \t]|$)")
COMMENT = re.compile(r"(^|[ \t]+)#.*$")
# What of a collection in brackets stands between values, and a plain value in one.
BLANKS = re.compile(r"([ \t\r\n]|(?:(?<=[\s,\[{])|^)#[^\n]*)*")
FLOW = re.compile(r"(?:[^,\[\]{}:#\n]|:(?![\s,\[\]{}])|(?<!\s)#)+")
MARKED = re.compile(r"[&*]([^\s,\[\]{}]+)")
# The line, the name, whether it stands without quotes, and the value.
Pair = Tuple[int, str, bool, Any]


class NotYaml(Exception):
    """What isn't read, and in which line."""


class Unsaid(Exception):
    """JSON can't say it."""


def scalar(text: str, tell: Optional[Callable[[str], Any]] = None) -> Any:
    if text in WORDS:
        return WORDS[text]
    if NUMBER.match(text):
        digits = text.replace("_", "")
        octal = re.match(r"([-+]?)0([0-7]+)$", digits)
        return int(f"{octal[1]}0o{octal[2]}" if octal else digits, 0)
    if FRACTION.match(text):
        return float(text.replace("_", ""))
    if ENDLESS.match(text) and tell:
        tell(f"{text} is no number of JSON")
    return text


class Reader:
    """Reads one document, of which the first line has that number. Blocks are read by lines, of which `at` is the next one, and values that
    know no lines by characters, of which `spot` is the next one."""

    def __init__(self, text: str, first: int) -> None:
        self.text, self.first, self.lines = text, first, text.split("\n")
        self.starts = [0]
        for line in self.lines:
            self.starts.append(self.starts[-1] + len(line) + 1)
        self.at = self.spot = 0
        self.anchors: Dict[str, Any] = {}

    def wrong(self, why: str, at: Optional[int] = None) -> NoReturn:
        raise NotYaml(f"line {self.first + (self.at if at is None else at)}: {why}")

    # ---- blocks

    def peek(self) -> Tuple[int, str]:
        """The indent and the text of the next line that says something; -1 at the end."""
        while self.at < len(self.lines):
            line = self.lines[self.at].rstrip("\r")
            bare = line.lstrip(" ")
            if bare.strip() and not bare.startswith("#"):
                if bare.startswith("\t"):
                    self.wrong("a tab in place of blanks")
                return len(line) - len(bare), bare.rstrip()
            self.at += 1
        return -1, ""

    def document(self) -> Any:
        while self.peek()[1].startswith("%"):
            self.at += 1
        value = self.block(0)
        if self.peek()[0] >= 0:
            self.wrong("this isn't at the place of a name or an item")
        return value

    def block(self, least: int) -> Any:
        """What stands in the next lines, as far as they are indented so much."""
        indent, bare = self.peek()
        if indent < least:
            return None
        if IS_ITEM.match(bare):
            return self.items(indent)
        return self.mapping(self.fields(indent)) if NAME.match(bare) else self.value(indent, least - 1)

    def items(self, indent: int) -> List[Any]:
        found = []
        while self.peek()[0] == indent and IS_ITEM.match(self.peek()[1]):
            line = self.lines[self.at]
            self.lines[self.at] = line[:indent] + " " + line[indent + 1 :]
            found.append(self.block(indent + 1))
        if self.peek()[0] > indent:
            self.wrong("this is indented more than the items before")
        return found

    def fields(self, indent: int) -> Iterator[Pair]:
        while self.peek()[0] == indent and (name := NAME.match(self.peek()[1])):
            at, column, is_plain = self.at, indent + name.end(), name[1][0] not in "\"'"
            if is_plain and not isinstance(scalar(name[1]), str):
                self.wrong(f"the name {name[1]} is no text; put it in quotes")
            rest = self.lines[at][column:].lstrip(" \t")
            key = name[1] if is_plain else self.quoted(name[1], 0)[0]
            yield at, key, is_plain, self.under(indent) if not rest.strip() or rest.startswith("#") else self.value(column, indent)
        here, bare = self.peek()
        if here > indent or (here == indent and not IS_ITEM.match(bare)):
            self.wrong("this is no `name: value` at the place of one")

    def mapping(self, pairs: Iterable[Pair]) -> Dict[str, Any]:
        """The mapping of these names, with what `<<` merges as far as it has no such name itself."""
        found: Dict[str, Any] = {}
        merged: Dict[str, Any] = {}
        for at, name, is_plain, value in pairs:
            if name in found:
                self.wrong(f"the name {name!r} stands twice", at)
            if name != "<<" or not is_plain:
                found[name] = value
                continue
            for it in value if isinstance(value, list) else [value]:
                if not isinstance(it, dict):
                    self.wrong("what is merged by << is no mapping")
                merged = {**merged, **{key: inner for key, inner in it.items() if key not in merged}}
        return {**found, **{key: it for key, it in merged.items() if key not in found}}

    def under(self, indent: int) -> Any:
        """The value of a name behind which nothing stands: lines that are indented more, or items as far as the name."""
        self.at += 1
        here, bare = self.peek()
        return self.items(indent) if here == indent and IS_ITEM.match(bare) else self.block(indent + 1)

    def value(self, column: int, parent: int) -> Any:
        """The value that begins in this line behind a column; the next lines belong to it that are indented more than its parent."""
        line = self.lines[self.at].rstrip("\r")
        bare = line[column:].lstrip(" \t")
        column = len(line) - len(bare)
        if bare.startswith("!"):
            self.wrong("a tag, which JSON doesn't have")
        if anchor := re.match(r"&(\S+)[ \t]*", bare):
            is_in_line = bare[anchor.end() :] and bare[anchor.end()] != "#"
            value = self.anchors[anchor[1]] = self.value(column + anchor.end(), parent) if is_in_line else self.under(parent)
            return value
        if bare[0] in "|>":
            return self.literal(bare, parent)
        if bare[0] not in "\"'[{*":
            return self.plain(bare, parent)
        self.spot = self.starts[self.at] + column
        value = self.flow()
        while self.starts[self.at + 1] <= self.spot:
            self.at += 1
        rest = self.text[self.spot : self.starts[self.at + 1] - 1].rstrip("\r")
        if rest.strip() and not COMMENT.match(rest):
            self.wrong(f"{rest.strip()!r} behind a value")
        self.at += 1
        return value

    def plain(self, bare: str, parent: int) -> Any:
        """A plain scalar, whose lines are folded: an empty line is a line's end."""
        if bare[0] in "%@`&":
            self.wrong(f"a value doesn't begin with {bare[0]}")
        parts, begun = [], self.at
        while True:
            text = COMMENT.sub("", bare).strip()
            if re.search(r":([ \t]|$)", text):
                self.wrong("a second `name:` in one line, or one inside a text; put it in quotes")
            parts.append(text)
            self.at += 1
            before, is_commented = self.at, text != bare.strip()
            indent, bare = (-1, "") if is_commented else self.peek()
            if indent <= parent or any("#" in self.lines[i] for i in range(before, self.at)):
                break
            parts += [""] * (self.at - before)
        if len(parts) == 1:
            return scalar(parts[0], lambda why: self.wrong(why, begun))
        return re.sub(r"\n+", lambda it: it[0][1:] or " ", "\n".join(parts))

    def literal(self, bare: str, parent: int) -> str:
        """A block scalar, `|` or `>`. Of the latter the ends of lines beside one that is indented more, or empty, stay."""
        head = HEAD.match(bare) or self.wrong(f"{bare!r} begins no text of several lines")
        taken: List[str] = []
        self.at += 1
        indent = max(parent, 0) + int(head[2]) if head[2] else 0
        while self.at < len(self.lines):
            line = self.lines[self.at].rstrip("\r")
            here = len(line) - len(line.lstrip(" "))
            if line.strip(" "):
                indent = indent or here
                if here < indent or here <= parent:
                    break
            taken.append(line[indent:] if len(line) > here or indent else "")
            self.at += 1
        if self.at == len(self.lines) and taken and not taken[-1]:
            taken.pop()
        whole = "\n".join(taken)
        text = whole.rstrip("\n")
        ends = len(whole) - len(text) + bool(taken)
        if bare[0] == ">":
            text = re.sub(r"(?m)^([^ \t\n].*)\n(\n*)(?=[^ \t\n])", lambda it: it[1] + (it[2] or " "), text)
        return text + {"-": "", "+": "\n" * ends, "": "\n" * bool(text)}[head[1] or head[3]]

    # ---- values that know no lines

    def next(self, skipped: int = 0) -> str:
        """The next character behind blanks, line ends and comments, or nothing at the end."""
        self.spot = BLANKS.match(self.text, self.spot + skipped).end()  # type: ignore[union-attr]
        return self.text[self.spot : self.spot + 1]

    def flow(self) -> Any:
        first = self.text[self.spot : self.spot + 1]
        if first == "[":
            return [self.flow() for _ in self.parts("]")]
        if first == "{":
            return self.mapping(self.pairs())
        if first and first in "\"'":
            value, self.spot = self.quoted(self.text, self.spot)
            return value
        mark = MARKED.match(self.text, self.spot)
        if first == "*" and (not mark or mark[1] not in self.anchors):
            self.wrong("an alias without an anchor before")
        found = mark or FLOW.match(self.text, self.spot)
        if found is None or first in ("!", "&") and not mark:
            self.wrong(f"{first or 'the end'} in place of a value")
        self.spot = found.end()
        if first == "&":
            self.next()
            self.anchors[found[1]] = self.flow()
        return self.anchors[found[1]] if mark else scalar(found[0].strip(), self.wrong)

    def parts(self, end: str) -> Iterator[None]:
        """Stops at each part of a collection in brackets, and ends behind it."""
        found = self.next(1)
        while found != end:
            yield
            found = self.next()
            if found == ",":
                found = self.next(1)
            elif found != end:
                self.wrong(f"{found or 'the end'!r} in place of , or {end}")
        self.spot += 1

    def pairs(self) -> Iterator[Pair]:
        for _ in self.parts("}"):
            is_plain = not self.text.startswith(('"', "'"), self.spot)
            name = self.flow()
            if not isinstance(name, str):
                self.wrong(f"the name {name!r} is no text; put it in quotes")
            has_value = self.next() == ":" and self.next(1) not in (",", "}")
            yield self.at, name, is_plain, self.flow() if has_value else None

    def quoted(self, text: str, at: int) -> Tuple[str, int]:
        """A text in quotes, with its lines folded, and the place behind it."""
        form = r"'((?:[^']|'')*)'" if text[at] == "'" else r'"((?:[^"\\]|\\.)*)"'
        found = re.compile(form, re.DOTALL).match(text, at)
        if found is None:
            self.wrong("a text in quotes that doesn't end")
        inside = found[1].replace("\r\n", "\n")
        if "\n" in inside:
            inside = re.sub(r"\\\n[ \t]*", "\\\\\n", inside) if text[at] == '"' else inside
            inside = re.sub(r"(?<!\\)[ \t]*\n((?:[ \t]*\n)*)[ \t]*", lambda it: "\n" * it[1].count("\n") or " ", inside)
        if text[at] == "'":
            return inside.replace("''", "'"), found.end()
        return re.sub(r"\\(x..|u....|U........|.)", self.escaped, inside, flags=re.DOTALL), found.end()

    def escaped(self, it: re.Match[str]) -> str:
        kind = it[1][0]
        try:
            if len(it[1]) == WIDE.get(kind, 0) + 1:
                return chr(int(it[1][1:], 16)) if kind in WIDE else ESCAPES[kind]
        except (KeyError, ValueError, OverflowError):
            pass
        self.wrong(f"\\{it[1]} is no escape")


def read(text: str, first: int = 1) -> Any:
    """The value of one document of YAML, whose first line has that number."""
    try:
        return Reader(text, first).document()
    except RecursionError:
        raise NotYaml(f"line {first}: too deep") from None


def of_yaml(text: str) -> Iterator[Any]:
    """The documents of a text of YAML that aren't empty."""
    lines: List[str] = []
    first = 1
    for number, line in enumerate((text[:-1] if text.endswith("\n") else text).split("\n") + ["---"], 1):
        if re.match(r"(---|\.\.\.)(\s|$)", line):
            value = read("".join(f"{it}\n" for it in lines), first)
            if value is not None:
                yield value
            lines, first = ["   " + line[3:]] if line.startswith("---") else [], number + (not line.startswith("---"))
        else:
            lines.append(line)


def text_of(path: str) -> str:
    """The text of a file, or of standard input."""
    if path == "-":
        return sys.stdin.buffer.read().decode("utf-8")
    with open(path, encoding="utf-8") as file:
        return file.read()


def documents(text: str) -> List[Any]:
    """The documents that a text holds: the one of JSON, or those of YAML."""
    try:
        return [json.loads(text)]
    except ValueError as why:
        fault = f"not JSON: {why}" if text.lstrip()[:1] in ("{", "[") else ""
    try:
        return list(of_yaml(text))
    except NotYaml as why:
        raise Unsaid(fault or f"not YAML: {why}") from None


def document(text: str) -> Any:
    """The one document that a text is."""
    found = documents(text)
    if len(found) != 1:
        raise Unsaid(f"{len(found)} documents in one file; one is wanted")
    return found[0]


def main(words: List[str]) -> int:
    if len(words) != 1:
        print(__doc__.strip(), file=sys.stderr)
        return 2
    try:
        print(json.dumps(document(text_of(words[0])), ensure_ascii=False, allow_nan=False))
    except BrokenPipeError:
        return 2
    except (OSError, ValueError, RecursionError, Unsaid) as fault:
        print(f"yaml2json.py: {words[0]}: {fault}", file=sys.stderr)
        return 2
    return 0


if __name__ == "__main__":
    sys.exit(main(sys.argv[1:]))
