"""The objects of files, one by one, as texts: no file is held whole."""
from __future__ import annotations

import json
import re
import sys
from typing import Iterator, List, NamedTuple, TextIO, Tuple

import yaml2json

CHUNK = 262_144  # characters that are read at once
DEEPEST = 128  # levels of an object; kubeconv takes 64
# As far before the end of what was read a fault may come of its being cut.
CUT = 16
DECODER = json.JSONDecoder()
BLANKS = re.compile(r"[ \t\r\n]*")


def is_deeper(value: object, most: int) -> bool:
    level = [value]
    while level and most >= 0:
        inner = [it for it in level if isinstance(it, (dict, list))]
        level, most = [field for it in inner for field in (it.values() if isinstance(it, dict) else it)], most - 1
    return bool(level)


class Unreadable(Exception):
    """A file that can't be read, and why."""


class Text(NamedTuple):
    """An object as it stands in a file: JSON, or YAML from a line on."""

    text: str
    line: int = 0  # 0 of JSON
    path: str = ""

    def value(self) -> object:
        """What it says; an object that is too deep to be looked at is nothing."""
        try:
            value = yaml2json.read(self.text, self.line) if self.line else json.loads(self.text)
        except yaml2json.NotYaml as why:
            raise Unreadable(f"{self.path}: {why}" if self.path else str(why)) from None
        may_be_deep = self.line or self.text.count("{") + self.text.count("[") > DEEPEST
        return None if may_be_deep and is_deeper(value, DEEPEST) else value


class Scanner:
    """Reads JSON out of a stream, value by value."""

    def __init__(self, stream: TextIO, begun: str) -> None:
        self.stream, self.buffer, self.at = stream, begun, 0
        self.lines, self.ended = 0, False  # the lines before the buffer

    def more(self) -> None:
        self.lines += self.buffer.count("\n", 0, self.at)
        piece = self.stream.read(CHUNK)
        self.buffer, self.at, self.ended = self.buffer[self.at :] + piece, 0, not piece

    def peek(self) -> str:
        """The next character that is no blank, or nothing at the end."""
        while True:
            self.at = BLANKS.match(self.buffer, self.at).end()  # type: ignore[union-attr]
            if self.at < len(self.buffer) or self.ended:
                return self.buffer[self.at : self.at + 1]
            self.more()

    def take(self, *wanted: str) -> str:
        found = self.peek()
        if found not in wanted:
            raise self.wrong(f"{found or 'the end'} in place of {' or '.join(wanted)}", self.at)
        self.at += 1
        return found

    def wrong(self, why: str, at: int) -> Unreadable:
        return Unreadable(f"line {self.lines + self.buffer.count(chr(10), 0, at) + 1}: not JSON: {why}")

    def value(self) -> Tuple[object, str]:
        """The next value, and its text."""
        self.peek()
        while True:
            try:
                value, end = DECODER.raw_decode(self.buffer, self.at)
                if end < len(self.buffer) or self.ended:
                    break
            except json.JSONDecodeError as fault:
                is_cut = fault.msg.startswith("Unterminated") or fault.pos >= len(self.buffer) - CUT
                if self.ended or not is_cut:
                    raise self.wrong(fault.msg, fault.pos) from None
            except RecursionError:
                raise self.wrong("too deep", self.at) from None
            self.more()
        text, self.at = self.buffer[self.at : end], end
        return value, text

    def items(self) -> Iterator[Tuple[object, str]]:
        """The items of a list, of which the bracket was taken."""
        if self.peek() == "]":
            self.take("]")
            return
        yield self.value()
        while self.take(",", "]") == ",":
            yield self.value()


def is_object(value: object) -> bool:
    return isinstance(value, dict) and isinstance(value.get("apiVersion"), str) and isinstance(value.get("kind"), str)


def of_braces(scanner: Scanner) -> Iterator[Text]:
    """The object behind a brace, or the items of the list that it is."""
    fields, of_list = [], False
    end = scanner.take("{")
    while end != "}" and scanner.peek() != "}":
        name, text = scanner.value()
        scanner.take(":")
        if name == "items" and scanner.peek() == "[":
            scanner.take("[")
            rest: List[str] = []
            for value, item in scanner.items():
                of_list = of_list or (not rest and is_object(value))
                if of_list:
                    yield Text(item)
                else:
                    rest.append(item)
            inside = f"[{','.join(rest)}]"
        else:
            value, inside = scanner.value()
            of_list = of_list or (name == "kind" and isinstance(value, str) and value.endswith("List"))
        if not of_list:
            fields.append(f"{text}:{inside}")
        end = scanner.take(",", "}")
    if end != "}":
        scanner.take("}")
    if not of_list:
        yield Text("{" + ",".join(fields) + "}")


def of_json(scanner: Scanner) -> Iterator[Text]:
    while scanner.peek():
        if scanner.peek() == "[":
            scanner.take("[")
            yield from (Text(text) for _, text in scanner.items())
        else:
            yield from of_braces(scanner)


class Lines:
    """A document of YAML, as lines, of which the items of a List are taken out while they come."""

    def __init__(self, first: int) -> None:
        self.first, self.document = first, []  # type: int, List[str]
        self.item: List[str] = []
        self.item_first, self.indent = 0, -1
        self.may_list, self.of_list = True, False

    def add(self, line: str, number: int) -> Iterator[Text]:
        if self.indent < 0:
            self.document.append(line)
            if self.may_list and re.match(r"items:[ \t]*(#.*)?\n?$", line):
                self.indent = 1_000_000
            return
        bare = line.lstrip(" ")
        indent = len(line) - len(bare)
        is_dash = re.match(r"-(\s|$)", bare) is not None
        if is_dash and indent <= self.indent:
            yield from self.flush()
            if self.indent >= 0:
                self.indent, self.item_first = indent, number
                self.item = [line]
                return
        elif not bare.strip() or indent > self.indent:
            self.item.append(line)
            return
        else:
            yield from self.flush()
            self.indent = -1
        self.document.append(line)

    def flush(self) -> Iterator[Text]:
        """The item that is there; where it is no object, the document is no List."""
        item, self.item = self.item, []
        if not item:
            return
        text = Text(item[0].replace("-", " ", 1) + "".join(item[1:]), self.item_first)
        self.of_list = self.of_list or is_object(text.value())
        if self.of_list:
            yield text
        else:
            self.document += item
            self.indent, self.may_list = -1, False

    def end(self) -> Iterator[Text]:
        yield from self.flush()
        text = Text("".join(self.document), self.first)
        if self.of_list or all(not line.strip() or line.lstrip().startswith("#") for line in self.document):
            return
        value = text.value()
        if value is not None and not (isinstance(value, dict) and str(value.get("kind")).endswith("List") and not value.get("items")):
            yield text


def of_yaml(lines: Iterator[str]) -> Iterator[Text]:
    document = Lines(1)
    for number, line in enumerate(lines, 1):
        if re.match(r"(---|\.\.\.)(\s|$)", line):
            yield from document.end()
            document = Lines(number)
            line = line[3:] if line[:3] == "---" else "\n"
            line = line.lstrip(" ")
        yield from document.add(line, number)
    yield from document.end()


def of_stream(stream: TextIO) -> Iterator[Text]:
    begun = ""
    while not begun.strip():
        piece = stream.read(CHUNK)
        if not piece:
            return
        begun += piece
    if begun.lstrip()[0] in "{[":
        yield from of_json(Scanner(stream, begun))
    else:
        def lines() -> Iterator[str]:
            first = begun + stream.readline()
            yield from first.splitlines(keepends=True)
            yield from stream

        yield from of_yaml(lines())


def of_files(paths: List[str]) -> Iterator[Text]:
    """The objects of files; `-` is standard input."""
    for path in paths:
        try:
            if path == "-":
                stream = open(sys.stdin.fileno(), encoding="utf-8", closefd=False)
            else:
                stream = open(path, encoding="utf-8")
            with stream:
                yield from (it._replace(path=path) for it in of_stream(stream))
        except (OSError, ValueError, Unreadable) as why:
            raise Unreadable(f"{path}: {why}") from None
