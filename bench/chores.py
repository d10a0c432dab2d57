#!/usr/bin/env python3
"""Times what documents and drills cost `kubeconv`, by four tables, in processor time, so that what else runs counts little. What a run takes
that does next to nothing is taken off, since it can't be told from the start of a program. Every answer is checked.

- load: loading a definition with its rules, where it has two, four and eight versions of the most nodes and the most rules that one may have,
  by a `review` of no objects, which opens no server. Prints what one takes, what a byte of the two files takes, and how many times as long both
  are as in the first row.
- lists: definitions with long lists, of one length and of twice that: loading one with a long `enum`, with a table of many pairs and with many
  required names; ten creates of as many texts as the `enum` has; and a review of objects that go over by the table, each by another pair.
  Prints what each takes, and how many times as long it takes where the lists are twice as long.
- sizes: objects of the shared definition that go from `v1beta1` to `v1` nearly as they are: one list of 64 KiB to 4 MiB by `convert`, one
  object of 4,000 to 200,000 names by `convert`, and by `review` as many lists of 1 KiB to 1 MiB as make 3 MiB, and 100 to 43,000 small
  objects. 4 MiB is the most that is read. An object is read, looked at by its schema, converted and written. Prints what a byte and an object
  take, and how many times as long a byte takes as in the first row of its kind.
- drill: 10,000 and 100,000 steps of `drill`, drawn from the state 7 on, which write what the model of checks/drill_model.py prints. Prints what
  one step takes, and how many times as long it takes in the longer drill as in the shorter one."""
from __future__ import annotations

import argparse
import json
import pathlib
import tempfile
from typing import Any, Callable, Dict, List, Tuple

import parts  # noqa: F401
import drill_model
from harness.client import request
from harness.crontabs import path_of
from harness.documents import Document, definition_of, files_of, list_of, names_of, object_of, object_schema, pair_of, responds, review_of, spelled, text_of
from harness.programs import SHARED_FILES, Word, built, parser_of, tables_of
from harness.tables import Firsts, Table
from harness.timing import Task, each_of, is_empty, run_of
from pipe import answered

Works = Dict[Any, Tuple[Task, Task]]
Documents = Tuple[Document, Document]

# ---- load

VERSIONS = 2, 4, 8
# A group of names has six nodes at each version, and seven rules at each but the hub; then come objects as deep as rules may nest, and what is
# left of 1,024 nodes beside the root.
GROUPS, DEPTH, PAIRS = 8, 8, 16
FREE_NAMES = 1_024 - 1 - 6 * GROUPS - DEPTH
TEXT, NUMBER = {"type": "string"}, {"type": "integer"}


def group_of(at: int) -> Tuple[Document, Document, List[Document]]:
    """The names of a group at the hub and at a spoke, and its rules."""
    hub = {"scaled": {**NUMBER, "minimum": 0, "maximum": 1_000_999}, "level": NUMBER, "first": TEXT, "second": TEXT, "named": TEXT, "owned": TEXT}
    spoke = {"counted": {**NUMBER, "minimum": 0, "maximum": 1_000}, "joined": TEXT, "listed": TEXT, "renamed": TEXT, "old": TEXT, "older": TEXT}
    pairs = [[f"size{pair}", pair] for pair in range(PAIRS)]
    rules: List[Document] = [
        {"scale": {"by": 1000, "names": [f"counted{at}", f"scaled{at}"]}},
        {"split": {"hub": [f"first{at}", f"second{at}"], "spoke": f"joined{at}"}},
        {"same": [f"renamed{at}", f"named{at}"]},
        {"spokeOnly": f"old{at}"},
        {"spokeOnly": f"older{at}"},
        {"hubOnly": f"owned{at}"},
        {"table": {"names": [f"listed{at}", f"level{at}"], "pairs": pairs, "spokeBlank": None, "hubBlank": None}},
    ]
    return {f"{name}{at}": node for name, node in hub.items()}, {f"{name}{at}": node for name, node in spoke.items()}, rules


def largest(versions: int) -> Documents:
    """A definition of so many versions with 1,024 nodes each, and 64 rules for each but the hub, some of them eight objects deep. Most
    names stand at the root without a rule, in no order, and are required."""
    free = [text_of(number) for number in range(FREE_NAMES)]
    inner: Document = {}
    rules: List[Document] = []
    for _ in range(DEPTH):
        inner, rules = {"inner": {"properties": inner, "type": "object"}}, [{"object": {"names": ["inner", "inner"], "rules": rules}}]
    hub, spoke = {**dict.fromkeys(free, TEXT), **inner}, {**dict.fromkeys(free, TEXT), **inner}
    for at in range(GROUPS):
        hubs, spokes, more = group_of(at)
        hub, spoke, rules = {**hubs, **hub}, {**spokes, **spoke}, more + rules
    schemas = {"v1": object_schema(hub, free), **{f"v1beta{number}": object_schema(spoke, free) for number in range(1, versions)}}
    return definition_of(schemas), {name: rules for name in [*schemas][1:]}


def print_load(program: Word, folder: pathlib.Path, options: argparse.Namespace) -> None:
    def load(documents: Documents, name: str) -> Tuple[Task, int]:
        files = files_of(folder, name, *documents)
        return run_of([program, "review", *files], review_of([]), responds([])), sum(pathlib.Path(it).stat().st_size for it in files[1::2])

    schemas = {"v1": object_schema({"host": TEXT}), "v1beta1": object_schema({"address": TEXT})}
    least, _bytes = load((definition_of(schemas), {"v1beta1": [{"same": ["address", "host"]}]}), "least")
    loads = {versions: load(largest(versions), str(versions)) for versions in VERSIONS}
    each = each_of(options.runs, {versions: (task, least) for versions, (task, _) in loads.items()})
    table, firsts = Table("versions:8", "bytes:9", "us each:11.0f", "ns a byte:11.1f", "time to first:15.2f", "a byte:8.2f"), Firsts()
    for versions, seconds in each.items():
        length = loads[versions][1]
        ratios = firsts.ratio("time", seconds), firsts.ratio("byte", seconds / length)
        table.row(versions, length, seconds * 1e6, seconds / length * 1e9, *ratios)


# ---- lists

# A definition has at most 1,024 nodes at a version.
NAMES, CREATES = 480, 10


def of_both(schema: Document) -> Documents:
    return definition_of({"v1": schema, "v1beta1": schema}), {"v1beta1": []}


def with_enum(length: int) -> Documents:
    """One list of texts at both versions, each one of so many."""
    item = {**TEXT, **({"enum": [text_of(n) for n in range(length)]} if length else {})}
    return of_both(object_schema({"tags": {"type": "array", "items": item}}))


def with_table(length: int) -> Documents:
    """A text at the spoke and a number at the hub, which go over by so many pairs."""
    table = {"names": ["size", "level"], "pairs": [[text_of(n), n] for n in range(length)], "spokeBlank": None, "hubBlank": None}
    schemas = {"v1": object_schema({"level": NUMBER}), "v1beta1": object_schema({"size": TEXT})}
    return definition_of(schemas), {"v1beta1": [{"table": table}]}


def with_required(length: int) -> Documents:
    """So many names at both versions, all of them required."""
    names = [f"n{text_of(n)}" for n in range(length)]
    return of_both(object_schema(dict.fromkeys(names, TEXT), names))


def print_lists(program: Word, folder: pathlib.Path, options: argparse.Namespace) -> None:
    def line(word: str, definition: Callable[[int], Documents], length: int) -> List[Word]:
        return [program, word, *files_of(folder, f"{definition.__name__}{length}", *definition(length))]

    def loads(definition: Callable[[int], Documents]) -> Callable[[int], Tuple[Task, Task]]:
        return lambda length: (run_of(line("pipe", definition, length), b"", is_empty), run_of(line("pipe", definition, 0), b"", is_empty))

    def creates(length: int) -> Task:
        bodies = [object_of("v1beta1", f"a{n}", tags=[text_of(at) for at in range(length)]) for n in range(CREATES)]
        asked = b"".join(request("POST", path_of("v1beta1"), it) for it in bodies)
        return run_of(line("pipe", with_enum, length), asked, answered([201] * CREATES))

    def review(length: int, count: int) -> Task:
        asked, shown = ([object_of(version, f"a{n}", **fields(n)) for n in range(count)] for version, fields in sides.items())
        return run_of(line("review", with_table, length), review_of(asked), responds(shown))

    sides: Dict[str, Callable[[int], Document]] = {"v1beta1": lambda n: {"size": text_of(n)}, "v1": lambda n: {"level": n}}
    least = options.length
    chores: Dict[str, Tuple[int, Callable[[int], Tuple[Task, Task]]]] = {
        "loading an enum": (3 * least, loads(with_enum)),
        "loading a table": (3 * least, loads(with_table)),
        "loading required names": (NAMES, loads(with_required)),
        "creates against the enum": (least, lambda length: (creates(length), run_of(line("pipe", with_enum, length), b"", is_empty))),
        "a review by the table": (least, lambda length: (review(length, length), review(length, 1))),
    }
    each = each_of(options.runs, {(chore, times): runs(times * shorter) for chore, (shorter, runs) in chores.items() for times in (1, 2)})
    table = Table("chore:<26", "length:8", "ms:10.2f", "ms, twice as long:20.2f", "ratio:8.2f")
    for chore, (length, _) in chores.items():
        first, last = each[chore, 1], each[chore, 2]
        table.row(chore, length, first * 1e3, last * 1e3, last / first)


# ---- sizes

KIB, MIB = 2**10, 2**20
# What stands in `extra` of an object that is converted, and of which sizes; lists of which sizes make 3 MiB; and so many small objects.
CONVERTED = {"a list": (list_of, (64 * KIB, 256 * KIB, MIB, 4 * MIB - KIB)), "an object of many names": (names_of, (4_000, 40_000, 200_000))}
REVIEWED, IN_ALL, SMALL = (KIB, 16 * KIB, 128 * KIB, MIB), 3 * MIB, (100, 1_000, 10_000, 43_000)


def print_sizes(program: Word, _folder: pathlib.Path, options: argparse.Namespace) -> None:
    def converted(asked: Document, shown: Document) -> Task:
        return run_of([program, "convert", *SHARED_FILES, "--to", "v1"], spelled(asked), lambda output: json.loads(output) == shown)

    def reviewed(asked: Document, shown: Document, count: int) -> Task:
        return run_of([program, "review", *SHARED_FILES], review_of([asked] * count), responds([shown] * count))

    small, works = pair_of("a"), {}
    one, none = converted(*small), reviewed(*small, 0)
    for kind, (extra_of, sizes) in CONVERTED.items():
        for pair in (pair_of("a", extra=extra_of(size)) for size in sizes):
            works[kind, len(spelled(pair[0])), 1] = converted(*pair), one
    for pair in (pair_of("a", extra=list_of(size)) for size in REVIEWED):
        each = len(spelled(pair[0]))
        works["lists of a review", each, round(IN_ALL / each)] = reviewed(*pair, round(IN_ALL / each)), none
    for count in SMALL:
        works["small objects of a review", len(spelled(small[0])), count] = reviewed(*small, count), none
    table, firsts = Table("kind:<26", "bytes each:11", "objects:9", "ns a byte:11.1f", "us an object:14.2f", "byte to first:15.2f"), Firsts()
    for (kind, each, count), seconds in each_of(options.runs, works).items():
        byte = seconds / each / count
        table.row(kind, each, count, byte * 1e9, seconds / count * 1e6, firsts.ratio(kind, byte))


# ---- drill

START, STEPS = 7, (10_000, 100_000)


def print_drill(program: Word, _folder: pathlib.Path, options: argparse.Namespace) -> None:
    def drill(steps: int) -> Task:
        wanted = drill_model.drill(START, steps).encode()
        return run_of([program, "drill", str(START), str(steps)], b"", lambda output: output == wanted)

    none, firsts, table = drill(0), Firsts(), Table("steps:8", "us a step:11.1f", "to first:10.2f")
    for steps, seconds in each_of(options.runs, {steps: (drill(steps), none) for steps in STEPS}).items():
        table.row(steps, seconds / steps * 1e6, firsts.ratio("step", seconds / steps))


TABLES = {"load": print_load, "lists": print_lists, "sizes": print_sizes, "drill": print_drill}


def main() -> None:
    length = 10_000, "of lists: the shorter length of an enum and a table that are asked; those that are only loaded are three times as long"
    parser = parser_of(__doc__, runs=3, length=length)
    for look, options in tables_of(parser, TABLES):
        with tempfile.TemporaryDirectory() as folder:
            look(built(options.program), pathlib.Path(folder), options)


if __name__ == "__main__":
    main()
