#!/usr/bin/env python3
"""Explains a definition and its rules to their author: all their faults, each with how it is mended, or what the rules do with each field,
or what becomes of an object.

    python3 tools/explain.py KUBECONV CRD RULES [--name NAME] [--object OBJECTS --to VERSION]

KUBECONV is a built kubeconv, which is asked what is so. CRD, RULES and OBJECTS are files of JSON or YAML. CRD may hold several definitions, as
documents or in a List, of which NAME is the one that is meant. OBJECTS may hold several objects. ./explain hands them over.

A text that is JSON is taken as it stands, so that faults are told by its lines. YAML, a List, or one of several documents is written anew as
JSON. What a file whose name ends in .json has is JSON, and so is what begins as JSON in others but .yaml: where it isn't, that is a fault, which
kubeconv tells too.

What becomes of an object is seen from outside: it is taken to its own version, to the other, and back, by the conversion that the program
does, and the documents are compared: what is pruned and filled, what is kept, what is dropped, and whether it comes back.

The status is 0 where there is no fault, 2 where a file holds nothing that can be explained, 3 at a fault, 5 where one can't be read, has more
than 4194304 bytes or is no text, 6 where the output fails, and else kubeconv's.
"""
from __future__ import annotations

import argparse
import json
import signal
import sys
from typing import Any, Dict, Iterator, List, NamedTuple, Optional, Sequence, Tuple

import prepare_crd
import yaml2json
from document_faults import Told
from fault_texts import alike, at, compact, inside, list_at, read, shown, text_at
from field_rows import rows
from find_faults import UNREAD, Search
from program_asks import FAULTY, UNREADABLE, Failed, Fault, Program

WRONG, WRITE_FAILED = 2, 6
# What is said of a status of the program.
ENDS = {
    UNREADABLE: "a file can't be read, has more than 4194304 bytes, or is no text",
    WRITE_FAILED: "write failed",
    7: "out of memory",
}
# The words before what differs of an object at its own version, and of one that came back.
FILLING = ("pruned, since its schema doesn't have it", "filled by a default", "changed")
COMING = ("  gone", "  new", "  changed to")
NOTES = "metadata.annotations"


class Unusable(Exception):
    """A file that holds nothing that can be explained, and why."""


class Refused(Exception):
    """The program refuses an object."""


class Text(NamedTuple):
    """A text of JSON, and whether its author wrote it so."""

    text: str
    is_own: bool


# ---- the files


def is_json(text: str) -> bool:
    try:
        return json.loads(text) is not None
    except (ValueError, RecursionError):
        return False


def is_list(value: Any) -> bool:
    return text_at(value, "kind").endswith("List") and isinstance(at(value, "items"), list)


def written(path: str, value: Any) -> Text:
    try:
        return Text(json.dumps(value, ensure_ascii=False, allow_nan=False), False)
    except (TypeError, ValueError, RecursionError) as why:
        raise Unusable(f"{path}: {why}") from None


def documents_of(path: str) -> Tuple[List[Any], Optional[Text]]:
    """The documents of a file, and its text where it is one and no List. A faulty text that is meant as JSON, by the name of its file or else
    by how it begins, has none, and stands as it is."""
    try:
        text = yaml2json.text_of(path)
    except (OSError, UnicodeDecodeError):
        raise Failed(UNREADABLE) from None
    is_for_json = path.endswith(".json") or (not path.endswith((".yaml", ".yml")) and text.lstrip()[:1] in ("{", "["))
    try:
        found = yaml2json.documents(text)
    except (ValueError, RecursionError, yaml2json.Unsaid) as why:
        if not is_for_json:
            raise Unusable(f"{path}: {' '.join(str(why).split())}") from None
        found = []
    if len(found) == 1 and is_for_json and not is_json(text):
        found = []
    if not found or (len(found) == 1 and not is_list(found[0]) and is_json(text)):
        return found, Text(text, True)
    return found, written(path, found[0]) if len(found) == 1 and not is_list(found[0]) else None


def definition_of(path: str, name: Optional[str]) -> Text:
    """The one definition of a file, or the one of that name."""
    found, one = documents_of(path)
    if one and name is None:
        return one
    chosen, why = prepare_crd.chosen(found, name)
    if chosen is None:
        raise Unusable(f"{path}: {why}")
    return written(path, chosen)


def rules_of(path: str) -> Text:
    found, one = documents_of(path)
    if one is None:
        raise Unusable(f"{path}: {len(found)} documents in one file; one is wanted" if len(found) != 1 else f"{path}: a List is no document of rules")
    return one


def items(found: List[Any]) -> Iterator[Any]:
    for value in found:
        yield from items(value["items"]) if is_list(value) else [value]


def objects_of(path: str) -> List[Text]:
    found, one = documents_of(path)
    several = [one] if one else [written(path, it) for it in items(found)]
    if not several:
        raise Unusable(f"{path}: it holds no object")
    return several


# ---- faults


def all_faults(program: Program, texts: List[Text], names: Sequence[str]) -> List[Told]:
    """All faults of two texts: what of them is no JSON, or is passed over, and what is refused of the documents; the first one first."""
    first = program.first(*(it.text.encode("utf-8", "surrogatepass") for it in texts))
    documents, marks = zip(*(read(it.text) for it in texts))
    if first and at(documents[0], "spokes") is not None and at(documents[1], "spec") is not None:
        swapped = f"the two files are swapped: this one has the rules, and {names[1]} the definition"
        return [Told(first, f"{swapped}; give --crd {names[1]} --rules {names[0]}")]
    of_texts = [(file, text, it) for file, text, found in zip(("crd", "rules"), texts, marks) for it in found]
    told = [Told(Fault(file, it.path if it.word == "Duplicate" else "", it.word), it.said(text.is_own)) for file, text, it in of_texts]
    told += Search(program, *documents).all() if first and None not in documents else []
    found = [it for it in told if it.fault == first] or ([Told(first, UNREAD.get(first.word, "this isn't taken"))] if first else [])
    return found[:1] + [it for it in told if it is not found[0]] if found else told


def lines(told: Told, names: Sequence[str]) -> str:
    """A fault as it is told: what is refused, how it is mended, and what to paste."""
    name = {"crd": names[0], "rules": names[1]}
    edits = [(" and" * (i > 0), it) for i, it in enumerate(told.mends)] + [(" and" if i else " or", it) for i, it in enumerate(told.others)]
    pastes = "".join(f"   {word} {name[it.file]}: {it.text}\n" for word, it in edits)
    return f"{name[told.fault.file]}: {told.fault.path}: {told.fault.word}\n    {told.says}\n{pastes}"


# ---- what becomes of an object


def differences(words: Sequence[str], one: Any, two: Any, path: str = "") -> Iterator[str]:
    """Where two documents differ, but for their annotations, which are told by themselves: what the second one doesn't have, what it has
    beside the first, and what differs, each behind its word."""
    gone, new, changed = words
    if path == NOTES or alike(one, two):
        return
    if isinstance(one, dict) and isinstance(two, dict):
        yield from (f"{gone}: {inside(path, name)}: {shown(one[name])}" for name in sorted(one) if name not in two)
        for name in sorted(it for it in two if inside(path, it) != NOTES):
            if name in one:
                yield from differences(words, one[name], two[name], inside(path, name))
            else:
                yield f"{new}: {inside(path, name)}: {shown(two[name])}"
    elif isinstance(one, list) and isinstance(two, list) and len(one) == len(two):
        for i, both in enumerate(zip(one, two)):
            yield from differences(words, *both, f"{path}[{i}]")
    else:
        yield f"{changed}: {path}: {shown(two)}"


def kept_in(doc: Any) -> Dict[str, str]:
    """The annotations that hold what a version can't show, with their texts."""
    notes = at(doc, "metadata", "annotations")
    named = notes if isinstance(notes, dict) else {}
    starts = ("hub.kubeconv.local/kept", "spoke.kubeconv.local/")
    return {key: named[key] for key in sorted(named) if key.startswith(starts) and isinstance(named[key], str)}


def entries(text: str) -> List[Any]:
    try:
        found = json.loads(text)
    except (ValueError, RecursionError):
        return []
    return found if isinstance(found, list) else []


def dropped(doc: Any, back: Any) -> Iterator[str]:
    """The entries of an object that don't come back."""
    there = kept_in(back)
    for key, text in kept_in(doc).items():
        after = entries(there.get(key, ""))
        yield from (f"dropped as dead: {shown(it)}" for it in entries(text) if not any(alike(it, other) for other in after))


def course(program: Program, crd: Any, rules: Any, doc: Any, start: str, to: str) -> Iterator[str]:
    """An object taken from its own version to the other and back."""
    def at_version(value: Any, version: str) -> Any:
        into, refused = program.convert(crd, rules, value, version)
        if refused:
            raise Refused(f"at {version} it is refused: {refused}")
        return into

    try:
        own = at_version(doc, start)
        yield from differences(FILLING, doc, own)
        other = at_version(doc, to)
        yield f"at {to} it is {compact(other)}"
        yield from (f"kept at {to} in {key}: {text}" for key, text in kept_in(other).items())
        back = at_version(other, start)
        yield from dropped(doc, back)
        found = list(differences(COMING, own, back))
        yield from [f"put back at {start} it differs:", *found] if found else [f"put back at {start} it is as it was, filled"]
    except Refused as it:
        yield str(it)


def name_of(doc: Any) -> str:
    """An object's name, behind its namespace."""
    named = [text_at(doc, "metadata", it) for it in ("namespace", "name")]
    return "/".join(filter(None, named)) or "an object without a name"


def report(program: Program, crd: Any, rules: Any, given: Text, to: str, is_one: bool) -> str:
    """What becomes of the object that a text is at a version of a definition. Where it isn't the one alone, its name stands first."""
    doc, marks = read(given.text)
    lines = [] if is_one else [f"{name_of(doc)} of {text_at(doc, 'apiVersion')}:"]
    lines += [f"{it.word}: {it.said(given.is_own)}" for it in marks]
    names = [text_at(v, "name") for v in list_at(crd, "spec", "versions")]
    _, slash, version = text_at(doc, "apiVersion").rpartition("/")
    start = version if slash else ""
    if to not in names:
        lines.append(f"the definition has no version `{to}`")
    elif any(it.word != "Duplicate" for it in marks):
        lines.append("so the object can't be read")
    elif start not in names:
        lines.append(f"the object is of no version of the definition: its apiVersion ends with `{start}`")
    else:
        lines += course(program, crd, rules, doc, start, to)
    return "".join(f"{line}\n" for line in lines)


def explained(
    kubeconv: str, crd: str, rules: str, names: Sequence[str], objects: str = "", to: str = "", name: Optional[str] = None
) -> Tuple[str, int]:
    """What is told of two files, which are told by these names, or where a file of objects and a version are given of these; and the
    status."""
    program = Program(kubeconv)
    texts = [definition_of(crd, name), rules_of(rules)]
    found = objects_of(objects) if objects else []
    told = all_faults(program, texts, names)
    if told:
        return "".join(lines(it, names) for it in told) + f"{len(told)} fault{'s' * (len(told) != 1)}\n", FAULTY
    documents = [read(it.text)[0] for it in texts]
    if objects:
        return "\n".join(report(program, *documents, it, to, len(found) == 1) for it in found), 0
    return rows(program, *documents), 0


def main() -> int:
    parser = argparse.ArgumentParser(description=__doc__, formatter_class=argparse.RawDescriptionHelpFormatter)
    for it in ("kubeconv", "crd", "rules"):
        parser.add_argument(it)
    for it in ("--name", "--object", "--to"):
        parser.add_argument(it)
    given = parser.parse_args()
    text, status = "", 0
    try:
        text, status = explained(given.kubeconv, given.crd, given.rules, [given.crd, given.rules], given.object, given.to, given.name)
        sys.stdout.buffer.write(text.encode("utf-8", "replace"))
        sys.stdout.flush()
    except Failed as it:
        status = it.status
    except Unusable as why:
        print(f"explain: {why}", file=sys.stderr)
        return WRONG
    except OSError:
        status, text = WRITE_FAILED, ""
    if status and not text:
        print(f"explain: {ENDS.get(status, f'the program ended with status {status}')}", file=sys.stderr)
    return status


if __name__ == "__main__":
    signal.signal(signal.SIGTERM, lambda *_: sys.exit(143))
    try:
        sys.exit(main())
    except KeyboardInterrupt:
        sys.exit(130)
