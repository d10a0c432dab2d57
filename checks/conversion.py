#!/usr/bin/env python3
"""Compares what the program answers with a model of conversion (conversion_model.py), over definitions that are drawn: two to four
versions, fields by every rule and two objects deep, with defaults in one version only, defaults that differ, blanks that are defaults,
and such as come too late, so that the definition is refused.

    python3 checks/conversion.py [--program FILE] [--definitions N] [--start N]

Of each definition one run of `pipe` creates objects and puts them back, at each version, with fields that aren't there, nulls, faults,
and annotations that hold, don't hold any more or are no such text; each is read at every version. A run of `review` for each version
converts them all. The model's forms have to be filled and to go back to what they are forms of. The same start draws the same
definitions. Prints how many answers came, and ends with status 1 at the first one that is another than the model's, after the files and
the request."""
from __future__ import annotations

import json
import pathlib
import subprocess
import sys
import tempfile
from typing import Any, Dict, List, Optional, Tuple

import parts  # noqa: F401
from conversion_draw import Draw
from conversion_model import Definition, Document, Refused, alike, is_taken, text
from harness.client import answers_in, request
from harness.crontabs import path_of
from harness.documents import GROUP, definition_of, files_of, object_of, review_of
from harness.programs import Word, built, parser_of
from harness.progress import Progress

OBJECTS, REPLACES = 12, 6


class Different(Exception):
    """An answer that isn't the model's."""


class Store:
    """The objects of one definition as the model has them, each with its number and its generation; the requests so far, and what each is to be
    answered."""

    def __init__(self, definition: Definition) -> None:
        self.definition, self.revision = definition, 1
        self.stood: Dict[str, Tuple[Document, Document, int, int]] = {}
        self.asked: List[Tuple[bytes, Tuple[int, Any]]] = []

    def ask(self, method: str, version: str, name: str, given: Any, code: int, shown: Any) -> None:
        self.asked.append((request(method, path_of(version, name=None if method == "POST" else name), given), (code, shown)))

    def shown(self, name: str, version: str) -> Document:
        body, annotations, number, generation = self.stood[name]
        over, beside = self.definition.form(version, body, annotations)
        if not is_taken(self.definition.schemas[version], over) or not alike(self.definition.admit(version, over, beside), [body, annotations]):
            raise Different(f"the model's own form at {version} isn't filled, or doesn't go back: {text(over)}")
        shown = {**object_of(version, name), **over}
        shown["metadata"] = {"generation": generation, "name": name, "namespace": "default", "resourceVersion": str(number)}
        shown["metadata"].update({"annotations": beside} if beside else {})
        return shown

    def write(self, version: str, name: str, body: Document, annotations: Document) -> None:
        """Creates an object, or puts it in the place of the one that stands there; and reads it."""
        stood = self.stood.get(name)
        given = {**object_of(version, name, **body), "metadata": {"name": name, "annotations": annotations}}
        if stood:
            given["metadata"]["resourceVersion"] = str(stood[2])
        method, code = ("PUT", 200) if stood else ("POST", 201)
        try:
            value = self.definition.admit(version, body, annotations)
        except Refused as fault:
            self.ask(method, version, name, given, 422, invalid(name, fault))
            return
        if not stood or not alike(stood[:2], value):
            self.revision += 1
            self.stood[name] = (*value, self.revision, stood[3] + (not alike(stood[0], value[0])) if stood else 1)
        self.ask(method, version, name, given, code, self.shown(name, version))
        for other in self.definition.schemas:
            self.ask("GET", other, name, None, 200, self.shown(name, other))


def invalid(name: str, fault: Refused) -> Document:
    cause = {"field": fault.field, "message": fault.word, "reason": "FieldValueInvalid"}
    details = {"causes": [cause], "group": GROUP, "kind": "CronTab", "name": name}
    message = f'CronTab.{GROUP} "{name}" is invalid: {fault.field}: {fault.word}'
    status = {"apiVersion": "v1", "code": 422, "details": details, "kind": "Status", "message": message}
    return {**status, "metadata": {}, "reason": "Invalid", "status": "Failure"}


def without_stamps(said: str) -> Any:
    """A document without what the model doesn't know. It has to be compact text."""
    document = json.loads(said)
    if text(document) != said:
        raise Different(f"this isn't the compact text:\n  {said}")
    for name in ("creationTimestamp", "uid"):
        document.get("metadata", {}).pop(name, None)
    return document


def same(asked: str, came: Any, wanted: Any) -> None:
    if not alike(came, wanted):
        raise Different(f"{asked}\n  came   {text(came)}\n  wanted {text(wanted)}")


def try_requests(program: Word, words: List[Word], draw: Draw, definition: Definition) -> int:
    store = Store(definition)
    for number in range(OBJECTS + REPLACES):
        name = f"o{number}" if number < OBJECTS or not store.stood else draw.random.choice(sorted(store.stood))
        version = draw.random.choice(list(draw.schemas))
        is_edit = name in store.stood and draw.random.random() < 0.7
        store.write(version, name, *(draw.edited(version, store.shown(name, version)) if is_edit else draw.written(version, definition)))
    done = subprocess.run([program, "pipe", *words], input=b"".join(asked for asked, _ in store.asked), capture_output=True)
    came = answers_in(done.stdout)
    same("status, errors and answers", (done.returncode, done.stderr.decode(), len(came)), (0, "", len(store.asked)))
    for (asked, wanted), it in zip(store.asked, came):
        same(asked.decode(), (it.code, without_stamps(it.body.decode())), wanted)
    return len(came)


def try_reviews(program: Word, words: List[Word], draw: Draw, definition: Definition) -> int:
    drawn = [(version, *draw.written(version, definition)) for version in draw.schemas for _ in range(4)]
    count = 0
    for to in draw.schemas:
        objects, wanted = [], []
        for number, (version, body, annotations) in enumerate(drawn):
            try:
                over, beside = definition.form(to, *definition.admit(version, body, annotations))
            except Refused:
                continue
            name = f"o{number}"
            objects.append({**object_of(version, name, **body), "metadata": {"name": name, "annotations": annotations}})
            wanted.append({**object_of(to, name, **over), "metadata": {"name": name, **({"annotations": beside} if beside else {})}})
        done = subprocess.run([program, "review", *words], input=review_of(objects, to), capture_output=True)
        came = json.loads(done.stdout)["response"].get("convertedObjects", [])
        same("converted objects", len(came), len(wanted))
        for one, here, there in zip(objects, came, wanted):
            same(f"{text(one)} to {to}", here, there)
        count += len(came)
    return count


def try_one(program: Word, folder: pathlib.Path, start: int) -> Tuple[int, int, int, int]:
    """Whether a definition is refused, the answers and the converted objects, and the fields that got the default of another version."""
    draw = Draw(start)
    definition = Definition(draw.schemas, draw.hub, draw.rules)
    words = files_of(folder, "drawn", definition_of(draw.schemas, draw.random.choice(list(draw.schemas))), draw.rules, draw.hub)
    late: Optional[str] = next(iter(definition.late()), None)
    if late:
        done = subprocess.run([program, "pipe", *words], input=b"", capture_output=True)
        same("the definition", (done.returncode, done.stderr.decode()), (3, f"kubeconv: {words[3]}: {late}: UnpairedDefault\n"))
        return 1, 0, 0, 0
    return 0, try_requests(program, words, draw, definition), try_reviews(program, words, draw, definition), definition.completed


def main() -> None:
    options = parser_of(__doc__, definitions=(300, "so many definitions"), start=(0, "the number of the first one")).parse_args()
    program, counts, progress = built(options.program), [], Progress()
    with tempfile.TemporaryDirectory() as place:
        folder = pathlib.Path(place)
        for start in range(options.start, options.start + options.definitions):
            try:
                counts.append(try_one(program, folder, start))
            except Different as it:
                for file in sorted(folder.iterdir()):
                    print(f"{file.name}: {file.read_text()}", file=sys.stderr)
                sys.exit(f"definition {start}: {it}")
            progress.tell(f"definition {start}", (start - options.start) / options.definitions)
    progress.end()
    late, requests, objects, completed = map(sum, zip(*counts))
    said = f"{options.definitions} definitions, of which {late} were refused; {requests} answers and {objects} converted objects are the model's"
    print(f"{said}; {completed} fields got the default of another version")


if __name__ == "__main__":
    main()
