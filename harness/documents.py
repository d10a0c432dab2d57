"""Definitions, objects and reviews, the same on every machine."""
from __future__ import annotations

import json
import pathlib
from typing import Any, Callable, Dict, Iterable, List, Tuple

from harness.programs import Word

GROUP = "example.com"
Document = Dict[str, Any]


def text_of(number: int) -> str:
    """A text: distinct for each number, and in no order as the numbers rise."""
    return f"{number * 2654435769 % 2**32:08x}"


def name_of(number: int) -> str:
    """The name of an object: distinct for each number, and in no order as the numbers rise."""
    return f"cron-{text_of(number)}"


def spelled(document: Any) -> bytes:
    """The bytes of a document, without blanks."""
    return json.dumps(document, separators=(",", ":")).encode()


def object_schema(properties: Document, required: Iterable[str] = ()) -> Document:
    return {"type": "object", "properties": properties, **({"required": list(required)} if required else {})}


def definition_of(schemas: Document, stored: str = "", kind: str = "CronTab", plural: str = "crontabs") -> Document:
    """A definition of versions with these schemas, of which the last one is stored where none is named."""
    stored = stored or list(schemas)[-1]
    listed = [{"name": it, "served": True, "storage": it == stored, "schema": {"openAPIV3Schema": schema}} for it, schema in schemas.items()]
    spec = {"group": GROUP, "names": {"kind": kind, "plural": plural}, "scope": "Namespaced", "versions": listed}
    head = {"apiVersion": "apiextensions.k8s.io/v1", "kind": "CustomResourceDefinition", "metadata": {"name": f"{plural}.{GROUP}"}}
    return {**head, "spec": spec}


def files_of(folder: pathlib.Path, name: str, definition: Document, rules: Document, hub: str = "v1") -> List[Word]:
    """The words that name a definition and its rules by spokes, which are written into a folder."""
    words: List[Word] = []
    for option, document in ("--crd", definition), ("--rules", {"hub": hub, "spokes": rules}):
        path = folder / f"{name}{option}.json"
        path.write_bytes(spelled(document))
        words += [option, path]
    return words


def object_of(version: str, name: str, **fields: Any) -> Document:
    """An object at a version."""
    return {"apiVersion": f"{GROUP}/{version}", "kind": "CronTab", "metadata": {"name": name}, **fields}


def pair_of(name: str, **fields: Any) -> Tuple[Document, Document]:
    """An object of the shared definition at v1beta1 and at v1, with fields that are the same at both."""
    return object_of("v1beta1", name, hostPort="h:80", **fields), object_of("v1", name, host="h", port="80", paused=False, **fields)


def list_of(size: int) -> Document:
    """A value of at most so many bytes, but at least of one object: a list of Kubernetes objects, with escapes and whole numbers."""

    def item(number: int) -> Document:
        note = {"example.com/note": 'runs "nightly"\nand on demand'}
        labels = {"app": "backup", "tier": "batch"}
        metadata = {"annotations": note, "generation": 3, "labels": labels, "name": f"backup-{text_of(number)}", "namespace": "default"}
        command = ["/bin/backup", "--from", "/data", "--keep", "7"]
        env = [{"name": "LIMIT", "value": "512Mi"}, {"name": "ZONE", "value": "Zürich"}]
        spec = {"command": command, "env": env, "paused": False, "ports": [8080, 9090], "suspend": None, "tolerance": -300}
        return {"apiVersion": f"{GROUP}/v1beta1", "kind": "CronTab", "metadata": metadata, "spec": spec}

    return {"items": [item(number) for number in range(max(1, size // (len(spelled(item(0))) + 1)))]}


def names_of(count: int) -> Dict[str, int]:
    """An object of so many names, which stand in no order, each with its number."""
    return {text_of(number): number for number in range(count)}


def review_of(objects: List[Document], version: str = "v1", uid: str = "u") -> bytes:
    """The bytes of a review that asks for these objects at a version."""
    asked = {"uid": uid, "desiredAPIVersion": f"{GROUP}/{version}", "objects": objects}
    return spelled({"apiVersion": "apiextensions.k8s.io/v1", "kind": "ConversionReview", "request": asked})


def responds(objects: List[Document]) -> Callable[[bytes], bool]:
    """Whether what was written is the response to a review, with these objects."""
    return lambda output: bool(json.loads(output)["response"].get("convertedObjects") == objects)
