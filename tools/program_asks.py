"""What `kubeconv` says of a definition, of rules and of objects. It is no command: tools/explain.py asks by it."""
from __future__ import annotations

import json
import pathlib
import subprocess
import tempfile
from typing import Any, Dict, NamedTuple, Optional, Tuple

FAULTY, REFUSED, UNREADABLE = 3, 4, 5
NO_VERSION = "NONE"  # a version's name has small letters
API = {"apiVersion": "apiextensions.k8s.io/v1", "kind": "CustomResourceDefinition"}


class Failed(Exception):
    """The program ended with a status of its own."""

    def __init__(self, status: int) -> None:
        super().__init__(f"status {status}")
        self.status = status


class Fault(NamedTuple):
    """What is refused first of two files: of which it is, `crd` or `rules`, where it stands, and the word for it."""

    file: str
    path: str
    word: str


def definition(schemas: Dict[str, Any]) -> Dict[str, Any]:
    """A definition of versions with these schemas, of which the first is stored."""
    named = list(schemas.items())
    versions = [{"name": name, "served": True, "storage": i == 0, "schema": {"openAPIV3Schema": it}} for i, (name, it) in enumerate(named)]
    spec = {"group": "a", "names": {"kind": "A", "plural": "a"}, "scope": "Namespaced", "versions": versions}
    return {**API, "metadata": {"name": "a.a"}, "spec": spec}


class Program:
    """A built kubeconv, which is asked about texts and documents."""

    def __init__(self, path: str) -> None:
        self.path = str(pathlib.Path(path).resolve())
        self.room = tempfile.TemporaryDirectory()

    def asked(self, crd: Any, rules: Any, to: str, value: Any) -> Tuple[int, bytes, str]:
        """The status, the answer and the error line of a conversion."""
        texts = [it if isinstance(it, bytes) else json.dumps(it).encode() for it in (crd, rules, value)]
        files = [pathlib.Path(self.room.name, name) for name in ("crd", "rules")]
        for file, text in zip(files, texts):
            file.write_bytes(text)
        words = [self.path, "convert", "--crd", str(files[0]), "--rules", str(files[1]), "--to", to]
        done = subprocess.run(words, input=texts[2], capture_output=True)
        # its line is the last one: a launcher may have said before that the program isn't proved here
        line = done.stderr.decode("utf-8", "replace").rstrip("\n").rpartition("\n")[2]
        if line.endswith("TooLong") or line.endswith(": NotText"):
            raise Failed(UNREADABLE)
        return done.returncode, done.stdout, line.replace("kubeconv: ", "", 1).replace(f"{self.room.name}/", "", 1)

    def first(self, crd: Any, rules: Any) -> Optional[Fault]:
        """What is refused first of two files, or nothing where they load."""
        status, _, line = self.asked(crd, rules, NO_VERSION, b"")
        if status == REFUSED:
            return None
        if status != FAULTY:
            raise Failed(status)
        file, _, rest = line.partition(": ")
        path, _, word = rest.rpartition(": ")
        return Fault(file, path, word)

    def convert(self, crd: Any, rules: Any, value: Any, to: str) -> Tuple[Any, str]:
        """An object at another version, or what of it is refused."""
        status, answer, line = self.asked(crd, rules, to, value)
        if status not in (0, REFUSED):
            raise Failed(status)
        return (None, line) if status else (json.loads(answer), "")
