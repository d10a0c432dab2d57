"""A definition with its rules, as far as rehearsing needs them."""
from __future__ import annotations

from typing import Any, Dict, FrozenSet, Optional, Tuple

import rule_fields

from .kept import SPOKE
from .schema import Node, Path, canonical

Names = Tuple[str, ...]


class Faulty(Exception):
    """A file that is no definition or no rules, and why."""


class Definition:
    """The versions of a definition, and which of them is the hub."""

    def __init__(self, document: Dict[str, Any], rules: Optional[Dict[str, Any]], hub: Optional[str]) -> None:
        spec = document.get("spec") or {}
        versions = spec.get("versions") or []
        try:
            self.name: str = document["metadata"]["name"]
            self.group, self.kind = spec["group"], spec["names"]["kind"]
            self.nodes = {it["name"]: Node(it["schema"]["openAPIV3Schema"], is_root=True) for it in versions}
        except (KeyError, TypeError, AttributeError) as why:
            raise Faulty(f"no CustomResourceDefinition of apiextensions.k8s.io/v1 with a schema at each version: {why!r}") from None
        if len(self.nodes) < 2:
            raise Faulty("one version alone: nothing is converted; tools/prepare_crd.py --add-version NAME gives it a second one")
        stored = [it["name"] for it in versions if it.get("storage")]
        self.hub = hub or (rules or {}).get("hub") or (stored or list(self.nodes))[0]
        if self.hub not in self.nodes:
            raise Faulty(f"no version {self.hub}, which is to be the hub")
        self.by_rules = rules is not None
        self.hidden = hidden_by(rules) if rules else frozenset()
        self.defaults = {canonical(it.doc["default"]) for node in self.nodes.values() for it in node.each() if "default" in it.doc}

    def api_version(self, version: str) -> str:
        return f"{self.group}/{version}"

    def names_way(self, *way: str) -> str:
        """What a way is, in words: `spoke to hub to spoke`."""
        return " to ".join("hub" if it == self.hub else "spoke" for it in way)

    def is_default(self, version: str, path: Path, value: object) -> bool:
        """Whether a value is what the schema of a version sets at a path."""
        node = self.nodes[version].below(path)
        return node is not None and "default" in node.doc and canonical(node.doc["default"]) == canonical(value)

    def is_hidden(self, key: str, to: str, path: Names) -> bool:
        """Whether by the rules a field that an annotation keeps is never shown at a version."""
        spoke = key[len(SPOKE) :] if key.startswith(SPOKE) else None
        return ((spoke, self.hub, path) if spoke else (self.hub, to, path)) in self.hidden


def hidden_by(rules: Dict[str, Any]) -> FrozenSet[Tuple[str, str, Names]]:
    """The fields that are never shown at another version: of which version, at which, and their path."""
    return frozenset((at, to, path) for word, at, to, path in rule_fields.of_rules(rules) if word in ("spokeOnly", "hubOnly"))
