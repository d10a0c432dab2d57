"""What a version can't show and keeps in annotations: entries of kubeconv, or whatever another webhook writes there."""
from __future__ import annotations

import json
from typing import Any, Dict, Iterator, List, NamedTuple, Set, Tuple

from .schema import canonical

HUB, SPOKE = "hub.kubeconv.local/kept", "spoke.kubeconv.local/"


class Kept(NamedTuple):
    """A field that is kept: under which annotation, its path, and its value."""

    key: str
    path: Tuple[str, ...]
    value: object


def is_kept(key: str) -> bool:
    return key == HUB or key.startswith(SPOKE)


def annotations(value: Any) -> Dict[str, Any]:
    metadata = value.get("metadata") if isinstance(value, dict) else None
    notes = metadata.get("annotations") if isinstance(metadata, dict) else None
    return notes if isinstance(notes, dict) else {}


def document(text: object) -> object:
    try:
        return json.loads(text)  # type: ignore[arg-type]
    except (ValueError, TypeError, RecursionError):
        return None


def entries(text: object) -> List[Dict[str, Any]]:
    """The entries of an annotation of kubeconv."""
    found = document(text)
    return [it for it in found if isinstance(it, dict) and isinstance(it.get("was"), dict)] if isinstance(found, list) else []


def leaves(value: object, path: Tuple[str, ...] = ()) -> Iterator[Tuple[Tuple[str, ...], object]]:
    if isinstance(value, dict) and value:
        for name, it in value.items():
            yield from leaves(it, path + (name,))
    else:
        yield path, value


def new_in(after: object, before: object) -> Iterator[Kept]:
    """What annotations keep that weren't there before."""
    held = annotations(before)
    for key, text in annotations(after).items():
        if held.get(key) == text:
            continue
        if is_kept(key):
            for entry in entries(text):
                yield from (Kept(key, (*map(str, entry.get("at", ())), name), it) for name, it in entry["was"].items())
        elif key not in held:
            inside = document(text)
            found = leaves(inside) if isinstance(inside, dict) else [((), text)]
            yield from (Kept(key, path, it) for path, it in found)


def dropped(before: object, after: object) -> Iterator[Kept]:
    """The entries that don't stand in the object any more."""
    held = annotations(after)
    for key, text in annotations(before).items():
        if is_kept(key) and held.get(key) != text:
            there = {canonical(it) for it in entries(held.get(key))}
            for entry in entries(text):
                if canonical(entry) not in there:
                    yield Kept(key, tuple(map(str, entry.get("at", ()))), entry["was"])


def shown_values(value: object) -> Set[str]:
    """All that an object shows, but for its metadata: each value by itself."""
    found: Set[str] = set()
    places = [it for name, it in value.items() if name not in ("apiVersion", "kind", "metadata")] if isinstance(value, dict) else []
    while places:
        it = places.pop()
        if isinstance(it, (dict, list)):
            places += it.values() if isinstance(it, dict) else it
        found.add(canonical(it))
    return found
