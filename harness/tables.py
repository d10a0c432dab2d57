"""Tables of text."""
from __future__ import annotations

import re
from typing import Any, Dict, Hashable


class Table:
    """A table whose head is printed at once, and each row as it comes. A column is its heading and, behind a colon, the format of its values,
    as `request:<26` or `us each:9.1f`. A text in the place of a number is printed as it is."""

    def __init__(self, *columns: str) -> None:
        split = [it.rpartition(":") for it in columns]
        self.forms = [form for _, _, form in split]
        self.row(*(heading for heading, _, _ in split))

    def row(self, *values: Any) -> None:
        texts = (format(it, self.plain(form) if isinstance(it, str) else form) for form, it in zip(self.forms, values))
        print("".join(texts).rstrip(), flush=True)

    @staticmethod
    def plain(form: str) -> str:
        side, width = re.match(r"([<>]?)(\d+)", form).groups()  # type: ignore[union-attr]
        return f"{side or '>'}{width}"


class Firsts:
    """Ratios to the first number of each kind."""

    def __init__(self) -> None:
        self.first: Dict[Hashable, float] = {}

    def ratio(self, kind: Hashable, number: float) -> float:
        return number / self.first.setdefault(kind, number)
