"""Where two values differ."""
from __future__ import annotations

from typing import Iterator, NamedTuple

from .schema import Path, canonical, is_number


class Absent:
    """Stands for what isn't there."""


ABSENT = Absent()


class Difference(NamedTuple):
    path: Path
    before: object
    after: object


def alike(one: object, two: object) -> bool:
    """Whether two values are the same JSON: 1 is 1.0, and no truth value is a number."""
    if is_number(one) and is_number(two):
        return one == two
    return type(one) is type(two) and one == two and canonical(one) == canonical(two)


def between(one: object, two: object, path: Path = ()) -> Iterator[Difference]:
    """What of a value is gone in another, what is new there, and what differs. Fields and items are told by themselves."""
    if type(one) is type(two) and one == two and canonical(one) == canonical(two):
        return
    if isinstance(one, dict) and isinstance(two, dict):
        for name in sorted({**one, **two}):
            yield from between(one.get(name, ABSENT), two.get(name, ABSENT), path + (name,))
    elif isinstance(one, list) and isinstance(two, list):
        yield from between_items(one, two, path)
    elif not alike(one, two):
        yield Difference(path, one, two)


def between_items(one: list, two: list, path: Path) -> Iterator[Difference]:
    """Of lists that differ in length, what both begin and end with is passed over."""
    begin, ends = 0, 0
    if len(one) != len(two):
        least = min(len(one), len(two))
        while begin < least and alike(one[begin], two[begin]):
            begin += 1
        while ends < least - begin and alike(one[-1 - ends], two[-1 - ends]):
            ends += 1
    for i in range(begin, max(len(one), len(two)) - ends):
        before = one[i] if i < len(one) - ends else ABSENT
        after = two[i] if i < len(two) - ends else ABSENT
        yield from between(before, after, path + (i,))
