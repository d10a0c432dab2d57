"""How what is refused is mended."""
from __future__ import annotations

from typing import Optional

from .schema import Node, Path, canonical
from .tally import cut

BY_RULE = {
    "Required": "give the field a value, or take it out of `required`",
    "Kept": "put the annotation back as it was read, or take it out",
    "Size": "make the object smaller: its text has more than 262,144 bytes at some version",
    "NotWhole": "write the number as a whole one of 64 bits, or as a text",
    "TooDeep": "nest less: an object has at most 64 levels",
    "TooLong": "make the object smaller: a review has at most 4,194,304 bytes",
    "Wrong": "write the definition's group, version and kind",
    "Unknown": "name a version of the definition",
}
BY_KEYWORD = {
    "Type": "write {limit}, or change `type`",
    "Enum": "take one of {limit}, or add the value to `enum`",
    "Minimum": "write at least {limit}, or lower `minimum`",
    "Maximum": "write at most {limit}, or raise `maximum`",
    "Format": "write a number that fits {limit}, or change `format`",
    "MinLength": "write at least {limit} characters, or lower `minLength`",
    "MaxLength": "write at most {limit} characters, or raise `maxLength`",
    "MinItems": "give at least {limit} items, or lower `minItems`",
    "MaxItems": "give at most {limit} items, or raise `maxItems`",
    "Pattern": "write what has the form {limit}, or change `pattern`",
}
OTHER = "make the value such as the schema asks for, or change the schema"


def mend(rule: str, node: Optional[Node], path: Path, limit: object = None) -> str:
    """How a value that breaks a rule is mended. What the rule asks for is looked up where it isn't given."""
    if rule not in BY_KEYWORD:
        return BY_RULE.get(rule, OTHER)
    if limit is None:
        node = node.below(path) if node else None
        keyword = rule[0].lower() + rule[1:]
        limit = (node.kind if rule == "Type" else node.doc.get(keyword)) if node else None
    told = limit if isinstance(limit, str) else ", ".join(map(canonical, limit)) if isinstance(limit, list) else canonical(limit)
    return BY_KEYWORD[rule].format(limit=cut(told) if limit is not None else "what the schema says")
