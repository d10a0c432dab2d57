"""A schema of a definition as kubeconv takes it: what is left out, set or opened, each told. It is no command: tools/prepare_crd.py is."""
import collections
import copy

import rule_fields

ALLOWED_TYPES = {"object", "array", "string", "integer", "boolean"}
PASSED_OVER = {"description", "title", "example", "externalDocs"}
OPEN, MIXED = "x-kubernetes-preserve-unknown-fields", "x-kubernetes-int-or-string"
EMBEDDED = "x-kubernetes-embedded-resource"
# Keywords by the type at whose nodes they may stand.
OF_TYPE = {
    "boolean": set(),
    "integer": {"minimum", "maximum", "format"},
    "string": {"minLength", "maxLength"},
    "array": {"minItems", "maxItems", "items"},
    "object": {"required", "properties", "additionalProperties", OPEN},
    None: {MIXED, OPEN},
}
ANYWHERE = {"type", "nullable", "enum", "default"} | PASSED_OVER
WHOLE = {"minimum", "maximum", "minLength", "maxLength", "minItems", "maxItems"}
# Of these a webhook needs none but the bounds of what a rule scales.
CHECKS_ALONE = WHOLE | {"format", "enum", "required"}
BOUNDS = {"minimum", "maximum", "format"}
INT_OR_STRING = [{"type": "integer"}, {"type": "string"}]
OWN_NAMES = {"apiVersion": "string", "kind": "string", "metadata": "object"}
# What tells a type that is missing.
TELLING = (("properties", "object"), ("additionalProperties", "object"), ("items", "array"))
# What is lost with a thing that is left out. What stands in none of these had no effect on objects.
CHECKED = {
    "pattern", "multipleOf", "exclusiveMinimum", "exclusiveMaximum", "uniqueItems", "minProperties", "maxProperties", "oneOf", "anyOf",
    "allOf", "not", "x-kubernetes-validations", "x-kubernetes-list-type", "x-kubernetes-list-map-keys", EMBEDDED,
} | CHECKS_ALONE  # fmt: skip
FILLED = {"default"}
SERVED = {"subresources", "selectableFields", "deprecated", "deprecationWarning"}
LOST = ("isn't checked any more", "isn't filled in any more", "isn't served", "goes without effect")
# What is taken over, and no object is ever touched by.
SHOWN = PASSED_OVER | {"conversion", "additionalPrinterColumns", "shortNames", "categories", "singular"}
# Limits of kubeconv: nodes of a version, and how deep they nest.
NODES, NESTING = 1_024, 32
KEYS = {"[*]": "items", "*": "additionalProperties"}
MEND = "an object with x-kubernetes-preserve-unknown-fields may stand for a part: --open PATH"
KINDS = {dict: "an object", list: "a list", str: "a text", int: "a whole number", bool: "a truth value"}


class Prepared:
    """What was left out and put in so far, and what the definition can't be prepared for."""

    def __init__(self, for_webhook=False, rules=None):
        self.for_webhook = for_webhook
        self.left_out = []
        self.put_in = []
        self.impossible = []
        self.counts = {what: collections.Counter() for what in LOST}
        self.shown = collections.Counter()
        self.version = ""
        self.versions = set()
        named = list(rule_fields.of_rules(rules or {}))
        self.scaled = {(version, path) for word, version, _, path in named if word == "scale"}
        self.named = {(version, path) for _, version, _, path in named}

    def leave(self, path, name, why=None):
        """Leaves out what has a name at a path."""
        self.left_out.append((path, name if why is None else f"{name} ({why})"))
        word = "fields of metadata" if path == "metadata" else name
        place = 0 if word in CHECKED and why not in ("false", "atomic") else 1 if word in FILLED else 2 if word in SERVED else 3
        self.counts[LOST[place]][word] += 1

    def put(self, what, path, why):
        """Tells what stands at a path that wasn't said there: `set`, `opened` or `added`."""
        self.put_in.append(f"{what}: {path} ({why})")

    def cannot(self, why):
        self.impossible.append(why)

    def expect(self, value, kind, path):
        """The value where it is of that kind. Else this is told, and an empty one stands for it."""
        if isinstance(value, kind) and not (kind is int and isinstance(value, bool)):
            return value
        self.cannot(f"{path or 'the document'} isn't {KINDS[kind]}")
        return kind()

    def fields(self, value, allowed, path):
        """The fields of an object that may stand there; the path is that of a node or of a version, or else one of names."""
        kept = {}
        for name, field in self.expect(value, dict, path).items():
            if name in allowed:
                kept[name] = field
                self.shown[name] += name in SHOWN
            else:
                self.leave(path, name)
        return kept

    def lines(self):
        """All that is to be told: the sums, what was put in, and what was left out, of each node on one line."""
        yield from self.summary()
        yield from self.put_in
        if self.left_out:
            yield "left out:"
            yield from (f"  {it}" for it in self.left())

    def left(self):
        """What was left out, by the path; where that is the same at several versions, once."""
        names, paths = collections.defaultdict(list), collections.defaultdict(list)
        for path, name in self.left_out:
            names[path].append(name)
        for path, found in names.items():
            version, _, rest = path.partition(" ")
            is_of_version = version in self.versions
            paths[rest if is_of_version else path, is_of_version, ", ".join(found)].append(version)
        for (path, is_of_version, found), versions in paths.items():
            yield at(" ".join([", ".join(versions), path]).strip() if is_of_version else path, found)

    def summary(self):
        for what, counts in [*self.counts.items(), ("is shown with the definition, and has no effect", self.shown)]:
            counted = ", ".join(f"{count} {word}" for word, count in sorted((+counts).items()))
            if counted:
                yield f"{what}: {counted}"


def join(path, name):
    return f"{path}.{name}" if path else name


def at(path, name):
    """What has a name at a path, as it is told: `v1beta1 spec.replicas: minimum`."""
    return f"{path}: {name}" if path else name


def is_whole(number):
    return isinstance(number, int) and not isinstance(number, bool) and -(2**63) <= number < 2**63


def is_readable(value):
    """Whether each number inside is a whole number of 64 bits, which are the only numbers that kubeconv reads."""
    if isinstance(value, dict):
        return all(isinstance(name, str) and is_readable(field) for name, field in value.items())
    if isinstance(value, list):
        return all(is_readable(item) for item in value)
    return value is None or isinstance(value, (str, bool)) or is_whole(value)


def whole(value):
    """The whole number that a bound is, written as one; None where it isn't one."""
    if is_whole(value):
        return value
    if isinstance(value, float) and value.is_integer() and is_whole(int(value)):
        return int(value)
    return None


def keyword(prepared, name, value, path):
    """The value of a keyword that holds no schema, at a node of this path, or None where it is left out."""
    why = None
    if name in WHOLE:
        value = whole(value)
        why = "not a whole number" if value is None else None
    elif name == "format" and value not in ("int32", "int64"):
        why = f"{value}"
    elif name in (OPEN, MIXED) and value is not True:
        why = "false"
    elif not is_readable(value):
        why = "holds a number that isn't whole"
    if why is not None:
        prepared.leave(path, name, why)
        return None
    prepared.shown[name] += name in SHOWN
    return value


def unsaid(value, kind):
    """What a node says that no keyword of kubeconv can: the keyword, and why."""
    if kind is not None and kind not in ALLOWED_TYPES:
        yield "type", f"is {kind!r}, whose values kubeconv doesn't keep"
    if value.get(EMBEDDED) is True and value.get(OPEN) is not True:
        yield EMBEDDED, "keeps fields that no other keyword names"
    if kind == "array" and value.get(OPEN) is True:
        yield OPEN, "keeps fields of the list's items"
    if kind == "array" and "items" not in value:
        yield "items", "isn't there"
    if value.get("additionalProperties") is True:
        yield "additionalProperties", "is true, and keeps fields that no other keyword names"


def try_node(prepared, value, kind, path):
    """Tells what a node can't be prepared for."""
    is_mixed, others = value.get(MIXED) is True, value.get("additionalProperties", False)
    told = [(MIXED, "stands beside a type")] if is_mixed and kind is not None else []
    told += [("type", "isn't there")] if kind is None and not is_mixed and value.get(OPEN) is not True else []
    told += unsaid(value, kind)
    told += [("additionalProperties", "stands beside properties")] if "properties" in value and not isinstance(others, bool) else []
    for name, why in told:
        prepared.cannot(f"{at(path, name)} {why}")


def typed(prepared, value, path):
    """A node with its type, where that is missing and another keyword tells it; and for a webhook what keeps all that it may hold."""
    kinds = {kind for name, kind in TELLING if name in value}
    if "type" not in value and value.get(MIXED) is not True and len(kinds) == 1:
        value = {**value, "type": kinds.pop()}
        prepared.put("set", at(path, "type"), value["type"])
    why = next((f"{name} {why}" for name, why in unsaid(value, value.get("type"))), None) if prepared.for_webhook else None
    if why is None:
        return value
    prepared.put("opened", path, why)
    return opened(value)


def opened(value):
    """A node that takes any fields, any items, or any value in place of what it took. What it has beside its form stays."""
    rest = {name: field for name, field in value.items() if name in {"nullable", "default"} | PASSED_OVER}
    kind = value.get("type")
    if kind == "array":
        return {**rest, "type": "array", "items": {OPEN: True}}
    return {**rest, **({"type": "object"} if kind == "object" else {}), OPEN: True}


def why_left(name, field):
    return "atomic" if name == "x-kubernetes-list-type" and field == "atomic" else "false" if field is False else None


def is_needed(prepared, name, place):
    """Whether a keyword that the schema may have stays: for a webhook what only checks goes, but for bounds that a rule scales by."""
    return not prepared.for_webhook or name not in CHECKS_ALONE or (name in BOUNDS and (prepared.version, place) in prepared.scaled)


def node(prepared, value, path, place=()):
    """A node of a schema, at a place, the names of the fields that lead to it, and at the path that it is told by."""
    value = typed(prepared, prepared.expect(value, dict, path), path)
    kind = value.get("type")
    try_node(prepared, value, kind, path)
    allowed = ANYWHERE | OF_TYPE.get(kind if isinstance(kind, str) else None, set())
    if not place:
        allowed = allowed - {"default"}
    kept = {}
    for name, field in value.items():
        if name == "anyOf" and value.get(MIXED) is True and field == INT_OR_STRING:
            kept[name] = field
        elif name not in allowed or not is_needed(prepared, name, place):
            prepared.leave(path, name, why_left(name, field))
        elif name == "properties":
            kept[name] = properties(prepared, field, path, place)
        elif name == "items":
            kept[name] = node(prepared, field, f"{path}[*]", (*place, "[*]"))
        elif name == "additionalProperties" and not isinstance(field, bool):
            kept[name] = node(prepared, field, join(path, "*"), (*place, "*"))
        elif name == "additionalProperties":
            prepared.leave(path, name, "false")
        else:
            said = keyword(prepared, name, field, path)
            if said is not None or field is None:
                kept[name] = said
    return filled_default(prepared, kept, path)


def filled_default(prepared, kept, path):
    """A node whose default has the defaults inside of it, as an API server fills it."""
    if "default" in kept:
        value = copy.deepcopy(kept["default"])
        if fill(kept, value):
            kept["default"] = value
            prepared.put("set", at(path, "default"), "with the defaults inside")
    return kept


def fill(schema, value):
    """Puts the defaults of a schema into a value, and tells whether there were any."""
    is_new = False
    if isinstance(value, dict):
        for name, inner in schema.get("properties", {}).items():
            if name not in value and "default" in inner:
                value[name], is_new = copy.deepcopy(inner["default"]), True
        known, other = schema.get("properties", {}), schema.get("additionalProperties", {})
        return any([is_new, *(fill(known.get(name, other), field) for name, field in value.items())])
    return isinstance(value, list) and any([fill(schema.get("items", {}), item) for item in value])


def properties(prepared, value, path, place):
    kept = {}
    for name, field in prepared.expect(value, dict, at(path, "properties")).items():
        here = join(path, name) if place else f"{path} {name}"
        if not place and name in OWN_NAMES:
            kept[name] = own_name(prepared, OWN_NAMES[name], field, here)
        else:
            kept[name] = node(prepared, field, here, (*place, name))
    return kept


def own_name(prepared, kind, value, path):
    """One of the root's three names, which every object has: its type alone, beside what is passed over."""
    value = prepared.expect(value, dict, path)
    if "type" not in value:
        value = {**value, "type": kind}
        prepared.put("set", at(path, "type"), kind)
    if value["type"] != kind:
        prepared.cannot(f"{at(path, 'type')} isn't {kind!r}")
    kept = prepared.fields(value, {"type"} | PASSED_OVER, path)
    for name in [name for name, field in kept.items() if not is_readable(field)]:
        prepared.leave(path, name, "holds a number that isn't whole")
        del kept[name]
    return kept


# ---- parts that are opened: a part is open in each version that has it, so that versions stay equal in it


def below(schema, place=()):
    """The nodes right below a node, each with its place; without the root's three names."""
    named = schema.get("properties", {}).items()
    found = [((*place, name), field) for name, field in named if place or name not in OWN_NAMES]
    return found + [((*place, step), schema[name]) for step, name in KEYS.items() if name in schema]


def sizes(schema, place=()):
    """How many nodes stand at each place, those inside of it too."""
    found = {place: 1}
    for inner, field in below(schema, place):
        found.update(sizes(field, inner))
        found[place] += found[inner]
    return found


def spelled(place):
    return ".".join(place).replace(".[*]", "[*]")


def places(path):
    return tuple(it for it in path.replace("[*]", ".[*]").replace("[]", ".[*]").split(".") if it)


def put_open(schema, place):
    """Opens the part at a place, and tells whether there is one."""
    for step in place:
        within, name = (schema, KEYS[step]) if step in KEYS else (schema.get("properties") or {}, step)
        schema = within.get(name)
        if not isinstance(schema, dict):
            return False
    within[name] = opened(schema)
    return True


def open_named(prepared, schemas, paths):
    for path in paths:
        place = places(path)
        held = [version for version, schema in schemas.items() if place and put_open(schema, place)]
        if held:
            prepared.put("opened", spelled(place), f"at {', '.join(held)}, as asked")
        else:
            prepared.cannot(f"--open {path}: no version has such a field")


def large(prepared, schema):
    """The part of a schema with too many nodes to be opened: the smallest that is enough, or else the largest. None where there is none.
    A part that rules look into isn't opened, nor what stands right below the root."""
    found = sizes(schema)
    much = found[()] - NODES

    def is_named(place):
        return any(path[: len(place)] == place for _, path in prepared.named)

    parts = [(size, place) for place, size in found.items() if len(place) > 1 and size > 2 and not is_named(place)]
    enough = [it for it in parts if it[0] > much]
    return min(enough)[1] if enough else max(parts)[1] if parts else None


def open_large(prepared, schemas):
    """Opens parts until each version has few enough nodes."""
    for version, schema in schemas.items():
        while sizes(schema)[()] > NODES and (place := large(prepared, schema)) is not None:
            held = [name for name, other in schemas.items() if put_open(other, place)]
            prepared.put("opened", spelled(place), f"at {', '.join(held)}, since {version} has more than {NODES} nodes")


def try_sizes(prepared, schemas):
    """Tells where a version has more nodes, or deeper ones, than kubeconv takes."""
    for version, schema in schemas.items():
        found = sizes(schema)
        count, deep = found[()], max(map(len, found))
        has = [(f"has {count} nodes", NODES)] * (count > NODES) + [(f"is nested {deep} deep", NESTING)] * (deep > NESTING)
        for what, most in has:
            prepared.cannot(f"the schema of {version} {what}, and kubeconv takes {most}: {MEND}")
