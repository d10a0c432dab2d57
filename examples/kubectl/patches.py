"""JSON merge patch (RFC 7386) and JSON patch (RFC 6902), and what a strict reader says of an object: the fields that no schema knows, by
which a request with `fieldValidation=Strict` is refused and one with `Warn` is warned of. `serve` takes such fields out without a word, as
an API server does without that parameter."""

import copy

from statuses import Refused, written

# What all copies of one patch may add up to, in bytes of JSON.
MOST_OPERATIONS, MOST_COPIED = 10_000, 1 << 20
# What an object's metadata may have, by apimachinery's ObjectMeta.
METADATA = set("annotations creationTimestamp deletionGracePeriodSeconds deletionTimestamp finalizers generateName generation labels "
               "managedFields name namespace ownerReferences resourceVersion selfLink uid".split())  # fmt: skip
# So many faults are told one by one.
MOST_TOLD = 16


def merged(target, patch):
    if not isinstance(patch, dict):
        return patch
    made = dict(target) if isinstance(target, dict) else {}
    for name, value in patch.items():
        if value is None:
            made.pop(name, None)
        else:
            made[name] = merged(made.get(name), value)
    return made


def unprocessable(message):
    """What refuses a patch whose operation can't be done at the object."""
    causes = [{"field": "patch", "message": message, "reason": "FieldValueInvalid"}]
    return Refused(422, f"the patch can't be applied: {message}", causes=causes)


def pointed(pointer):
    """The names of a JSON pointer (RFC 6901)."""
    if not isinstance(pointer, str) or pointer and not pointer.startswith("/"):
        raise Refused(400, f"the patch has a path that is no JSON pointer: {pointer!r}")
    return [name.replace("~1", "/").replace("~0", "~") for name in pointer.split("/")[1:]]


def place(items, name, end):
    """The place in a list that a name stands for, below `end`."""
    is_number = name.isascii() and name.isdigit() and len(name) < 10 and (name == "0" or name[0] != "0")
    if not is_number or int(name) >= end:
        raise unprocessable(f"a list of {len(items)} items has no place {name!r}")
    return int(name)


def found(value, names):
    """What stands at the names, of objects or of places of lists."""
    for name in names:
        if isinstance(value, list):
            value = value[place(value, name, len(value))]
        elif isinstance(value, dict) and name in value:
            value = value[name]
        else:
            raise unprocessable(f"nothing stands at {name!r}")
    return value


def added(value, names, new):
    """The value with `new` at the names, put in between where the last stands for a place of a list."""
    if not names:
        return new
    holder, name = found(value, names[:-1]), names[-1]
    if isinstance(holder, list):
        holder.insert(len(holder) if name == "-" else place(holder, name, len(holder) + 1), new)
    elif isinstance(holder, dict):
        holder[name] = new
    else:
        raise unprocessable(f"nothing can stand at {name!r}")
    return value


def removed(value, names):
    """What stands at the names, which is taken away."""
    if not names:
        raise unprocessable("the whole object can't be removed")
    gone = found(value, names)
    holder, name = found(value, names[:-1]), names[-1]
    del holder[place(holder, name, len(holder)) if isinstance(holder, list) else name]
    return gone


def is_same(one, other):
    """Whether two values are equal as JSON, where true isn't 1."""
    if isinstance(one, bool) or isinstance(other, bool):
        return one is other
    if isinstance(one, dict) and isinstance(other, dict):
        return one.keys() == other.keys() and all(is_same(value, other[name]) for name, value in one.items())
    if isinstance(one, list) and isinstance(other, list):
        return len(one) == len(other) and all(map(is_same, one, other))
    return one == other


def stepped(value, operation, left):
    """What one operation makes of a value. `left` is a list of how many bytes the patch may copy yet."""

    def member(name):
        if name not in operation:
            raise Refused(400, f"an operation of the patch has no {name!r}")
        return operation[name]

    verb, names = member("op"), pointed(member("path"))
    if verb in ("add", "replace"):
        new = copy.deepcopy(member("value"))
        if verb == "replace" and names:
            removed(value, names)
        return added(value, names, new)
    if verb == "remove":
        removed(value, names)
        return value
    if verb == "test":
        if not is_same(found(value, names), member("value")):
            raise unprocessable(f"the test at {operation['path']!r} failed")
        return value
    source = pointed(member("from"))
    if verb == "copy":
        new = found(value, source)
        left[0] -= len(written(new))
        if left[0] < 0:
            raise unprocessable(f"its copies are longer than {MOST_COPIED} bytes")
        return added(value, names, copy.deepcopy(new))
    if verb != "move":
        raise Refused(400, f"an operation of the patch is {verb!r}")
    if source == names:
        found(value, source)
        return value
    if names[: len(source)] == source:
        raise unprocessable("nothing can be moved into itself")
    return added(value, names, removed(value, source))


def check_operations(patch):
    if not isinstance(patch, list) or not all(isinstance(operation, dict) for operation in patch):
        raise Refused(400, "a JSON patch is a list of operations")
    if len(patch) > MOST_OPERATIONS:
        raise Refused(413, f"a JSON patch has at most {MOST_OPERATIONS} operations")


def operated(target, patch):
    made, left = copy.deepcopy(target), [MOST_COPIED]
    for operation in patch:
        made = stepped(made, operation, left)
    return made


def names_version(patch):
    """Whether a patch of either kind names the resource version that it is for."""
    if isinstance(patch, list):
        touched = ("", "/metadata", "/metadata/resourceVersion")
        return any(operation.get("path") in touched and operation.get("op") != "remove" for operation in patch)
    metadata = patch.get("metadata")
    return isinstance(metadata, dict) and metadata.get("resourceVersion") is not None


def hold(old, new):
    """Makes a patched object one of the number that was read, unless the patch names a number, and refuses another uid."""
    if new.get("metadata") is None:
        new["metadata"] = {}
    was, now = old["metadata"], new["metadata"]
    if not isinstance(now, dict):
        return
    if now.get("uid", was.get("uid")) != was.get("uid"):
        raise unprocessable("metadata.uid is immutable")
    if now.get("resourceVersion") is None and "resourceVersion" in was:
        now["resourceVersion"] = was["resourceVersion"]


# ---- fields that no schema knows


def unknown(value, schema, path=""):
    """The paths of the fields below a value that its schema doesn't know, in the order of the value."""
    if isinstance(value, list):
        items = schema.get("items")
        return [found for i, item in enumerate(value) if items for found in unknown(item, items, f"{path}[{i}]")]
    if not isinstance(value, dict) or schema.get("type", "object") != "object":
        return []
    properties, others, told = schema.get("properties", {}), schema.get("additionalProperties"), []
    for name, field in value.items():
        here, inner = f"{path}.{name}" if path else name, properties.get(name, others)
        if isinstance(inner, dict):
            told += unknown(field, inner, here)
        elif schema.get("x-kubernetes-preserve-unknown-fields") is not True and others is not True:
            told.append(here)
    return told


def judged(document, schema, repeated, directive, version):
    """The warnings of what a strict reader of an object complains of; where the client asked for strictness, it is refused."""
    if directive not in ("Strict", "Warn"):
        raise Refused(400, f"fieldValidation is none of Ignore, Warn and Strict: {directive!r}")
    told, kind = [f'duplicate field "{name}"' for name in dict.fromkeys(repeated)], "object"
    if isinstance(document, dict):
        metadata, kind = document.get("metadata"), document.get("kind", kind)
        paths = [f"metadata.{name}" for name in metadata if name not in METADATA] if isinstance(metadata, dict) else []
        rest = {name: field for name, field in document.items() if name not in ("apiVersion", "kind", "metadata")}
        told += [f'unknown field "{path}"' for path in paths + unknown(rest, schema)]
    if len(told) > MOST_TOLD:
        told = [*told[:MOST_TOLD], f"{len(told) - MOST_TOLD} others"]
    if not told or directive == "Warn":
        return told
    words = f'{kind} in version "{version}" cannot be handled as a {kind}: strict decoding error: {", ".join(told)}'
    raise Refused(400, words)
