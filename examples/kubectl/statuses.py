"""Status documents, by which a request is refused, and the JSON that the front reads and writes."""

import collections
import json

REASONS = {
    404: "NotFound", 405: "MethodNotAllowed", 406: "NotAcceptable", 413: "RequestEntityTooLarge", 415: "UnsupportedMediaType", 422: "Invalid",
    500: "InternalError", 502: "BadGateway", 503: "ServiceUnavailable", 504: "Timeout",
}  # fmt: skip


class Refused(Exception):
    """A request that is answered by a Status document, as an API server writes it."""

    def __init__(self, code, message, **details):
        super().__init__(message)
        self.code, self.message = code, message
        told = {"apiVersion": "v1", "kind": "Status", "metadata": {}, "status": "Failure", "message": message}
        self.document = {**told, "reason": REASONS.get(code, "BadRequest"), "code": code, **({"details": details} if details else {})}


def read(body, repeated=None):
    """The value that a body spells. The names that stand twice in one object are added to the list `repeated` where it is given."""

    def pairs(found):
        nonlocal repeated
        if repeated is not None:
            repeated += [name for name, count in collections.Counter(name for name, _ in found).items() if count > 1]
        return dict(found)

    def no_number(word):
        raise ValueError(f"{word} is no number")

    try:
        return json.loads(body.decode("utf-8"), object_pairs_hook=pairs, parse_constant=no_number)
    except ValueError as error:
        raise Refused(400, f"the body isn't JSON: {error}") from error


def written(document):
    try:
        return json.dumps(document, separators=(",", ":"), allow_nan=False).encode()
    except ValueError as error:
        raise Refused(400, f"the body holds a number that JSON can't say: {error}") from error
