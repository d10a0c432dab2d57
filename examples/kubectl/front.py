#!/usr/bin/env python3
"""Stands before `kubeconv serve`, and adds what kubectl asks for:

    front.py --crd FILE --server ADDRESS --listen ADDRESS [--cert FILE --key FILE]

FILE of `--crd` is the definition with which `serve` runs, or the one from which that was prepared: its group, its names and its printer
columns are taken. `--server` is where `serve` listens, `127.0.0.1:8080`. Once the front listens at its own address it writes
`listening on` and the address; at port 0 the system chooses the port. With a certificate and its key it speaks TLS.

It keeps nothing: each answer comes from what `serve` tells for it. It authenticates nobody.
"""

import argparse
import json
import pathlib
import sys

sys.path.append(str(pathlib.Path(__file__).resolve().parent.parent))
import answers  # noqa: E402
import serving  # noqa: E402
from places import taken_apart  # noqa: E402
from backend import Backend  # noqa: E402
from statuses import Refused, written  # noqa: E402

CONNECTIONS = 256


class Handler(serving.Handler):
    def answered(self, body):
        try:
            return self.server.front.answer(taken_apart(self.command, self.path, self.headers, body))
        except Refused as refused:
            return serving.Answer(refused.code, written(refused.document))
        except RecursionError:
            return self.refusal(400, "the body is nested too deep")
        except Exception as error:
            print(f"front: {self.command} {self.path[:200]}: {error!r}", file=sys.stderr, flush=True)
            return self.refusal(500, "the front failed at this request")

    def refusal(self, code, why):
        code = 405 if code == 501 else code
        return serving.Answer(code, written(Refused(code, why).document))

    do_GET = do_HEAD = do_POST = do_PUT = do_PATCH = do_DELETE = serving.Handler.serve


class Server(serving.Server):
    def handle_error(self, request, client_address):
        """Says what ended a connection, unless its peer did."""
        if not isinstance(sys.exc_info()[1], OSError):
            super().handle_error(request, client_address)


def address_of(text):
    host, _, port = text.removeprefix("http://").rstrip("/").rpartition(":")
    if not port.isdecimal() or int(port) > 65535:
        raise argparse.ArgumentTypeError(f"{text!r} isn't a host and a port")
    return host.strip("[]") or "127.0.0.1", int(port)


def definition(path):
    try:
        with open(path, encoding="utf-8") as file:
            found = json.load(file)
        spec = found["spec"]
        return found if spec["group"] and spec["names"]["plural"] and spec["names"]["kind"] and spec["versions"] else None
    except (OSError, ValueError, TypeError, KeyError) as error:
        raise argparse.ArgumentTypeError(f"{path}: no definition in JSON: {error!r}") from error


def main():
    parser = argparse.ArgumentParser(description=__doc__, formatter_class=argparse.RawDescriptionHelpFormatter)
    parser.add_argument("--crd", required=True, type=definition, metavar="FILE")
    parser.add_argument("--server", required=True, type=address_of, metavar="ADDRESS")
    parser.add_argument("--listen", required=True, type=address_of, metavar="ADDRESS")
    parser.add_argument("--cert", metavar="FILE")
    parser.add_argument("--key", metavar="FILE")
    given = parser.parse_args()
    if (given.cert is None) != (given.key is None):
        parser.error("--cert and --key come together")
    try:
        server = Server(given.listen, Handler, CONNECTIONS, given.cert and serving.Tls(given.cert, given.key))
    except OSError as error:
        sys.exit(f"front: {error}")
    server.front = answers.Front(given.crd, Backend(given.server))
    server.run()


if __name__ == "__main__":
    main()
