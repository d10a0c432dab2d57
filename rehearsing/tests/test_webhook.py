"""python3 -m unittest rehearsing.tests.test_webhook: webhooks that fail on the way."""
import contextlib
import http.server
import json
import threading
import unittest

from ..converters import Refusal, Unreachable, Webhook


class Failing(http.server.BaseHTTPRequestHandler):
    """Gives each object back, but breaks off at `gone`, answers `ill` with 500, and ends each connection behind an answer."""

    protocol_version = "HTTP/1.1"

    def do_POST(self):
        self.server.paths.add(self.path)
        request = json.loads(self.rfile.read(int(self.headers["Content-Length"])))["request"]
        self.close_connection = True
        if "gone" in request["objects"]:
            return
        code = 500 if "ill" in request["objects"] else 200
        response = {"uid": request["uid"], "result": {"status": "Success"}, "convertedObjects": request["objects"]}
        text = b"a panic" if code == 500 else json.dumps({"response": response}).encode()
        self.send_response(code)
        self.send_header("Content-Length", str(len(text)))
        self.end_headers()
        self.wfile.write(text)

    def log_message(self, *_words):
        pass


@contextlib.contextmanager
def failing():
    with http.server.ThreadingHTTPServer(("127.0.0.1", 0), Failing) as server:
        server.paths = set()
        threading.Thread(target=server.serve_forever, daemon=True).start()
        yield server, f"http://127.0.0.1:{server.server_address[1]}/convert?a=b"
        server.shutdown()


class Failures(unittest.TestCase):
    def test_each_object_that_fails_is_known(self):
        names = [f"o{i}" for i in range(20)]
        names[3], names[11] = "gone", "ill"
        with failing() as (server, url):
            webhook = Webhook(url, None)
            told = webhook.convert([json.dumps(it) for it in names], "g/v1")
            webhook.close()
            self.assertEqual(server.paths, {"/convert?a=b"})
        self.assertEqual([it for it in told if not isinstance(it, Refusal)], [it for it in names if it.startswith("o")])
        self.assertTrue(told[3].message.startswith("the connection broke: "), told[3])
        self.assertEqual(told[11], Refusal("the webhook answered 500: a panic"))

    def test_nobody_is_there(self):
        with failing() as (_, url):
            pass
        with self.assertRaises(Unreachable):
            Webhook(url, None).convert(["{}"], "g/v1")


if __name__ == "__main__":
    unittest.main()
