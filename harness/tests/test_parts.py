"""python3 -m unittest harness.tests.test_parts: each part by itself, beside a server of two answers."""
from __future__ import annotations

import contextlib
import io
import json
import pathlib
import socket
import sys
import tempfile
import threading
import unittest

from harness import told
from harness.client import Connection, Gone, address_of, answers_in, messages_of, request
from harness.crontabs import CERTIFICATES, CRONTABS, drawn_state, generator, migration, moved
from harness.documents import definition_of, files_of, list_of, name_of, object_schema, spelled
from harness.programs import TOP, built, parser_of, tables_of
from harness.progress import Progress
from harness.server import Listening
from harness.tables import Firsts, Table
from harness.timing import best_of, each_of, is_empty, middle_of, ran, run_of

TWO = b"HTTP/1.1 201 Created\r\ncontent-length: 7\r\nX: Y\r\n\r\n{\"a\":1}HTTP/1.1 404 Not Found\r\nContent-Length: 0\r\n\r\n"


def printed(call):
    """What a call prints."""
    with contextlib.redirect_stdout(io.StringIO()) as out:
        call()
    return out.getvalue()


class Messages(unittest.TestCase):
    def test_requests(self):
        self.assertEqual(request("GET", "/a"), b"GET /a HTTP/1.1\r\n\r\n")
        self.assertEqual(request("PUT", "/a", {"b": [1]}, "X: y\r\n"), b"PUT /a HTTP/1.1\r\nX: y\r\nContent-Length: 9\r\n\r\n{\"b\":[1]}")

    def test_a_text_of_messages(self):
        self.assertEqual([len(it) for it in messages_of(TWO + b"HTTP")], [56, 45, 4])
        one, two = answers_in(TWO)
        self.assertEqual((one.code, one.shown(), one.fields()["x"], two.code, two.shown()), (201, {"a": 1}, "Y", 404, None))
        for cut in TWO[:-1], TWO[:50], b"HTTP":
            with self.assertRaises(SystemExit):
                answers_in(cut)

    def test_addresses(self):
        self.assertEqual([address_of("127.0.0.1:80"), address_of("[::1]:8080")], [("127.0.0.1", 80), ("::1", 8080)])

    def test_a_connection(self):
        with socket.create_server(("127.0.0.1", 0)) as listener:
            threading.Thread(target=self.serve, args=(listener,), daemon=True).start()
            with Connection(listener.getsockname(), 10) as connection:
                self.assertEqual(connection.ask("GET", "/"), (201, {"a": 1}))
                self.assertEqual(connection.next().code, 404)
                with self.assertRaises(Gone):
                    connection.next()

    @staticmethod
    def serve(listener):
        """Answers byte by byte, as a slow peer does."""
        peer, _from = listener.accept()
        with peer:
            peer.recv(1 << 16)
            for byte in TWO:
                peer.sendall(bytes([byte]))


class Objects(unittest.TestCase):
    def test_states_go_there_and_back(self):
        for resource, state in (CRONTABS, drawn_state(generator("x"))), (CERTIFICATES, ("h", "RSA", 2048)):
            for version in "v1", "v1beta1":
                self.assertEqual(resource.state_of(resource.body_of(version, "a", state, 3)), state)
        self.assertEqual(drawn_state(generator("x", 1)), drawn_state(generator("x", 1)))

    def test_definitions(self):
        schema = object_schema({"a": {"type": "string"}}, ["a"])
        definition = definition_of({"v1": schema, "v1beta1": schema})
        stored = [it["storage"] for it in definition["spec"]["versions"]]
        self.assertEqual((stored, [it["storage"] for it in moved(definition)["spec"]["versions"]]), ([False, True], [True, False]))
        with tempfile.TemporaryDirectory() as folder:
            words = files_of(pathlib.Path(folder), "x", definition, {"v1beta1": []})
            self.assertEqual(json.loads(words[3].read_text()), {"hub": "v1", "spokes": {"v1beta1": []}})
        self.assertEqual(migration("m")["spec"]["resource"], {"group": "example.com", "resource": "crontabs"})

    def test_sizes_and_names(self):
        self.assertTrue(900_000 < len(spelled(list_of(1_000_000))) <= 1_000_000)
        self.assertEqual(len({name_of(it) for it in range(1000)}), 1000)


class Runs(unittest.TestCase):
    def test_a_run(self):
        done = ran([sys.executable, "-c", "import sys; print(input()); sys.stderr.write('e'); sys.exit(3)"], b"given\n")
        self.assertEqual(done[:3], (3, b"given\n", b"e"))
        self.assertTrue(0 < done.processor and 0 < done.seconds)
        self.assertGreater(run_of([sys.executable, "-c", ""], b"", is_empty)(), 0)
        with self.assertRaises(SystemExit):
            run_of([sys.executable, "-c", "print(1)"], b"", is_empty)()

    def test_rounds(self):
        numbers = iter([5.0, 1.0, 3.0, 2.0])
        tasks = {"a": lambda: next(numbers), "b": lambda: next(numbers)}
        self.assertEqual(best_of(2, tasks), {"a": 3.0, "b": 1.0})
        whole, less = (lambda: 5.0), (lambda: 2.0)
        self.assertEqual(each_of(2, {"x": (whole, less)}), {"x": 3.0})
        self.assertEqual(middle_of(3, {"x": lambda: (1.0, 2.0)}), {"x": [1.0, 2.0]})

    def test_a_program_that_listens(self):
        script = "import time; print('Listening on 127.0.0.1:81', flush=True); time.sleep(60)"
        with Listening([sys.executable, "-c", script]) as it:
            self.assertEqual((it.address, it.port, it.count()), (("127.0.0.1", 81), 81, 1))
            self.assertTrue(it.memory("VmHWM") >= it.memory() > 1 and it.processor_seconds() >= 0 and it.thread_seconds() > 0)
        self.assertEqual(it.process.returncode, -9)
        with self.assertRaises(SystemExit):
            Listening([sys.executable, "-c", "print('no')"])

    def test_a_program_ends_with_the_script(self):
        listens = "import time; print('listening on 127.0.0.1:81', flush=True); time.sleep(60)"
        script = f"import sys; from harness.server import Listening; Listening([sys.executable, '-c', {listens!r}]); sys.exit('wrong')"
        self.assertEqual(ran([sys.executable, "-c", script], cwd=TOP)[:3], (1, b"", b"wrong\n"))

    def test_options(self):
        parser = parser_of("x", runs=3, sizes=(1, 2), most_bytes=(7, "what"))
        options = parser.parse_args(["--sizes", "3"])
        self.assertEqual((options.runs, options.sizes, options.most_bytes, options.program), (3, [3], 7, None))
        self.assertEqual(parser_of("x", "program").parse_args(["p"]).program, "p")
        self.assertIn("what (default: 7)", parser.format_help())
        sys.argv, words = ["x", "b"], sys.argv
        self.assertEqual([it for it, _ in tables_of(parser, {"a": 1, "b": 2})], [2])
        sys.argv = words
        with self.assertRaises(SystemExit):
            built("/nowhere")


class Told(unittest.TestCase):
    def test_a_table(self):
        table = printed(lambda: Table("name:<6", "count:7", "ms:8.2f", "of:5.0%").row("a", 3, "-", 0.5))
        self.assertEqual(table, "name    count      ms   of\na           3       -  50%\n")
        firsts = Firsts()
        self.assertEqual([firsts.ratio("x", 2), firsts.ratio("x", 3), firsts.ratio("y", 3)], [1, 1.5, 1])

    def test_a_bar(self):
        with contextlib.redirect_stderr(io.StringIO()) as errors:
            progress = Progress()
            progress.tell("nothing without a terminal", 0.5)
            progress.is_shown, progress.told = True, 0.0
            progress.tell("half", 0.5)
            progress.tell("at once again", 0.6)
            progress.end()
        self.assertEqual(errors.getvalue(), f"\r\033[K[{'#' * 15:<30}]  50% half\r\033[K")

    def test_faults(self):
        self.addCleanup(told.FAULTS.clear)

        def one_that_holds():
            told.same("it", 1, 1)

        def one_that_does_not():
            told.same("it", 1, 2)

        def one_that_is_skipped():
            told.wants("no-such-program")

        with contextlib.redirect_stderr(io.StringIO()) as errors, contextlib.redirect_stdout(io.StringIO()) as out:
            with self.assertRaises(SystemExit) as ended:
                told.cases([one_that_holds, one_that_does_not, one_that_is_skipped])
        wrong = "one_that_does_not: Wrong: it:\n  came   1\n  wanted 2\n"
        lines = f"ok     one_that_holds: 0.0 seconds\nWRONG  {wrong}skipped one_that_is_skipped: there is no no-such-program\n"
        self.assertEqual((ended.exception.code, out.getvalue(), errors.getvalue()), (1, lines, f"wrong: {wrong}"))

    def test_looks(self):
        self.addCleanup(told.FAULTS.clear)
        self.assertEqual(printed(lambda: told.looked("x", lambda it: it, "said")), "ok     x: said\n")
        self.assertEqual(printed(lambda: told.looked("x", lambda: 1 // 0))[:29], "WRONG  x: ZeroDivisionError: ")
        self.assertEqual((told.told_of([]), told.told_of([1, 2])), ("", ": 2 wrong, as [1, 2]"))
        with contextlib.redirect_stderr(io.StringIO()), self.assertRaises(SystemExit) as ended:
            told.end()
        self.assertEqual(ended.exception.code, 1)
