"""python3 -m unittest discover -s tools/tests: what the checks of the pages see, and what the pictures are drawn from."""
import pathlib
import sys
import tempfile
import unittest

sys.path.insert(0, str(pathlib.Path(__file__).resolve().parent.parent))
sys.dont_write_bytecode = True
import check_documents as documents  # noqa: E402
import check_promises as promises  # noqa: E402
import pictures  # noqa: E402


def page(text):
    return documents.kinds_of(text.split("\n"))


class Bounds(unittest.TestCase):
    def test_a_line_a_row_and_a_page_are_held(self):
        wide = list(documents.bounds("docs/x.md", page("x" * 111 + "\n\n    " + "x" * 150 + "\n\n| " + "x" * 290 + " |")))
        self.assertEqual(len(wide), 1, wide)
        self.assertIn("docs/GLOSSARY.md: 41 rows", "\n".join(documents.bounds("docs/GLOSSARY.md", page("## Words of ours\n\n| a | b |\n|---|---|\n" + "| a | b |\n" * 41))))
        self.assertTrue(any("words, at most" in it for it in documents.bounds("bench/README.md", page("a " * 50 + "\n" + ("a " * 40 + "\n") * 9))))

    def test_a_word_of_ours_stands_in_no_page_for_users(self):
        self.assertTrue(list(documents.bounds("docs/OPERATORS.md", page("The trim is refused."))))
        self.assertFalse(list(documents.bounds("docs/OPERATORS.md", page("    a trim in code"))))


class Links(unittest.TestCase):
    def test_anchors_are_those_of_headings(self):
        self.assertEqual(documents.anchors_of(page("# One `two` (three)\n## A\n## A\n\n    # no")), {"one-two-three", "a", "a-1"})

    def test_a_link_that_leads_nowhere_is_told(self):
        lines = page("[a](README.md#no-such) [b](none.md) `[c](none.md)` [d](https://example.com)")
        told = list(documents.links("README.md", lines, {"README.md": lines}))
        self.assertEqual(len(told), 2, told)


class Commands(unittest.TestCase):
    def test_a_command_goes_on_and_has_what_it_prints(self):
        block = ["$ one |", "    two", "printed", "$ three"]
        self.assertEqual(documents.commands_of(block), [("one |\n    two", "printed"), ("three", None)])

    def test_dots_stand_for_any_text(self):
        self.assertTrue(documents.is_shown("...\nb ... d\n...", "a\nb c d\ne"))
        self.assertFalse(documents.is_shown("a ... d", "a b c"))

    def test_each_line_of_the_program_is_tried_with_and_without_options(self):
        lines = page("| line | does |\n|---|---|\n| `pipe [--turns N]` | x |\n\n| `other` | x |")
        self.assertEqual(sorted(documents.lines_of_program(lines)), [["pipe"], ["pipe", "--turns", "1"]])

    def test_a_function_that_is_not_there_is_told(self):
        told = list(documents.functions(page("`http_front::serve_one` and `http_front::serve_none`")))
        self.assertEqual(told, ["docs/POST.md names http_front::serve_none, which isn't there"])


class Tree:
    """A tree of one crate, for check_promises."""

    words = {"low": {"call", "clause"}}
    edits = {"turned"}
    has_call = promises.Tree.has_call

    def has_test(self, name):
        return name == "a_test"


class Promises(unittest.TestCase):
    def faults(self, *rows):
        return list(promises.faults(Tree(), "\n".join(["| promise | crate | edits | test |", *rows])))

    def test_a_row_that_names_what_there_is(self):
        self.assertEqual(self.faults("| it holds | `low`: `call` (`clause`) | `turned` | `a_test` |"), [])

    def test_what_there_is_not(self):
        told = self.faults("| it holds | `low`: `none` | `other` | `no_test` |", "| it holds | `call` | | |")
        self.assertEqual(len(told), 6, told)

    def test_rows_in_bold_are_heads(self):
        self.assertEqual(self.faults("| **`low`** | | | |"), ["the edit turned has no row"])


class Pictures(unittest.TestCase):
    def test_a_text_is_drawn(self):
        text = "size 100 50\ntitle A & b\nbox a 0 0 40 20 plain | one\nbox b 60 0 40 20 pale\nedge a b | to\ntile 0 30 10 10 strong | x\narrow 20,35 90,35 | time\nnote 5 48 | n"
        with tempfile.TemporaryDirectory() as folder:
            file = pathlib.Path(folder) / "it.txt"
            file.write_text(text)
            drawn = pictures.drawn(pictures.Picture(file))
        for part in ("<title>A &amp; b</title>", ">one</text>", ">b</text>", ">time</text>", 'class="box strong"', ">n</text>"):
            self.assertIn(part, drawn)
        self.assertEqual(drawn.count('marker-end="url(#head)"'), 2)


if __name__ == "__main__":
    unittest.main()
