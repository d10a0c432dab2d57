"""python3 -m unittest rehearsing.tests.test_texts: the objects of files."""
import io
import json
import unittest
from unittest import mock

from .. import texts

ONE, TWO = ({"apiVersion": "g/v1", "kind": "K", "metadata": {"name": name}, "note": 'a "quote" \\ and \u00e9'} for name in ("one", "two"))
LISTED = {"apiVersion": "v1", "items": [ONE, TWO], "kind": "List", "metadata": {"resourceVersion": ""}}
OF_ITEMS = {**ONE, "items": [{"a": 1}, 2]}
YAML = """# from kubectl
apiVersion: v1
items:
- apiVersion: g/v1
  kind: K
  metadata:
    name: one
  text: |
    - a
    items:
  items:
  - 1
-   {apiVersion: g/v1, kind: K, metadata: {name: two}}
kind: List
metadata: {}
---
apiVersion: g/v1
kind: K
items:
- a: 1
- 2
---
# nothing
--- {kind: KList, items: []}
"""


def read(text):
    return [it.value() for it in texts.of_stream(io.StringIO(text))]


class Texts(unittest.TestCase):
    def test_json_however_it_is_cut(self):
        for size in (1, 7, 64, texts.CHUNK):
            with self.subTest(size), mock.patch.object(texts, "CHUNK", size):
                for indent in (None, 4):
                    self.assertEqual(read(json.dumps(LISTED, indent=indent)), [ONE, TWO])
                    self.assertEqual(read("\n".join(json.dumps(it, indent=indent) for it in (ONE, OF_ITEMS, LISTED))), [ONE, OF_ITEMS, ONE, TWO])
                self.assertEqual(read(json.dumps([ONE, TWO]) + json.dumps(ONE, ensure_ascii=False)), [ONE, TWO, ONE])
                self.assertEqual(read('{"kind":"List","items":[]}\n'), [])

    def test_yaml(self):
        one = {"apiVersion": "g/v1", "kind": "K", "metadata": {"name": "one"}, "text": "- a\nitems:\n", "items": [1]}
        two = {"apiVersion": "g/v1", "kind": "K", "metadata": {"name": "two"}}
        self.assertEqual(read(YAML), [one, two, {"apiVersion": "g/v1", "kind": "K", "items": [{"a": 1}, 2]}])

    def test_nothing(self):
        self.assertEqual((read(""), read(" \n"), read("# no\n")), ([], [], []))

    def test_faults(self):
        for text, wanted in (
            ('{"a": 1}\n{"a": tru}', "line 2: not JSON: Expecting value"),
            ('{"a": 1', "line 1: not JSON: the end in place of , or }"),
            ('{"items": [{"a": "b', "line 1: not JSON: Unterminated string starting at"),
            ("\n\n" + '{"a" 1' + " " * 99 + "}", "line 3: not JSON: 1 in place of :"),
        ):
            with self.subTest(text), self.assertRaises(texts.Unreadable) as came:
                read(text)
            self.assertEqual(str(came.exception), wanted)


if __name__ == "__main__":
    unittest.main()
