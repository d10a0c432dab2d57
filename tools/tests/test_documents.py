"""python3 -m unittest discover -s tools/tests: what tools/yaml2json.py reads, ./explain reads of files, and tools/prepare_crd.py makes."""
import json
import pathlib
import subprocess
import sys
import tempfile
import unittest

TOOLS = pathlib.Path(__file__).resolve().parent.parent
sys.path.insert(0, str(TOOLS))
import explain  # noqa: E402
import yaml2json  # noqa: E402
from program_asks import Failed  # noqa: E402


def asked(tool, given, *words):
    """The status of a tool by these words over a text, and what it prints and tells."""
    done = subprocess.run([sys.executable, TOOLS / tool, *words, "-"], input=given, stdout=subprocess.PIPE, stderr=subprocess.PIPE, universal_newlines=True)
    return done.returncode, done.stdout, done.stderr


# ---- YAML

GOOD = {
    "a: 1\nb: -0x1f\nc: 1.5\nd: 1e3\ne: 010\nf: +7": {"a": 1, "b": -31, "c": 1.5, "d": 1000.0, "e": 8, "f": 7},
    "a: yes\nb: Off\nc: ~\nd:\ne: 'no'\nf: 2020-01-01T00:00:00Z\ng: 12:30":
        {"a": True, "b": False, "c": None, "d": None, "e": "no", "f": "2020-01-01T00:00:00Z", "g": "12:30"},
    "a:\n- x\n-   y: 1\n    z: 2\n- - 1\n  - 2\n-\n- 'q'\nb: {c: [1, 'd', {e: f}], }":
        {"a": ["x", {"y": 1, "z": 2}, [1, 2], None, "q"], "b": {"c": [1, "d", {"e": "f"}]}},
    "a: |\n  one\n    two\n\n  three\n\nb: >-\n  one\n  two\n\n  three\n    more\n  end\nc: |+\n  x\n\nd: |2-\n    y\n":
        {"a": "one\n  two\n\nthree\n", "b": "one two\nthree\n  more\nend", "c": "x\n\n", "d": "  y"},
    "a: one\n  two\n\n  three # no\nb: \"x \\\n  y \\u00e9\n\n  z\"\nc: 'it''s\n  so'\nd: http://h/p#q":
        {"a": "one two\nthree", "b": "x y é\nz", "c": "it's so", "d": "http://h/p#q"},
    "# c\n'a b': {x: 1, # c\n  y: [2,\n  3]}\n\"c:d\":\n-\nk.x/y: -z": {"a b": {"x": 1, "y": [2, 3]}, "c:d": [None], "k.x/y": "-z"},
    "a: &x {n: 1, o: &y [2]}\nb: *x\nc: {<<: *x, n: 3}\nd:\n  <<: *x\n  p: *y":
        {"a": {"n": 1, "o": [2]}, "b": {"n": 1, "o": [2]}, "c": {"n": 3, "o": [2]}, "d": {"n": 1, "o": [2], "p": [2]}},
    "'text'": "text",
    "%YAML 1.1\n---\n- 1\n...\n": [1],
}
BAD = {
    "a: 1\na: 2": "line 2: the name 'a' stands twice",
    "a: 1\n80: 2": "line 2: the name 80 is no text; put it in quotes",
    "a: !!int 3": "line 1: a tag, which JSON doesn't have",
    "a: .inf": "line 1: .inf is no number of JSON",
    "a: b: c": "line 1: a second `name:` in one line, or one inside a text; put it in quotes",
    "a:\n  b: 1\n c: 2": "line 3: this is no `name: value` at the place of one",
    "a: [1, 2": "line 1: 'the end' in place of , or ]",
    "a: 'x": "line 1: a text in quotes that doesn't end",
    "a:\n\tb: 1": "line 2: a tab in place of blanks",
    "a: *x": "line 1: an alias without an anchor before",
}


class Yaml(unittest.TestCase):
    def test_what_is_read(self):
        for text, wanted in GOOD.items():
            with self.subTest(text):
                self.assertEqual(list(yaml2json.of_yaml(text)), [wanted])

    def test_what_is_refused(self):
        for text, wanted in BAD.items():
            with self.subTest(text), self.assertRaises(yaml2json.NotYaml) as came:
                list(yaml2json.of_yaml(text))
            self.assertEqual(str(came.exception), wanted)

    def test_documents(self):
        self.assertEqual(list(yaml2json.of_yaml("a: 1\n---\n---\n# c\n--- \n- 2\n--- {b: 3}\n")), [{"a": 1}, [2], {"b": 3}])

    def test_the_command(self):
        json_fault = "not JSON: Expecting property name enclosed in double quotes: line 1 column 9 (char 8)"
        for text, status, told in (
            ("a: [x, 1]", 0, '{"a": ["x", 1]}'),
            ("a: 1\n---\nb: 2", 2, "yaml2json.py: -: 2 documents in one file; one is wanted"),
            ('{"a": 1,, }', 2, f"yaml2json.py: -: {json_fault}"),
        ):
            came = asked("yaml2json.py", text)
            self.assertEqual((came[0], came[1] or came[2]), (status, told + "\n"))


# ---- the files of ./explain

ONE, TWO = ({"kind": "CustomResourceDefinition", "metadata": {"name": f"{name}.example.com"}} for name in ("a", "b"))
LIST = {"kind": "List", "items": [ONE, TWO]}
IN_YAML = "kind: CustomResourceDefinition\nmetadata: {name: a.example.com}\n"


class Given(unittest.TestCase):
    def setUp(self):
        room = tempfile.TemporaryDirectory()
        self.addCleanup(room.cleanup)
        self.room = pathlib.Path(room.name)

    def file(self, text, name="x.json"):
        path = self.room / name
        path.write_text(text if isinstance(text, str) else json.dumps(text, indent=1))
        return str(path)

    def test_a_text_of_json_stays_as_it_is(self):
        for text in (json.dumps(ONE, indent=3), '{"kind": "Other"}', '{"a": 1,, }', "kind: CustomResourceDefinition", ""):
            self.assertEqual(explain.definition_of(self.file(text), None), (text, True))
        slip = '{"hub": "v1", "spokes": {},}'
        self.assertEqual(explain.rules_of(self.file(slip, "RULES")), (slip, True))

    def test_yaml_and_several_definitions(self):
        several = (self.file(LIST), self.file(f"{json.dumps(ONE)}\n---\n{json.dumps(TWO)}", "y.json"), self.file(IN_YAML + "---\n" + json.dumps(TWO), "z"))
        for path, name in [(it, "a.example.com") for it in several] + [(self.file(IN_YAML, "one.yaml"), None), (self.file(IN_YAML, "one"), None)]:
            text, is_own = explain.definition_of(path, name)
            self.assertEqual((json.loads(text), is_own), (ONE, False))

    def test_what_is_no_definition(self):
        for path, name, wanted in (
            (self.file(LIST), None, "it holds 2 CustomResourceDefinitions, of which --name chooses one: a.example.com, b.example.com"),
            (self.file(LIST), "c", "it holds 0 CustomResourceDefinitions of the name c, and these: a.example.com, b.example.com"),
            (self.file("a: b: c", "x.yaml"), None, "not YAML: line 1"),
        ):
            with self.subTest(wanted), self.assertRaises(explain.Unusable) as came:
                explain.definition_of(path, name)
            self.assertIn(wanted, str(came.exception))
        with self.assertRaises(Failed):
            explain.definition_of(str(self.room / "none.json"), None)

    def test_rules_are_one_document(self):
        self.assertEqual(json.loads(explain.rules_of(self.file("hub: v1\nspokes: {}", "r.yaml")).text), {"hub": "v1", "spokes": {}})
        with self.assertRaises(explain.Unusable):
            explain.rules_of(self.file("hub: v1\n---\nhub: v2", "r.yaml"))

    def test_objects_may_be_several(self):
        self.assertEqual(explain.objects_of(self.file(' {"a": 1}')), [(' {"a": 1}', True)])
        found = explain.objects_of(self.file("a: 1\n---\nkind: List\nitems:\n- b: 2\n- c: 3\n", "o.yaml"))
        self.assertEqual([json.loads(it.text) for it in found], [{"a": 1}, {"b": 2}, {"c": 3}])
        with self.assertRaises(explain.Unusable):
            explain.objects_of(self.file({"kind": "List", "items": []}))


# ---- definitions that are prepared

OPEN = "x-kubernetes-preserve-unknown-fields"


def definition(spec, scope="Namespaced", names=("v1beta1", "v1"), name="things.example.com"):
    """A definition whose versions have these fields in `spec`: of all of them, or of each."""
    each = spec if isinstance(spec, list) else [spec] * len(names)
    schemas = ({"type": "object", "properties": {"spec": {"type": "object", "properties": it}}} for it in each)
    versions = [{"name": n, "served": True, "storage": n == "v1", "schema": {"openAPIV3Schema": it}} for n, it in zip(names, schemas)]
    kind = {"apiVersion": "apiextensions.k8s.io/v1", "kind": "CustomResourceDefinition", "metadata": {"name": name}}
    return {**kind, "spec": {"group": "example.com", "scope": scope, "names": {"plural": "things", "kind": "Thing"}, "versions": versions}}


def prepared(text, *words):
    """The status, the definition, and the lines of standard error."""
    status, made, said = asked("prepare_crd.py", text if isinstance(text, str) else json.dumps(text), *words)
    return status, json.loads(made) if made else None, said.splitlines()


def fields(made, version=0):
    return made["spec"]["versions"][version]["schema"]["openAPIV3Schema"]["properties"]["spec"]["properties"]


CHECKED = {
    "port": {"type": "integer", "minimum": 1, "maximum": 65535, "format": "int32"},
    "size": {"type": "string", "enum": ["small", "large"], "default": "small"},
    "host": {"type": "string", "pattern": "^a", "maxLength": 9, "nullable": True},
}


class Webhook(unittest.TestCase):
    def test_what_only_checks_goes_and_types_stay(self):
        status, made, said = prepared(definition(CHECKED), "--webhook")
        self.assertEqual(status, 0)
        wanted = {"port": {"type": "integer"}, "size": {"type": "string", "default": "small"}, "host": {"type": "string", "nullable": True}}
        self.assertEqual(fields(made), wanted)
        self.assertIn("isn't checked any more: 2 enum, 2 format, 2 maxLength, 2 maximum, 2 minimum, 2 pattern", said)

    def test_the_sums_come_first_and_what_is_left_out_by_its_path(self):
        items = {"type": "array", "items": {"type": "integer", "minimum": 1, "maximum": 9}}
        maps = {"type": "object", "additionalProperties": {"type": "string", "minLength": 1}}
        crd = definition([{"a": items, "m": maps}, {"a": items, "m": {**maps, "additionalProperties": {"type": "string"}}}])
        crd["spec"]["versions"][1]["schema"]["openAPIV3Schema"]["required"] = ["spec"]
        self.assertEqual(prepared(crd, "--webhook")[2], [
            "isn't checked any more: 2 maximum, 1 minLength, 2 minimum, 1 required", "left out:",
            "  v1beta1, v1 spec.a[*]: minimum, maximum", "  v1beta1 spec.m.*: minLength", "  v1: required",
        ])  # fmt: skip

    def test_bounds_stay_that_a_rule_scales_by(self):
        scale = {"scale": {"names": ["port", "port"], "by": 10}}
        rules = {"hub": "v1", "spokes": {"v1beta1": [{"object": {"names": ["spec", "spec"], "rules": [scale]}}]}}
        with tempfile.NamedTemporaryFile("w", suffix=".json") as file:
            json.dump(rules, file)
            file.flush()
            _, made, _ = prepared(definition(CHECKED), "--webhook", "--rules", file.name)
        self.assertEqual([fields(made, i)["port"] for i in (0, 1)], [CHECKED["port"]] * 2)
        self.assertNotIn("enum", fields(made)["size"])

    def test_nothing_else_refuses(self):
        loose = {"share": {"type": "number"}, "any": {"type": "object", "additionalProperties": True}, "list": {"type": "array"}}
        crd = definition({**loose, "pod": {"type": "object", "x-kubernetes-embedded-resource": True}}, scope="Cluster", names=("v1",))
        crd["spec"]["versions"][0]["subresources"] = {"status": {}}
        status, made, said = prepared(crd, "--webhook")
        self.assertEqual((status, made["spec"]["scope"]), (0, "Namespaced"))
        open_object = {"type": "object", OPEN: True}
        open_list = {"type": "array", "items": {OPEN: True}}
        self.assertEqual(fields(made), {"share": {OPEN: True}, "any": open_object, "list": open_list, "pod": open_object})
        self.assertEqual(sum(line.startswith("opened: ") for line in said), 4)
        self.assertEqual(prepared(crd)[:2], (1, None))


class Opened(unittest.TestCase):
    deep = {
        "a": {"type": "object", "properties": {"ratio": {"type": "number"}}},
        "l": {"type": "array", "items": {"type": "object", "properties": {"x": {"type": "string"}}}},
    }

    def test_by_path_in_each_version_that_has_it(self):
        status, made, said = prepared(definition([self.deep, {"l": self.deep["l"]}]), "--open", "spec.a", "--open", "spec.l[*]")
        self.assertEqual(status, 0)
        self.assertEqual(fields(made), {"a": {"type": "object", OPEN: True}, "l": {"type": "array", "items": {"type": "object", OPEN: True}}})
        self.assertEqual(said[:2], ["opened: spec.a (at v1beta1, as asked)", "opened: spec.l[*] (at v1beta1, v1, as asked)"])

    def test_a_path_that_is_nowhere(self):
        self.assertEqual(prepared(definition({}), "--open", "spec.b"), (1, None, ["prepare_crd.py: -: --open spec.b: no version has such a field"]))

    def test_by_itself_where_there_are_too_many_nodes(self):
        many = {
            name: {"type": "object", "properties": {f"f{i}": {"type": "string"} for i in range(size)}} for name, size in (("big", 900), ("some", 150))
        }
        status, made, said = prepared(definition([many, {"big": many["big"]}]))
        self.assertEqual(status, 0)
        self.assertEqual((fields(made)["some"], len(fields(made)["big"]["properties"])), ({"type": "object", OPEN: True}, 900))
        self.assertEqual(said[0], "opened: spec.some (at v1beta1, since v1beta1 has more than 1024 nodes)")


class Completed(unittest.TestCase):
    def test_a_default_is_filled_by_those_inside(self):
        inner = {"type": "object", "default": {}, "properties": {"b": {"type": "integer", "default": 3}, "c": {"type": "string"}}}
        _, made, said = prepared(definition({"a": {"type": "object", "default": {}, "properties": {"in": inner}}}))
        self.assertEqual(fields(made)["a"]["default"], {"in": {"b": 3}})
        self.assertEqual(said[:2], [f"set: v1beta1 spec.{it}: default (with the defaults inside)" for it in ("a.in", "a")])

    def test_a_type_that_is_told_is_set(self):
        text = {"type": "string"}
        _, made, said = prepared(definition({"a": {"properties": {}}, "b": {"items": text}, "c": {"additionalProperties": text}}))
        self.assertEqual({name: it["type"] for name, it in fields(made).items()}, {"a": "object", "b": "array", "c": "object"})
        self.assertEqual(said[0], "set: v1beta1 spec.a: type (object)")

    def test_a_version_is_added(self):
        status, made, said = prepared(definition(CHECKED, names=("v1",)), "--add-version", "v2")
        self.assertEqual([(it["name"], it["storage"]) for it in made["spec"]["versions"]], [("v1", True), ("v2", False)])
        self.assertEqual((status, fields(made), said[1]), (0, fields(made, 1), "added: v2 (equal to v1)"))
        self.assertEqual(prepared(definition({}), "--add-version", "v1")[0], 1)


class Read(unittest.TestCase):
    def test_several_forms(self):
        one, two = definition({}), definition({}, name="others.example.com")
        as_list = {"apiVersion": "v1", "kind": "List", "items": [one, two]}
        one, two = json.dumps(one), json.dumps(two)
        for text in (json.dumps(as_list), f"{one}\n---\n# more\n{two}\n", f"kind: List\nitems:\n- {one}\n- {two}"):
            self.assertEqual(prepared(text, "--name", "others.example.com")[1]["metadata"]["name"], "others.example.com")
            self.assertIn("of which --name chooses one: others.example.com, things.example.com", prepared(text)[2][0])

    def test_an_older_form_is_told(self):
        status, _, said = prepared({**definition({}), "apiVersion": "apiextensions.k8s.io/v1beta1"})
        self.assertEqual(status, 1)
        self.assertIn("kubectl get crd NAME -o yaml", said[0])


if __name__ == "__main__":
    unittest.main()
