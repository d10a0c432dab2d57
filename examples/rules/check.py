#!/usr/bin/env python3
"""Checks the examples beside this file:

    python3 examples/rules/check.py PROGRAM

PROGRAM is a built kubeconv, or the launcher ./kubeconv. Each NAME.http is answered by one run of `pipe`: what it writes is written,
and what it reads of that at the other version gives what was written when it is converted back. Each NAME.objects.json has objects, each with
the version that it is converted `to`, what is `shown` there, and what is `kept` in the annotation; converted back it is the object as
it was. cases.json has what docs/RULES.md says of rules: the fields of a `spoke` and of its `hub`, the rules between them, and with which
path and word they are `refused`; or fields `at_spoke` and `at_hub` that are the same, or what is `shown` of those `from_` one of them,
where something is `kept` unless it says false, and which come `back` as they were or with defaults. A case may have the fields of a
`second` spoke, with `second_rules`.
Of each definition of projects/, as a cluster has it, ./rehearse says of its objects what stands in NAME.told, but for the seconds, and that
nothing is lost; a second version is added first where it has one alone. And by the rules alone that ./explain tells to paste, where docs/RULES.md
begins, nothing is lost either.
Of prepare/definitions.json tools/prepare_crd.py makes widgets.json, saying what stands in widgets.said, and of the other definition it
says what stands in gadgets.said. Prints a line for each file; what differs is told on standard error, and then the status is 1.
"""
import importlib.util
import json
import pathlib
import re
import subprocess
import sys
import tempfile

HERE = pathlib.Path(__file__).resolve().parent
TOP = HERE.parent.parent
sys.path[:0] = [str(TOP), str(TOP / "tools")]
sys.dont_write_bytecode = True
from explain import explained  # noqa: E402
from harness.client import answers_in  # noqa: E402
from harness.documents import definition_of, files_of, object_of, object_schema, spelled  # noqa: E402
from harness.told import Wrong, end, looked, same  # noqa: E402
from rehearsing.tests.running import rehearsed  # noqa: E402

# The check of mistakes, which pastes what is told.
of_mistakes = importlib.util.spec_from_file_location("mistakes", HERE.parent / "mistakes" / "check.py")
mistakes = importlib.util.module_from_spec(of_mistakes)
of_mistakes.loader.exec_module(mistakes)

KEPT = re.compile(r"(hub|spoke)\.kubeconv\.local/")
HUB, SPOKE, SECOND = "v1", "v1beta1", "v1alpha1"
# Definitions of projects that have one version.
ONE_VERSION = ("certificate",)
# What stands before a path.
METHODS = re.compile(rb"(GET|POST|PUT) /apis/")


class Rules:
    """A definition with its rules, by the words that name their files."""

    def __init__(self, program, files):
        self.program, self.files = program, files

    def run(self, line, given, *words):
        done = subprocess.run([self.program, line, *self.files, *words], input=given, capture_output=True)
        if done.returncode != 0:
            raise Wrong(done.stderr.decode().strip() or f"{line} ended with {done.returncode}")
        return done.stdout

    def convert(self, value, version):
        return json.loads(self.run("convert", spelled(value), "--to", version))


def rules_at(program, name, folder=HERE):
    return Rules(program, ["--crd", folder / f"{name}.json", "--rules", folder / f"{name}.rules.json"])


def version_of(value):
    return value["apiVersion"].partition("/")[2]


def parted(value):
    """An object without what is kept in it, and that."""
    rest = json.loads(json.dumps(value))
    annotations = rest["metadata"].get("annotations", {})
    texts = [annotations.pop(name) for name in list(annotations) if KEPT.match(name)]
    if not annotations:
        rest["metadata"].pop("annotations", None)
    return rest, [entry for text in texts for entry in json.loads(text)]


def try_objects(program, file):
    rules = rules_at(program, file.name[: -len(".objects.json")])
    cases = json.loads(file.read_text())
    for case in cases:
        name = case["object"]["metadata"]["name"]
        came = rules.convert(case["object"], case["to"])
        shown, kept = parted(came)
        same(f"{name} at {case['to']}", shown, case["shown"])
        same(f"kept of {name}", kept, case["kept"])
        same(f"{name} converted back", rules.convert(came, version_of(case["object"])), case["object"])
    return f"{len(cases)} objects, both ways"


def try_requests(program, file):
    rules = rules_at(program, file.stem)
    given = file.read_bytes()
    came = answers_in(rules.run("pipe", given))
    same("codes", [it.code for it in came], [201 if it == b"POST" else 200 for it in METHODS.findall(given)])
    for written, read in zip(came[::2], came[1::2]):
        written, read = written.shown(), read.shown()
        same("whether the version is the same", version_of(read) == version_of(written), False)
        same(f"{written['metadata']['name']} converted back", rules.convert(read, version_of(written)), written)
    return f"{len(came) // 2} objects, written and read at the other version"


def rules_of_case(program, folder, case):
    """The rules of a case: two versions or three, each with its fields."""
    fields = {HUB: case["hub"], SPOKE: case["spoke"], **({SECOND: case["second"]} if "second" in case else {})}
    spokes = {SPOKE: case["rules"], **({SECOND: case["second_rules"]} if "second" in case else {})}
    definition = definition_of({name: object_schema(properties) for name, properties in fields.items()}, HUB)
    return Rules(program, files_of(folder, "case", definition, spokes, HUB))


def try_case(rules, case):
    def crontab(version, fields):
        return object_of(version, "a", **fields)

    if "refused" in case:
        try:
            rules.convert(crontab(HUB, {}), SPOKE)
        except Wrong as said:
            same(case["of"], str(said).partition("--rules.json: ")[2], case["refused"])
            return
        raise Wrong(f"{case['of']}: it isn't refused")
    # from where and of what, to where, what is shown there, and whether something is kept
    if "shown" in case:
        at, to, given = (SPOKE, HUB, "from_spoke") if "from_spoke" in case else (HUB, SPOKE, "from_hub")
        ways = [(at, case[given], to, case["shown"], case.get("kept", True))]
    else:
        spoke, hub = case["at_spoke"], case["at_hub"]
        ways = [(SPOKE, spoke, HUB, hub, False), (HUB, hub, SPOKE, spoke, False)]
    for at, fields, to, wanted, is_kept in ways:
        came = rules.convert(crontab(at, fields), to)
        shown, kept = parted(came)
        same(case["of"], shown, crontab(to, wanted))
        same(f"{case['of']}: kept", bool(kept), is_kept)
        back = rules.convert(came, at)
        same(f"{case['of']}: converted back", parted(back)[0] if "back" in case else back, crontab(at, case.get("back", fields)))


def try_cases(program, file):
    cases = json.loads(file.read_text())
    with tempfile.TemporaryDirectory() as to:
        for case in cases:
            try_case(rules_of_case(program, pathlib.Path(to), case), case)
    return f"{len(cases)} cases"


def begun(program, crd, objects, hub):
    """The status of ./rehearse by rules that keep what differs, as ./explain tells to paste, and what is told."""
    with tempfile.TemporaryDirectory() as to:
        files = [pathlib.Path(to, name) for name in mistakes.NAMES]
        files[1].write_text(json.dumps({"hub": hub, "spokes": {}}))
        files[0].write_text(prepared(crd, "--webhook", "--rules", str(files[1]))[0])
        said, status = explained(program, *map(str, files), mistakes.NAMES)
        for it, text in zip(files, mistakes.pasted([it.read_text() for it in files], said, False)) if status else ():
            it.write_text(text)
        return rehearsed(program, "--crd", crd, "--rules", files[1], objects)


def try_project(program, file):
    rules, crd = file.with_suffix(".rules.json"), file.with_suffix(".yaml")
    with tempfile.NamedTemporaryFile("w", suffix=".json") as added:
        if crd.stem in ONE_VERSION:
            text, said = prepared(crd, "--webhook", "--add-version", json.loads(rules.read_text())["hub"])
            same("a version is added", any(line.startswith("added: ") for line in said), True)
            added.write(text)
            added.flush()
            crd = pathlib.Path(added.name)
        objects = file.with_suffix(".objects.yaml")
        begins = begun(program, crd, objects, json.loads(rules.read_text())["hub"])
        status, told, why = rehearsed(program, "--crd", crd, "--rules", rules, objects)
    same(f"the status where rules are begun, beside {begins[1:]!r}", begins[0], 0)
    same(f"what is told, beside {why!r}", told.splitlines(), file.read_text().splitlines())
    same("the status", status, 0)
    return told.partition("\n")[0]


def prepared(file, *words):
    """What tools/prepare_crd.py prints of a definition, and what it says."""
    done = subprocess.run([sys.executable, TOP / "tools" / "prepare_crd.py", *words, "-"], input=file.read_text(), capture_output=True, text=True)
    return done.stdout, [line.replace("prepare_crd.py: -: ", "", 1) for line in done.stderr.splitlines()]


def try_prepared(program, file):
    made, said = prepared(file, "--name", "widgets.example.com")
    same("what is said of widgets", said, (file.parent / "widgets.said").read_text().splitlines())
    same("widgets", json.loads(made), json.loads((file.parent / "widgets.json").read_text()))
    nothing, refused = prepared(file, "--name", "gadgets.example.com")
    same("what is refused of gadgets", (nothing, refused), ("", (file.parent / "gadgets.said").read_text().splitlines()))
    widget = {"apiVersion": "example.com/v1", "kind": "Widget", "metadata": {"name": "a"}, "spec": {"host": "a", "tls": {"secret": "b"}}}
    rules = rules_at(program, "widgets", file.parent)
    same("a widget converted back", rules.convert(rules.convert(widget, SPOKE), HUB), widget)
    return f"{len(said)} lines of what goes, {len(refused)} of what is refused"


def main(words):
    if len(words) != 1:
        sys.exit(__doc__)
    looks = {".http": try_requests, ".objects.json": try_objects, "cases.json": try_cases, "definitions.json": try_prepared, ".told": try_project}
    for suffix, look in looks.items():
        for file in sorted(HERE.rglob(f"*{suffix}")):
            looked(file.name, look, words[0], file)
    end()


if __name__ == "__main__":
    main(sys.argv[1:])
