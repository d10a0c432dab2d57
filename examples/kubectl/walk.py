#!/usr/bin/env python3
"""Runs kubectl's commands through the front, and judges what they print: `walk.py [--kubectl FILE] [PROGRAM]`, where PROGRAM is
kubeconv, `./kubeconv` where it isn't given. It starts `serve` and fronts at free ports of this machine, and prints a line for each
command. The status is 1 where one printed something else than it should. Where there is no kubectl it says so, and nothing is run."""

import json
import os
import pathlib
import re
import shutil
import subprocess
import threading

from running import HERE, Running, certificate
from harness.crontabs import migration
from harness.documents import object_of
from harness.programs import parser_of
from harness.told import check, end

CRD = "crontabs.example.com"
STORE_HUB = [
    {"op": "test", "path": "/spec/versions/0/name", "value": "v1"},
    {"op": "replace", "path": "/spec/versions/0/storage", "value": True},
    {"op": "replace", "path": "/spec/versions/1/storage", "value": False},
]
AGE = r"\d+[sm]"


def crontab(name, version="v1beta1", **fields):
    return {**object_of(version, name), **fields}


class Walk:
    """The commands, one after the other, by kubectl, whose words differ from release to release."""

    def __init__(self, kubectl, running):
        self.kubectl, self.running = kubectl, running
        told = subprocess.run([kubectl, "version", "--client", "-o", "json"], capture_output=True, text=True)
        self.minor = int(json.loads(told.stdout)["clientVersion"]["minor"].rstrip("+"))
        self.use(running.front(), "http")

    def use(self, address, scheme, **cluster):
        """Goes to a front from now on, with folders of kubectl's own that are empty."""
        self.folder = self.running.path / f"home-{scheme}"
        self.folder.mkdir()
        config = {
            "apiVersion": "v1",
            "kind": "Config",
            "current-context": "front",
            "clusters": [{"name": "front", "cluster": {"server": f"{scheme}://{address}", **cluster}}],
            "contexts": [{"name": "front", "context": {"cluster": "front", "user": "nobody"}}],
            # Over TLS kubectl asks for a name where there is nothing by which it says who it is.
            "users": [{"name": "nobody", "user": {"token": "none"}}],
        }
        (self.folder / "config").write_text(json.dumps(config))
        kept = {name: value for name, value in os.environ.items() if not name.upper().endswith("_PROXY")}
        places = {"HOME": self.folder, "KUBECONFIG": self.folder / "config", "KUBECACHEDIR": self.folder / "cache"}
        self.environment = {**kept, **{name: str(place) for name, place in places.items()}}

    def run(self, words, document=None, **more):
        """Runs kubectl, with a document on its standard input where there is one."""
        given = "" if document is None else json.dumps(document)
        try:
            return subprocess.run(
                [self.kubectl, *words], input=given, capture_output=True, text=True, timeout=60, env={**self.environment, **more}
            )
        except subprocess.TimeoutExpired as error:
            return subprocess.CompletedProcess(words, "none in 60 seconds", str(error.stdout), str(error.stderr))

    def step(self, line, wanted, document=None, status=0, **more):
        """Runs a line of kubectl. What it prints must be found by each pattern of `wanted`, or be taken by it where that is a
        function of its standard output."""
        words = line if isinstance(line, list) else line.split()
        done = self.run(words, document, **more)
        output = done.stdout + done.stderr
        patterns = [wanted] if isinstance(wanted, str) else wanted
        held = wanted(done.stdout) if callable(wanted) else all(re.search(it, output, re.MULTILINE) for it in patterns)
        tell(" ".join(words), held and done.returncode == status, f"status {done.returncode}, not {status}, or not {wanted}:\n{output}")

    def read(self, line):
        """What a line of kubectl prints, read as JSON."""
        return json.loads(self.run(line.split()).stdout or "{}")


def tell(heading, held, why=""):
    check(held, heading + ("" if held else f"\n{why}"))


def rows(*patterns):
    """Takes a table with these lines and no others."""
    return lambda output: len(patterns) == len(output.splitlines()) and all(map(re.fullmatch, patterns, output.splitlines()))


def discovers(walk):
    walk.step("version", r"Server Version: .*v1\.\d+\.\d+\+kubeconv")
    at_hub = r"crontabs +ct +example\.com/v1 +true +CronTab"
    definitions = r"customresourcedefinitions +crd,crds +apiextensions\.k8s\.io/v1 +false +CustomResourceDefinition"
    migrations = r"storageversionmigrations +storagemigration\.k8s\.io/v1alpha1 +false +StorageVersionMigration"
    walk.step("api-resources", ["^" + at_hub, "^" + definitions, "^" + migrations, "^namespaces +ns +v1 +false"])
    groups = "apiextensions.k8s.io/v1", "example.com/v1", "example.com/v1beta1", "storagemigration.k8s.io/v1alpha1", "v1"
    walk.step("api-versions", lambda output: output.split() == list(groups))
    walk.step("get --raw /readyz", r"\Aok\Z")
    walk.step("get --raw /openapi/v2", lambda output: "com.example.v1.CronTab" in json.loads(output)["definitions"])
    walk.step("get namespaces", rows("NAME +STATUS *", "default +Active *"))
    walk.step("get namespace elsewhere -o name", rows("namespace/elsewhere"))
    walk.step("get events", "No resources found in default namespace")
    walk.step("get crontabs", "No resources found in default namespace")


def creates(walk):
    walk.step("create -f -", rows("crontab.example.com/a created"), crontab("a", hostPort="localhost:80", timeoutSeconds=30))
    walk.step("create -f -", r"\(AlreadyExists\)", crontab("a", hostPort="localhost:80"), status=1)
    first = crontab("b", hostPort="b.example.com:80", legacy="old")
    walk.step("apply -f -", rows("crontab.example.com/b created"), first)
    walk.step("apply -f -", rows("crontab.example.com/b unchanged"), first)
    walk.step("apply -f -", rows("crontab.example.com/b configured"), {**first, "hostPort": "b.example.com:81"})
    walk.step("get crontab b -o jsonpath={.port}", r"\A81\Z")
    without = {name: value for name, value in first.items() if name != "legacy"}
    walk.step("apply -f -", rows("crontab.example.com/b configured"), without)
    walk.step("get crontabs.v1beta1.example.com b -o jsonpath={.legacy}", r"\A\Z")
    walk.step("apply -f -", rows("crontab.example.com/c created"), crontab("c", "v1", host="c", port="1", paused=True))
    walk.step("create -n elsewhere -f -", rows("crontab.example.com/d created"), crontab("d", "v1"))
    walk.step("get namespaces -o name", rows("namespace/default", "namespace/elsewhere"))
    items = [crontab(f"e{i}", metadata={"name": f"e{i}", "labels": {"n": str(i)}}) for i in range(5)]
    many = {"apiVersion": "v1", "kind": "List", "items": items}
    walk.step("apply -n many -f -", rows(*(f"crontab.example.com/e{i} created" for i in range(5))), many)
    walk.step("create -f -", 'unknown field "hostport"', crontab("f", hostport="localhost:80"), status=1)
    bad = {**many, "items": [crontab("f", hostport="localhost:80")]}
    walk.step("create -f -", r"\Aerror: error validating .*: ValidationError\(CronTab\): unknown field \"hostport\"", bad, status=1)
    validate, warned = ("warn", ['Warning: unknown field "hostport"']) if walk.minor >= 25 else ("false", [])
    walk.step(f"create --validate={validate} -f -", [*warned, "/f created"], crontab("f", hostport="a"))
    walk.step("create -f -", r"is invalid: timeoutSeconds: Maximum", crontab("g", timeoutSeconds=1001), status=1)


def gets(walk):
    """Every form of a get."""
    heading = "NAME +HOST +PAUSED +AGE *"
    others = f"b +b.example.com +false +{AGE}", f"c +c +true +{AGE}", f"f +false +{AGE}"
    walk.step("get crontabs", rows(heading, f"a +localhost +false +{AGE}", *others))
    walk.step("get ct a", rows(heading, f"a +localhost +false +{AGE}"))
    walk.step("get ct a -o wide", rows("NAME +HOST +PAUSED +TIMEOUT +AGE *", f"a +localhost +false +30000 +{AGE}"))
    walk.step("get crontabs.v1beta1.example.com a", rows("NAME +AGE *", f"a +{AGE}"))
    walk.step("get all", "^a +localhost")
    walk.step("get crontabs -A --no-headers", lambda output: len(output.splitlines()) == 10 and "\nelsewhere   d " in output)
    walk.step("get crontabs -n elsewhere -o name", rows("crontab.example.com/d"))
    walk.step("get crontab a -o json", lambda output: json.loads(output)["timeoutMillis"] == 30000)
    walk.step("get crontabs -o yaml", [r"^- apiVersion: example\.com/v1$", r"^  host: localhost$", "^kind: List$"])
    walk.step("get crontabs a c -o jsonpath={.items[*].metadata.name}", r"\Aa c\Z")
    columns = "custom-columns=NAME:.metadata.name,PORT:.port"
    walk.step(f"get crontab a c -o {columns}", rows("NAME +PORT *", "a +80", "c +1"))
    walk.step("get crontabs --sort-by=.host -o name", lambda output: output.split()[-1].endswith("/a"))
    walk.step("get crontabs -n many --show-labels --no-headers", r"^e3 +false +\S+ +n=3$")
    each = [rf"^crontab.example.com/e{i}$" for i in range(5)]
    walk.step("get crontabs -n many --chunk-size=2 -o name -v=6", [r"limit=2", r"continue=\w+", *each])
    walk.step("get crontab zz", r'\(NotFound\): crontabs.example.com "zz" not found', status=1)
    walk.step("get crontabs -w", r"\(MethodNotAllowed\)", status=1)


def selects(walk):
    def names(*numbers):
        return rows(*(f"crontab.example.com/e{number}" for number in numbers))

    many = ["get", "crontabs", "-n", "many", "-o", "name"]
    walk.step([*many, "-l", "n=1"], names(1))
    walk.step([*many, "-l", "n!=1,n"], names(0, 2, 3, 4))
    walk.step([*many, "-l", "n in (1,3),n notin (3, 4)"], names(1))
    walk.step([*many, "-l", "!n"], names())
    walk.step([*many, "-l", "n>1"], r"\(BadRequest\)|unable to parse", status=1)
    walk.step([*many, "--field-selector", "metadata.name=e2"], names(2))
    walk.step([*many, "--field-selector", "spec.x=e2"], r"field label not supported", status=1)
    walk.step([*many, "--chunk-size=1", "-l", "n=4"], names(4))


def edits(walk):
    """Labels, annotations, patches, an editor, a replace."""
    walk.step("label crontab a tier=web", rows("crontab.example.com/a labeled"))
    walk.step("label crontab a tier=batch", "--overwrite is false", status=1)
    walk.step("label crontab a tier=batch --overwrite", rows("crontab.example.com/a labeled"))
    walk.step("label crontab a tier-", rows("crontab.example.com/a (un)?labeled"))
    walk.step("annotate crontab a note=one", rows("crontab.example.com/a annotated?"))
    walk.step(["patch", "crontab", "a", "--type=merge", "-p", '{"owner":"me","note":null}'], "/a patched$")
    walk.step(["patch", "crontab", "a", "--type=json", "-p", '[{"op":"add","path":"/note","value":"x"}]'], "/a patched$")
    walk.step(["patch", "crontab", "a", "--type=json", "-p", '[{"op":"test","path":"/note","value":"y"}]'], "the test at", status=1)
    walk.step(["patch", "crontab", "a", "-p", "{}"], "strategic-merge-patch.json is not supported|UnsupportedMediaType", status=1)
    walk.step("apply --server-side -f -", "Server-side apply not available", crontab("a"), status=1)
    editor = walk.folder / "editor"
    editor.write_text("#!/bin/sh\nsed -i 's/^host: localhost$/host: edited/' \"$1\"\n")
    editor.chmod(0o755)
    walk.step("edit crontab a", rows("crontab.example.com/a edited"), EDITOR=str(editor), KUBE_EDITOR=str(editor))
    seen = walk.read("get crontab a -o json")
    held = [seen.get(name) for name in ("host", "owner", "note")] == ["edited", "me", "x"]
    noted = seen["metadata"].get("annotations") == {"note": "one"} and not seen["metadata"].get("labels")
    tell("each edit stands in the end", held and noted, json.dumps(seen))
    walk.step("replace -f -", rows("crontab.example.com/a replaced"), {**seen, "host": "replaced"})
    walk.step("replace -f -", r"\(Conflict\)", {**seen, "host": "late"}, status=1)
    walk.step("replace -f -", rows("crontab.example.com/a replaced"), crontab("a", "v1", host="whole", port="1"))
    walk.step(["apply", "--dry-run=server", "-f", "-"], "a dry run isn't served|doesn't support dry-run", crontab("h"), status=1)


def explains(walk):
    """Descriptions of an object and of its kind."""
    walk.step("describe crontab a", [r"^Name: +a$", r"^Host: +whole$", r"^Events: +<none>$"])
    walk.step("explain crontab", [r"^KIND: +CronTab$", r"^VERSION: +\S*v1$", "What runs when", r"^ +timeoutMillis\t<integer>"])
    walk.step("explain crontab.timeoutMillis", "How long a run may take, in milliseconds")
    walk.step("explain crontab --api-version=example.com/v1beta1", [r"^VERSION: +\S*v1beta1$", r"^ +hostPort\t<string>"])
    walk.step("explain crontab --recursive", r"^ +extra\t<Object>\n +known\t<Object>\n +a\t<integer>|^ +extra\t<map\[string\]>")
    if walk.minor >= 27:
        walk.step("explain crontab --output=plaintext-openapiv2", [r"^KIND: +CronTab$", r"^ +timeoutMillis\t<integer>"])
    walk.step("explain crontab.metadata.labels", "By what the object is selected")
    walk.step("explain crd.spec.versions.storage", "true for exactly one")
    walk.step("explain storageversionmigration.spec.resource", r"^ +resource\t<string>")


def upgrades(walk):
    """The storage version moves from one to the other."""
    walk.step("get crd", rows("NAME +KIND +SERVED +STORAGE +STORED *", f"{CRD} +CronTab +v1 v1beta1 +v1beta1 +v1beta1"))
    walk.step(f"describe crd {CRD}", r"^Name: +crontabs\.example\.com$")
    walk.step("get storageversionmigrations", "No resources found")
    walk.step(["patch", "crd", CRD, "--type=json", "-p", json.dumps(STORE_HUB)], "patched$")
    stored = {"status": {"storedVersions": ["v1"]}}
    raw = ["replace", "-f", "-", "--raw", f"/apis/apiextensions.k8s.io/v1/customresourcedefinitions/{CRD}/status"]
    walk.step(raw, r'\(StillStored\): version "v1beta1" is still stored by', stored, status=1)
    walk.step("create -f -", rows("storageversionmigration.storagemigration.k8s.io/to-v1 created"), migration("to-v1"))
    walk.step("wait --for=condition=Succeeded storageversionmigration/to-v1 --timeout=30s", "condition met$")
    walk.step("get storageversionmigrations", rows("NAME +STATUS +RESOURCE +VERSION *", "to-v1 +Succeeded +crontabs +v1"))
    walk.step("get storageversionmigration to-v1 -o yaml", "storageVersion: v1$")
    if walk.minor >= 24:
        walk.step(["patch", "crd", CRD, "--subresource=status", "--type=merge", "-p", json.dumps(stored)], "patched$")
    else:
        walk.step(raw, lambda output: json.loads(output)["status"] == stored["status"], stored)
    walk.step("get crd --no-headers", rows(f"{CRD} +CronTab +v1 v1beta1 +v1 +v1"))
    served = walk.read(f"get crd {CRD} -o json")
    served["spec"]["versions"][1]["served"] = False
    walk.step("replace -f -", "replaced$", served)
    walk.step("get crontabs.v1beta1.example.com --cache-dir=" + str(walk.folder / "other"), "doesn't have a resource type", status=1)


def deletes(walk):
    walk.step("delete crontab a", rows('crontab.example.com "a" deleted.*'))
    walk.step("delete crontab a", r"\(NotFound\)", status=1)
    walk.step("delete crontab a --ignore-not-found", r"\A\Z")
    walk.step("delete -f -", rows('crontab.example.com "c" deleted.*'), crontab("c", "v1"))
    walk.step("delete crontabs -n many -l n=1", rows('crontab.example.com "e1" deleted.*'))
    walk.step("delete crontabs -n many --all", rows(*(f'crontab.example.com "e{i}" deleted.*' for i in (0, 2, 3, 4))))
    held = crontab("held", "v1")
    held["metadata"]["finalizers"] = ["example.com/hold"]
    walk.step("create -f -", "/held created$", held)
    walk.step("delete crontab held --wait=false", rows('crontab.example.com "held" deleted.*'))
    walk.step("get crontab held -o jsonpath={.metadata.deletionTimestamp}", r"\A\d{4}-\d\d-\d\dT")
    release = ["patch", "crontab", "held", "--type=merge", "-p", '{"metadata":{"finalizers":null}}']
    later = threading.Timer(1, walk.run, [release])
    later.start()
    walk.step("delete crontab held --timeout=30s", '"held" deleted')
    later.join()
    walk.step("get crontab held", r"\(NotFound\)", status=1)
    walk.step("delete storageversionmigration to-v1", r"\(MethodNotAllowed\)", status=1)
    walk.step("create namespace new", r"\(MethodNotAllowed\): namespaces are always there", status=1)


def encrypted(walk):
    """A front with a certificate."""
    made = certificate(walk.running.path)
    if made is None:
        return
    cert, key = made
    walk.use(walk.running.front("--cert", cert, "--key", key), "https", **{"certificate-authority": str(cert)})
    walk.step("get crontabs -o name", rows("crontab.example.com/b", "crontab.example.com/f"))
    walk.step("label crontab b tls=on", "/b labeled$")


def main():
    parser = parser_of(__doc__, None, kubectl="kubectl")
    parser.add_argument("program", nargs="?", default=str(HERE.parent.parent / "kubeconv"))
    given = parser.parse_args()
    kubectl = shutil.which(given.kubectl)
    if kubectl is None:
        print(f"skipped: there is no {given.kubectl}; Debian has it in the package kubernetes-client")
        return
    running = Running(pathlib.Path(given.program).resolve())
    try:
        running.serve()
        walk = Walk(kubectl, running)
        for part in (discovers, creates, gets, selects, edits, explains, upgrades, deletes, encrypted):
            part(walk)
    finally:
        running.stop()
    end()


if __name__ == "__main__":
    main()
