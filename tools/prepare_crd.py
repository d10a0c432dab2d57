#!/usr/bin/env python3
"""Prints the definition that kubeconv takes, from a CustomResourceDefinition that is in use.

    tools/prepare_crd.py [--name NAME] [--webhook [--rules FILE]] [--open PATH].. [--add-version NAME] FILE > DEFINITION
    kubectl get crd NAME -o yaml | tools/prepare_crd.py - > DEFINITION

FILE is YAML or JSON; `-` is standard input. It holds one definition, or several, as documents or as a List, of which NAME
(`crontabs.example.com`) says which one is meant.

Definitions in use have keywords that kubeconv doesn't know, as `pattern`, `oneOf` or `subresources`. Each one is left out; `status`, and what
`metadata` has beside the name, go too. The first lines of standard error sum up: what isn't checked, filled in or served any more, what goes
without any effect, and what is taken over but shown with the definition alone. Then what is put in is told as `set`, `opened` or `added`: a
`type` that is missing where another keyword tells it, the defaults inside of a default, a part that is opened since a version has more nodes
than kubeconv takes. Then comes what is left out, by its versions and its path, as `v1beta1 spec.replicas: minimum`.

Where leaving something out would change which fields of objects are kept, or where kubeconv can't serve the definition at all, each
reason is told, nothing is printed, and the status is 1. It is 2 where the words are wrong.
"""
import argparse
import copy
import json
import os
import sys

import yaml2json
from prepare_schema import Prepared, at, is_readable, node, open_large, open_named, try_sizes

TOP = {"apiVersion", "kind", "metadata", "spec", "status"}
SPEC = {"group", "scope", "names", "versions", "conversion", "preserveUnknownFields"}
NAMES = {"plural", "kind", "listKind", "singular", "shortNames", "categories"}
VERSION = {"name", "served", "storage", "schema", "additionalPrinterColumns", "deprecated"}
SCHEMA = "openAPIV3Schema"
VERSIONS = 8
BYTES = 4_194_304  # that kubeconv reads of a file


def version(prepared, value, place):
    """A version, which is told by its name, or else by its place."""
    path = value["name"] if isinstance(value, dict) and isinstance(value.get("name"), str) else place
    prepared.versions.add(path)
    kept = prepared.fields(value, VERSION, path)
    if kept.get("deprecated", False) is not False:
        prepared.leave(path, "deprecated")
        del kept["deprecated"]
    schema = prepared.fields(kept["schema"], {SCHEMA}, at(path, "schema")) if "schema" in kept else {}
    if SCHEMA not in schema:
        prepared.cannot(f"{at(path, f'schema.{SCHEMA}' if 'schema' in kept else 'schema')} isn't there")
        return kept
    prepared.version = kept.get("name", "")
    kept["schema"] = {SCHEMA: node(prepared, schema[SCHEMA], path)}
    return kept


def schemas_of(versions):
    """The schemas of versions by name, as far as they are there."""
    found = {}
    for it in versions:
        schema = it.get("schema", {}) if isinstance(it, dict) else {}
        schema = schema.get(SCHEMA) if isinstance(schema, dict) else None
        if isinstance(schema, dict):
            found[str(it.get("name"))] = schema
    return found


def with_added(prepared, versions, name):
    """The versions with one more, which is equal to the one that is stored."""
    named = [it.get("name") for it in versions if isinstance(it, dict)]
    if name in named or not named:
        prepared.cannot(f"--add-version {name}: there is such a version already" if named else "spec.versions has none to add to")
        return versions
    stored = next((it for it in versions if it.get("storage")), versions[0])
    prepared.put("added", name, f"equal to {stored['name']}")
    return [*versions, {**copy.deepcopy(stored), "name": name, "served": True, "storage": False}]


def definition(prepared, document, opens=(), added=None):
    """The definition that kubeconv takes, of which parts are opened, and to which a version is added."""
    kept = prepared.fields(copy.deepcopy(document), TOP, "")
    if kept.get("apiVersion") != "apiextensions.k8s.io/v1" or kept.get("kind") != "CustomResourceDefinition":
        old = "; a cluster of today gives that: kubectl get crd NAME -o yaml" if kept.get("apiVersion") == "apiextensions.k8s.io/v1beta1" else ""
        prepared.cannot(f"the document isn't a CustomResourceDefinition of apiextensions.k8s.io/v1{old}")
    if kept.pop("status", None) is not None:
        prepared.leave("", "status")
    metadata = prepared.expect(kept.get("metadata"), dict, "metadata")
    for name in metadata:
        if name != "name":
            prepared.leave("metadata", name)
    kept["metadata"] = {"name": prepared.expect(metadata.get("name"), str, "metadata.name")}
    spec = kept["spec"] = prepared.fields(kept.get("spec"), SPEC, "spec")
    if prepared.for_webhook and spec.get("scope") == "Cluster":
        spec["scope"] = "Namespaced"
        prepared.put("set", "spec.scope", "Namespaced, which a webhook doesn't look at")
    elif spec.get("scope") != "Namespaced":
        prepared.cannot("spec.scope isn't Namespaced")
    if spec.get("preserveUnknownFields") is True:
        prepared.cannot("spec.preserveUnknownFields is true")
    spec["names"] = prepared.fields(spec.get("names"), NAMES, "spec.names")
    versions = prepared.expect(spec.get("versions"), list, "spec.versions")
    if added:
        versions = with_added(prepared, versions, added)
    second = "; --add-version NAME gives a second one" if len(versions) == 1 else ""
    if second and prepared.for_webhook:
        prepared.put("kept", "spec.versions", f"one alone, so nothing is converted{second}")
    elif not 2 <= len(versions) <= VERSIONS:
        prepared.cannot(f"spec.versions has {len(versions)} of them, and kubeconv takes 2 to {VERSIONS}{second}")
    open_named(prepared, schemas_of(versions), opens)
    spec["versions"] = [version(prepared, item, f"spec.versions[{i}]") for i, item in enumerate(versions)]
    if not prepared.impossible:
        open_large(prepared, schemas_of(spec["versions"]))
        try_sizes(prepared, schemas_of(spec["versions"]))
    columns = [(str(item.get("name")), item, "additionalPrinterColumns") for item in spec["versions"]]
    for path, holder, name in [("spec", spec, "conversion"), *columns]:
        if name in holder and not is_readable(holder[name]):
            prepared.leave(path, name, "holds a number that isn't whole")
            del holder[name]
    return kept


def definitions(found):
    """The definitions among documents, and inside of Lists."""
    for document in found:
        if not isinstance(document, dict):
            continue
        if document.get("kind") == "CustomResourceDefinition":
            yield document
        elif str(document.get("kind", "")).endswith("List") and isinstance(document.get("items"), list):
            yield from definitions(document["items"])


def name_of(document):
    metadata = document.get("metadata")
    return str(metadata.get("name", "")) if isinstance(metadata, dict) else ""


def chosen(found, name):
    """The one definition that is meant, or why there is none."""
    held = list(definitions(found))
    wanted = [document for document in held if name in (None, name_of(document))]
    if len(wanted) == 1:
        return wanted[0], None
    names = ", ".join(sorted(map(name_of, held)))
    if held and name is None:
        return None, f"it holds {len(held)} CustomResourceDefinitions, of which --name chooses one: {names}"
    several = f"it holds {len(wanted)} CustomResourceDefinitions of the name {name}, and these: {names}"
    return None, several if held else "it holds no CustomResourceDefinition"


def prepare(given):
    """Prints the definition of a file, and what is to be said of it."""
    path = given.file

    def fail(*reasons):
        for reason in reasons:
            print(f"prepare_crd.py: {path}: {reason}", file=sys.stderr)
        return 1

    try:
        found = yaml2json.documents(yaml2json.text_of(path))
        rules = yaml2json.document(yaml2json.text_of(given.rules)) if given.rules else None
    except BrokenPipeError:
        raise
    except (OSError, ValueError, RecursionError, yaml2json.Unsaid) as error:
        return fail(" ".join(str(error).split()))
    document, why = chosen(found, given.name)
    if document is None:
        return fail(why)
    prepared = Prepared(given.webhook, rules if isinstance(rules, dict) else None)
    kept = definition(prepared, document, given.open, given.add_version)
    text = json.dumps(kept, ensure_ascii=False, separators=(",", ":")) if not prepared.impossible else ""
    if len(text.encode()) > BYTES:
        prepared.cannot(f"the definition has {len(text.encode())} bytes, and kubeconv takes {BYTES}")
    if prepared.impossible:
        return fail(*prepared.impossible)
    for line in prepared.lines():
        print(line, file=sys.stderr)
    print(text, flush=True)
    return 0


def main():
    parser = argparse.ArgumentParser(description=__doc__, formatter_class=argparse.RawDescriptionHelpFormatter)
    parser.add_argument("--name", help="which of several definitions is meant, as crontabs.example.com")
    parser.add_argument("--webhook", action="store_true", help="for a webhook: what only checks goes too, since the API server checks")
    parser.add_argument("--rules", metavar="FILE", help="rules, of which --webhook leaves the bounds that a scale needs")
    parser.add_argument("--open", metavar="PATH", action="append", default=[], help="a part that takes any fields, as spec.template")
    parser.add_argument("--add-version", metavar="NAME", help="adds a version that is equal to the one that is stored")
    parser.add_argument("file", metavar="FILE")
    given = parser.parse_args()
    if given.rules and not given.webhook:
        parser.error("--rules goes with --webhook")
    try:
        return prepare(given)
    except BrokenPipeError:  # nobody reads on; what is still to be flushed goes nowhere
        for stream in (sys.stdout, sys.stderr):
            os.dup2(os.open(os.devnull, os.O_WRONLY), stream.fileno())
        return 1
    except OSError as error:
        os.dup2(os.open(os.devnull, os.O_WRONLY), sys.stdout.fileno())
        print(f"prepare_crd.py: the definition isn't written: {error.strerror}", file=sys.stderr)
        return 1


if __name__ == "__main__":
    sys.exit(main())
