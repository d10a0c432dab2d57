"""What each request is answered: documents of the front's own, made of what `serve` tells, or what `serve` answers."""

import json
import random
import re
import threading
import time

import openapi
import patches
import tables
from backend import Reply
from places import DEFINITIONS, MIGRATIONS, PAGING, VERSIONS, place_of, selected
from serving import Answer
from statuses import Refused, read, written

NAMESPACE = re.compile(r"[a-z0-9](?:[a-z0-9-]{0,61}[a-z0-9])?")
PAGE = 500
# The release of Kubernetes whose API this is. kubectl warns of a server that is more than one release away.
MAJOR, MINOR = "1", "32"
MERGE, OPERATIONS = "application/merge-patch+json", "application/json-patch+json"
# Bodies that `serve` would take for JSON that is wrong.
NO_JSON = ("application/yaml", "application/vnd.kubernetes.protobuf", "application/cbor")
# A patch is tried again behind a Conflict so often, and behind pauses of up to so many seconds.
MOST_TRIES, LONGEST_PAUSE = 30, 0.05


def no_method(message):
    return Refused(405, message)


def unsupported(*taken):
    return Refused(415, "the body of the request was in an unknown format - accepted media types include: " + ", ".join(taken))


# ---- which groups, versions and resources there are, and which server this is


def version():
    """What `kubectl version` shows of the server."""
    unsaid = dict.fromkeys(("gitCommit", "gitTreeState", "goVersion", "compiler", "platform"), "")
    return {"major": MAJOR, "minor": MINOR, "gitVersion": f"v{MAJOR}.{MINOR}.0+kubeconv", "buildDate": "1970-01-01T00:00:00Z", **unsaid}


def group(name, version):
    told = {"groupVersion": f"{name}/{version}", "version": version}
    return {"apiVersion": "v1", "kind": "APIGroup", "name": name, "versions": [told], "preferredVersion": told}


def resource(name, kind, namespaced, verbs, singular="", **more):
    return {"name": name, "singularName": singular, "namespaced": namespaced, "kind": kind, "verbs": verbs.split(), **more}


def resources(group_version, *found):
    return {"apiVersion": "v1", "kind": "APIResourceList", "groupVersion": group_version, "resources": found}


OF_CORE = resources(
    "v1", resource("namespaces", "Namespace", False, "get list", "namespace", shortNames=["ns"]),
    resource("events", "Event", True, "list", "event", shortNames=["ev"]),
)  # fmt: skip
DEFINITION = "CustomResourceDefinition"
OF_DEFINITIONS = resources(
    "/".join(DEFINITIONS[:2]),
    resource(DEFINITIONS[2], DEFINITION, False, "get list patch update", DEFINITION.lower(), shortNames=["crd", "crds"]),
    resource(f"{DEFINITIONS[2]}/status", DEFINITION, False, "get patch update"),
)
OF_MIGRATIONS = resources(
    "/".join(MIGRATIONS[:2]), resource(MIGRATIONS[2], "StorageVersionMigration", False, "create get list", "storageversionmigration")
)


def object_resources(spec, version):
    """The resource that the definition defines, at one of its versions."""
    names = spec["names"]
    more = {name: names[name] for name in ("shortNames", "categories") if names.get(name)}
    singular = names.get("singular") or names["kind"].lower()
    found = resource(names["plural"], names["kind"], True, "create delete get list patch update", singular, **more)
    return resources(f"{spec['group']}/{version}", found)


def listed(api_version, kind, items):
    """A list whose items are all there are."""
    return {"apiVersion": api_version, "kind": kind, "metadata": {"resourceVersion": "", "continue": ""}, "items": items}


class Front:
    """What is known of the definition, and the connections to `serve`."""

    def __init__(self, definition, backend):
        spec = definition["spec"]
        self.group, self.plural, self.backend = spec["group"], spec["names"]["plural"], backend
        self.columns = {version["name"]: version.get("additionalPrinterColumns") for version in spec["versions"]}
        self.definition_path = f"/apis/{'/'.join(DEFINITIONS)}/{self.plural}.{self.group}"
        self.patching = [threading.Lock() for _ in range(64)]

    def answer(self, request):
        if request.segments == ("livez",):
            return Answer(200, b"ok", "text/plain")
        with self.backend.asker() as asker:
            turn = Turn(self, asker, request)
            return turn.own() or turn.of_serve()


class Turn:
    """One request, with what asks `serve` for it."""

    def __init__(self, front, asker, request):
        self.front, self.asker, self.request = front, asker, request
        self.is_read = request.method in ("GET", "HEAD")

    def ask(self, path):
        """What `serve` tells at a path; refused where it tells nothing."""
        reply = self.asker.ask("GET", path)
        if reply.code != 200:
            raise Refused(503, f"kubeconv serve answered {reply.code} at {path}")
        return reply.document()

    def definition(self):
        return self.ask(self.front.definition_path)

    def served(self):
        """The group of the definition, with its served versions."""
        return self.ask(f"/apis/{self.front.group}")

    def served_versions(self):
        return [version["version"] for version in self.served()["versions"]]

    # ---- the front's own

    def own(self):
        """The answer at a path of the front's own, or None at any other."""
        names = self.request.segments
        names = names[:-1] if names[-1:] == ("",) else names
        if names in (("readyz",), ("healthz",)):
            return self.health()
        made = {("version",): version(), ("api",): {"kind": "APIVersions", "versions": ["v1"], "serverAddressByClientCIDRs": []}}.get(names)
        looks = {"apis": self.groups, "openapi": self.openapi, "api": lambda names: self.core(names[1:]) if names[:1] == ("v1",) else None}
        if made is None and names[:1] and names[0] in looks:
            made = looks[names[0]](names[1:])
        if made is None or isinstance(made, Answer):
            return made
        if not self.is_read:
            raise no_method(f"{self.request.method} isn't served at this path")
        return Answer(200, written(made))

    def health(self):
        """Whether `serve` answers."""
        try:
            self.served()
        except Refused as refused:
            return Answer(503, refused.message.encode(), "text/plain")
        return Answer(200, b"ok", "text/plain")

    def groups(self, names):
        """What stands at /apis and below, as far as it isn't a resource."""
        own = {(it[0],): group(*it[:2]) for it in (DEFINITIONS, MIGRATIONS)}
        if not names:
            return {"apiVersion": "v1", "kind": "APIGroupList", "groups": [self.served(), *own.values()]}
        if len(names) == 2 and names[0] == self.front.group and names[1] in self.served_versions():
            return object_resources(self.definition()["spec"], names[1])
        return {**own, DEFINITIONS[:2]: OF_DEFINITIONS, MIGRATIONS[:2]: OF_MIGRATIONS}.get(names)

    def openapi(self, names):
        spec, served = self.definition()["spec"], self.served_versions()
        spec["versions"] = [version for version in spec["versions"] if version["name"] in served]
        if names == ("v2",) and any(media in self.request.accept for media in (openapi.ASKED, openapi.MEDIA)):
            return Answer(200, openapi.encoded(openapi.document_v2(spec)), openapi.MEDIA)
        kinds = [kind.split(";")[0].strip() for kind in self.request.accept.split(",")]
        if not {"", "*/*", "application/*", "application/json"} & set(kinds):
            raise Refused(406, "only application/json is served here")
        if names[:2] in (("v3", "apis"), ("v3", "api")) and len(names) == {"apis": 4, "api": 3}[names[1]]:
            return openapi.document_v3(spec, *(names[2:] if names[1] == "apis" else ("", *names[2:])))
        return openapi.document_v2(spec) if names == ("v2",) else openapi.index(spec) if names == ("v3",) else None

    def core(self, names):
        """The document, or the answer, at /api/v1 and below: namespaces and events."""
        if not names:
            return OF_CORE
        if names[-1] == "events" and (len(names) == 1 or len(names) == 3 and names[0] == "namespaces"):
            self.refuse_unserved()
            return self.shown(listed("v1", "EventList", []), tables.OF_EVENTS)
        if names[0] != "namespaces" or len(names) > 2:
            return None
        if not self.is_read:
            raise no_method("namespaces are always there, and aren't created, changed or deleted")
        self.refuse_unserved()
        if len(names) == 2:
            return self.shown(self.namespace(names[1]), tables.OF_NAMESPACES)
        found = listed("v1", "NamespaceList", [self.namespace(name) for name in sorted(self.namespaces())])
        return self.shown(self.selected(found), tables.OF_NAMESPACES)

    def namespace(self, name):
        """A namespace. Each that has a valid name is there."""
        if not NAMESPACE.fullmatch(name):
            raise Refused(404, f'namespaces "{name}" not found', kind="namespaces", name=name)
        metadata = {"name": name, "labels": {"kubernetes.io/metadata.name": name}}
        return {"apiVersion": "v1", "kind": "Namespace", "metadata": metadata, "spec": {}, "status": {"phase": "Active"}}

    def namespaces(self):
        """The namespaces that a list shows: `default`, and those in which objects stand."""
        version, found, more = self.served_versions()[0], {"default"}, ""
        while True:
            page = self.ask(f"/apis/{self.front.group}/{version}/{self.front.plural}?limit={PAGE}{more}")
            found.update(item["metadata"]["namespace"] for item in page["items"])
            if not page["metadata"].get("continue"):
                return found
            more = f"&continue={page['metadata']['continue']}"

    # ---- what `serve` answers

    def refuse_unserved(self):
        """Refuses what neither the front nor `serve` can do."""
        if self.request.is_on("watch"):
            raise no_method("watch isn't served; ask for the list again")
        if self.request.asked("dryRun"):
            raise Refused(400, "a dry run isn't served")

    def of_serve(self):
        self.refuse_unserved()
        place = place_of(self.request.segments, self.front.group, self.front.plural)
        is_write = self.request.method in ("POST", "PUT", "PATCH", "DELETE")
        reply, warnings = self.writing(place) if is_write else (self.reading(place), [])
        if reply.code == 405:
            raise no_method(f"{self.request.method} isn't served at this path")
        return Answer(reply.code, reply.body, headers=[("Warning", f"299 - {json.dumps(text)}") for text in warnings])

    def reading(self, place):
        """The reply to a request that only reads, with what the front makes of it."""
        request = self.request
        if place is None:
            return self.asker.ask("GET", request.target())
        if place.of() == DEFINITIONS and not place.name:
            found = listed("apiextensions.k8s.io/v1", "CustomResourceDefinitionList", [self.definition()])
            return Reply(200, written(self.shown(self.selected(found), tables.OF_DEFINITIONS)))
        names = PAGING if not place.name and request.least() else PAGING + VERSIONS
        reply = self.asker.ask("GET", request.target(request.path.removesuffix("/status") if place.part else None, names))
        if reply.code != 200 or not request.wants_table() and (place.name or not request.narrows()):
            return reply
        document = reply.document()
        if not place.name:
            document = self.selected(document)
            self.check_version(document)
        return Reply(200, written(self.shown(document, self.columns(place) if request.wants_table() else ())))

    def check_version(self, document):
        """Refuses to show what is older than the version that the client has seen, as from a server that was started anew."""
        least, now = self.request.least(), document["metadata"].get("resourceVersion") or "0"
        if least > int(now):
            causes = [{"reason": "ResourceVersionTooLarge", "message": "Too large resource version"}]
            raise Refused(504, f"Too large resource version: {least}, current: {now}", causes=causes)

    def selected(self, document):
        """A list with the items that the request selects. A page may then be shorter than its limit, or empty, while others follow."""
        return selected(document, self.request.asked("labelSelector"), self.request.asked("fieldSelector"))

    def shown(self, document, columns):
        """A document, or its table where the client asks for one."""
        return tables.table(document, columns, self.request.asked("includeObject")) if self.request.wants_table() else document

    def columns(self, place):
        if place.of() in (DEFINITIONS, MIGRATIONS):
            return tables.OF_DEFINITIONS if place.of() == DEFINITIONS else tables.OF_MIGRATIONS
        found = self.front.columns.get(place.version) or self.version(place).get("additionalPrinterColumns")
        return tables.usable(found) or [tables.AGE]

    def version(self, place):
        """What the served definition says of the place's version."""
        return next((version for version in self.definition()["spec"]["versions"] if version["name"] == place.version), {})

    # ---- requests that write

    def writing(self, place):
        """What `serve` answers to a request that writes, and the warnings that go with it."""
        request, warnings = self.request, []
        if request.method == "PATCH":
            return self.patching(place)
        if place is not None and request.media in NO_JSON:
            raise unsupported("application/json")
        if request.method != "DELETE" and place is not None and request.asked("fieldValidation") not in ("", "Ignore"):
            repeated = []
            warnings = self.judged(place, read(request.body, repeated), repeated)
        return self.asker.ask(request.method, request.target(), request.body), warnings

    def judged(self, place, document, repeated):
        """The warnings of what the request's fieldValidation looks for, or it is refused."""
        directive = self.request.asked("fieldValidation")
        if directive in ("", "Ignore"):
            return []
        schema = {DEFINITIONS: openapi.DEFINITION, MIGRATIONS: openapi.MIGRATION}.get(place.of())
        open_schema = {"x-kubernetes-preserve-unknown-fields": True}
        schema = schema or self.version(place).get("schema", {}).get("openAPIV3Schema", open_schema)
        return patches.judged(document, schema, repeated, directive, place.version)

    def patching(self, place):
        """What `serve` answers to a patch, which is a GET and a PUT with the number that was read."""
        if place is None:
            raise Refused(404, "the server could not find the requested resource")
        if not place.name:
            raise no_method("PATCH isn't served at this path")
        if self.request.media not in (MERGE, OPERATIONS):
            raise unsupported(OPERATIONS, MERGE)
        repeated = []
        patch = read(self.request.body, repeated)
        if self.request.media == OPERATIONS:
            patches.check_operations(patch)
        elif not isinstance(patch, dict):
            raise Refused(400, "a merge patch is an object")
        # Patches of one object wait for each other here, so that few meet a Conflict. The definition has no number to tell one by.
        with self.front.patching[hash(place._replace(version="", part="")) % len(self.front.patching)]:
            for number in range(MOST_TRIES):
                reply, warnings = self.patched(place, patch, repeated)
                is_conflict = reply.code == 409 and reply.document().get("reason") == "Conflict"
                if not is_conflict or patches.names_version(patch):
                    break
                time.sleep(random.uniform(0, min(LONGEST_PAUSE, 0.001 * 2**number)))
        return reply, warnings

    def patched(self, place, patch, repeated):
        """What one GET and one PUT come to."""
        path = self.request.path.removesuffix("/status") if place.part else self.request.path
        reply = self.asker.ask("GET", path)
        if reply.code != 200:
            return reply, []
        old = reply.document()
        new = patches.operated(old, patch) if isinstance(patch, list) else patches.merged(old, patch)
        if not isinstance(new, dict):
            raise Refused(400, "the patch leaves no object")
        patches.hold(old, new)
        warnings = self.judged(place, new, repeated)
        return self.asker.ask("PUT", self.request.path, written(new)), warnings
