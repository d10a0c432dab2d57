"""The OpenAPI documents, versions 2 and 3, made of the definition's schemas. `kubectl explain` reads them, and kubectl looks there
whether a request may ask for the strict reading of its fields (`fieldValidation`). Version 2 it reads in the encoding of protocol buffers
alone, where it checks a file itself, as it does with a List."""

import json

from places import DEFINITIONS, MIGRATIONS

META = "io.k8s.apimachinery.pkg.apis.meta.v1.ObjectMeta"
PATCHES = ["application/json-patch+json", "application/merge-patch+json"]


def node(kind, told="", **more):
    """A schema of a type; what `texts` stands for is a map of texts, and what `any` stands for an object of any fields."""
    if kind == "texts":
        kind, more = "object", {"additionalProperties": TEXT}
    if kind == "any":
        kind, more = "object", {"x-kubernetes-preserve-unknown-fields": True}
    return {"type": kind, **more, **({"description": told} if told else {})}


def fields(told="", **properties):
    """A schema of an object with these fields."""
    return node("object", told, properties=properties)


TEXT, FLAG, ANY = node("string"), node("boolean"), node("any")
METADATA = fields(
    "What every object has beside its own fields.",
    annotations=node("texts", "What tools and clients note at the object."),
    creationTimestamp=node("string", "When the object was created; set by the server.", format="date-time"),
    deletionTimestamp=node("string", "When its deletion was asked for; set by the server.", format="date-time"),
    finalizers=node("array", "Who must let go of the object before it is deleted.", items=TEXT),
    generation=node("integer", "Rises with each edit of the body; set by the server.", format="int64"),
    labels=node("texts", "By what the object is selected."),
    name=node("string", "The name, one of its kind in the namespace."),
    namespace=node("string", "The namespace in which the name stands."),
    ownerReferences=node("array", "The objects on which this one depends.", items=node("object")),
    resourceVersion=node("string", "The number of the last write; an edit names the one that it read."),
    uid=node("string", "What tells the object from others of the name, earlier and later; set by the server."),
)
VERSION = fields(
    additionalPrinterColumns=node("array", items=ANY), deprecated=FLAG, name=TEXT, schema=ANY,
    served=node("boolean", "Whether clients may use the version."),
    storage=node("boolean", "Whether new writes are stored at the version; true for exactly one."),
)  # fmt: skip
DEFINITION = fields(
    "A resource of several versions, which version is stored, and which may be stored.",
    spec=fields(conversion=ANY, group=TEXT, names=ANY, preserveUnknownFields=FLAG, scope=TEXT,
                versions=node("array", "The versions; of an edit, only served and storage count.", items=VERSION)),
    status=fields(acceptedNames=ANY, conditions=node("array", items=ANY),
                  storedVersions=node("array", "The versions at which objects may still be stored.", items=TEXT)),
)  # fmt: skip
MIGRATION = fields(
    "Rewrites stored objects at the storage version.",
    spec=fields("What is to be rewritten.", resource=fields(
        group=TEXT, version=TEXT, resource=node("string", "The plural name of what is rewritten."))),
    status=fields("How far it is.", storageVersion=node("string", "The version at the end."), conditions=node("array", items=fields(
        status=TEXT, type=node("string", "Running, Succeeded or Failed.")))),
)  # fmt: skip


def gvk(group, version, kind):
    """The extension that names a kind."""
    return {"group": group, "version": version, "kind": kind}


def whole(schema, kind, components):
    """The schema of whole objects: that of the definition, with the fields that all objects have."""
    own = {
        "apiVersion": node("string", "The group and the version of this representation of the object."),
        "kind": node("string", "What the object is."),
        "metadata": {"allOf": [{"$ref": components + META}], "description": "The name of the object, and what is noted at it."},
    }
    same = {name: value for name, value in schema.items() if name != "required"}
    return {**same, "type": "object", "properties": {**schema.get("properties", {}), **own}, "x-kubernetes-group-version-kind": [gvk(*kind)]}


def component(group, version, kind):
    """The name of a kind's schema."""
    return ".".join([*reversed(group.split(".")), version, kind]).lstrip(".")


def kinds(spec):
    """Each kind with its plural name, whether it stands in namespaces, and its schema, by group and version."""
    names = spec["names"]
    found = {
        (spec["group"], version["name"]): (names["kind"], names["plural"], True, version["schema"]["openAPIV3Schema"])
        for version in spec["versions"]
    }
    found[DEFINITIONS[:2]] = ("CustomResourceDefinition", DEFINITIONS[2], False, DEFINITION)
    found[MIGRATIONS[:2]] = ("StorageVersionMigration", MIGRATIONS[2], False, MIGRATION)
    found["", "v1"] = ("Namespace", "namespaces", False, node("object", "A namespace; each is always there."))
    return found


def parameters(names, version):
    place = "path" if names and names[0] in ("name", "namespace") else "query"
    kind = {"schema": TEXT} if version == 3 else TEXT
    return [{"name": name, "in": place, "required": place == "path", **kind} for name in names]


def operation(verb, kind, version):
    """One operation of a path. Each that writes takes `fieldValidation`; kubectl looks for it at the operation `patch`, also of a kind
    whose objects it creates only."""
    content = {"schema": {"$ref": f"#/components/schemas/{component(*kind)}"}}
    asked = {"list": ["limit", "continue", "labelSelector", "fieldSelector"], "get": [], "delete": []}.get(verb, ["fieldManager", "fieldValidation"])
    made = {"responses": {"200": {"description": "OK"}}, "x-kubernetes-action": verb, "x-kubernetes-group-version-kind": gvk(*kind)}
    made["parameters"] = parameters(asked, version)
    media = PATCHES if verb == "patch" else ["application/json"]
    if version == 2:
        return {**made, "consumes": media}
    if verb in ("get", "list"):
        made["responses"] = {"200": {"description": "OK", "content": {"application/json": content}}}
    elif verb != "delete":
        body = {"schema": node("object")} if verb == "patch" else content
        made["requestBody"] = {"content": {kind: body for kind in media}}
    return made


def paths(place, kind, plural, namespaced, version):
    """The paths of one kind, each with its operations by method."""
    base = f"/apis/{'/'.join(place)}" if place[0] else f"/api/{place[1]}"

    def path(verbs, *names):
        made = {verb.replace("list", "get"): operation(verb, (*place, kind), version) for verb in verbs.split()}
        return {**made, "parameters": parameters(names, version)}

    if not namespaced:
        return {f"{base}/{plural}": path("list post"), f"{base}/{plural}/{{name}}": path("get put patch", "name")}
    inside = f"{base}/namespaces/{{namespace}}/{plural}"
    one = path("get put patch delete", "name", "namespace")
    return {f"{base}/{plural}": path("list"), inside: path("list post", "namespace"), f"{inside}/{{name}}": one}


def index(spec):
    """The document at /openapi/v3: where the document of each group's version is."""
    places = [f"apis/{group}/{version}" if group else f"api/{version}" for group, version in kinds(spec)]
    return {"paths": {place: {"serverRelativeURL": f"/openapi/v3/{place}"} for place in places}}


def document_v3(spec, group, version):
    """The OpenAPI 3 document of a group's version, or None where there is none."""
    found = kinds(spec).get((group, version))
    if found is None:
        return None
    kind, plural, namespaced, schema = found
    made = whole(schema, (group, version, kind), "#/components/schemas/")
    schemas = {component(group, version, kind): made, META: METADATA}
    told = paths((group, version), kind, plural, namespaced, 3)
    return {"openapi": "3.0.0", "info": {"title": "kubeconv", "version": version}, "paths": told, "components": {"schemas": schemas}}


def for_v2(schema):
    """A schema without the keywords that OpenAPI 2 doesn't have. Where unknown fields are kept, nothing is said of the known ones."""
    if schema.get("x-kubernetes-preserve-unknown-fields"):
        told = ("type", "description", "x-kubernetes-preserve-unknown-fields", "x-kubernetes-group-version-kind")
        return {name: value for name, value in schema.items() if name in told}
    kept = {name: value for name, value in schema.items() if name not in ("nullable", "anyOf", "allOf")}
    kept.update({name: for_v2(kept[name]) for name in ("items", "additionalProperties") if name in kept})
    if "properties" in kept:
        kept["properties"] = {name: for_v2(field) for name, field in kept["properties"].items()}
    return {**kept, **schema["allOf"][0]} if "allOf" in schema else kept


def document_v2(spec):
    schemas, told = {META: METADATA}, {}
    for place, (kind, plural, namespaced, schema) in kinds(spec).items():
        schemas[component(*place, kind)] = for_v2(whole(schema, (*place, kind), "#/definitions/"))
        told.update(paths(place, kind, plural, namespaced, 2))
    return {"swagger": "2.0", "info": {"title": "kubeconv", "version": "v1"}, "paths": told, "definitions": schemas}


# ---- version 2 by protocol buffers: gnostic's openapi.v2.Document, whose field numbers stand here. It holds the schemas of the kinds alone.

MEDIA = "application/com.github.proto-openapi.spec.v2.v1.0+protobuf"
# The name by which kubectl asks for it, which is none that a head may answer with.
ASKED = "application/com.github.proto-openapi.spec.v2@v1.0+protobuf"
SWAGGER, INFO, SCHEMAS = 1, 2, 9
NAME, VALUE, ONLY, ANY_YAML = 1, 2, 1, 2
TEXTS = {"$ref": 1, "format": 2, "description": 4}
REQUIRED, ADDITIONAL, TYPE, ITEMS, PROPERTIES, EXTENSION = 19, 21, 22, 23, 25, 31
BYTES = 2


def number(value):
    """A number in groups of seven bits, the lowest first."""
    made = bytearray()
    while value > 0x7F:
        made.append(value & 0x7F | 0x80)
        value >>= 7
    return bytes([*made, value])


def field(place, *values):
    """A field that holds a text or a message, which is a text of fields."""
    data = b"".join(it.encode() if isinstance(it, str) else it for it in values)
    return number(place << 3 | BYTES) + number(len(data)) + data


def named(schemas):
    return b"".join(field(ONLY, field(NAME, name), field(VALUE, encoded_schema(value))) for name, value in schemas.items())


def encoded_schema(schema):
    made = [field(place, schema[name]) for name, place in TEXTS.items() if isinstance(schema.get(name), str)]
    made += [field(REQUIRED, name) for name in schema.get("required", ())]
    if isinstance(schema.get("additionalProperties"), dict):
        made.append(field(ADDITIONAL, field(ONLY, encoded_schema(schema["additionalProperties"]))))
    if "type" in schema:
        made.append(field(TYPE, field(ONLY, schema["type"])))
    if "items" in schema:
        made.append(field(ITEMS, field(ONLY, encoded_schema(schema["items"]))))
    if "properties" in schema:
        made.append(field(PROPERTIES, named(schema["properties"])))
    extensions = [(name, json.dumps(value)) for name, value in schema.items() if name.startswith("x-kubernetes-")]
    made += [field(EXTENSION, field(NAME, name), field(VALUE, field(ANY_YAML, value))) for name, value in extensions]
    return b"".join(made)


def encoded(document):
    info = [field(place, document["info"][name]) for place, name in enumerate(("title", "version"), 1)]
    return field(SWAGGER, document["swagger"]) + field(INFO, *info) + field(SCHEMAS, named(document["definitions"]))
