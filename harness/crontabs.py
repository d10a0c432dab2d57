"""Custom resources of the group example.com, what an object of a state is at each version, and migrations."""
from __future__ import annotations

import json
import random
import time
from typing import Any, Callable, NamedTuple, Optional, Tuple

from harness.client import Connection, request
from harness.documents import Document, name_of

GROUP = "/apis/example.com"
DEFINITIONS = "/apis/apiextensions.k8s.io/v1/customresourcedefinitions"
MIGRATIONS = "/apis/storagemigration.k8s.io/v1alpha1/storageversionmigrations"
VERSIONS = "v1", "v1beta1"
# A migration is looked at so often.
LOOKS = 600
State = Tuple[Any, Any, Any]


class Resource(NamedTuple):
    """A custom resource: its paths, what an object of a state is at each version, and of which state one is that is shown."""

    plural: str
    body_of: Callable[..., Document]
    state_of: Callable[[Document], State]

    @property
    def definition(self) -> str:
        return f"{DEFINITIONS}/{self.plural}.example.com"

    def path_of(self, version: str, namespace: str = "default", name: Optional[str] = None) -> str:
        path = f"{GROUP}/{version}/namespaces/{namespace}/{self.plural}"
        return path if name is None else f"{path}/{name}"


def head_of(kind: str, version: str, name: str, number: Optional[int] = None) -> Document:
    """The front of a body, over the number at which the object stands where one is given."""
    metadata = {"name": name} if number is None else {"name": name, "resourceVersion": str(number)}
    return {"apiVersion": f"example.com/{version}", "kind": kind, "metadata": metadata}


def body_of(version: str, name: str, state: State, number: Optional[int] = None) -> Document:
    """The body that submits an object of this state at a version."""
    host, port, seconds = state
    if version == "v1":
        fields = {"host": host, "port": port, "timeoutMillis": 1000 * seconds}
    else:
        fields = {"hostPort": f"{host}:{port}", "timeoutSeconds": seconds}
    return {**head_of("CronTab", version, name, number), **fields}


def state_of(shown: Document) -> State:
    """The state of an object that is shown at either version."""
    if shown["apiVersion"].endswith("/v1"):
        return shown.get("host"), shown.get("port"), shown.get("timeoutMillis", -1) // 1000
    host, _, port = shown.get("hostPort", "").rpartition(":")
    return host, port, shown.get("timeoutSeconds")


def certificate_of(version: str, name: str, state: State, number: Optional[int] = None) -> Document:
    """The body that submits a certificate, as examples/converter defines it. At v1 it has a field for which v1beta1 has no place."""
    host, algorithm, size = state
    if version == "v1":
        fields = {"privateKey": {"algorithm": algorithm, "size": size, "rotationPolicy": f"of {host}"}}
    else:
        fields = {"keyAlgorithm": algorithm, "keySize": size}
    return {**head_of("Certificate", version, name, number), "spec": {"dnsName": host, **fields}}


def certificate_state(shown: Document) -> State:
    """The state of a certificate that is shown at either version. What only v1 has is that of its last edit at v1, or isn't there."""
    spec = shown["spec"]
    if shown["apiVersion"].endswith("/v1"):
        key, plain = spec.get("privateKey", {}), f"of {spec.get('dnsName')}"
        policy = key.get("rotationPolicy", plain)
        return spec.get("dnsName") if policy == plain else policy, key.get("algorithm"), key.get("size")
    return spec.get("dnsName"), spec.get("keyAlgorithm"), spec.get("keySize")


CRONTABS = Resource("crontabs", body_of, state_of)
CERTIFICATES = Resource("certificates", certificate_of, certificate_state)
DEFINITION = CRONTABS.definition
path_of = CRONTABS.path_of


def number_of(shown: Document) -> int:
    return int(shown["metadata"]["resourceVersion"])


def number_in(body: bytes) -> int:
    """The number at which the object of a body stands."""
    return number_of(json.loads(body))


def generator(*seeds: object) -> random.Random:
    return random.Random(" ".join(map(str, seeds)))


def drawn_state(draw: random.Random) -> State:
    return f"h{draw.randrange(1000)}", str(draw.randrange(100_000)), draw.randrange(1001)


def creation(number: int) -> bytes:
    """The request that makes one object of many."""
    return request("POST", path_of("v1beta1"), body_of("v1beta1", name_of(number), drawn_state(generator("fill", number))))


# ---- migrations


def moved(definition: Document) -> Document:
    """A definition that is shown, with the other storage version."""
    for version in definition["spec"]["versions"]:
        version["storage"] = not version["storage"]
    return definition


def move(connection: Connection, resource: Resource = CRONTABS) -> str:
    """Moves the storage version, and gives its name."""
    definition = moved(connection.expect(200, "GET", resource.definition))
    connection.expect(200, "PUT", resource.definition, definition)
    return str(next(it["name"] for it in definition["spec"]["versions"] if it["storage"]))


def migration(name: str, plural: str = "crontabs") -> Document:
    """The body that starts a migration."""
    head = {"apiVersion": "storagemigration.k8s.io/v1alpha1", "kind": "StorageVersionMigration", "metadata": {"name": name}}
    return {**head, "spec": {"resource": {"group": "example.com", "resource": plural}}}


def looked_at(connection: Any, name: str, pause: float = 0.1) -> Tuple[str, Any]:
    """The condition of a migration once it doesn't run any more, and what is shown of it then."""
    condition, shown = "Running", None
    for _ in range(LOOKS):
        code, shown = connection.ask("GET", f"{MIGRATIONS}/{name}")
        condition = shown["status"]["conditions"][0]["type"] if code == 200 else f"answered {code}"
        if condition != "Running":
            break
        time.sleep(pause)
    return condition, shown
