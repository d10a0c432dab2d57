"""Clients of a server that write and read beside each other, objects of their own and some that all share, at both versions. history.py holds
what they were answered against one history."""
from __future__ import annotations

import json
import threading
import time
import traceback
from typing import Any, Dict, List, NamedTuple, Optional, Sequence, Tuple

import parts  # noqa: F401
from history import Call, History, Key, Shown
from harness.client import Address, Connection
from harness.crontabs import CRONTABS, MIGRATIONS, VERSIONS, Resource, drawn_state, generator, looked_at, migration, moved, number_of

METHODS = {"create": "POST", "get": "GET", "replace": "PUT", "delete": "DELETE"}
# What a client does next, so often of a hundred times; and what with one of the objects that all share.
STEPS = {"create": 12, "get": 43, "replace": 10, "delete": 8, "list": 2, "shared": 25}
SHARED_STEPS = {"create": 10, "get": 50, "replace": 35, "delete": 5}
SHARED, SHARED_COUNT, OWN_MOST = "shared", 8, 40
# A connection is answered so much, and an answer is waited for so many seconds. A list begins again so often where its pages are shown no more.
REQUESTS, PATIENCE, LISTS = 10_000, 300, 20


class Came(NamedTuple):
    """What a client came to: its calls, what was wrong with them by themselves, its requests, its moves of the storage version and its own
    objects."""

    calls: List[Call]
    wrong: List[str]
    asked: int
    moves: int
    own: List[Key]


class Client:
    """One connection, which makes calls by chance until a time or until so many requests were made, and waits behind each. It moves the
    storage version, and starts a migration, behind so many seconds each."""

    resource: Resource = CRONTABS
    steps = STEPS

    def __init__(self, address: Address, mark: str, number: int, seconds: float = float("inf"), requests: float = float("inf"), pause: float = 0,
                 moves_each: float = float("inf")) -> None:  # fmt: skip
        self.address, self.mark, self.namespace = address, mark, f"{mark}-c{number}"
        self.until, self.requests, self.pause, self.moves_each = time.monotonic() + seconds, requests, pause, moves_each
        self.connection, self.draw = Connection(address, PATIENCE), generator(mark, number)
        self.next_move = time.monotonic() + moves_each
        # The number at which each object was seen last, or none; the newest number of all; and the own objects.
        self.known: Dict[Key, int] = {}
        self.seen = self.asked = self.made = self.moves = 0
        self.own: List[Key] = []
        self.calls: List[Call] = []
        self.wrong: List[str] = []

    def ask(self, method: str, path: str, body: Any = None) -> Tuple[int, Any]:
        if self.asked and self.asked % REQUESTS == 0:
            self.connection.close()
            self.connection = Connection(self.address, PATIENCE)
        self.asked += 1
        self.sent = time.monotonic()
        code, shown = self.connection.ask(method, path, body)
        self.came = time.monotonic()
        return code, shown

    def check(self, holds: object, what: str) -> None:
        if not holds:
            self.wrong.append(f"{self.namespace}, request {self.asked}: {what}")

    def keep(self, kind: str, key: Key, code: int, number: int = 0, shown: Any = None, given: int = 0) -> Optional[Shown]:
        """Keeps a call, and gives the object as it is shown."""
        metadata = shown["metadata"] if shown else {}
        seen = Shown(self.resource.state_of(shown), metadata["uid"], metadata["generation"]) if shown else None
        self.calls.append(Call(kind, key, self.sent, self.came, code, number, seen, given))
        self.known[key], self.seen = number, max(self.seen, number)
        return seen

    def call(self, kind: str, key: Key) -> int:
        """Makes a call of an object at one of the versions, and gives the code of its answer."""
        (namespace, name), version, state = key, self.draw.choice(VERSIONS), drawn_state(self.draw)
        given = self.known.get(key) or 1 if kind == "replace" else 0
        body = self.resource.body_of(version, name, state, given or None) if kind in ("create", "replace") else None
        code, shown = self.ask(METHODS[kind], self.resource.path_of(version, namespace, None if kind == "create" else name), body)
        if code == 409 and kind == "replace":
            self.keep(kind, key, code, int(shown["details"]["causes"][0]["message"]), given=given)
        elif code < 300 and kind != "delete":
            seen = self.keep(kind, key, code, number_of(shown), shown, given)
            self.check(body is None or seen and seen.state == state, f"{key} is written as {state} and shown as {seen}")
        else:
            self.keep(kind, key, code, given=given)
        return code

    def list(self) -> None:
        """All own objects, and nothing else, in the order of their names."""
        code, shown = self.ask("GET", self.resource.path_of(self.draw.choice(VERSIONS), self.namespace) + "?limit=500")
        if code == 200:
            self.keep_items(shown["items"], self.own)
            self.keep("list", ("", ""), code, number_of(shown))

    def keep_items(self, items: List[Any], known: Sequence[Key]) -> None:
        """Keeps what a list says of these objects, and of those that it shows."""
        listed = {(it["metadata"]["namespace"], it["metadata"]["name"]): it for it in items}
        self.check(list(listed) == sorted(listed) and len(listed) == len(items), "a list is in another order")
        for key in {*known, *listed}:
            it = listed.get(key)
            self.keep("get", key, 200 if it else 404, number_of(it) if it else 0, it)

    def move(self) -> None:
        """The other storage version, and a migration to it. One that still ran isn't waited for: it fails as the version is moved."""
        code, shown = self.ask("GET", self.resource.definition)
        self.check(code == 200 and self.ask("PUT", self.resource.definition, moved(shown))[0] == 200, "the storage version isn't moved")
        code, _shown = self.ask("POST", MIGRATIONS, migration(f"{self.mark}-m{self.moves}", self.resource.plural))
        self.check(code == 201, f"a migration is answered {code}")
        self.moves += 1
        self.next_move = time.monotonic() + self.moves_each

    def step(self) -> None:
        kind = self.draw.choices(list(self.steps), list(self.steps.values()))[0]
        if kind == "shared":
            kind = self.draw.choices(list(SHARED_STEPS), list(SHARED_STEPS.values()))[0]
            self.call(kind, (SHARED, f"{self.mark}-s{self.draw.randrange(SHARED_COUNT)}"))
        elif kind == "list":
            self.list()
        elif kind == "create" and len(self.own) < OWN_MOST or not self.own:
            self.own.append((self.namespace, f"o{self.made:05}"))
            self.made += 1
            self.call("create", self.own[-1])
        else:
            key = self.draw.choice(self.own)
            self.call("get" if kind == "create" else kind, key)
            if kind == "delete":
                self.own.remove(key)
                self.call("get", key)

    def run(self) -> None:
        try:
            while self.asked < self.requests and time.monotonic() < self.until:
                if time.monotonic() > self.next_move:
                    self.move()
                self.step()
                time.sleep(self.pause)
        except Exception:
            # Whether its last request was entered isn't known then, so that others may be told of it too.
            self.wrong.append(f"{self.namespace}: {traceback.format_exc()}")
        self.connection.close()

    def result(self) -> Came:
        return Came(self.calls, self.wrong, self.asked, self.moves, self.own)


class Beside:
    """Clients, each in a thread of its own until the end of a block."""

    def __init__(self, clients: Sequence[Client]) -> None:
        self.clients, self.threads = clients, [threading.Thread(target=it.run, daemon=True) for it in clients]

    def __enter__(self) -> "Beside":
        for it in self.threads:
            it.start()
        return self

    def __exit__(self, *_why: object) -> None:
        for it in self.clients:
            it.until = 0
        self.join()

    def join(self) -> "Beside":
        for thread in self.threads:
            thread.join()
        return self

    def came(self) -> List[Came]:
        return [it.result() for it in self.clients]


# ---- all clients together


def trimmed(connection: Connection, resource: Resource = CRONTABS) -> str:
    """What is wrong with a trim to the storage version, if anything: it names an object that stands at another."""
    definition = connection.expect(200, "GET", resource.definition)
    stored = [it["name"] for it in definition["spec"]["versions"] if it["storage"]]
    definition["status"]["storedVersions"] = stored
    code, shown = connection.ask("PUT", f"{resource.definition}/status", definition)
    is_taken = code == 200 and shown["status"]["storedVersions"] == stored
    return "" if is_taken else f"the trim to {stored[0]} is answered {code} {json.dumps(shown)[:200]}"


def migration_fault(connection: Connection, name: str, resource: Resource) -> str:
    """What is wrong with the last migration, if anything: it succeeds, and then every object stands at its target."""
    condition, shown = looked_at(connection, name)
    return trimmed(connection, resource) if condition == "Succeeded" else f"the migration {name} is {condition} at the end: {shown}"


def pages(client: Client, path: str) -> Optional[Tuple[List[Any], int]]:
    """All objects of a list, page by page, and its number; none where touches of a migration supersede too much of what it shows."""
    items, more = [], ""
    while True:
        code, shown = client.ask("GET", path + more)
        if code != 200:
            return None
        items += shown["items"]
        if not shown["metadata"]["continue"]:
            return items, number_of(shown)
        more = f"&continue={shown['metadata']['continue']}"


def judged(address: Address, mark: str, came: Sequence[Came], resource: Resource = CRONTABS, is_moved: bool = False) -> Tuple[List[str], History]:
    """All that was wrong, and the history. What stands at the end is looked at as well. Where others move the storage version, it `is_moved`."""
    calls, moves = [it for one in came for it in one.calls], sum(one.moves for one in came)
    wrong = [it for one in came for it in one.wrong]
    last = Client(address, mark, -1)
    last.resource, last.sent = resource, time.monotonic()
    if moves:
        wrong += filter(None, [migration_fault(last.connection, f"{mark}-m{moves - 1}", resource)])
    begun = time.monotonic()
    lists = (pages(last, f"/apis/example.com/v1/{resource.plural}?limit=500") for _ in range(LISTS))
    items, number = next(filter(None, lists), (None, 0))
    last.connection.close()
    if items is None:
        return [*wrong, "no list at the end comes to its last page"], History(calls, True)
    last.sent = begun
    own = [it for it in items if f"{mark}-" in (it["metadata"][name][: len(mark) + 1] for name in ("namespace", "name"))]
    last.keep_items(own, list({it.key for it in calls if it.kind != "list"}))
    last.keep("list", ("", ""), 200, number)
    history = History(calls + last.calls, bool(is_moved or moves))
    return wrong + last.wrong + history.wrong, history
