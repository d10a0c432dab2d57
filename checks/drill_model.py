#!/usr/bin/env python3
"""Says what `kubeconv drill START COUNT` is to print, by a server of lists that is written after what docs/COMMANDS.md and the
definitions say, and not after the code: python3 checks/drill_model.py START COUNT."""
from __future__ import annotations

import sys
from typing import Dict, Optional, Tuple

OBJECTS, SPAN_KEYS, MIGRATIONS = 64, 32, 256
VERSIONS = "v1beta1", "v1"
COUNTED = "created", "replaced", "deleted", "missed", "refused", "touched", "migrated"


class Server:
    """Objects by name, each with the version that it is stored at and its `hostPort`, and the migrations. One worker calls it, so
    that one range of keys at most is claimed: the names behind one of them and up to another, None at either end."""

    def __init__(self, start: int) -> None:
        self.drawn, self.storage, self.revision, self.started = start, VERSIONS[0], 1, 0
        self.objects: Dict[str, Tuple[str, str]] = {}
        self.stop()

    def draw(self) -> int:
        """The next number of a linear congruential generator modulo 2^64."""
        self.drawn = (self.drawn * 6364136223846793005 + 1442695040888963407) % 2**64
        return self.drawn // 2**33

    def stop(self, running: bool = False) -> None:
        """No range is claimed, and none was."""
        self.running, self.handed_out = running, False
        self.span: Optional[Tuple[Optional[str], Optional[str]]] = None
        self.cursor: Optional[str] = None

    def write(self, name: str, host_port: str) -> None:
        self.objects[name] = self.storage, host_port
        self.revision += 1

    def step(self) -> str:
        """Takes a step, and gives what it counts as."""
        kind, number, value = self.draw() % 8, self.draw() % OBJECTS, self.draw() % 1_000_000
        name = f"o{number}"
        if kind == 6:
            return self.turn()
        if kind == 7:
            return self.switch()
        if (name in self.objects) == (kind < 4):
            return "missed"
        if kind < 4:
            self.write(name, f"h{number}:{'p:' if kind > 1 and value % 2 else ''}{value}")
            return "created"
        if kind == 4:
            # a put of what stands there enters nothing
            if self.objects[name][1] != f"r:{value}":
                self.write(name, f"r:{value}")
            return "replaced"
        del self.objects[name]
        self.revision += 1
        return "deleted"

    def switch(self) -> str:
        """Moves the storage version, which ends a migration, and starts another."""
        self.storage = VERSIONS[1 - VERSIONS.index(self.storage)]
        self.revision += 1
        self.running = False
        if self.started == MIGRATIONS:
            return "refused"
        self.started += 1
        self.revision += 1
        self.stop(running=True)
        return "started"

    def turn(self) -> str:
        """What the worker did in a turn; "idle" where it had nothing to do."""
        if not self.running:
            return "idle"
        if self.span is None and self.handed_out:
            self.running = False
            self.revision += 1
            return "migrated"
        if self.span is None:
            behind = sorted(name for name in self.objects if self.cursor is None or name > self.cursor)
            last = behind[SPAN_KEYS - 1] if len(behind) > SPAN_KEYS else None
            self.span, self.cursor, self.handed_out = (self.cursor, last), last, last is None
            return "claimed"
        after, upto = self.span
        for name in sorted(self.objects):
            inside = (after is None or name > after) and (upto is None or name <= upto)
            if inside and self.objects[name][0] != self.storage:
                self.write(name, self.objects[name][1])
                self.span = name, upto
                return "touched"
        self.span = None
        return "range done"


def drill(start: int, count: int) -> str:
    """The lines of a drill: its steps, then turns of the worker until it is idle."""
    server, counts = Server(start), dict.fromkeys(COUNTED, 0)
    went = [server.step() for _ in range(count)]
    while (it := server.turn()) != "idle":
        went.append(it)
    for it in went:
        if it in counts:
            counts[it] += 1
    told = {**counts, "objects": len(server.objects), "revision": server.revision}
    return "".join(f"{word} {number}\n" for word, number in told.items())


if __name__ == "__main__":
    if len(sys.argv) != 3:
        sys.exit(__doc__)
    sys.stdout.write(drill(int(sys.argv[1]), int(sys.argv[2])))
