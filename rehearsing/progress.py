"""How far a rehearsal is, on a terminal."""
from __future__ import annotations

import os
from typing import List

from harness import progress


class Progress(progress.Progress):
    """Tells how many objects are done; and of files, how much of them is read."""

    def __init__(self, paths: List[str]) -> None:
        super().__init__()
        self.size = sum(os.path.getsize(it) for it in paths) if "-" not in paths and all(map(os.path.isfile, paths)) else 0

    def show(self, objects: int, characters: int) -> None:
        part = characters / self.size if self.size else None
        self.tell(f"{objects:,} objects, {objects / max(self.seconds(), 0.1):,.0f} a second", part)
