"""A bar on a terminal that shows how far the work is."""
from __future__ import annotations

import sys
import time
from typing import Optional

WIDTH = 30
PAUSE = 0.1  # seconds between two looks


class Progress:
    """Tells on standard error how far the work is, where that is a terminal."""

    def __init__(self) -> None:
        self.begun = self.told = time.monotonic()
        self.is_shown = sys.stderr.isatty()

    def seconds(self) -> float:
        return time.monotonic() - self.begun

    def tell(self, done: str, part: Optional[float] = None) -> None:
        """What is done, and which part of all that is, where it is known."""
        now = time.monotonic()
        if not self.is_shown or now - self.told < PAUSE:
            return
        self.told = now
        bar = "" if part is None else f"[{'#' * int(min(1.0, part) * WIDTH):<{WIDTH}}] {min(1.0, part):4.0%} "
        sys.stderr.write(f"\r\033[K{bar}{done}")
        sys.stderr.flush()

    def end(self) -> None:
        if self.is_shown:
            sys.stderr.write("\r\033[K")
            sys.stderr.flush()
