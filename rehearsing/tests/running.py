"""Runs of ./rehearse, and what they tell without seconds."""
from __future__ import annotations

import contextlib
import os
import re
import subprocess
import sys
from typing import Iterator, Tuple

from .. import TOP

SECONDS = re.compile(r"( +seconds| +\d+\.\d|; \d+\.\d seconds, .*)$", re.MULTILINE)


def rehearsed(program: str, *words: object, given: str = "") -> Tuple[int, str, str]:
    """The status, what is told, and what is told on standard error."""
    paths = {**os.environ, "PYTHONPATH": str(TOP), "PYTHONDONTWRITEBYTECODE": "1"}
    command = [sys.executable, "-m", "rehearsing", "--program", program, "--processes", "2", *map(str, words)]
    done = subprocess.run(command, input=given, stdout=subprocess.PIPE, stderr=subprocess.PIPE, universal_newlines=True, env=paths)
    return done.returncode, SECONDS.sub("", done.stdout), done.stderr


@contextlib.contextmanager
def listening(*command: object) -> Iterator[str]:
    """A server that says where it listens, as long as it is wanted: its address."""
    server = subprocess.Popen(list(map(str, command)), stdout=subprocess.PIPE, universal_newlines=True)
    try:
        assert server.stdout is not None
        yield server.stdout.readline().split()[-1]
    finally:
        server.terminate()
        server.communicate()
