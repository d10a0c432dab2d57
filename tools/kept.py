"""What the scripts ask of kept.sh, which says which program stands for the sources of this checkout."""

import os
import subprocess
from typing import Union

Place = Union[str, "os.PathLike[str]"]

TOP = os.path.dirname(os.path.dirname(os.path.realpath(__file__)))
READ = 'top=$0 && . "$top/tools/kept.sh" && "$@"'


def is_true(*words: Place) -> bool:
    """Whether a function of kept.sh ends with 0 by these words."""
    return subprocess.run(["sh", "-c", READ, TOP, *map(str, words)], stdin=subprocess.DEVNULL).returncode == 0


def begin(file: Place) -> None:
    """Sums the sources into a file."""
    if not is_true("begin", file):
        raise OSError(f"the sources of {TOP} can't be summed")


def keep(kind: str, made: Place, begun: Place) -> bool:
    """Keeps what was made of the sources, where none changed since `begin`, and returns whether it is kept."""
    return is_true("keep", kind, made, begun)


def found(*kinds: str) -> str:
    """The program of the first of these kinds that stands for the sources as they are, or nothing."""
    ran = subprocess.run(["sh", "-c", READ, TOP, "find_one", *kinds], stdin=subprocess.DEVNULL, stdout=subprocess.PIPE, text=True)
    return ran.stdout.rstrip("\n") if ran.returncode == 0 else ""
