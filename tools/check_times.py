#!/usr/bin/env python3
"""Which functions of a crate took most of its last `rt check`, in seconds of the clock.

    python3 tools/check_times.py CRATE [HOW_MANY]

A check saves each part of a proof as it is done, in the crate's out/incremental, so the time between two such files is what the
later one took. That holds for a check by one job (`rt check --jobs 1`) with nothing kept before; what other work on the machine adds is in it.

The second column says how much of it went to the steps that the prover makes of the function's code (its parts called `Lts`). They grow faster
than the code, by what is held where it may return early.
"""
import collections
import pathlib
import re
import sys

TOP = pathlib.Path(__file__).resolve().parent.parent


def function_of(crate, name):
    """The function that a part belongs to, as `module.function`, or what else it is of."""
    found = re.fullmatch(rf"Rattle-{crate}-(proofs|specs)\.(.*)", name)
    if found:
        return found[2].removesuffix(".decls").rpartition(".")[0] or f"({found[1]})"
    return "(all)" if name.startswith(f"Rattle-{crate}") else "(libraries)"


def main(crate, most):
    parts = sorted((it.stat().st_mtime, it.stem) for it in (TOP / f"crates/{crate}/out/incremental").rglob("*.oantt"))
    seconds, steps = collections.Counter(), collections.Counter()
    for (before, _), (now, name) in zip(parts, parts[1:]):
        if now - before < 600:  # (what was loaded before the first part is of another time)
            seconds[function_of(crate, name)] += now - before
            steps[function_of(crate, name)] += (now - before) * name.removesuffix(".decls").endswith(".Lts")
    for name, took in seconds.most_common(most):
        print(f"{took:7.1f} {steps[name]:7.1f}  {name}")
    print(f"{sum(seconds.values()):7.1f} {sum(steps.values()):7.1f}  all of {len(seconds)}")


if __name__ == "__main__":
    main(sys.argv[1], int(sys.argv[2]) if len(sys.argv) > 2 else 30)
