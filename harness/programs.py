"""Options of the scripts, and finding the built program."""
from __future__ import annotations

import argparse
import os
import pathlib
import sys
from typing import Any, Dict, Iterator, List, Optional, Tuple, Union

TOP = pathlib.Path(__file__).resolve().parent.parent
CRATE = TOP / "crates/kubeconv"
Word = Union[str, pathlib.Path]
# The words that name the shared definition, and files that say what the definition does that is built in.
SHARED_FILES: List[Word] = ["--crd", TOP / "examples/crontabs.json", "--rules", TOP / "examples/crontabs.rules.json"]
FIRST_FILES: List[Word] = ["--crd", TOP / "examples/rules/same.json", "--rules", TOP / "examples/rules/same.rules.json"]


def parser_of(description: Optional[str], program: Optional[str] = "--program", runs: int = 0, **counts: Any) -> argparse.ArgumentParser:
    """A parser of the options that scripts have: the program, as an option, by the name `program` as a word, or not; the runs of each kind,
    where there are some; and options that are numbers. Each of these has its default, or a pair of the default and what it says."""
    parser = argparse.ArgumentParser(description=description, formatter_class=argparse.RawDescriptionHelpFormatter)
    if program:
        parser.add_argument(program, help="the built program" + (" (default: crates/kubeconv/out/kubeconv)" if program[0] == "-" else ""))
    if runs:
        parser.add_argument("--runs", type=int, default=runs, help=f"runs of each kind; the best one counts (default: {runs})")
    for name, said in counts.items():
        default, says = said if isinstance(said, tuple) and isinstance(said[1], str) else (said, "")
        many: Dict[str, Any] = {"nargs": "+", "type": int} if isinstance(default, (tuple, list)) else {"type": type(default)}
        told = " ".join(map(str, default)) if many.get("nargs") else default
        parser.add_argument(f"--{name.replace('_', '-')}", default=default, help=f"{says} (default: {told})".strip(), **many)
    return parser


def tables_of(parser: argparse.ArgumentParser, tables: Dict[str, Any]) -> Iterator[Tuple[Any, argparse.Namespace]]:
    """What is named by the last words of the options, each of `tables`, or all of these; with the options."""
    parser.add_argument("tables", nargs="*", metavar="TABLE", help=f"{', '.join(tables)} (default: all)")
    options = parser.parse_args()
    if not {*options.tables} <= {*tables}:
        parser.error(f"there are no {' '.join(options.tables)}")
    yield from ((tables[it], options) for it in options.tables or tables)


def built(path: Optional[str]) -> pathlib.Path:
    """The program at `path`, or the proved one in the folder of its crate. Where there is none the script ends and says what builds
    one."""
    program = pathlib.Path(path) if path else CRATE / "out/kubeconv"
    if not os.access(program, os.X_OK) or program.is_dir():
        sys.exit(f"there is no program {program}: tools/build.py proves one there, and `tools/compile.py --bare FILE` compiles one for --program")
    return program.resolve()
