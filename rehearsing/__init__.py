"""`./rehearse`: takes every object to every other version and back, and tells what that loses.

Data passes the modules in this order: `words` (the command line), `definition` and `schema` (what a server holds to), `texts` (the objects of
files, one by one), `workers` (batches of them over processes), `trips` (there and back) by `converters` (the program, or a webhook),
`differences`, `kept`, `tally` (what was found), `report` (how it is told).
"""
import pathlib
import sys

# The tools that read YAML, definitions and rules stand beside.
TOP = pathlib.Path(__file__).resolve().parent.parent
sys.path.append(str(TOP / "tools"))
