"""Finds the package harness/, and the model of drills in checks/."""

import pathlib
import sys

TOP = pathlib.Path(__file__).resolve().parent.parent
sys.path += [str(TOP), str(TOP / "checks")]
