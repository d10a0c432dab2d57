#!/usr/bin/env python3
"""Sets the flags of a version in a definition, from standard input to standard output:

    flags.py storage VERSION    VERSION is stored, and no other
    flags.py serve VERSION      VERSION is served
    flags.py unserve VERSION    VERSION isn't served

Nothing else of the definition is changed. The status is 1 where it has no such version, and 2 where the words are others.
"""
import json
import sys

if len(sys.argv) != 3 or sys.argv[1] not in ("storage", "serve", "unserve"):
    print(__doc__, file=sys.stderr)
    sys.exit(2)
what, name = sys.argv[1:]
definition = json.load(sys.stdin)
versions = {version["name"]: version for version in definition["spec"]["versions"]}
if name not in versions:
    sys.exit(f"flags.py: there is no version {name}")
if what == "storage":
    for version in versions.values():
        version["storage"] = version["name"] == name
else:
    versions[name]["served"] = what == "serve"
print(json.dumps(definition, separators=(",", ":")))
