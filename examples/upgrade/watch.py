#!/usr/bin/env python3
"""Looks at a migration once a second until it has ended, and prints what it is whenever that changes:

    watch.py http://HOST:PORT/apis/storagemigration.k8s.io/v1alpha1/storageversionmigrations/NAME

The status is 0 where it succeeded, and 1 where it failed or couldn't be looked at.
"""
import json
import sys
import time
import urllib.request

SECONDS = 1

if len(sys.argv) != 2:
    sys.exit(__doc__)
before, now = None, "Running"
while now == "Running":
    try:
        with urllib.request.urlopen(sys.argv[1], timeout=60) as answer:
            conditions = json.load(answer)["status"]["conditions"]
        now = next(condition["type"] for condition in conditions if condition["status"] == "True")
    except (OSError, KeyError, ValueError, StopIteration) as error:
        sys.exit(f"watch.py: {error}")
    if now != before:
        print(now, flush=True)
    before = now
    if now == "Running":
        time.sleep(SECONDS)
sys.exit(now != "Succeeded")
