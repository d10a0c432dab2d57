#!/usr/bin/env python3
"""A conversion webhook that loses three things on purpose, for ./rehearse to find.

    lossy.py PORT

At v1alpha1 a backup has spec.target, spec.timeoutSeconds and no spec.owner; at v1 it has spec.targets, spec.timeoutMillis and spec.owner.
What is lost of an object at v1: its owner, all targets but the first, and the part of its timeout below a second. spec.priority, which
v1alpha1 doesn't have either, is kept in an annotation, as it should be. At port 0 the system chooses one; the first line tells which.
"""
import json
import pathlib
import sys

sys.path.append(str(pathlib.Path(__file__).resolve().parent.parent))
import serving  # noqa: E402

KEPT = "backups.example.com/priority"


def to_v1alpha1(spec, notes):
    spec.pop("owner", None)  # lost: nobody keeps it
    targets = spec.pop("targets", [])
    if targets:
        spec["target"] = targets[0]  # lost: the others
    if "timeoutMillis" in spec:
        spec["timeoutSeconds"] = spec.pop("timeoutMillis") // 1000  # lost: the rest
    if "priority" in spec:
        notes[KEPT] = json.dumps(spec.pop("priority"))


def to_v1(spec, notes):
    if "target" in spec:
        spec["targets"] = [spec.pop("target")]
    if "timeoutSeconds" in spec:
        spec["timeoutMillis"] = spec.pop("timeoutSeconds") * 1000
    if KEPT in notes:
        spec["priority"] = json.loads(notes.pop(KEPT))


def converted(item, wanted):
    """The object at the version that is wanted."""
    if item["apiVersion"] != wanted:
        notes = item["metadata"].setdefault("annotations", {})
        {"example.com/v1": to_v1, "example.com/v1alpha1": to_v1alpha1}[wanted](item.setdefault("spec", {}), notes)
        if not notes:
            del item["metadata"]["annotations"]
    return {**item, "apiVersion": wanted}


class Webhook(serving.Handler):
    def do_POST(self):
        self.serve()

    def answered(self, body):
        review = json.loads(body)
        asked = review.pop("request")
        objects = [converted(item, asked["desiredAPIVersion"]) for item in asked["objects"]]
        review["response"] = {"uid": asked["uid"], "convertedObjects": objects, "result": {"status": "Success"}}
        return serving.Answer(200, json.dumps(review).encode())


if __name__ == "__main__":
    if len(sys.argv) != 2:
        sys.exit(__doc__)
    serving.Server(("127.0.0.1", int(sys.argv[1])), Webhook, 64).run("http://")
