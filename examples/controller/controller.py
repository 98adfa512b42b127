#!/usr/bin/env python3
"""A controller of the issuers in ../issuer, run over the samples on standard input.

A store takes the steps of an API server, by `crdx validate --strict` and `crdx default`. The controller reconciles what is stored until
nothing changes. What has to hold of each sample: whatever the controller writes is taken, and after some rounds it writes nothing new.
With `--buggy` the controller has a bug, and the first sample that shows it is printed.
"""
import copy
import json
import subprocess
import sys
from pathlib import Path

HERE = Path(__file__).resolve().parent
CRDX = HERE.parent.parent / "crdx"
DEFINITION = [HERE.parent / "issuer" / "crd.json", "v1"]
MOST_ROUNDS = 5


def reconcile(issuer, buggy):
    """Sets the condition `Ready` of an issuer."""
    conditions = issuer.setdefault("status", {}).setdefault("conditions", [])
    ready = {"type": "Ready", "status": "Unknown" if "acme" in issuer["spec"] else "True"}
    # the bug: a condition that has another status is passed over
    found = [c for c in conditions if c["type"] == "Ready" and (not buggy or c["status"] == ready["status"])]
    if found:
        found[0].update(ready)
    else:
        conditions.append(ready)


def ask(command, objects, *options):
    """The lines that crdx answers of these objects."""
    lines = "".join(json.dumps(each) + "\n" for each in objects)
    ran = subprocess.run([CRDX, command, *DEFINITION, "--lines", *options], input=lines, stdout=subprocess.PIPE, encoding="utf-8", check=False)
    if ran.returncode > 1:
        sys.exit(ran.returncode)
    return ran.stdout.splitlines()


def store(written):
    """The objects as they are stored, and why some are not: the number of the object and its fault."""
    faults = [line.split(": ", 1) for line in ask("validate", written, "--strict")]
    refused = {int(number) - 1: fault for number, fault in reversed(faults)}
    return [json.loads(line) for line in ask("default", written)], refused


def run(samples, buggy):
    """The sample that shows that the controller is wrong, and why; or nothing."""
    stored, refused = store(samples)
    for _ in range(MOST_ROUNDS):
        if refused:
            first = min(refused)
            return samples[first], f"{json.dumps(stored[first])} is refused: {refused[first]}"
        written = copy.deepcopy(stored)
        for issuer in written:
            reconcile(issuer, buggy)
        changed = [number for number, issuer in enumerate(written) if issuer != stored[number]]
        if not changed:
            return None
        stored, refused = store(written)
    return samples[changed[0]], f"it still changes after {MOST_ROUNDS} rounds"


def main():
    samples = [json.loads(line) for line in sys.stdin]
    wrong = run(samples, "--buggy" in sys.argv[1:])
    if wrong:
        print(f"{json.dumps(wrong[0])}\n{wrong[1]}")
        return 1
    print(f"{len(samples)} issuers: each write is taken, and in the end nothing changes")
    return 0


if __name__ == "__main__":
    sys.exit(main())
