#!/usr/bin/env python3
"""Says what does not hold of a report of continuity."""

import argparse
import json
import sys

ABOUT = """Says what does not hold of a report. REPORT is what `continuity run` printed. HOLDS is a JSON object
from paths to values. A path is member names and positions with / between them: those below 0 count from
the end, and the empty path is the whole report. PATH has exactly its value, PATH# so many items, and
PATH? says whether it is there.
Status 0 where all of it holds; 1 where something does not, with a line for each; 2 where the words or
the files are wrong."""


class Absent(Exception):
    """Nothing stands at a path."""


def step(value, name):
    """What stands in a value under this name."""
    try:
        return value[int(name)] if isinstance(value, list) else value[name]
    except (ValueError, LookupError, TypeError) as why:
        raise Absent from why


def at(report, path):
    """What stands at a path."""
    for name in path.split("/") if path else []:
        report = step(report, name)
    return report


def is_there(report, path):
    try:
        at(report, path)
    except Absent:
        return False
    return True


def count(value):
    """The number of items; what has none has no number."""
    if not isinstance(value, (list, dict)):
        raise Absent
    return len(value)


def found(report, claim):
    """What a claim speaks of."""
    if claim.endswith("?"):
        return is_there(report, claim[:-1])
    if claim.endswith("#"):
        return count(at(report, claim[:-1]))
    return at(report, claim)


def text(value):
    """The one text of a value: in JSON 1 is not true."""
    return json.dumps(value, ensure_ascii=False, separators=(",", ":"), sort_keys=True)


def faults(report, holds):
    """A line for each claim that does not hold."""
    lines = []
    for claim, wanted in holds.items():
        try:
            got = text(found(report, claim))
        except Absent:
            got = "nothing"
        if got != text(wanted):
            lines.append(f"{claim}: wanted {text(wanted)}, got {got}")
    return lines


def read(path):
    with open(path, encoding="utf-8") as file:
        value = json.load(file)
    if not isinstance(value, dict):
        raise ValueError("no JSON object")
    return value


def main(arguments=None):
    parser = argparse.ArgumentParser(prog="check.py", description=ABOUT,
                                     formatter_class=argparse.RawDescriptionHelpFormatter)
    parser.add_argument("report", metavar="REPORT")
    parser.add_argument("holds", metavar="HOLDS")
    given = parser.parse_args(arguments)
    try:
        lines = faults(read(given.report), read(given.holds))
    except (OSError, ValueError, RecursionError) as why:
        print(f"check.py: {why}", file=sys.stderr)
        return 2
    for line in lines:
        print(line)
    return 1 if lines else 0


if __name__ == "__main__":
    sys.exit(main())
