"""Lists the definitions on which the headline rests, or compares their figures with those of a page."""
import os
import sys

from trusted.sources import read_files
from trusted.walk import reached_from

# What is believed once the proofs are: the headline, and the clauses of the call that the program makes: of an end with an answer,
# and of a report that is denied.
ROOTS = {
    "Headline": "Rattle.continuity_run.specs.meaning.Headline",
    "IsDone": "Rattle.continuity_run.specs.meaning.Clauses",
    "IsDenied": "Rattle.continuity_run.specs.meaning.Clauses",
}
# The folder of a crate's specs/ with what the roots reach of it, and nothing else.
FOLDER = "/specs/meaning/"
USAGE = "usage: tools/reading [--files | --check PAGE | --folders]"


def figures(name, reached):
    """One line: how much a reader of this definition has to read."""
    files = {one.file for one in reached}
    lines = sum(len(one.lines) for one in reached)
    return f"{name}: {len(reached):,} definitions of {lines:,} lines in {len(files)} files"


def by_file(reached, top):
    """A line for each file: its lines that are reached, and how many of its definitions."""
    rows = {}
    for one in reached:
        rows.setdefault(one.file, []).append(one)
    for file, ones in sorted(rows.items(), key=lambda it: it[0].path):
        lines = sum(len(one.lines) for one in ones)
        yield f"{lines:5} lines, {len(ones):3} of {len(file.definitions):3} definitions  {os.path.relpath(file.path, top)}"


def lacking(page, wanted):
    """The lines that the page should have and has not."""
    with open(page, encoding="utf-8") as text:
        written = text.read()
    return [line for line in wanted if line not in written]


def misplaced(reached, files, top):
    """A line for each definition that is reached and not in its crate's folder, or is there and not reached."""
    for file in files.values():
        for name, one in file.definitions.items():
            if (one in reached) != (FOLDER in file.path):
                place = "outside of" if one in reached else "inside of"
                yield f"{os.path.relpath(file.path, top)}: {name} is {place} specs/meaning/"


def main(top, words):
    files = read_files(top)
    reached = {name: reached_from(files[module].definitions[name], files) for name, module in ROOTS.items()}
    lines = [figures(name, found) for name, found in reached.items()]
    if not words:
        print("\n".join(lines))
    elif words == ["--files"]:
        for name, line in zip(ROOTS, lines):
            print(line, *by_file(reached[name], top), sep="\n")
    elif len(words) == 2 and words[0] == "--check":
        missing = lacking(words[1], lines)
        for line in missing:
            print(f"{words[1]} does not say: {line}", file=sys.stderr)
        return 1 if missing else 0
    elif words == ["--folders"]:
        wrong = sorted(misplaced({one for found in reached.values() for one in found}, files, top))
        print(*wrong, sep="\n", end="\n" if wrong else "", file=sys.stderr)
        return 1 if wrong else 0
    else:
        print(USAGE, file=sys.stderr)
        return 2
    return 0
