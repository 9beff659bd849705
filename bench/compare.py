#!/usr/bin/env python3
"""Compares two builds of the program, job by job, and prints a table in Markdown.

Usage: bench/compare.py BEFORE AFTER [RUNS]

BEFORE and AFTER are built programs (crates/continuity/out/continuity of two checkouts). Each job runs
in turn by both, RUNS times (5 with no number). Told are the least processor time of each, which other
work on the machine touches least, the peak memory, the number of instructions as valgrind counts them
where it is there, and what part of BEFORE's figure AFTER's is. It needs GNU time at /usr/bin/time.
"""

import os
import re
import shutil
import subprocess
import sys
import tempfile

import bench

JOBS = {
    "32 tables of 10,000 rows": (bench.rows_document, (32, 10_000)),
    "1,024 calls on 10,000 rows": (bench.calls_document, (1_024, 10_000)),
    "8 MB of wide rows": (bench.long_document, (8_000_000,)),
    "one transaction of 8,184 updates": (bench.updates_document, (1_023,)),
    "512 reads of a whole table in one transaction": (bench.reads_document, (512, 10_000)),
    "512 times a count, an update and a commit": (bench.commits_document, (512, 10_000)),
    "512 reads of a whole table beside commits of others": (bench.beside_document, (512, 1, 10_000)),
    "the same beside few of them": (bench.beside_document, (512, 64, 10_000)),
}


def instructions(program, document):
    """How many instructions one run takes, or None where valgrind is not there."""
    if shutil.which("valgrind") is None:
        return None
    with open(document, "rb") as source, tempfile.TemporaryDirectory() as folder:
        command = ["valgrind", "--tool=callgrind", f"--callgrind-out-file={folder}/out", program, "run"]
        ran = subprocess.run(command, stdin=source, stdout=subprocess.DEVNULL, stderr=subprocess.PIPE, text=True)
    counted = re.search(r"Collected : (\d+)", ran.stderr)
    return int(counted.group(1)) if ran.returncode == 0 and counted else None


def figures(programs, document, runs):
    """The least time, the least peak and the instructions of each program."""
    costs = [[bench.run([program, "run"], document) for program in programs] for _ in range(runs)]
    for place, program in enumerate(programs):
        _, times, peaks = zip(*(row[place] for row in costs))
        yield min(times), min(peaks), instructions(program, document)


def part(before, after):
    return f"{after / before:.2f}" if before and after else "-"


def row(name, before, after):
    millions = ["-" if count is None else f"{count / 1e6:,.0f}" for count in (before[2], after[2])]
    return (
        f"| {name} | {before[0] * 1e3:,.0f} | {after[0] * 1e3:,.0f} | {part(before[0], after[0])} "
        f"| {before[1] / bench.MEGABYTE:,.1f} | {after[1] / bench.MEGABYTE:,.1f} | {part(before[1], after[1])} "
        f"| {millions[0]} | {millions[1]} | {part(before[2], after[2])} |"
    )


def main():
    if len(sys.argv) not in (3, 4):
        sys.exit(__doc__)
    programs, runs = sys.argv[1:3], int(sys.argv[3]) if len(sys.argv) == 4 else 5
    print("| Job | time before, ms | after | part | memory before, MB | after | part | instructions before, millions | after | part |")
    print("|---|---|---|---|---|---|---|---|---|---|")
    for name, (make, sizes) in JOBS.items():
        with tempfile.TemporaryDirectory() as folder:
            document = os.path.join(folder, "document.json")
            bench.written(document, make, sizes)
            print(row(name, *figures(programs, document, runs)), flush=True)


if __name__ == "__main__":
    main()
