"""The command: its words, the program that it runs, and the table that it prints."""

import argparse
import collections
import json
import pathlib
import sys
import tempfile
import time

from running.program import NoProgram, built, run

from .schedules import Each, Random
from .shown import faults_of, lines_of, plain

ABOUT = """Says what can happen to the clients of a DOCUMENT. It is run once as it is; then again with each connection cut
at each place of that run, with none, all and all but one of the bytes on their way arriving; and with a crash at each
place, and after each device call of each event in which the server works, with each image that a crash may leave;
with a second store also as a failover, which takes the first one away.
With --seed random schedules are run in place of these. The table has a line for each request and each end that it came
to: how often, what was shown, the error, whether each transaction that was tried is stored, and the first run that
ended so. It stops at a report that cannot be.
Status 0; 1 where a report cannot be; 2 where the words or the files are wrong."""
HEADS = ("runs", "client", "request", "shown", "error", "stored", "for example")


class Stop(Exception):
    """Nothing more can be run, for this reason and with this status."""

    def __init__(self, status, why):
        super().__init__(why)
        self.status = status


class Runner:
    """Runs documents, judges their reports, and counts what these say."""

    def __init__(self, program, keep):
        self.program, self.keep = program, keep
        self.counts, self.examples = collections.Counter(), {}
        self.runs, self.began, self.told = 0, time.monotonic(), 0

    def report_of(self, document):
        """The report of a document."""
        ran = run(self.program, "run", json.dumps(document).encode())
        if ran.status:
            raise Stop(2, f"{ran.why()}{self.kept(document, None, 'at_fault')}")
        return json.loads(ran.printed)

    def run(self, document, what=None, place=None):
        """Runs one document. The table says of it `what`, or which outage stands at a place."""
        report = self.report_of(document)
        self.runs += 1
        if what is None:
            outage, note = document["schedule"][place], report["notes"][place]
            # (the note of a cut has the numbers of bytes that there were)
            what = f"{plain(note if outage[0] == 'cut' else outage)} as event {place + 1}"
        for fault in faults_of(document, report):
            raise Stop(1, f"{what}: {fault}{self.kept(document, report, 'at_fault')}")
        for line in lines_of(document, report):
            self.counts[line] += 1
            if line not in self.examples:
                name = f"{len(self.examples) + 1:03}"
                self.examples[line] = what + (self.kept(document, report, name) if self.keep else "")
        return report

    def kept(self, document, report, name):
        """Writes a document and its report, and says where."""
        folder = self.keep = self.keep or pathlib.Path(tempfile.mkdtemp(prefix="explore-"))
        folder.mkdir(parents=True, exist_ok=True)
        (folder / f"{name}.json").write_text(plain(document) + "\n", encoding="utf-8")
        if report is not None:
            (folder / f"{name}.report.json").write_text(plain(report) + "\n", encoding="utf-8")
        return f" ({folder / name}.json)"

    def progress(self, place, places, is_last=False):
        """On a terminal one line that moves, else a line each ten seconds."""
        now = time.monotonic()
        is_terminal = sys.stderr.isatty()
        if not is_last and now - self.told < (0.2 if is_terminal else 10):
            return
        self.told = now
        text = f"explore: place {place} of {places}, {self.runs} runs, {now - self.began:.0f} seconds"
        print(f"\r{text}\033[K" if is_terminal else text, end="" if is_terminal and not is_last else "\n", file=sys.stderr)

    def explore(self, steps, most):
        """Runs what the steps give, at most so many; gives whether that was all."""
        going, report = iter(steps), None
        while True:
            try:
                place, document = going.send(report)
            except StopIteration:
                self.progress(steps.places, steps.places, is_last=True)
                return True
            if most is not None and self.runs >= most:
                self.progress(place, steps.places, is_last=True)
                return False
            report = self.run(document, steps.name(place), place)
            self.progress(place + 1, steps.places)

    def table(self):
        """The lines, by client and request, the most frequent first."""
        order = sorted(self.counts, key=lambda line: (*line[:2], -self.counts[line], line))
        cells = [HEADS, *((self.counts[line], *line, self.examples[line]) for line in order)]
        texts = [[str(cell) for cell in row] for row in cells]
        widths = [max(map(len, column)) for column in zip(*texts)]
        return "".join("  ".join(map(str.ljust, row, widths)).rstrip() + "\n" for row in texts)


def number_from(least):
    def read(text):
        if not text.isdecimal() or int(text) < least:
            raise argparse.ArgumentTypeError(f"a number from {least} on is wanted, and {text} is none")
        return int(text)

    return read


def explore(given):
    with open(given.document, encoding="utf-8") as file:
        document = json.load(file)
    if not isinstance(document, dict):
        raise Stop(2, "the document is no JSON object")
    runner = Runner(given.program or built(), given.keep)
    report = runner.run(document, "the document as it is")
    if given.seed is None:
        steps, most = Each(document, report), given.max
    else:
        steps, most = Random(document, report, given.seed, given.max or 1000), None
    is_all = runner.explore(steps, most)
    print(runner.table(), end="")
    print(f"{runner.runs} runs{'' if is_all else ', and there are more: --max'}; no report that cannot be")


def main(arguments=None):
    parser = argparse.ArgumentParser(prog="explore", description=ABOUT,
                                     formatter_class=argparse.RawDescriptionHelpFormatter)
    parser.add_argument("--max", type=number_from(1), metavar="N", help="run at most N documents")
    parser.add_argument("--seed", type=number_from(0), metavar="N", help="random schedules, 1,000 or --max")
    parser.add_argument("--keep", type=pathlib.Path, metavar="FOLDER", help="write the documents that lines name, with their reports")
    parser.add_argument("--program", type=pathlib.Path, metavar="PATH", help="the built program; ./continuity where it is left out")
    parser.add_argument("document", metavar="DOCUMENT")
    given = parser.parse_args(arguments)
    try:
        explore(given)
    except Stop as why:
        print(f"explore: {why}", file=sys.stderr)
        return why.status
    except (NoProgram, OSError, ValueError, RecursionError) as why:
        print(f"explore: {why}", file=sys.stderr)
        return 2
    return 0
