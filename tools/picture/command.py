"""The command: its words, its files and its status."""

import argparse
import sys

from running.program import NoProgram, built, run

from .check import answer_of, object_of
from .files import DOCUMENT, REPORT, Misfit, need_lists, read
from .page import checked_page, page

USAGE = "tools/timeline DOCUMENT REPORT [--from EVENT] [--to EVENT] [--check [--program PATH]] > run.html"
ABOUT = """Draws one run of continuity: DOCUMENT is what the program read, REPORT what `continuity run` printed.
A long run is drawn from its first event, or from that of --from, as far as a page of 3 MB goes; --to asks for
more or less.
With --check the report may come from anywhere: it is judged by `continuity check`, and the page tells at its top what that
says and where. A report that does not fit its document is then drawn as far as it does.
Status 0; 1 where the files cannot be read or do not fit each other, or where --check has no answer; 2 where the words are
wrong."""


class Words(argparse.ArgumentParser):
    def error(self, message):
        self.exit(2, f"timeline: {message}; usage: {self.usage}\n")


def drawn(given):
    """The page that the words ask for."""
    (document_bytes, document), (report_bytes, report) = read(given.document), read(given.report)
    if given.check:
        ended = run(given.program or built(), "check", object_of(document_bytes, report_bytes))
        return checked_page(document, report, answer_of(ended), given.first, given.last)
    need_lists(given.document, document, DOCUMENT)
    need_lists(given.report, report, REPORT)
    return page(document, report, given.first, given.last)


def main(arguments=None):
    parser = Words(usage=USAGE, description=ABOUT)
    parser.add_argument("document")
    parser.add_argument("report")
    parser.add_argument("--from", dest="first", type=int, default=1)
    parser.add_argument("--to", dest="last", type=int)
    parser.add_argument("--check", action="store_true", help="ask the program what it says of the report")
    parser.add_argument("--program", metavar="PATH", help="the built program; ./continuity where it is left out")
    given = parser.parse_args(arguments)
    if given.first < 1 or given.last is not None and given.last < given.first:
        parser.error("--from and --to are numbers of events, from 1 on and in order")
    if given.program and not given.check:
        parser.error("--program is for --check")
    try:
        sys.stdout.buffer.write(drawn(given).encode())
        sys.stdout.buffer.flush()
    except (Misfit, NoProgram, BrokenPipeError) as why:
        print(f"timeline: {why}", file=sys.stderr)
        return 1
    return 0
