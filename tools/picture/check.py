"""What `check` says of a report with its document, in words, and where in the run that is."""

import re
from dataclasses import dataclass

from . import words
from .files import FAULTS, Misfit, submissions

CLAUSES = {
    "serial": "Run one after the other from the document's rows, the entries have to give their answers and the last tables",
    "fresh": "No value of a sequence and no new identifier may be drawn twice",
    "legal": "What a session served has to be what the service may do there",
    "once": "A transaction is stored at most once; once if it was shown as committed, and not at all if it was shown as dropped",
    "same": "What is stored of a transaction has to be what its client was shown or submitted",
    "stored": "Each outcome, block, horizon and image that is told has to be that of the store",
    "whole": "Each request has to be shown its whole script in order, or one failure",
}
RIGHT, WRONG, FAULTY = 0, 6, 5      # the program's statuses
TOLD = re.compile(r"^continuity: (?:document: (?P<code>\d+)|check: (?P<clause>\w+)) at (?P<path>.*)$", re.MULTILINE)


@dataclass(frozen=True)
class Answer:
    word: str           # yes, a clause, or the code of a fault
    path: str = ""      # in the report; of a fault, in the object of both
    is_fault: bool = False

    def said(self):
        """The answer in a few words, and what it means."""
        if self.word == "yes":
            return "yes", "all seven clauses hold"
        if not self.is_fault:
            return f"{self.word} is false", CLAUSES.get(self.word, "")
        if self.path.startswith("/report"):
            return f"no report of this document (code {self.word})", "It cannot have this value there, or has to have one"
        what = "document" if self.path.startswith("/document") else "object of both files"
        return f"a faulty {what} (code {self.word})", f"./continuity explain {self.word} says what is wrong"


def object_of(document, report):
    """The input of `check`, of the bytes of a document and of a report."""
    return b'{"document":%s,"report":%s}' % (document, report)


def answer_of(ended):
    """What a run of `check` said; a Misfit where that was no answer."""
    if ended.status == RIGHT and ended.printed == b"yes\n":
        return Answer("yes")
    told = TOLD.search(ended.told)
    if not told or ended.status != (FAULTY if told["code"] else WRONG):
        raise Misfit(f"check gave no answer: {ended.why()}")
    return Answer(told["code"] or told["clause"], told["path"], bool(told["code"]))


class Places:
    """Where the paths of answers lead: in words, with the event where there is one."""

    def __init__(self, document, report, run=None):
        self.document, self.report = document, report
        self.requests, self.commits, self.marks = (run.requests, run.commits, run.marks) if run else ([], [], [])

    def place(self, answer):
        """(words, event) of an answer's path; of one that leads to no part of a run, ("", 0)."""
        part, *steps = answer.path.removeprefix("/report").removeprefix("/document").split("/")[1:] or [""]
        numbers = [int(step) if step.isdecimal() else step for step in steps]
        try:
            return getattr(self, "in_" + part, self.nowhere)(*numbers)
        except FAULTS:
            return self.nowhere()

    def nowhere(self, *_):
        return "", 0

    def in_served(self, at, *_):
        event = int(self.report["served"][at][1])
        return f"a served item of event {event}", event

    def in_notes(self, at, *_):
        return f"the note of event {at + 1}", at + 1

    def in_schedule(self, at, *_):
        return f"event {at + 1}", at + 1

    def in_entries(self, at, part=None, piece=None, *_):
        identifier = words.identifier(self.report["entries"][at]["ltxid"])
        event = next((one.event for one in self.commits if one.identifier == identifier), 0)
        which = f"piece {piece} of " if part == "pieces" else ""
        return f"{which}the entry {identifier}{f', stored at event {event}' if event else ''}", event

    def in_blocked(self, at, *_):
        identifier = words.identifier(self.report["blocked"][at])
        event = next((one.event for one in self.marks if one.shape == "lock" and one.labels[-1] == identifier), 0)
        return f"the block of {identifier}{f' at event {event}' if event else ''}", event

    def in_tables(self, at, *_):
        return f"table {self.report['tables'][at][0]} at the end", 0

    def in_clients(self, client, at=None, part=None, number=None, *_):
        """A request's report; or, in a document, a request."""
        if not isinstance(at, int):
            return f"client {client + 1}", 0
        said, begun = self.request(client, at)
        call = begun.calls.get(number) if part == "calls" and begun else None
        said += f", call {number}" if part == "calls" else ""
        if call and call.last:
            return f"{said}, shown at event {call.last}", call.last
        event = call.first if call else begun.first if begun else 0
        return said + (f", sent at event {event}" if call else f", begun at event {event}" if event else ""), event

    def request(self, client, at):
        """A request in words by the place of its report, and the request itself where it began."""
        place, again = submissions(self.document["clients"][client]["requests"], self.report["clients"][client])[at]
        submission = f", submission {again + 1}" if again else ""
        begun = [request for request in self.requests if request.client == client + 1]
        return f"client {client + 1}, request {place + 1}{submission}", begun[at] if at < len(begun) else None
