"""Follows a run by its document and its report, event by event, and gives what is to be drawn of it."""

from contextlib import contextmanager
from itertools import islice

from . import words
from .client import Client
from .files import FAULTS, Misfit, check_event, need, submissions
from .run import OUTSIDE, STORE, Event, Run
from .sessions import Sessions
from .verdict import Stored

LONGEST = 400       # characters of why a walk ends


def follow(document, report):
    """The run; a Misfit where the report is none of this document."""
    walk = followed(document, report)
    with fits("the end of the report does not fit what was before it", len(report["notes"]) + 1):
        walk.close()
    return walk.run


def follow_far(document, report):
    """The run as far as the report fits, and the Misfit there. Without one the run is whole; no run where nothing fits."""
    try:
        return follow(document, report), None
    except Misfit as why:
        if not why.event:
            return None, why
        walk = followed(document, report, why.event - 1)
        if why.event <= len(report["notes"]):
            walk.stop(str(why))
        return walk.run, why


def followed(document, report, count=None):
    """The walk along the notes, or along so many of them."""
    with fits("the report is not one of such a document"):
        walk = Walk(document, report)
    for number, note in enumerate(islice(report["notes"], count), 1):
        with fits(f"note {number}, {note}, does not fit what was before it", number):
            walk.step(note)
    return walk


@contextmanager
def fits(otherwise, event=0):
    """A fault of what is read becomes a Misfit, which knows its event."""
    try:
        yield
    except Misfit as why:
        why.event = event
        raise
    except FAULTS as why:
        misfit = Misfit(f"{otherwise} ({why})")
        misfit.event = event
        raise misfit from why


class Walk:
    def __init__(self, document, report):
        self.run = Run()
        self.schedule, clients = document.get("schedule", []), document["clients"]
        need(len(clients) == len(report["clients"]),
             f"the document has {len(clients)} clients, the report {len(report['clients'])}")
        self.reports = report["clients"]
        self.sessions = Sessions(self.run, document, report)
        self.store, self.run.stored = self.sessions.store, Stored(report)
        auto = document.get("service", {}).get("failover") == "auto"
        self.clients = []
        for number, (client, reports) in enumerate(zip(clients, report["clients"]), 1):
            requests = client["requests"]
            self.clients.append(Client(self.run, number, requests, submissions(requests, reports), reports, auto))

    def step(self, note):
        run = self.run
        run.number += 1
        run.events.append(event := Event(run.number, run.tick, note))
        if run.number <= len(self.schedule):
            check_event(run.number, self.schedule[run.number - 1], note)
        event.words = getattr(self, "on_" + note[0])(*note[1:])
        event.tick = run.tick

    def stop(self, why):
        """The next event is none that could be followed."""
        run = self.run
        run.number += 1
        run.events.append(Event(run.number, run.tick, ["?"], f"THE PICTURE ENDS HERE: {why}"[:LONGEST], "bad"))

    def close(self):
        count, there = len(self.schedule), len(self.run.events)
        need(there >= count, f"the schedule has {count} events, the report only {there} notes")
        self.sessions.close()
        for client in self.clients:
            need(not client.request and not client.coming,
                 f"the notes end before the requests of client {client.number} have ended")
        for request in [request for reports in self.reports for request in reports]:
            self.run.stored.transactions(request)

    def on_go(self, number, word, *rest):
        return self.clients[number - 1].go(word, *rest)

    def on_serve(self, number, word):
        return self.sessions.serve(number, word)

    def on_cut(self, number, up, down=None):
        return self.sessions.cut(number, up, down)

    def on_reap(self, number, none=None):
        return "connection {} has no orphan to end".format(number) if none else self.sessions.reap(number)

    def on_crash(self, number, down=None):
        return "crash: the server is down already" if down else self.sessions.crash(number)

    def on_up(self, incarnation):
        if incarnation == "none":
            return "the server is up already"
        return f"the store is opened again, incarnation {incarnation}{self.store.open(incarnation)}"

    def on_upcrash(self, none=None):
        if none:
            return "the server is up already"
        self.run.mark(STORE, "bolt", ("CRASH",), "bad")
        return self.run.bad("CRASH while the store was being opened")

    def on_tick(self):
        self.run.tick += 1
        return f"tick {self.run.tick}"

    def on_outside(self, first, runs=()):
        if first == "down":
            return "an outside session finds the server down"
        calls, session = self.schedule[self.run.number - 1][1], words.session(first)
        self.store.made(first)
        self.run.mark(OUTSIDE, "square", (f"session {session}", session), "call")
        said = []
        for call, (answers, draws) in zip(calls, runs):
            self.store.reserve(OUTSIDE, draws)
            self.store.ran(OUTSIDE, first[:2], call, answers)
            said.append(f"{words.call(call)}: {words.answers(answers)}")
        blocked = "" if len(runs) == len(calls) else "; then a commit finds its identifier blocked"
        return f"outside session {session} runs {'; '.join(said)}{blocked}"

    def on_ask(self, asked, *result):
        identifier = words.identifier(asked)
        question = f"asked from outside for {identifier}:"
        if result[0] == "down":
            return f"{question} the server is down"
        self.run.mark(OUTSIDE, "hexagon", (f"asks {identifier}", identifier), "ask")
        blocks = result[0] == "uncommitted" and self.store.block(OUTSIDE, asked)
        return f"{question} {words.outcome(result)}{'; it is blocked from now on' if blocks else ''}"

    def on_drain(self, count):
        return self.sessions.drain(count)
