"""What each client saw, what is stored of it, and whether the two agree.

A transaction of a submission is stored where the store has an entry whose identifier stands in its list of `tried`. A
shown commit is stored once; what ended otherwise is not stored. After `incomplete` the last transaction is stored, as
the error says. After `retries` and `unknown` it may be: the client was not told.
"""

from collections import Counter
from dataclasses import dataclass

from . import words
from .files import need

ENDS = ("committed", "conflict", "rolledback")
SHOWN = (("committed", "commit"), ("conflict", "conflict"))
STORED = ("committed", "incomplete")        # a transaction that ended so is stored
UNTOLD = ("retries", "unknown")             # one that ended so may be stored
LISTED = 4          # identifiers of a client in a line
APART = 12          # clients that have a line each
AGREE, OPEN, DIFFER = range(3)
TITLES = ("what the clients saw and what is stored agree", "a client was not told whether its transaction is stored",
          "what a client saw and what is stored DIFFER")
SAID = ("they agree", "the client was not told", "THEY DIFFER")


@dataclass(frozen=True)
class Transaction:
    ended: str          # how the client saw it end: one of ENDS, an error, or "" where it saw no end
    stored: tuple       # the identifiers of its entries

    def verdict(self):
        if self.ended in UNTOLD and len(self.stored) < 2:
            return OPEN
        return AGREE if len(self.stored) == (self.ended in STORED) else DIFFER


class Stored:
    """What the store has of each submission, by the report."""

    def __init__(self, report):
        requests = [request for client in report["clients"] for request in client]
        self.tried = Counter(tuple(one) for request in requests for tried in request["tried"] for one in tried)
        self.entries = [tuple(entry["ltxid"]) for entry in report["entries"]]
        self.known = set(self.entries)

    def transactions(self, request):
        ends = [call[0][-1] for call in request["calls"] if call[0][-1] in ENDS]
        ends.append(request["failed"][0] if request["failed"] else "")
        need(len(ends) == len(request["tried"]), f"a request ended {len(ends)} transactions, and `tried` has "
             f"{len(request['tried'])} lists")
        return [Transaction(ended, tuple(one for one in map(tuple, tried) if one in self.known))
                for ended, tried in zip(ends, request["tried"])]

    def foreign(self):
        """The entries that no client tried: those of sessions from outside."""
        return [one for one in self.entries if not self.tried[one]]

    def shared(self):
        """The entries that two transactions tried; there should be none."""
        return [one for one in self.entries if self.tried[one] > 1]


@dataclass(frozen=True)
class Line:
    """The verdict on a client, or on several that are alike."""
    saw: str
    stored: tuple
    verdict: int
    kept: str = ""      # of an error that did not tell: whether the transaction is stored

    def said(self, who, several):
        each = "each " if several else ""
        kept = words.plural(len(self.stored), "transaction") if self.stored else "nothing"
        which = "" if several or not self.stored else " " + names(self.stored)
        return f"{who}: {each}saw {self.saw}; stored: {each}{kept}{which}; {SAID[self.verdict]}{self.kept}"

    def alike(self):
        return self.saw, len(self.stored), self.verdict, self.kept


def names(identifiers):
    more = len(identifiers) - LISTED
    return ", ".join(map(words.identifier, identifiers[:LISTED])) + (f" and {more} more" if more > 0 else "")


def line(requests, stored):
    """The verdict on one client by the reports of its requests."""
    transactions = [one for request in requests for one in stored.transactions(request)]
    worst = max((one.verdict() for one in transactions), default=AGREE)
    kept = tuple(one for each in transactions for one in each.stored)
    return Line(saw(transactions), kept, worst, fate([one for one in transactions if one.verdict() == OPEN]))


def saw(transactions):
    """What a client saw of its transactions, in words."""
    ended = Counter(one.ended for one in transactions)
    said = [words.plural(ended[name], noun) for name, noun in SHOWN if ended[name]] or ["no commit"]
    errors = {name: count for name, count in ended.items() if name not in (*ENDS, "")}
    said += [f"{count} times the ERROR {name}" if count > 1 else f"the ERROR {name}" for name, count in errors.items()]
    return " and ".join(said + ([] if errors else ["no error"]))


def fate(untold):
    """What became of the transactions of which a client was not told."""
    if not untold:
        return ""
    kept = sum(bool(one.stored) for one in untold)
    if len(untold) == 1:
        return ": the transaction is stored" if kept else ": nothing of it is stored"
    return f": {kept} of {len(untold)} such transactions {'is' if kept == 1 else 'are'} stored"


def verdict(clients, stored):
    """A title, and a line for each client by the reports of its requests; of many, clients that are alike have one."""
    lines = [line(requests, stored) for requests in clients]
    worst = DIFFER if stored.shared() else max((one.verdict for one in lines), default=AGREE)
    said = groups(lines) if len(lines) > APART else [one.said(f"client {number}", False)
                                                     for number, one in enumerate(lines, 1)]
    foreign = stored.foreign()
    if foreign:
        said.append(f"from outside: stored: {words.plural(len(foreign), 'transaction')} {names(foreign)}")
    return TITLES[worst] if lines else "there is no client", said


def groups(lines):
    """A line for each group of clients that are alike."""
    found = {}
    for number, one in enumerate(lines, 1):
        found.setdefault(one.alike(), []).append((number, one))
    said = []
    for some in found.values():
        who = f"client{'s' if len(some) > 1 else ''} {ranges([number for number, _ in some])}"
        said.append(some[0][1].said(who, len(some) > 1))
    return said


def ranges(numbers):
    """Numbers in order, those that follow each other as one range."""
    found = []
    for number in numbers:
        if found and number == found[-1][1] + 1:
            found[-1][1] = number
        else:
            found.append([number, number])
    return ", ".join(str(first) if first == last else f"{first}-{last}" for first, last in found)
