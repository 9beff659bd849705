"""What a report says of its clients, and what may never be said."""

import json

from database import command
from database.judge import Differs


def plain(value):
    return json.dumps(value, separators=(",", ":"))


def error_of(request):
    """The error that a client was shown, with the reason of `disabled`."""
    failed = request["failed"]
    if failed is None:
        return "none"
    return f"{failed[0]} {failed[1][0]}" if failed[0] == "disabled" else failed[0]


def stored(tried, entries):
    """How often each transaction that was tried is stored."""
    words = {0: "not", 1: "once"}
    counts = [sum(identifier in entries for identifier in those) for those in tried if those]
    return ", ".join(words.get(count, f"{count} times") for count in counts) or "nothing was tried"


def requests_of(document, report):
    """For each request that was begun: its client and its number, the calls that it has, and its report."""
    for client, (script, told) in enumerate(zip(document["clients"], report["clients"]), 1):
        for number, (request, shown) in enumerate(zip(script["requests"], told), 1):
            yield client, number, request["calls"], shown


def lines_of(document, report):
    """A line for each request: its client and number, what was shown, the error, and what is stored."""
    entries = [entry["ltxid"] for entry in report["entries"]]
    for client, number, calls, shown in requests_of(document, report):
        last = shown["calls"][-1][0][-1:] if shown["calls"] else []
        ends = f", {last[0]}" if last and isinstance(last[0], str) else ""
        said = f"{len(shown['calls'])} of {len(calls)} calls{ends}"
        yield client, number, said, error_of(shown), stored(shown["tried"], entries)


def faults_of(document, report):
    """What may never be so of any report, or nothing. (That `check` says yes of each run is proved: it is not asked.)"""
    entries = {plain(entry["ltxid"]): entry for entry in report["entries"]}
    if len(entries) != len(report["entries"]):
        yield "an identifier stands twice among the entries"
    for client, number, _, shown in requests_of(document, report):
        where = f"client {client}, request {number}"
        kept = [[plain(it) for it in those if plain(it) in entries] for those in shown["tried"]]
        if any(len(those) > 1 for those in kept):
            yield f"{where}: a transaction is stored twice"
        ends = [answers[-1] for answers, _, _ in shown["calls"] if answers[-1:] and answers[-1] in ("committed", "conflict", "rolledback")]
        for end, those in zip(ends, kept):
            if (end == "committed") != (len(those) == 1):
                yield f"{where}: a call was answered {end}, and {len(those)} entries are its transaction's"
        for identifier, committed, completed in shown["outcomes"]:
            entry = entries.get(plain(identifier))
            if committed != (entry is not None) or entry and completed != entry["completed"]:
                yield f"{where}: the outcome of {plain(identifier)} is not what is stored"
    try:
        command.run(document, report)
    except Differs as why:
        yield f"on SQLite: {why}"
