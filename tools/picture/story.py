"""What a run did to its clients, in a title and in a sentence for each request that met an outage or an error."""

from . import words
from .verdict import UNTOLD, names

MANY = 3        # of one kind, that are told one by one
LINKS = 8       # events that are named where more are told in one
TOLD_AS_ONE = {"lost": "lost its connection {} times (at {})", "down": "found the server down {} times (at {})",
               "session": "its sessions committed or were refused a commit {} times (at {})",
               "outcome": "{} outcomes were asked", "replayed": "calls were replayed {} times with the same answers",
               "again": "a call was sent again {} times"}


def event_word(number):
    """An event in a sentence; the page makes a link of it where the event is drawn."""
    return f"event {number}"


def headline(run):
    """A title, and the requests to tell of: those that saw an error first."""
    met = [request for request in run.requests if request.said or request.failed or request.again]
    failed = [request for request in met if request.failed]
    title = " and ".join(outages(run)) or "No outage"
    if not failed:
        return title + (": all hidden, no client saw an error" if title != "No outage" else
                        ": no client saw an error"), met
    noun = "submission" if any(request.again for request in run.requests) else "request"
    title += f": {words.plural(len(failed), noun)} of {len(run.requests)} ended in an error"
    kept = sum(is_kept(request, run.stored) for request in failed)
    return title + though(kept, len(failed)), sorted(met, key=lambda request: not request.failed)


def outages(run):
    crashes = sum(event.note[0] == "crash" and event.note[-1] != "down" or event.note == ["upcrash"]
                  for event in run.events)
    losses = sum(request.losses for request in run.requests)
    return ([words.plural(losses, "lost connection")] * bool(losses)
            + [f"{crashes} crash{'es' if crashes > 1 else ''}"] * bool(crashes))


def is_kept(request, stored):
    """Whether the transaction is stored whose loss led to the request's error."""
    kind, why, *_ = request.report["failed"]
    return bool(stored.transactions(request.report)[-1].stored) or kind == "disabled" and why[0] == "statelost"


def though(kept, failed):
    """How many of the failed requests are committed all the same."""
    if not kept:
        return ""
    return ", but its transaction is stored" if failed == 1 else f"; the transactions of {kept} of them are stored"


def story(request, several, stored):
    """One request's outages in a sentence, what its client saw, and what is stored of it."""
    failed = request.report["failed"]
    saw = f"saw the ERROR {failed[0]}: {words.failure(failed)}" if failed else "saw no error"
    said = said_of(request)
    said += [f"the client {saw}" if said else saw, kept(request, stored)]
    which = f", request {request.place + 1}," if several else ""
    if request.again:
        which = f", submission {request.again + 1} of request {request.place + 1},"
    return f"client {request.client}{which} {'; '.join(filter(None, said))}"


def said_of(request):
    """What is told of it, in order. More than a few of one kind are told in one, where the first of them stands."""
    by_kind = {}
    for one in sorted(request.said, key=lambda one: one.at):
        by_kind.setdefault(one.kind, []).append(one)
    found = []
    for kind, some in by_kind.items():
        if len(some) > MANY:
            found.append((some[0].at, TOLD_AS_ONE[kind].format(len(some), events(some))))
        else:
            found += [(one.at, one.text.format(event_word(one.event)) if one.event else one.text) for one in some]
    return [text for _, text in sorted(found, key=lambda one: one[0])]


def events(some):
    more = len(some) - LINKS
    return ", ".join(event_word(one.event) for one in some[:LINKS]) + (f" and {more} more" if more > 0 else "")


def kept(request, stored):
    """What is stored of a request. Its last transaction is the one that an error left open."""
    *before, last = stored.transactions(request.report)
    done = [one for transaction in before for one in transaction.stored]
    failed = request.report["failed"]
    if last.stored:
        return f"{'but ' * (last.ended in UNTOLD)}its last transaction is stored, as {names(last.stored)}"
    if not done:
        return "nothing of it is stored" if failed else ""
    what = "its commit is stored once" if len(done) == 1 else f"its {len(done)} commits are stored, each once"
    return f"{what}, as {names(done)}{', and nothing after that' if failed else ''}"
