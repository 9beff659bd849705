"""The schedules to try: the run of the document itself with one outage more at each place, or random ones."""

import itertools
import random

# More than can be on its way.
ALL = 1 << 40
PICKS = range(4)


def events_of(document, report):
    """All events of a run, those of the finish as their notes tell them."""
    schedule = document.get("schedule", [])
    return schedule + [event_of(note) for note in report["notes"][len(schedule):]]


def event_of(note):
    """The event of a note of the finish, which makes no other kinds."""
    return note[:1] if note[0] in ("up", "tick") else note[:2]


def opened(notes):
    """The connections that were opened, in order, and are not known to have ended."""
    left = []
    for kind, *parts in notes:
        if kind == "go" and parts[1] == "open":
            left.append(parts[2])
        elif kind == "crash" and parts[0] != "down":
            left = []
        elif kind == "cut" or parts[1:2] in (["lost"], ["close"]):
            ended = parts[2] if kind == "go" else parts[0]
            left = [it for it in left if it != ended]
    return left


def numbers(most):
    """How many of so many bytes arrive: none, all, and all but one, so that the last frame is not whole."""
    return sorted({0, max(most - 1, 0), most})


def falls(document):
    """The events by which the server may fall: with a second store a crash may take the first one away."""
    return ["crash", "failover"] if document.get("service", {}).get("standby", False) else ["crash"]


def with_events(document, events):
    return {**document, "schedule": events}


class Each:
    """Each cut and each crash at each place of the document's own run. A step gives documents, and is told their reports.

    With a second store each crash is tried as a failover too. Behind one that the own schedule has there is one store, and
    a further failover is a crash of it.
    """

    def __init__(self, document, report):
        self.document, self.report = document, report
        self.events, self.own = events_of(document, report), document.get("schedule", [])
        self.places = len(self.events) + 1

    def __iter__(self):
        for place in range(self.places):
            yield from self.cuts(place)
            yield from self.crashes(place)

    def name(self, place):
        """Nothing: what stands at the place tells enough."""
        return None

    def changed(self, place, outage, in_place_of=0):
        """The document with an outage before the event of this place, or in the place of it, and its own events after that."""
        return with_events(self.document, [*self.events[:place], outage, *self.own[place + in_place_of:]])

    def cuts(self, place):
        """Each open connection is cut. The first run tells how many bytes are on their way."""
        for connection in opened(self.report["notes"][:place]):
            report = yield place, self.changed(place, ["cut", connection, ALL, ALL])
            note = report["notes"][place]
            if note[2] == "none":
                continue
            for up in numbers(note[2]):
                for down in numbers(note[3]):
                    if [up, down] != note[2:]:
                        yield place, self.changed(place, ["cut", connection, up, down])

    def crashes(self, place):
        """The server crashes between two events, or in the event of this place after each of its device calls."""
        for word in falls(self.document):
            yield place, self.changed(place, [word, 0, 0, 0])
        if place == len(self.events) or self.events[place][0] != "serve":
            return
        is_stopped, after = True, 0
        while is_stopped:
            is_stopped = False
            for word, pick in itertools.product(falls(self.document), PICKS):
                report = yield place, self.changed(place, [word, self.events[place][1], after, pick], 1)
                is_stopped = is_stopped or any(item[0] == "crashed" and item[1] == place + 1 for item in report["served"])
            after += 1


class Random:
    """Schedules of random events, the same for one seed."""

    KINDS = ["go"] * 8 + ["serve"] * 8 + ["tick"] * 2 + ["cut", "crash", "up", "upcrash", "reap"]

    def __init__(self, document, report, seed, count):
        self.document, self.random, self.places = document, random.Random(seed), count
        self.falls = falls(document)
        self.length = 2 * len(report["notes"]) + 2
        self.connections = sum(note[2:3] == ["open"] for note in report["notes"] if note[0] == "go") + 2

    def __iter__(self):
        for place in range(self.places):
            events = [self.event() for _ in range(self.random.randrange(1, self.length + 1))]
            yield place, with_events(self.document, events)

    def name(self, place):
        return f"schedule {place + 1}"

    def event(self):
        chosen, below = self.random.choice, self.random.randrange
        kind = chosen(self.KINDS)
        clients, connection = len(self.document["clients"]), below(self.connections) + 1
        if kind == "go" and clients:
            return ["go", below(clients) + 1]
        if kind == "cut":
            return ["cut", connection, chosen([0, below(200), ALL]), chosen([0, below(200), ALL])]
        if kind == "crash" and self.falls[1:]:
            return [chosen(self.falls), connection, below(12), chosen(PICKS)]
        if kind == "crash":
            return ["crash", connection, below(6), chosen(PICKS)]
        if kind == "upcrash":
            return ["upcrash", below(9), chosen(PICKS)]
        return [kind] if kind in ("tick", "up") else ["serve" if kind == "go" else kind, connection]
