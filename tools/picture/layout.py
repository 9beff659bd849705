"""Where things stand: time goes down, one row for an event; the lanes stand beside each other.

A picture that would be too wide for a screen gets shorter labels. Then the columns of sessions that have ended are used
again; then clients share columns, too: each has one only while it holds a slot of the pool. Where that is not enough
either, labels are numbers or fall away; the words beside the lanes say all.
"""

from bisect import bisect_right
from dataclasses import dataclass
from textwrap import wrap

from .run import OUTSIDE, STORE

SMALL, BIG = 6.7, 7.3           # widths of a character of 11 and of 12 pixels, never less than the font's
LINE = 16                       # the height of a line
BAND = 28                       # of the finish's title
WIDE = 1400                     # what a screen shows
MANY = 64                       # steps that find nothing to do in one row
STORE_LABEL = 14                # characters of the store's labels and of those outside, at least

FOLDED = {("go", "wait"): "clients {} wait for a place in the pool",
          ("go", "none"): "clients {} find nothing to take yet",
          ("go", "early"): "clients {} may not try to connect again yet (delay)",
          ("go", "idle"): "clients {} have nothing left to do",
          ("serve", "none"): "connections {} have nothing to serve"}


def folded(note):
    """How several such steps in a row are said in one, or None."""
    return FOLDED.get((note[0], note[2])) if len(note) == 3 and isinstance(note[2], str) else None


@dataclass(frozen=True)
class Plan:
    """How wide all is laid out."""
    shared: bool        # columns by clients
    again: bool         # columns of ended sessions are used again
    label: int          # characters of a label
    line: int = 52      # of a line of words
    gap: int = 24       # for arrows, between clients and sessions
    bars: bool = True   # of calls

    def fitting(self, labels):
        """The first label that fits, or none."""
        return next((label for label in labels if len(label) <= self.label), "")


PLANS = (Plan(False, False, 20, 58, 36), Plan(False, False, 14, 58, 30), Plan(False, True, 14), Plan(False, True, 11),
         Plan(True, True, 14), Plan(True, True, 11), Plan(True, True, 9), Plan(True, True, 6, 52, 16, False),
         Plan(True, True, 3, 46, 16, False))
STORE_PLAN = Plan(True, True, STORE_LABEL)


class Rows:
    """A row's top and height for each event of the window; the finish has a band before it."""

    def __init__(self, run, window, line):
        """For the window (events of the schedule, first event, last event), in lines of so many characters."""
        schedule, first, last = window
        self.first, self.last, self.finish, self.line = first, last, schedule + 1, line
        self.groups, self.lines, self.tops, self.row_of, self.band = [], {}, {}, {}, None
        self.deep, self.falls = {}, {}      # of an event: lines of its marks; the line at which sessions end
        for mark in run.marks:
            self.deep[mark.event] = max(self.deep.get(mark.event, 1), mark.line + 1)
            if mark.shape == "bolt" and mark.lane == STORE:
                self.falls[mark.event] = mark.line
        self.height = 4
        for event in run.events[first - 1:last]:
            self.place(event)
        self.height += 6
        digits = len(str(last))
        self.number_end = 8 + BIG * max(2 * digits + 1, 5)
        self.tick_end = self.number_end + 8 + BIG * max(digits, 4)
        self.words_left = self.tick_end + 10
        self.width = round(self.words_left + line * BIG + 12)

    def place(self, event):
        """Below the rows before it; steps in a row that find nothing to do share one."""
        group = self.groups[-1] if self.groups else None
        if group and event.number != self.finish and self.joins(group, event):
            group.append(event)
            self.height = self.tops[group[0].number]
            said = folded(event.note).format(", ".join(str(one.note[1]) for one in group))
        else:
            self.groups.append(group := [event])
            said = event.words
            if event.number == self.finish:
                self.band, self.height = self.height, self.height + BAND
        head = group[0].number
        self.lines[head] = wrap(said, self.line) or [""]
        self.tops[event.number], self.row_of[event.number] = self.height, head
        lines = max(len(self.lines[head]), self.deep.get(event.number, 1))
        self.height += LINE * lines + (4 if event.note == ["tick"] else 10)

    def joins(self, group, event):
        """Such steps of different clients or connections, without an error."""
        return (len(group) < MANY and folded(event.note) and not event.tone and not group[0].tone
                and group[0].note[::2] == event.note[::2] and event.note[1] not in [one.note[1] for one in group])

    def y(self, number, line=0):
        """The middle of a line of an event; past the window, a place just outside of the picture."""
        if number < self.first:
            return -30
        return self.height + 30 if number > self.last else self.tops[number] + 13 + LINE * line

    def end(self, number):
        """Where something ends that an event ends: at a crash beside the store's fall."""
        return self.y(number, self.falls.get(number, 0))


@dataclass
class Stay:
    """From when to when a client or a connection stands in a column."""
    first: int
    last: int
    column: tuple


class Columns:
    """A lane is a client's, a connection's, the store's or that of the outside; lanes stand in columns, in order from
    the left."""

    def __init__(self, run, rows, plan):
        self.rows, self.plan = rows, plan
        self.marks = [mark for mark in run.marks if rows.first <= mark.event <= rows.last]
        self.stays = {}         # of each client and connection, in order
        clients = self.share("client", self.requests(run)) if plan.shared else self.clients(run)
        sessions = [(one.number, one.opened, one.span.last or len(run.events)) for one in run.connections]
        connections = self.share("connection", sessions, plan.again)
        outside = [OUTSIDE] if any(mark.lane == OUTSIDE for mark in self.marks) else []
        self.order = clients + connections + [STORE] + outside
        self.in_column, self.begins = {}, {}    # of each column the stays, in order; of each lane their first events
        for lane, stays in self.stays.items():
            self.begins[lane] = [stay.first for stay in stays]
            for stay in stays:
                self.in_column.setdefault(stay.column, []).append((stay, lane))
        for stays in self.in_column.values():
            stays.sort(key=lambda one: one[0].first)
        self.measure(max([len(span.text) for span in run.spans if span.kind == "call"], default=1))

    def is_seen(self, first, last):
        return first <= self.rows.last and last >= self.rows.first

    def requests(self, run):
        """(client, first event, last event) of each slot that a request held."""
        held = [(one.client, one.held, one.last or len(run.events)) for one in run.requests if one.held]
        return sorted(held, key=lambda one: one[1])

    def clients(self, run):
        """A column for each client that does something in the window."""
        seen = {mark.lane for mark in self.marks if mark.lane[0] == "client"}
        seen |= {("client", one.client) for one in run.requests if self.is_seen(one.first, one.last or len(run.events))}
        for lane in seen:
            self.stays[lane] = [Stay(1, len(run.events), lane)]
        return sorted(seen)

    def share(self, kind, stays, again=True):
        """Columns for (whose, first event, last event), in order; a free one is used again, if it may be."""
        free, last_of = [], {}      # the last event of each column's last stay; the last column of each
        for whose, first, last in stays:
            if not self.is_seen(first, last):
                continue
            ready = [at for at, until in enumerate(free) if again and until < first]
            at = last_of.get(whose) if last_of.get(whose) in ready else ready[0] if ready else len(free)
            free[at:at + 1], last_of[whose] = [last], at
            self.stays.setdefault((kind, whose), []).append(Stay(first, last, (kind + "s", at)))
        return [(kind + "s", at) for at in range(len(free))]

    def measure(self, digits):
        """The width of each column by its longest label."""
        need = {column: 0 for column in self.order}
        for mark in self.marks:
            column = self.column_of(mark.lane, mark.event)
            if column:
                need[column] = max(need[column], len(self.label(mark)))
        for lane, stays in self.stays.items():
            for stay in stays:
                need[stay.column] = max(need[stay.column], len(self.name(lane)))
        self.left, self.axis, self.bar, x = {}, {}, {}, 6
        for column in self.order:
            self.left[column], width = x, SMALL * need[column]
            whose = column[0] in ("client", "clients")
            x = self.place_client(column, x, width, digits) if whose else self.place(column, x, width)
        self.width = round(x)

    def place_client(self, column, x, width, digits):
        """The call's number and bar, the labels, the marks, and room for arrows."""
        if self.plan.bars:
            self.bar[column] = x + 6.2 * digits + 6
            x = self.bar[column] + 8
        self.axis[column] = x + width + 13
        return self.axis[column] + self.plan.gap

    def place(self, column, x, width):
        """The marks and the labels; a session's column has room for crosses before it."""
        self.axis[column] = x + (14 if self.plan.bars else 10)
        return self.axis[column] + width + (27 if self.plan.bars else 20)

    def label(self, mark):
        plan = self.plan
        if mark.lane in (STORE, OUTSIDE) and plan.label < STORE_LABEL:
            plan = STORE_PLAN
        if plan.bars and mark.labels and not plan.fitting(mark.labels):
            return mark.labels[-1][:plan.label - 1] + "\u2026"
        return plan.fitting(mark.labels)

    def name(self, lane):
        kind, number = lane
        names = {"client": (f"client {number}", f"c{number}"),
                 "connection": (f"connection {number}", f"conn {number}", str(number))}[kind]
        return self.plan.fitting(names)

    def stay(self, lane, event):
        """The stay that a client or a connection has at an event, or None."""
        at = bisect_right(self.begins.get(lane, []), event) - 1
        return self.stays[lane][at] if at >= 0 and event <= self.stays[lane][at].last else None

    def column_of(self, lane, event):
        if lane in (STORE, OUTSIDE):
            return lane if lane in self.order else None
        stay = self.stay(lane, event)
        return stay and stay.column

    def x(self, lane, event):
        """A lane's axis, or None where it has none at an event."""
        return self.axis.get(self.column_of(lane, event))


def arrange(run, window):
    """(rows, columns) by the first plan that a screen has room for, else by the narrowest."""
    rows = None
    for plan in PLANS:
        if rows is None or rows.line != plan.line:
            rows = Rows(run, window, plan.line)
        columns = Columns(run, rows, plan)
        if rows.width + columns.width <= WIDE:
            break
    return rows, columns
