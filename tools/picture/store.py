"""What the store took of each event: commits, blocks, alert lines, reservations of sequences, and openings.

The report lists what was stored, and not when. A commit is told by its session and the number of that session's
commits before it; a block by the first event that could have stored it; an alert line of a call that a crash stopped by
counting those that answered calls stored; a reservation of a sequence by the first value that is seen of it.
"""

from collections import Counter, defaultdict, deque

from . import words
from .files import need
from .run import STORE, Commit
from .tables import Tables, in_words

RESERVED = 16       # values of a sequence at once
RETENTION = 86_400  # ticks, where the document does not say
GATE = 3            # the device calls of a record before the one that makes its open gate durable


class Store:
    def __init__(self, run, document, report):
        service = document.get("service", {})
        self.run, self.schedule = run, document.get("schedule", [])
        self.entries = {tuple(entry["ltxid"]) for entry in report["entries"]}
        self.tables, self.final = Tables(document), report["tables"]
        self.changes = self.tables.changes_by_entry(report["entries"])
        self.blocks = {tuple(block) for block in report["blocked"]}
        self.lines = Counter(report["alerts"])
        self.surplus = self.lines - Counter(answered_lines(self.schedule, report))
        self.second, self.retention = service.get("standby", False), service.get("retention", RETENTION)
        self.forgotten = report.get("forgotten", 0)
        self.commits = defaultdict(int)     # of each session
        self.asked, self.blocked = set(), set()     # identifiers: that a question carried, and that it blocked
        self.starts = {sequence["name"]: sequence["start"] for sequence in document.get("sequences", [])}
        self.reserved = {}                  # of each sequence the last value that is
        self.incarnation, self.horizon = 0 if "image" in document else 1, 0     # 0: not known yet; none
        self.ended = deque()    # (incarnation, the tick at which it ended) of those whose outcomes are kept
        self.down = None                    # the span of the service's being down

    def mark(self, lane, shape, labels, tone, detail=""):
        """A mark below those that the event has in the store's lane, joined to the lane that it comes from."""
        line = self.lines_of_event()
        if lane and not line:
            self.run.span("link", lane).last = self.run.number
        self.run.mark(STORE, shape, labels, tone, detail, line)

    def lines_of_event(self):
        count = 0
        for mark in reversed(self.run.marks):
            if mark.event != self.run.number:
                break
            count += mark.lane == STORE
        return count

    def made(self, session):
        """A session was made; the first one tells how often the store of an image had been opened."""
        if not self.incarnation:
            self.incarnation = session[0]
            self.ended.append((session[0] - 1, 0))

    # What calls and outcomes store.

    def ran(self, lane, session, call, answers):
        """A session ran a call without the mark of a replay."""
        if answers[-1] == "committed":
            need(self.commit(lane, session), f"event {self.run.number} stores one more entry than the report tells")
        if call[0][0] == "alter":
            self.alert(lane, call[0][1])

    def reserve(self, lane, draws):
        for name, value in [draw[1:] for draw in draws if draw[0] == "seq"]:
            if value <= self.reserved.get(name, value - 1):
                continue
            start = self.starts.setdefault(name, value)     # an image's sequences are not told
            first = value - (value - start) % RESERVED
            self.reserved[name] = first + RESERVED - 1
            values = f"{first}-{self.reserved[name]}"
            self.mark(lane, "comb", (f"{name} {values}", values), "faint",
                      f"sequence {name}: the values {values} are reserved")

    def commit(self, lane, session):
        """Whether the report has the next entry of a session."""
        entry = (*session, self.commits[tuple(session)])
        if entry not in self.entries:
            return False
        self.commits[tuple(session)] += 1
        commit = Commit(self.run.number, words.identifier(entry), self.run.events[-1].whose, self.changes.get(entry))
        self.run.commits.append(commit)
        told = [f"transaction {commit.identifier} is stored", *in_words(commit.changes), *self.tables.wholes.get(entry, ())]
        self.mark(lane, "disk", (f"commit {commit.identifier}", commit.identifier), "ok", "\n".join(told))
        return True

    def alert(self, lane, line):
        need(self.lines[line] > 0, f"event {self.run.number} stores one more alert line than the report tells")
        self.lines[line] -= 1
        self.mark(lane, "flag", (f"alert {words.value(line)}", words.value(line)), "warn")

    def block(self, lane, asked, stands=True):
        """Whether a question stored the block of an identifier; a stopped one may have stored nothing."""
        asked = tuple(asked)
        self.asked.add(asked)
        if asked not in self.blocks or asked in self.blocked or not stands:
            return False
        self.blocked.add(asked)
        self.mark(lane, "lock", (f"block {words.identifier(asked)}", words.identifier(asked)), "ask")
        return True

    # What a crash leaves.

    def may_keep(self):
        """Whether the one record of a call that this crash stops may stand: its open gate was written."""
        word, _, after, pick = self.schedule[self.run.number - 1]
        gate = GATE + (GATE + 1 if word == "failover" and self.second else 0)
        return after > gate or after == gate and pick in (0, 2)

    def stop_outcome(self, lane, asked):
        return self.block(lane, asked, self.may_keep())

    def stop_call(self, lane, session, mark, call):
        if call[-1] == ["commit"]:
            return not mark and self.commit(lane, session)
        if call[0][0] != "alter" or not self.surplus[call[0][1]]:
            return False
        self.surplus[call[0][1]] -= 1
        self.alert(lane, call[0][1])
        return True

    def crash(self):
        """The service falls. Gives the line of its mark."""
        line = max(1, self.lines_of_event())
        self.run.mark(STORE, "bolt", ("CRASH",), "bad", line=line)
        if self.schedule[self.run.number - 1][0] == "failover":
            self.second = False
        if self.incarnation:
            self.ended.append((self.incarnation, self.run.tick))
        self.down = self.run.span("down", STORE)
        return line

    def open(self, incarnation):
        self.down.last, self.incarnation = self.run.number, incarnation
        self.mark(None, "open", (f"opened, {incarnation}",), "ok")
        wanted = 0
        while self.ended and self.run.tick - self.ended[0][1] > self.retention:
            wanted = 1 + self.ended.popleft()[0]
        if not self.horizon < wanted <= self.forgotten:
            return ""
        self.horizon = wanted
        self.mark(None, "horizon", (f"forgets below {wanted}", f"below {wanted}"), "ask",
                  f"outcomes of incarnations below {wanted} are forgotten")
        return f"; outcomes of incarnations below {wanted} are forgotten"

    # What is left at the end.

    def close(self):
        stored = sum(self.commits.values())
        need(stored == len(self.entries), f"the report has {len(self.entries)} entries, its events store {stored}")
        block = next(iter(self.blocks - self.asked), None)
        need(block is None, f"no event explains the block of {block}")
        line = next(iter(+self.lines), None)
        need(line is None, f"no event explains the alert line {line}")
        self.tables.close(self.final)


def answered_lines(schedule, report):
    """The lines of the `alter` calls that were answered."""
    ran = [item[4] for item in report["served"] if item[0] == "call"]
    for event, note in zip(schedule, report["notes"]):
        if event[0] == note[0] == "outside" and note[1] != "down":
            ran += event[1][:len(note[2])]
    return [call[0][1] for call in ran if call[0][0] == "alter"]
