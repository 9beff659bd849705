"""What the service's sessions serve, and what cuts and crashes do to them and to frames on their way."""

from . import words
from .files import need
from .run import REPLIES
from .store import Store

CARRIES = {"call": 4, "blocked": 3, "outcome": 3, "crashed": -1}    # where an item has the call or the identifier


class Sessions:
    def __init__(self, run, document, report):
        self.run, self.store = run, Store(run, document, report)
        self.items = {item[1]: item for item in report["served"]}
        need(len(self.items) == len(report["served"]), "two served items are of one event")

    def close(self):
        need(not self.items, f"no note is of the served item {next(iter(self.items.values()), None)}")
        self.store.close()

    def serve(self, number, word):
        if word == "none":
            return f"connection {number} has nothing to serve"
        connection = self.run.connections[number - 1]
        need(connection.living and connection.up and connection.up[0].name == word,
             f"event {self.run.number} serves {word} on connection {number}, where no such frame is")
        return self.serve_first(connection)

    def serve_first(self, connection):
        frame, item = self.run.take(connection.up), self.items.pop(self.run.number)
        if item[0] == "connect":
            connection.session = tuple(item[2])
        self.run.whose(frame.client, connection)
        fits = item[0] in (frame.name, "refused", "crashed") or (item[0], frame.name) == ("blocked", "call")
        need(fits and tuple(item[2]) == connection.session, f"event {self.run.number} serves {frame.name} on "
             f"connection {connection.number}, the served item is {item}")
        place = CARRIES.get(item[0])
        need(place is None or item[place] == frame.content, f"event {self.run.number} serves another {frame.name} than "
             f"client {frame.client} sent")
        who = ("orphan " if connection.cut else "") + f"session {words.session(item[2])}"
        return getattr(self, "on_" + item[0])(connection, ("connection", connection.number), frame, who, item)

    def reply(self, connection, item, said, name=None, mark=False):
        return self.run.send_down(connection, name or REPLIES[item[0]], said, item, mark)

    def tell(self, connection, frame, text):
        """The request that sent the frame is told of, where its session was lost."""
        whose = "its lost session" if connection.cut else "its session"
        self.run.latest[frame.client].tell(self.run.number, "session", f"{whose} {text} at {{}}", self.run.number)

    def on_connect(self, connection, lane, frame, who, item):
        self.store.made(item[2])
        session = words.session(item[2])
        self.run.mark(lane, "ring", (f"session {session}", session))
        return f"{who} is made on connection {connection.number}{self.reply(connection, item, 'hello')}"

    def on_begin(self, connection, lane, frame, who, item):
        self.run.mark(lane, "small", ("begin",), "faint")
        return f"{who} begins a request"

    def on_end(self, connection, lane, frame, who, item):
        self.run.mark(lane, "small", ("end",), "faint")
        return f"{who} ends its request"

    def on_close(self, connection, lane, frame, who, item):
        self.run.mark(lane, "small", ("close",), "faint")
        self.run.end_session(connection)
        return f"{who} is closed"

    def on_call(self, connection, lane, frame, who, item):
        _, _, session, mark, call, answers, draws = item
        need(mark == frame.mark, f"event {self.run.number} serves {frame.words} with another mark than was sent")
        shape, tone = ("diamond", "replay") if mark else ("square", "call")
        self.run.mark(lane, shape, (words.brief_call(call), call[0][0]), tone)
        self.store.reserve(lane, draws)
        if not mark:
            self.store.ran(lane, session, call, answers)
        if not mark and answers[-1] == "committed" and connection.cut:
            self.tell(connection, frame, "committed")
        text = f"{who} runs {'again ' if mark else ''}call {frame.call}, {words.call(call)}: {words.answers(answers)}"
        return text + self.reply(connection, item, f"reply ({words.brief_answers(answers)})", mark=mark)

    def on_blocked(self, connection, lane, frame, who, item):
        self.run.mark(lane, "stop", ("blocked",), "bad")
        self.tell(connection, frame, "was refused its commit")
        lost = self.reply(connection, item, "blocked")
        self.run.end(connection, "answered Blocked")
        self.run.end_session(connection)
        return f"{who} may not commit: its identifier is blocked. The session ends{lost}"

    def on_refused(self, connection, lane, frame, who, item):
        self.run.mark(lane, "stop", ("refused",), "bad")
        lost = self.reply(connection, item, "refused")
        self.run.end(connection, "answered Refused")
        self.run.end_session(connection)
        return f"{who} refuses {frame.name}, and ends{lost}"

    def on_outcome(self, connection, lane, frame, who, item):
        _, _, _, asked, *result = item
        uncommitted = result[0] == "uncommitted"
        labels = {"uncommitted": ("not committed", "no"), "committed": ("committed", "yes")}
        self.run.mark(lane, "hexagon", labels.get(result[0], (result[0],)), "ask")
        blocks = uncommitted and self.store.block(lane, asked)
        name = "outcomeis" if result[0] in ("committed", "uncommitted") else "outcomerefused"
        return (f"{who} is asked for {words.identifier(asked)}: {words.outcome(result)}"
                f"{'; it is blocked, so that it never can be' if blocks else ''}"
                f"{self.reply(connection, item, words.outcome(result), name)}")

    def on_crashed(self, connection, lane, frame, who, item):
        self.run.mark(lane, "bolt", ("stopped",), "bad")
        if frame.name == "outcome":
            what, kept = words.identifier(item[3]), self.store.stop_outcome(lane, item[3])
        else:
            what, kept = words.call(item[4]), self.store.stop_call(lane, item[2], item[3], item[4])
            if kept and item[4][-1] == ["commit"]:
                self.tell(connection, frame, "committed")
        return f"{who} is stopped inside {frame.words} ({what}); the store kept {'it' if kept else 'nothing of it'}"

    # Outages.

    def cut(self, number, up, down):
        lane = ("connection", number)
        if up == "none":
            return f"cut of connection {number}: it is not open"
        connection = self.run.connections[number - 1]
        need(connection.open, f"event {self.run.number} cuts connection {number}, which is not open")
        ways = ((connection.up, up, "server"), (connection.down, down, "client"))
        said, counts = zip(*(self.cut_way(*way) for way in ways))
        self.run.end(connection, "cut")
        connection.cut, connection.span.last = True, self.run.number
        connection.span = self.run.span("orphan", lane)
        self.run.mark(lane, "cut", (f"CUT, {sum(counts)} lost", "CUT") if sum(counts) else ("CUT",), "bad")
        return self.run.bad(f"CUT of connection {number}: {'; '.join(filter(None, said)) or 'nothing was on its way'}. "
                            "Its session lives on, an orphan")

    def cut_way(self, frames, arrived, whereto):
        """Of the frames on their way those arrive that lie whole in the bytes that do. Gives words, and how many are
        lost."""
        total = kept = 0
        for frame in frames:
            total += frame.size
            kept += total <= arrived
        lost = self.run.lose(frames, "cut", kept)
        said = f"to the {whereto} {arrived} of {total} bytes arrive" if total else ""
        return said + (f", lost: {', '.join(frame.words for frame in lost)}" if lost else ""), len(lost)

    def reap(self, number):
        lost = self.run.end_session(self.run.connections[number - 1])
        self.run.mark(("connection", number), "bar", ("rolled back", "ended"), "faint")
        unread = f"; unread: {', '.join(frame.words for frame in lost)}" if lost else ""
        return f"the orphan of connection {number} is ended and rolled back{unread}"

    def crash(self, number):
        said = ""
        if self.run.number in self.items:
            said = self.serve_first(self.run.connections[number - 1]) + ". "
        line, ended = self.store.crash(), 0
        for connection in self.run.around:
            if connection.living:
                ended += 1
                self.run.end_session(connection, "crash")
                self.run.mark(("connection", connection.number), "end", (), "bad", line=line)
            if not connection.cut:
                self.run.lose(connection.down, "crash")
            self.run.end(connection, "crash")
        self.run.around = []
        return self.run.bad(f"CRASH of the server: {said}{words.plural(ended, 'session')} and what was on the way "
                            "are lost")

    def drain(self, count):
        self.run.around = [one for one in self.run.around if one.open or one.living or one.down]
        idle = [connection for connection in self.run.around if connection.open and not connection.held]
        need(len(idle) == count, f"event {self.run.number} closes {count} idle connections of {len(idle)}")
        for connection in idle:
            self.run.send_up(connection, 0, "close")
            self.run.end(connection, "closed")
        return f"DRAIN: {words.plural(count, 'idle connection')} closed; the others close after their request"
