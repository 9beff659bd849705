"""What is drawn of a run (events, marks, spans, frames), and where its links stand at the event that is followed."""

from collections import deque
from dataclasses import dataclass

from . import sizes, words

REPLIES = {"connect": "hello", "call": "reply", "blocked": "blocked", "refused": "refused"}
STORE = ("store",)
OUTSIDE = ("outside",)


@dataclass
class Event:
    number: int
    tick: int
    note: list
    words: str = ""
    tone: str = ""      # bad: an outage or an error
    whose: str = ""     # client, connection and session


@dataclass
class Mark:
    event: int
    lane: tuple         # ("client", number), ("connection", number), STORE or OUTSIDE
    shape: str
    labels: tuple       # from the one that tells most to the shortest
    tone: str
    detail: str
    line: int           # of the event's row


@dataclass
class Span:
    """call: submitted and not yet shown. session, orphan: of a connection. down: of the store. link: from a mark to
    the store's. waiting, live, recovering, replaying: what goes on with a request."""
    kind: str
    lane: tuple
    first: int
    last: int = 0       # 0: to the end of the run
    text: str = ""


@dataclass
class Frame:
    name: str
    up: bool            # from a client to its session
    connection: int
    client: int         # 0: the pool
    sent: int           # the event that sent it
    size: int
    words: str
    content: object     # of a call, an outcome's question, or the item that a reply answers
    call: int           # the place of the call in its request
    mark: bool          # it belongs to a replay
    ended: int = 0      # the event that took or lost it; 0: none
    fate: str = "waits"     # taken, cut, crash, unread, nowhere, waits


@dataclass(frozen=True)
class Commit:
    event: int
    identifier: str
    whose: str          # "" of a session from outside
    changes: list       # (table, row before, row after); None where they are not known


@dataclass
class Connection:
    number: int
    opened: int
    client: int         # the last one that held it
    span: Span          # of its session, or of the orphan that this became
    up: deque
    down: deque
    session: tuple = ()
    told: tuple = ()    # the identifier that a client was told last on it
    held: bool = True   # by a client
    open: bool = True
    living: bool = True
    cut: bool = False
    end: tuple = ()     # the event that ended it, and how


class Run:
    def __init__(self):
        self.events, self.marks, self.spans, self.frames = [], [], [], []
        self.connections, self.requests = [], []
        self.commits, self.stored = [], None    # of each submission, for the verdict
        self.around = []        # the connections that a crash or a drain may still touch
        self.latest = {}        # of each client the last request that it began
        self.number = self.tick = 0     # of the event that is followed

    def mark(self, lane, shape, labels, tone="", detail="", line=0):
        self.marks.append(Mark(self.number, lane, shape, labels, tone, detail, line))

    def span(self, kind, lane, text=""):
        self.spans.append(Span(kind, lane, self.number, 0, text))
        return self.spans[-1]

    def bad(self, text):
        self.events[-1].tone = "bad"
        return text

    def whose(self, client, connection):
        """Tells whose the event is."""
        said = [f"client {client}"] if client else []
        if connection:
            said.append(f"connection {connection.number}")
            said += [f"session {words.session(connection.session)}"] if connection.session else []
        self.events[-1].whose = ", ".join(said)

    def open(self, client):
        number = len(self.connections) + 1
        span = self.span("session", ("connection", number))
        connection = Connection(number, self.number, client, span, deque(), deque())
        self.connections.append(connection)
        self.around.append(connection)
        return connection

    def begin(self, request):
        self.requests.append(request)
        self.latest[request.client] = request

    def send_up(self, connection, client, name, said="", content=None, settings=(), call=-1, kept=None):
        """A frame sets out to the session; one with kept draws belongs to a replay."""
        size = sizes.up(name, settings, content, kept or ())
        self.send(connection, Frame(name, True, connection.number, client, self.number, size, said or name, content,
                                    call, kept is not None))

    def send_down(self, connection, name, said, item, mark=False):
        """A reply sets out. Gives what becomes of it where nobody is there any more to take it."""
        frame = Frame(name, False, connection.number, connection.client, self.number, sizes.down(name, item), said,
                      item, -1, mark)
        self.send(connection, frame)
        if connection.open:
            return ""
        connection.down.pop()
        frame.ended, frame.fate = self.number, "nowhere"
        return "; its reply goes nowhere"

    def send(self, connection, frame):
        self.frames.append(frame)
        (connection.up if frame.up else connection.down).append(frame)

    def take(self, frames):
        """The first of these frames arrives."""
        frame = frames.popleft()
        frame.ended, frame.fate = self.number, "taken"
        return frame

    def lose(self, frames, fate, kept=0):
        """All but the first `kept` frames are lost by this event."""
        lost = [frames.pop() for _ in range(len(frames) - kept)][::-1]
        for frame in lost:
            frame.ended, frame.fate = self.number, fate
        return lost

    def end(self, connection, how):
        if connection.open:
            connection.open, connection.end = False, (self.number, how)

    def end_session(self, connection, fate="unread"):
        connection.living, connection.span.last = False, self.number
        return self.lose(connection.up, fate)
