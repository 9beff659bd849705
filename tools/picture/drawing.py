"""What stands in the lanes, as pieces of SVG that each know from where to where they reach."""

import json

from . import words
from .run import STORE
from .shapes import clean, text, use

CLIENT_EDGE, SESSION_EDGE, CROSS = 9, 8, 13     # from an axis to an arrow's end, and between lost frames
FATES = {"taken": "taken at event {}", "cut": "lost by the cut at event {}", "crash": "lost by the crash at event {}",
         "unread": "not read before its session ended at event {}", "waits": "never read",
         "nowhere": "its connection had ended, it goes nowhere"}


class Drawing:
    """Pieces are (layer, top, bottom, SVG); layers are drawn in their order."""

    def __init__(self, run, rows, columns):
        self.run, self.rows, self.columns = run, rows, columns
        self.pieces, self.seen = [], set()      # the shapes and kinds that the legend has to explain
        self.label_ends, self.named, self.crosses = {}, set(), {}
        for mark in columns.marks:
            self.mark(mark)
        for span in run.spans:
            self.span(span)
        for frame in run.frames:
            self.frame(frame)
        self.pieces.sort(key=lambda piece: piece[0])

    def add(self, layer, top, bottom, string):
        if bottom >= 0 and top <= self.rows.height:
            self.pieces.append((layer, top, bottom, string))

    # Marks.

    def mark(self, mark):
        x, y = self.columns.x(mark.lane, mark.event), self.rows.y(mark.event, mark.line)
        if x is None:
            return
        self.seen.add(mark.shape)
        if mark.lane == STORE and mark.shape == "bolt" and self.run.events[mark.event - 1].note[0] == "crash":
            self.fall(y)
        title = self.title(mark)
        self.add(5, y - 10, y + 10, f'<g class="mark" tabindex="0" role="img" data-e="{self.rows.row_of[mark.event]}">'
                 f'<title>{clean(title)}</title>{use(mark.shape, mark.tone, x, y)}</g>')
        label, kind = self.label(mark)
        before = mark.lane[0] == "client"
        if label:
            self.add(6, y, y, text(x - 13 if before else x + 13, y + 4, label, kind + (" end" if before else "")))
        self.label_ends.setdefault((mark.lane, mark.event), x + 17 + 6.7 * len(label))

    def title(self, mark):
        event = self.run.events[mark.event - 1]
        said = [f"event {mark.event}, tick {event.tick}: {json.dumps(event.note)}", event.words, event.whose,
                mark.detail]
        return "\n".join(filter(None, said))

    def label(self, mark):
        """A mark's label and how it is written. In a column that clients share the first one names the client."""
        if self.columns.plan.shared and mark.lane[0] == "client":
            stay = mark.lane, self.columns.stay(mark.lane, mark.event).first
            if stay not in self.named:
                self.named.add(stay)
                return self.columns.name(mark.lane), "strong"
        return self.columns.label(mark), mark.tone

    def fall(self, y):
        """All sessions end with the service."""
        sessions = [column for column in self.columns.order if column[0] == "connections"]
        if not sessions:
            return
        x, end, points = self.columns.left[sessions[0]], self.columns.axis[STORE], []
        while x < end:
            points.append(f"{x:g} {y + (-4 if len(points) % 2 else 4):g}")
            x += 8
        self.add(3, y - 8, y + 8, f'<path class="zigzag" d="M{"L".join(points)}"/>')

    # Spans.

    def span(self, span):
        last = span.last or len(self.run.events)
        if not self.columns.is_seen(span.first, last):
            return
        x = self.columns.x(span.lane, last)
        if x is None:
            return
        first = span.first
        if span.lane[0] == "client":
            first = max(first, self.columns.stay(span.lane, last).first)
        top, bottom = self.rows.y(first), self.rows.end(span.last or self.rows.last + 1)
        getattr(self, "draw_" + span.kind, self.draw_phase)(span, first, x, top, bottom)

    def draw_session(self, span, first, x, top, bottom):
        self.add(2, top, bottom, f'<path class="{span.kind}" d="M{x:g} {top:g}V{bottom:g}"/>')
        if span.kind == "session" and first >= self.rows.first:
            self.add(6, top, top, text(x + 13, top + 4, self.columns.name(span.lane), "name"))

    draw_orphan = draw_session

    def draw_link(self, span, first, x, top, bottom):
        """From a mark's label to the store, or from the store's label to a mark outside."""
        store = self.columns.axis[STORE]
        begin = self.label_ends[span.lane if x < store else STORE, first]
        self.add(3, top, top, f'<path class="link" d="M{begin:g} {top:g}H{store if x < store else x - 8:g}"/>')

    def draw_call(self, span, first, x, top, bottom):
        bar = self.columns.bar.get(self.columns.column_of(span.lane, first))
        if bar is None:
            return
        self.add(2, top, bottom, f'<path class="callbar" d="M{bar:g} {top - 5:g}V{bottom - 9:g}"/>')
        if first >= self.rows.first:
            self.add(6, top, top, text(bar - 4, top + 4, span.text, "call end"))

    def draw_down(self, span, first, x, top, bottom):
        self.bar(span.kind, x, 4, self.rows.end(first), bottom)

    def draw_phase(self, span, first, x, top, bottom):
        self.seen.add(span.kind)
        self.bar(span.kind, x, 7, top, bottom)

    def bar(self, kind, x, half, top, bottom):
        self.add(1, top, bottom, f'<rect class="{kind}" x="{x - half:g}" y="{top:g}" width="{2 * half}" '
                                 f'height="{max(bottom - top, 0):g}" rx="3"/>')

    # Frames.

    def frame(self, frame):
        if not self.columns.is_seen(frame.sent, frame.ended or frame.sent):
            return
        session = self.columns.x(("connection", frame.connection), frame.sent)
        if session is None:
            return
        lost = frame.fate not in ("taken", "waits")
        kind = "lost" if lost else "marked" if frame.mark else "up" if frame.up else "down"
        self.seen.add(kind)
        x1, y1, x2, y2 = self.ends(frame, lost, session)
        path = f"M{x1:g} {y1:g}L{x2:g} {y2:g}"
        self.add(4, min(y1, y2) - 8, max(y1, y2) + 8, f'<g class="frame"><title>{clean(frame_title(frame))}</title>'
                 f'<path class="hit" d="{path}"/><path class="{kind}" d="{path}"/>'
                 f'{use("cross", "bad", x2, y2) if lost else ""}</g>')

    def ends(self, frame, lost, session):
        """From where to where its arrow goes. A lost frame ends at a cross beside the connection's lane."""
        client = self.columns.x(("client", frame.client), frame.sent if frame.up else frame.ended)
        client = session - 24 if client is None else client + CLIENT_EDGE    # the pool has no lane
        top = self.rows.y(frame.sent)
        bottom = {"taken": self.rows.y, "waits": lambda _: top + 12, "nowhere": lambda _: top}.get(
            frame.fate, self.rows.end)(frame.ended)
        if lost:
            place = frame.ended, frame.connection
            self.crosses[place] = self.crosses.get(place, 0) + 1
            return (client if frame.up else session - 7), top, session - 8 - CROSS * self.crosses[place], bottom
        if frame.up:
            return client, top, session - SESSION_EDGE, bottom
        return session - SESSION_EDGE, top, client, bottom


def frame_title(frame):
    whose = f"client {frame.client}" if frame.client else "the pool"
    replayed = "replayed " if frame.mark and frame.up else ""
    return (f"{replayed}{frame.name}: {frame.words}\n{words.plural(frame.size, 'byte')} "
            f"{'from' if frame.up else 'to'} {whose}, connection {frame.connection}\n"
            f"sent at event {frame.sent}, {FATES[frame.fate].format(frame.ended)}")
