"""The shapes of the marks, the patterns and the legend."""

import re
from html import escape

SHAPES = {
    "small": '<circle r="3.5"/>',
    "ring": '<circle r="5" class="hollow"/>',
    "square": '<rect x="-6" y="-6" width="12" height="12" rx="1.5"/>',
    "check": '<rect x="-7" y="-7" width="14" height="14" rx="3"/><path class="cutout" d="M-3.5 0 -1 3 4-3"/>',
    "diamond": '<path class="hollow" d="M0-7.5 7.5 0 0 7.5-7.5 0z"/><path d="M0-3 3 0 0 3-3 0z"/>',
    "hexagon": '<path d="M-4-7h8l4 7-4 7h-8l-4-7z"/><path class="cutout" d="M-2.4-1.6c0-3.4 5-3.2 5-.4 0 1.8-2.5 '
               '1.6-2.5 3.4M.1 3.9v.6"/>',
    "cross": '<path class="line" d="M-5-5 5 5M-5 5 5-5"/>',
    "cut": '<path class="line" d="M-8 2 8-6M-8 6 8-2"/>',
    "fail": '<path d="M-3.5-8.5h7l5 5v7l-5 5h-7l-5-5v-7z"/>'
            '<path class="cutout" d="M-3.5-3.5 3.5 3.5M-3.5 3.5 3.5-3.5"/>',
    "stop": '<path d="M-3-7h6l4 4v6l-4 4h-6l-4-4v-6z"/><path class="cutout" d="M-4 0h8"/>',
    "lock": '<path d="M-6-1.5H6v8.5h-12z"/><path class="line" d="M-3.5-1.5v-2.5a3.5 3.5 0 0 1 7 0v2.5"/>',
    "bolt": '<path d="M2-9-6 2h5L-3 9 6-2H1z"/>',
    "disk": '<path d="M-6-5v10a6 2.6 0 0 0 12 0v-10z"/><ellipse cy="-5" rx="6" ry="2.6" class="hollow"/>',
    "flag": '<path d="M0-7 7.5 6h-15z"/><path class="cutout" d="M0-2.5v4M0 3.8v.4"/>',
    "comb": '<path class="line" d="M-6 3.5H6M-6 3.5v-6M-2 3.5v-4M2 3.5v-4M6 3.5v-6"/>',
    "open": '<circle r="6" class="hollow"/><path class="line" d="M0 3.5v-7M-3-.5 0-3.5 3-.5"/>',
    "horizon": '<path class="line" d="M-7 2H7"/><path d="M-4.5 0a4.5 4.5 0 0 1 9 0z"/>',
    "bar": '<path class="line" d="M-6 0h12"/>',
    "end": '<path class="line" d="M-5-5 5 5M-5 5 5-5"/>',
}
LEGEND = (
    ("ring", "", "opens or is lent a connection; gets a session"),
    ("square", "call", "a session runs a call"),
    ("check", "ok", "the client is shown an answer"),
    ("cut", "bad", "the connection is cut; dashed: the session lives on, an orphan"),
    ("cross", "bad", "a client finds its connection lost; a frame is lost"),
    ("hexagon", "ask", "the outcome is asked: was it committed?"),
    ("diamond", "replay", "a replayed call, and its same answer"),
    ("stop", "bad", "a commit refused: its identifier is blocked"),
    ("fail", "bad", "an ERROR is shown to the client"),
    ("disk", "ok", "the store takes a commit"),
    ("lock", "ask", "the store blocks an identifier"),
    ("comb", "faint", "the next 16 values of a sequence are reserved"),
    ("flag", "warn", "an alert line is stored"),
    ("bolt", "bad", "the server crashes; hatched: it is down"),
    ("open", "ok", "the store is opened again"),
    ("horizon", "ask", "older outcomes are forgotten"),
)
PHASES = (("live", "a request runs"), ("recovering", "it has lost its connection"),
          ("replaying", "its calls are replayed"), ("waiting", "it waits for the pool or its session"))
FRAMES = (("up", "a frame to the server"), ("down", "a reply"), ("marked", "a replayed call and its reply"),
          ("lost", "a frame that is lost"))
PATTERNS = (("recovering", 45), ("replaying", 0), ("down", -45))
ARROWS = ("up", "down", "marked")


def clean(string):
    """What HTML and XML may hold, in characters that are one column wide."""
    return escape(re.sub("[^\n -~\u2026]", "?", string))


def use(shape, tone, x, y):
    return f'<use href="#s-{shape}" class="{tone or "plain"}" x="{x:g}" y="{y:g}"/>'


def text(x, y, string, kind=""):
    return f'<text x="{x:g}" y="{y:g}" class="{kind}">{clean(string)}</text>'


def definitions():
    symbols = [f'<g id="s-{name}">{shape}</g>' for name, shape in SHAPES.items()]
    patterns = [f'<pattern id="p-{name}" width="6" height="6" patternUnits="userSpaceOnUse" '
                f'patternTransform="rotate({turn})"><path class="p-{name}" d="M0 3h6"/></pattern>'
                for name, turn in PATTERNS]
    arrows = [f'<marker id="m-{name}" viewBox="0 0 8 8" refX="7" refY="4" markerWidth="9" markerHeight="9" '
              f'markerUnits="userSpaceOnUse" orient="auto"><path class="m-{name}" d="M0 0 8 4 0 8z"/></marker>'
              for name in ARROWS]
    return "".join(symbols + patterns + arrows)


def legend(seen):
    """Of the shapes that a picture has, and of what a client's bar and the arrows mean."""
    icon = '<svg width="22" height="20" viewBox="-11 -10 22 20">{}</svg>'
    items = [icon.format(use(shape, tone, 0, 0)) + clean(said) for shape, tone, said in LEGEND if shape in seen]
    items += [icon.format(f'<rect class="{kind}" x="-7" y="-10" width="14" height="20"/>') + said
              for kind, said in PHASES if kind in seen]
    items += [icon.format(f'<path class="{kind}" d="M-10 0H8"/>') + said for kind, said in FRAMES if kind in seen]
    return "".join(f"<li>{item}</li>" for item in items)
