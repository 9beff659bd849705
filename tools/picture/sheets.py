"""The picture in sheets, each of some rows, so that it prints on pages and a window of events can be shown alone."""

import json
from bisect import bisect_right

from .layout import BAND, LINE, folded
from .run import STORE
from .shapes import text

LANDSCAPE = 1000    # the width from which on a picture is printed across
RATIOS = {"landscape": 0.64, "portrait": 1.26}     # of a sheet's height to its width, on A4 and on letter
# What stands on paper above the first sheet, by the page's width: without sentences, and for each of them.
ABOVE = {"landscape": (0.2, 0.055), "portrait": (0.28, 0.09)}
HEAD = 44           # the height of a sheet's head: what a column has, and whose it is there
GROUP_LINE, NAME_LINE = 17, 36
HEADING = 175       # the width of the longest heading


class Sheets:
    def __init__(self, rows, columns, drawing, sentences=0):
        """For a page that has so many sentences above the picture."""
        self.rows, self.columns, self.drawing = rows, columns, drawing
        self.sides = (("left", rows.width), ("right", columns.width))
        width = rows.width + columns.width
        self.paper = "landscape" if width >= LANDSCAPE else "portrait"
        tallest = RATIOS[self.paper] * width - HEAD
        empty, each = ABOVE[self.paper]
        first = tallest - width * (empty + each * sentences)
        self.cuts = self.cut(first if first > tallest / 3 else tallest, tallest)

    def cut(self, first, tallest):
        """(the place of its first row, its top) of each sheet, and of the end. The first sheet and the others are not
        taller than this, unless one row is."""
        rows = self.rows
        starts = [rows.tops[group[0].number] - (BAND if group[0].number == rows.finish else 0) for group in rows.groups]
        starts = [0] + starts[1:] + [rows.height]
        cuts = [(0, 0)]
        for at in range(1, len(rows.groups)):
            if starts[at + 1] - cuts[-1][1] > (first if len(cuts) == 1 else tallest):
                cuts.append((at, starts[at]))
        return cuts + [(len(rows.groups), rows.height)]

    def all(self):
        if not self.rows.groups:
            yield '<p class="none">No event.</p>'
            return
        for (at, top), (end, bottom), pieces in zip(self.cuts, self.cuts[1:], self.pieces_by_sheet()):
            yield self.sheet((at, end), (top, bottom), pieces)

    def pieces_by_sheet(self):
        """The pieces that each sheet shows, in the order of their layers."""
        edges = [top for _, top in self.cuts[:-1]]
        found = [[] for _ in edges]
        for _, above, below, piece in self.drawing.pieces:
            first, last = bisect_right(edges, above) - 1, bisect_right(edges, below) - 1
            for at in range(max(first, 0), min(last + 1, len(found))):
                found[at].append(piece)
        return found

    def sheet(self, places, edges, pieces):
        (at, end), (top, bottom) = places, edges
        groups = self.rows.groups[at:end]
        drawn = {"numbers": [], "left": [], "right": []}
        self.finish(drawn, top, bottom)
        drawn["right"] += [f'<path class="axis" d="M{self.columns.axis[column]:g} {top:g}V{bottom:g}"/>'
                           for column in self.columns.order if not is_one_of_many(column)]
        for place in range(at, end):
            self.row(drawn, place, place == at)
        drawn["right"] += pieces
        heights = [[group[0].number, group[-1].number, self.rows.tops[group[0].number]] for group in groups]
        heights = json.dumps(heights + [[0, 0, bottom]], separators=(",", ":"))
        sizes = (("numbers", round(self.rows.number_end + 6)), *self.sides)
        parts = [f'<svg class="{kind}" viewBox="0 {top:g} {width} {bottom - top:g}" width="{width}" '
                 f'height="{bottom - top:g}">{"".join(drawn[kind])}</svg>' for kind, width in sizes]
        head = self.head("again", groups[0][0].number, groups[-1][-1].number)
        return (f'<div class="sheet" data-top="{top:g}" data-rows="{heights}">{head}'
                f'<div class="pair">{"".join(parts)}</div></div>')

    def finish(self, drawn, top, bottom):
        """The ground of what the program did after the schedule, and the line above it."""
        band = self.rows.band
        if band is None or band >= bottom:
            return
        begin = max(band, top)
        for kind, width in self.sides:
            drawn[kind].append(f'<rect class="finish" x="0" y="{begin:g}" width="{width}" '
                               f'height="{bottom - begin:g}"/>')
            if band >= top:
                drawn[kind].append(f'<path class="finishline" d="M0 {begin + 1:g}H{width}"/>')
        if band >= top:
            said = "THE FINISH, made by the program after the schedule"
            drawn["left"].append(text(10, band + 18, said, "strong"))

    def row(self, drawn, place, is_first):
        rows = self.rows
        group = rows.groups[place]
        event = group[0]
        number, top = event.number, rows.tops[event.number]
        if event.note == ["tick"]:
            for kind, width in self.sides:
                drawn[kind].append(f'<path class="tickline" d="M0 {top + 13:g}H{width}"/>')
        quiet = event.note[-1] in ("none", "tick") or folded(event.note) is not None
        tone = event.tone or ("faint" if quiet else "")
        numbers = f"{number}-{group[-1].number}" if len(group) > 1 else str(number)
        said = [text(rows.number_end, top + 17, numbers, "number end")]
        drawn["numbers"] += said
        is_same = place > 0 and rows.groups[place - 1][0].tick == event.tick
        if is_first or not is_same:     # the first row of a sheet has it again, on paper alone
            said.append(text(rows.tick_end, top + 17, str(event.tick), "faint end again" if is_same else "faint end"))
        said += [text(rows.words_left, top + 17 + LINE * at, line, "words " + tone)
                 for at, line in enumerate(rows.lines[number])]
        kind = "row bad" if tone == "bad" else "row"
        drawn["left"].append(f'<g id="e{number}" class="{kind}" data-e="{number}"><rect class="hover" x="0" '
                             f'y="{top:g}" width="{rows.width}" height="{LINE * len(rows.lines[number]) + 4}"/>'
                             f'{"".join(said)}</g>')

    # Heads.

    def top(self):
        """The head that stays in sight. Its names follow the rows that are seen."""
        return self.head("top", self.rows.first, self.rows.last)

    def head(self, kind, first, last):
        """Above the events from `first` to `last`: what the columns have, and whose they are there."""
        rows, columns = self.rows, self.columns
        said = (text(rows.number_end, NAME_LINE, "event", "strong end") +
                text(rows.tick_end, NAME_LINE, "tick", "strong end") +
                text(rows.words_left, NAME_LINE, "what happened", "strong"))
        names = [text(columns.left[column], GROUP_LINE, heading, "strong") for column, heading in self.headings()]
        names += [text(columns.left[column], NAME_LINE, self.name(column, first, last), "strong lane")
                  for column in columns.order]
        parts = [f'<svg class="{side}" viewBox="0 0 {width} {HEAD}" width="{width}" height="{HEAD}">{inside}</svg>'
                 for (side, width), inside in zip(self.sides, (said, "".join(names)))]
        return (f'<div class="pair head {kind}"><svg class="numbers" width="{round(rows.number_end + 6)}" '
                f'height="{HEAD}"></svg>{"".join(parts)}</div>')

    def headings(self):
        """The first column of each kind of which there are several, with the heading of them all."""
        seen = set()
        for column in self.columns.order:
            kind = "clients" if column[0] in ("client", "clients") else column[0]
            if kind not in seen and kind in ("clients", "connections"):
                seen.add(kind)
                yield column, self.heading(kind, column)

    def heading(self, kind, column):
        room = self.columns.left[STORE] - self.columns.left[column]
        return "connections and sessions" if kind == "connections" and room > HEADING else \
            "sessions" if kind == "connections" else "clients"

    def name(self, column, first, last):
        """Of the first that stands in a column between two events."""
        if column not in self.columns.in_column:
            return column[0]
        return next((self.columns.name(lane) for stay, lane in self.columns.in_column[column]
                     if stay.first <= last and stay.last >= first), "")

    def lanes(self):
        """For each column who stands in it when: [top, bottom, name]; nothing of the store's and the one outside."""
        rows, columns = self.rows, self.columns
        return [[[round(rows.y(stay.first)), round(rows.y(stay.last)), columns.name(lane)]
                 for stay, lane in columns.in_column.get(column, [])] for column in columns.order]


def is_one_of_many(column):
    """Columns of clients that share them, and of connections, have no axis."""
    return column[0] in ("clients", "connections")
