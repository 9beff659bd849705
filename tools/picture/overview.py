"""Where in a run its outages, errors and commits are: a strip beside the picture, and a bar of the whole run."""

from .shapes import clean
from . import words

PARTS = 400         # of a strip
LONG = 60           # rows of a picture that has a strip
KINDS = ("bad", "ok")


def kinds(run):
    """For each event that has one: bad, an outage or an error; ok, a commit."""
    found = {commit.event: "ok" for commit in run.commits}
    found.update((event.number, "bad") for event in run.events if event.tone == "bad")
    return found


def strip(run, rows):
    """A picture of the drawn rows from top to bottom, whose parts lead to them. Nothing where they are few."""
    if len(rows.groups) < LONG:
        return ""
    parts = {}
    for event, kind in kinds(run).items():
        if rows.first <= event <= rows.last:
            at = int(PARTS * rows.tops[event] / rows.height)
            parts.setdefault((at, kind), event)
    links = [f'<a href="#e{rows.row_of[event]}" tabindex="-1"><title>event {event}</title>'
             f'<rect class="part {kind}" x="{9 * KINDS.index(kind)}" y="{at}" width="9" height="3"/></a>'
             for (at, kind), event in sorted(parts.items())]
    return (f'<svg id="strip" viewBox="0 0 18 {PARTS}" preserveAspectRatio="none" data-height="{rows.height:g}" '
            f'aria-label="overview">{"".join(links)}<rect id="seen" width="18" height="0"/></svg>')


def bar(run, first, last):
    """A picture of all events from left to right, where only those from `first` to `last` are drawn."""
    count = len(run.events)
    if (first, last) == (1, count) or not count:
        return ""
    scale, parts = PARTS / count, {}
    for event, kind in kinds(run).items():
        part = parts.setdefault((int(scale * (event - 1)), kind), [])
        part.append(event)
    drawn = (f'<rect class="drawn" x="{scale * (first - 1):g}" width="{max(scale * (last - first + 1), 1):g}" '
             f'height="20"/>')
    found = [f'<rect class="part {kind}" x="{at}" y="{2 + 9 * KINDS.index(kind)}" width="1" height="7"><title>'
             f'{clean(told(kind, events))}</title></rect>' for (at, kind), events in sorted(parts.items())]
    return (f'<svg class="whole" viewBox="0 0 {PARTS} 20" preserveAspectRatio="none" role="img" '
            f'aria-label="the whole run">{drawn}{"".join(found)}</svg>')


def told(kind, events):
    where = f"event {events[0]}" if len(events) == 1 else f"events {events[0]} to {events[-1]}"
    return f"{where}: {words.plural(len(events), 'commit' if kind == 'ok' else 'outage or error')}"
