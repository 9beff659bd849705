"""The page: what a run did to its clients in words, a legend, the picture, each commit's rows, and the verdict; where it is
asked for, what `check` says of the report above all."""

import json
import os
import re
from dataclasses import dataclass

from . import words
from .check import Answer, Places
from .drawing import Drawing
from .files import DOCUMENT, FAULTS, REPORT, Misfit, with_lists
from .layout import arrange
from .overview import strip
from .sheets import Sheets
from .shapes import clean, definitions, legend
from .story import headline, story
from .tables import NO_ROW
from .verdict import verdict
from .walk import follow, follow_far
from .window import last_drawn, window

STORIES = 6         # sentences before the others are folded
MOST_STORIES = 100
SCRIPTS = ("picture", "details", "window", "names", "keys", "search")
KEYS = ("Point at a mark, or tab to it, for its details. Arrow keys: up and down go from event to event, left and "
        "right from outage to outage. After this page's address, <code>#100-180</code> shows these events alone.")


def page(document, report, first=1, last=None):
    """The HTML of a run, or of a window of its events. A Misfit where the report is not one of this document."""
    run = follow(document, report)
    return drawn((document, report), run, headline(run), (first, last))


def checked_page(document, report, answer, first=1, last=None):
    """The same with what `check` says of the report. The picture goes as far as the report fits its document."""
    files = document, report = with_lists(document, DOCUMENT), with_lists(report, REPORT)
    run, misfit = follow_far(document, report)
    place = Places(document, report, run).place(answer)
    if not misfit:
        return drawn(files, run, headline(run), (first, last), Checked(answer, place, len(run.events)))
    title, why = unfit(misfit, len(report["notes"]))
    if not run:
        return shell(title, "", f"<header><h1>{title}</h1>{Checked(answer, (place[0], 0), 0, why).said({})}</header>")
    count = len(run.events)
    return drawn(files, run, (title, []), (max(1, min(first, count)), last), Checked(answer, place, count, why))


def drawn(files, run, said, events, check=None):
    """The window of a run's events, below its title and sentences on these requests."""
    (document, report), (title, met), (first, last) = files, said, events
    last = last_drawn(run, first, last)
    rows, columns = arrange(run, (len(document.get("schedule", [])), first, last))
    seen = [request for request in met if request.first <= last and (request.last or last) >= first]
    sheets = Sheets(rows, columns, Drawing(run, rows, columns), min(len(seen), STORIES))
    lanes = clean(json.dumps(sheets.lanes(), separators=(",", ":")))
    return shell(title, f"@media print{{@page{{size:{sheets.paper}}}}}{check.style(rows.row_of) if check else ''}", f"""\
<svg width="0" height="0" class="defs"><defs>{definitions()}</defs></svg>
<header><h1>{clean(title)}</h1>{check.said(rows.row_of) if check else ""}{stories(run, seen, len(met), rows)}
<p class="note">{summary(run, document, report)} Time goes down. {KEYS} <a href="#verdict">The verdict</a> is at the
end.</p>{window(run, first, last)}{explained(sheets.drawing.seen, len(rows.row_of) == len(run.events))}</header>
<nav><label>Find <input type="search" id="search" placeholder="client 2, session (1,2) or [1,2,0]"/></label>
<output id="found"></output></nav>
<main data-lanes="{lanes}">{sheets.top()}{"".join(sheets.all())}</main>
<footer>{commits(run, rows)}{judged(report, run.stored)}</footer>
{strip(run, rows)}<aside id="details" aria-live="polite" hidden="hidden"></aside>
<script>(function () {{
{"".join(part(f"script/{name}.js") for name in SCRIPTS)}}}());</script>""")


def shell(title, style, body):
    return f"""<!DOCTYPE html>
<html lang="en"><head><meta charset="utf-8"/><meta name="viewport" content="width=device-width"/>
<title>{clean(title)}</title><style>{part("style.css")}{style}</style></head><body>
{body}</body></html>
"""


def part(name):
    with open(os.path.join(os.path.dirname(os.path.abspath(__file__)), name), encoding="utf-8") as file:
        return file.read()


# What `check` says.

@dataclass(frozen=True)
class Checked:
    answer: Answer
    place: tuple        # of the answer, in words, and its event or 0
    last: int           # the last event that can be drawn
    why: str = ""       # the report does not fit its document

    def said(self, row_of):
        """The answer, and where it is. Drawn events are linked."""
        answer, (where, event) = self.answer, self.place
        brief, means = answer.said()
        if answer.word == "yes":
            told = f'<strong class="ok">check: {brief}</strong>, {means}.'
        else:
            if event and event not in row_of:
                where += f", which --from {event} draws" if event <= self.last else ", where the picture does not come"
            told = f'<strong class="bad">check: {clean(brief)}</strong>'
            told += f" at <code>{clean(answer.path)}</code>" if answer.path else ""
            told += f" ({linked(clean(where), row_of)})" if where else ""
            told += f". {clean(means)}."
        return f'<p id="check">{told}{clean(self.why)}</p>'

    def style(self, row_of):
        """By this the row of the place stands out."""
        row = row_of.get(self.place[1])
        return f"#e{row} .hover{{fill:var(--live);stroke:var(--bad);stroke-width:2}}" if row else ""


def unfit(misfit, notes):
    """The title of a run whose report does not fit, and why it does not, of so many notes."""
    title = "The report does not fit its document"
    if not misfit.event:
        return title, f" Nothing can be drawn: {misfit}."
    if misfit.event > notes:
        return title, f" Each event fits, and the end does not: {misfit}."
    return f"{title} from event {misfit.event} on", f" The picture ends at event {misfit.event}: {misfit}."


# Above the picture.

def explained(seen, whole):
    """The legend, where there is a mark to explain. It is folded above a window, whose rows should be in sight."""
    if not seen:
        return ""
    unfolded = ' open="open"' if whole else ""
    return f'<details{unfolded}><summary>Legend</summary><ul class="legend">{legend(seen)}</ul></details>'


def stories(run, seen, met, rows):
    """A sentence for each of these requests, of which the window has a part; so many met an outage or an error."""
    several = any(request.place for request in run.requests)
    items = [f"<li>{linked(clean(story(request, several, run.stored)), rows.row_of)}.</li>" for request in seen[:MOST_STORIES]]
    rest = met - len(items)
    if rest:
        items.append(f"<li>{words.plural(rest, 'more request')} met an outage or an error, most of them outside of the "
                     "events that are drawn.</li>")
    more = items[STORIES:]
    folded = f"<details><summary>{len(more)} more</summary><ul>{''.join(more)}</ul></details>" if more else ""
    return f"<ul>{''.join(items[:STORIES])}</ul>{folded}"


def linked(said, row_of):
    """Each event that is drawn becomes a link to its row."""
    def link(found):
        row = row_of.get(int(found[1]))
        return f'<a href="#e{row}">{found[0]}</a>' if row else found[0]
    return re.sub(r"\bevent (\d+)", link, said)


def summary(run, document, report):
    return (f"{words.plural(len(run.events), 'event')}, {len(document.get('schedule', []))} of them in the schedule; "
            f"{words.plural(sum(not request.again for request in run.requests), 'request')} of "
            f"{words.plural(len(document['clients']), 'client')}; "
            f"{words.plural(len(report['entries']), 'commit')} in the store.")


# Below it.

def commits(run, rows):
    """The rows that each commit of the window changed."""
    seen = [commit for commit in run.commits if rows.first <= commit.event <= rows.last and commit.changes]
    if not seen:
        return ""
    body = "".join(row for commit in seen for row in commit_rows(commit, rows))
    return ('<details open="open"><summary>The tables before and after each commit: the rows that it changed</summary>'
            "<table><thead><tr><th>event</th><th>transaction</th><th>by</th><th>table</th><th>before</th><th>after</th>"
            f"</tr></thead><tbody>{body}</tbody></table></details>")


def commit_rows(commit, rows):
    """The first row names the commit; each has a row of a table."""
    named = (linked(f"event {commit.event}", rows.row_of), commit.identifier, clean(commit.whose or "from outside"))
    for table, before, after in commit.changes:
        cells = [cell(one) for one in (table, before, after)]
        yield f"<tr>{''.join(f'<td>{one}</td>' for one in named)}{''.join(cells)}</tr>"
        named = ("", "", "")


def cell(said):
    return f'<td class="{"absent" if said == NO_ROW else "row"}">{clean(said)}</td>'


def judged(report, stored):
    try:
        title, lines = verdict(report["clients"], stored)
    except (Misfit, *FAULTS) as why:    # of a run that does not fit as a whole
        title, lines = "none is possible", [str(why)]
    items = "".join(f"<li>{clean(one)}.</li>" for one in lines)
    return f'<section id="verdict"><h2>Verdict: {clean(title)}.</h2><ul>{items}</ul></section>'
