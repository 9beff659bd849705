"""Which events of a run are drawn, and what the page says of it."""

from itertools import accumulate

from .files import need
from .overview import bar

MOST = 4000     # rows, marks and frames of a page that is given no last event: about 2 MB
ASK = ("Draw others by <code>--from EVENT --to EVENT</code>; without <code>--to</code>, as many are drawn as make a "
       "page below 3 MB. The bar is the whole run: above outages and errors, below commits.")


def last_drawn(run, first, last):
    """The last event of a window, where it may be asked for."""
    there = len(run.events)
    need(first <= max(there, 1), f"there is no event {first}; the run has {there}")
    if last:
        return min(last, there)
    weights = [1] * (there + 1)
    for mark in run.marks:
        weights[mark.event] += 1
    for frame in run.frames:
        weights[frame.sent] += 1
    fitting = sum(total <= MOST for total in accumulate(weights[first:]))
    return min(first + max(fitting, 1) - 1, there)


def window(run, first, last):
    """Which events are drawn, where it is not all of them."""
    count = len(run.events)
    if (first, last) == (1, count) or not count:
        return ""
    return (f'<p class="window">Events {first} to {last} of {count} are drawn here. {ASK}</p>'
            f"{bar(run, first, last)}")
