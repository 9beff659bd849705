"""The documents of the tests with the reports of their runs, and what a page of one holds."""

import copy
import functools
import itertools
import json
import os
import re
import sys
import xml.etree.ElementTree as ElementTree

HERE = os.path.dirname(os.path.abspath(__file__))
PICTURE = os.path.dirname(HERE)
sys.path.insert(0, os.path.dirname(PICTURE))

from picture.layout import arrange  # noqa: E402
from picture.page import page       # noqa: E402
from picture.walk import follow     # noqa: E402

with open(os.path.join(HERE, "runs.json"), encoding="utf-8") as file:
    RUNS = json.load(file)
SHOP = RUNS["the shop with eight clients"]


def of_each_run(test):
    """A test of one run is one of them all."""
    @functools.wraps(test)
    def of_all(case):
        for name, run in RUNS.items():
            with case.subTest(run=name):
                test(case, run)
    return of_all


def followed(run):
    return follow(run["document"], run["report"])


def drawn(run, **window):
    """A page's text, and its elements but the script."""
    text = page(run["document"], run["report"], **window)
    return text, ElementTree.fromstring(re.sub("<!DOCTYPE html>|(?s:<script>.*</script>)", "", text))


def arranged(run):
    followed_run = followed(run)
    window = len(run["document"].get("schedule", [])), 1, len(followed_run.events)
    return followed_run, *arrange(followed_run, window)


def words_of(root):
    return "".join(root.itertext()).replace("\n", " ")


def stretched(run, ticks):
    """The same run with `ticks` ticks before each event."""
    run = copy.deepcopy(run)
    for holder, name in ((run["document"], "schedule"), (run["report"], "notes")):
        holder[name] = [one for event in holder[name] for one in ticks * [["tick"]] + [event]]
    for item in run["report"]["served"]:
        item[1] *= ticks + 1
    return run


def changed_somewhere(chance, names):
    """One of these runs, in whose document or report something is another."""
    run = copy.deepcopy(RUNS[chance.choice(names)])
    at = run[chance.choice(["report", "report", "document"])]
    while isinstance(at, (list, dict)) and at:
        key = chance.choice(list(at) if isinstance(at, dict) else range(len(at)))
        if not isinstance(at[key], (list, dict)) or not at[key] or chance.random() < 0.1:
            at[key] = chance.choice([None, 0, 1, 2, 7, True, "none", "committed", [], [1], {}, {"done": 2}])
            break
        at = at[key]
    return run


def beside(run, clients):
    """The same run by so many clients at once, each on a connection of its own. It has to be one without an outage."""
    run, notes, at = copy.deepcopy(run), [], {}
    for word, group in itertools.groupby(enumerate(run["report"]["notes"], 1), lambda one: one[1][0]):
        group = list(group)
        for client in range(1, 1 + (1 if word == "tick" else clients)):
            for number, note in group:
                notes.append([client if place in (1, 3) else part for place, part in enumerate(note)])
                at[number, client] = len(notes)
    report, clients = run["report"], range(1, clients + 1)
    served = [[item[0], at[item[1], client], [1, client], *item[3:]] for item in report["served"] for client in clients]
    run["document"]["clients"] *= len(clients)
    report |= {"notes": notes, "served": sorted(served, key=lambda item: item[1]),
               "entries": [entry | {"ltxid": [1, client, 0]} for entry in report["entries"] for client in clients],
               "clients": [[one_client(request, client) for request in report["clients"][0]] for client in clients]}
    return run


def one_client(request, client):
    calls = [[answers, draws, [1, client, number]] for answers, draws, (_, _, number) in request["calls"]]
    return request | {"calls": calls}
