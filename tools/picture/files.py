"""The two files that a picture is made of, and which request each request's report is of."""

import json

FAULTS = (AttributeError, IndexError, KeyError, TypeError, ValueError)     # of a file that is no report
SUBMITTED_AGAIN = ("disabled", "mismatch", "replays", "replaytimeout")
DOCUMENT = ("clients",)
REPORT = ("alerts", "blocked", "clients", "entries", "notes", "served", "tables")


class Misfit(Exception):
    """The files do not fit each other, or are not what they should be."""

    event = 0       # up to before this one they do; 0: not at all


def need(condition, text):
    if not condition:
        raise Misfit(text)


def read(path):
    """The bytes of a file, and the JSON object that they are."""
    try:
        with open(path, "rb") as file:
            given = file.read()
        found = json.loads(given)
    except OSError as why:
        raise Misfit(f"{path}: {why.strerror or why}") from None
    except (ValueError, RecursionError) as why:
        raise Misfit(f"{path}: no JSON: {why}") from None
    need(isinstance(found, dict), f"{path}: no JSON object")
    return given, found


def need_lists(path, found, members):
    """These members of a file's object have to be lists."""
    for member in members:
        need(isinstance(found.get(member), list), f"{path}: no list `{member}`, which a "
             f"{'report' if members == REPORT else 'document'} of a run with a schedule has")


def with_lists(found, members):
    """The object, with an empty list in the place of each of these members that is none."""
    return found | {member: [] for member in members if not isinstance(found.get(member), list)}


def submissions(requests, reports):
    """For each report of a client the place of its request, and how often that was submitted before."""
    place, before, found = 0, 0, []
    for report in reports:
        found.append((place, before))
        failed, outcomes = report["failed"], report["outcomes"]
        again = failed and failed[0] in SUBMITTED_AGAIN and outcomes and not outcomes[-1][1]
        if again and before < requests[place].get("again", 0):
            before += 1
        else:
            place, before = place + 1, 0
    return found


def check_event(number, event, note):
    """A note has to be of this event of the schedule."""
    word = "crash" if event[0] == "failover" else event[0]
    alone = word in ("up", "upcrash", "tick", "outside", "drain")
    need(word == note[0] and (alone or event[1] == note[1]),
         f"event {number} is {event[:2]} in the document and {note[:2]} in the report")
