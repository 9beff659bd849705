"""Calls, answers, outcomes and errors of a run, said in plain words of ASCII."""

import json

REFUSALS = ("", "no such table", "no such column", "kind differs", "duplicate key", "no such sequence",
            "setting not set", "too many rows", "sum out of range", "key column")
ANSWERS = {"rolledback": "rolled back", "commitinreplay": "commit refused in a replay"}
TWO_WORDS = ("insert", "update", "delete", "get", "select", "count", "sum", "set")
REASONS = {
    "off": "the service has no replay (failover none)",
    "aftercommit": "replay is off after a commit in a request with dynamic session state",
    "restricted": "call {} is an ALTER, which is never replayed",
    "settings": "call {} changed a setting, which a service with static session state does not replay",
    "asked": "the application had asked for no replay, by call {}",
    "full": "more calls than the {} that the driver may record",
    "statelost": "the commit was found, but a setting made earlier was lost, so call {} could not go on",
}


def plural(count, noun):
    return f"{count} {noun}" + ("" if count == 1 else "s")


def identifier(parts):
    return f"[{parts[0]},{parts[1]},{parts[2]}]"


def session(parts):
    return f"({parts[0]},{parts[1]})"


def value(given):
    return f"0x{given['hex']}" if isinstance(given, dict) else json.dumps(given)


def operand(given):
    if isinstance(given, dict) and "hex" not in given:
        (kind, name), = given.items()
        return {"seq": f"next of {name}", "var": f"setting {name}"}.get(kind, f"new {name}")
    return value(given)


def statement(given):
    verb, *rest = given
    if verb == "insert":
        return f"insert {rest[0]} ({', '.join(map(operand, rest[1]))})"
    if verb == "update":
        table, key, column, how, change = rest
        return f"update {table} {operand(key)}: {column} {'=' if how == 'to' else '+='} {operand(change)}"
    if verb in ("get", "delete"):
        return f"{verb} {rest[0]} {operand(rest[1])}"
    if verb == "select":
        return f"select {rest[0]} where {rest[1]} {rest[2]} {operand(rest[3])}"
    if verb == "set":
        return f"set {rest[0]} = {value(rest[1])}"
    if verb == "alter":
        return f"alter {value(rest[0])}"
    return " ".join([verb, *(operand(part) if isinstance(part, dict) else str(part) for part in rest)])


def call(given):
    return "; ".join(map(statement, given))


def brief_call(given):
    """A call in a word or two: its verbs."""
    if len(given) == 1 and given[0][0] in TWO_WORDS:
        return " ".join(map(str, given[0][:2]))
    return "+".join(part[0] for part in given)


def answer(given):
    if isinstance(given, str):
        return ANSWERS.get(given, given)
    (kind, what), = given.items()
    if kind == "rows":
        return "rows " + (", ".join("(" + ", ".join(map(value, row)) + ")" for row in what) or "none")
    return {"refused": lambda: f"refused: {REFUSALS[what]}", "number": lambda: str(what)}.get(
        kind, lambda: f"done {what}")()


def answers(given):
    return "; ".join(map(answer, given))


def brief_answers(given):
    """What decides: the last answer."""
    last = given[-1]
    return plural(len(last["rows"]), "row") if isinstance(last, dict) and "rows" in last else answer(last)


def outcome(result):
    """The result of an outcome, as the note of a question from outside has it."""
    if result[0] == "committed":
        return "committed" + (", and the call was completed" if result[1] else ", but not completed")
    return {"uncommitted": lambda: "not committed",
            "serverahead": lambda: f"an older transaction, the session has made {plural(result[1], 'commit')}",
            "clientahead": lambda: f"later than the session has come, with {plural(result[1], 'commit')}",
            "forgotten": lambda: f"forgotten, as are all of incarnations below {result[1]}"}[result[0]]()


def failure(given):
    """The cause of an error in plain words."""
    kind, *rest = given
    if kind == "disabled":
        reason, *place = rest[0]
        return REASONS[reason].format(*place)
    return {
        "mismatch": lambda at, *_: f"replayed, call {at} gave another answer than the client had seen",
        "incomplete": lambda lost: f"transaction {identifier(lost)} is committed, but the answers of the call "
                                   f"that committed it are lost",
        "retries": lambda tries: ("1 try" if tries == 1 else f"{tries} tries in a row") + " to connect failed",
        "replaytimeout": lambda first, ready: f"the replay was ready at tick {ready} only; the first call was "
                                              f"at tick {first}",
        "replays": lambda limit, event: f"the limit of {plural(limit, 'replay')} is reached; the last loss was "
                                        f"by event {event}",
        "poolwait": lambda first, now: f"no place in the pool became free from tick {first} to tick {now}",
        "unknown": lambda lost: f"the outcome of {identifier(lost)} is no longer kept",
    }[kind](*rest)
