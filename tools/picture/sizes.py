"""How many bytes a frame takes on its way: the lengths of canonical bytes."""

NUMBER = 8      # of a length, a count or a whole number
FRAME = 9       # the length of the payload, and its tag


def text(given):
    return NUMBER + len(given.encode())


def value(given):
    if isinstance(given, int):
        return 1 + NUMBER
    return 1 + NUMBER + (len(given["hex"]) // 2 if isinstance(given, dict) else len(given.encode()))


def operand(given):
    if isinstance(given, dict) and "hex" not in given:
        (kind, name), = given.items()
        return {"var": 1 + text(name), "seq": 2 + text(name)}.get(kind, 2)
    return 1 + value(given)


def statement(given):
    verb, *rest = given
    return 1 + {
        "insert": lambda table, values: text(table) + NUMBER + sum(map(operand, values)),
        "update": lambda table, key, column, _, change: text(table) + operand(key) + text(column) + 1 + operand(change),
        "delete": lambda table, key: text(table) + operand(key),
        "get": lambda table, key: text(table) + operand(key),
        "select": lambda table, column, _, key: text(table) + text(column) + 1 + operand(key),
        "count": text,
        "sum": lambda table, column: text(table) + text(column),
        "show": operand,
    }[verb](*rest)


def call(given):
    verb, *rest = given[0]
    if verb == "set":
        return 1 + text(rest[0]) + value(rest[1])
    if verb == "alter":
        return 1 + text(rest[0])
    if verb in ("disable", "rollback"):
        return 1
    return 1 + NUMBER + sum(statement(part) for part in given if part[0] != "commit") + 1


def draws(given):
    return NUMBER + sum({"seq": 1 + NUMBER + text(str(draw[1])), "clock": 1 + NUMBER, "id": 17}[draw[0]]
                        for draw in given)


def answer(given):
    if isinstance(given, str):
        return 1
    if "rows" in given:
        return 1 + NUMBER + sum(NUMBER + sum(map(value, row)) for row in given["rows"])
    return 2 if "refused" in given else 1 + NUMBER


def up(name, settings=(), submitted=None, kept=()):
    """A frame to the service."""
    if name == "begin":
        return FRAME + NUMBER + sum(text(setting) + value(given) for setting, given in settings)
    if name == "call":
        return FRAME + 1 + draws(kept) + call(submitted)
    return FRAME + (3 * NUMBER if name == "outcome" else 0)


def down(name, item):
    """A frame to a client, by the item that was served."""
    if name == "reply":
        return FRAME + NUMBER + sum(map(answer, item[5])) + draws(item[6]) + 3 * NUMBER
    return FRAME + {"hello": 3 * NUMBER, "outcomeis": 2, "outcomerefused": 1 + NUMBER, "refused": 1}.get(name, 0)
