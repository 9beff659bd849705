"""Writes down what is run as a script that sqlite3 and psql run as it is."""

import json

from .sqlite import quoted

HEAD = """-- What the report says was committed, one transaction after the other.
-- sqlite3 and psql run this as it is. Octets stand as the text of their hexadecimal digits, which is in the same order.
-- Texts are ordered by their bytes: in PostgreSQL this wants a database with the collation C.
"""
TYPES = {"int": "BIGINT", "text": "TEXT", "bytes": "TEXT"}


class NoScript(ValueError):
    """No script of both databases can say this."""


def literal(value):
    if isinstance(value, dict):
        return f"'{value['hex'].lower()}'"
    if isinstance(value, int):
        return str(value) if value >= 0 else f"({value})"
    if any(ord(it) < 32 and it not in "\t\n" for it in value):
        raise NoScript(f"the text {json.dumps(value)} has a character that no script can have")
    return "'" + value.replace("'", "''") + "'"


class Script:
    """The lines so far."""

    def __init__(self):
        self.lines = [HEAD]

    def note(self, text):
        self.lines.append(f"-- {text}\n")

    def create(self, table):
        parts = [f"{quoted(name)} {TYPES[kind]} NOT NULL" for name, kind in table["columns"]]
        parts.append(f"PRIMARY KEY ({quoted(table['columns'][0][0])})")
        self.lines.append(f"CREATE TABLE {quoted(table['name'])} ({', '.join(parts)});\n")

    def begin(self, title):
        self.lines.append(f"\nBEGIN; -- {title}\n")

    def commit(self):
        self.lines.append("COMMIT;\n")

    def statement(self, text, values):
        parts = text.split("?")
        said = parts[0] + "".join(literal(value) + part for value, part in zip(values, parts[1:]))
        self.lines.append(f"{said};\n")

    def text(self):
        return "".join(self.lines)
