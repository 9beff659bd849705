"""The rows that each commit changed, as they were before and are after.

They follow from the document's tables and the entries in their order: a call that was refused wrote nothing, and the
values that a call drew stand in its entry. At the end there have to be the report's tables.
"""

import json

from . import words
from .files import FAULTS, Misfit, need

NO_ROW = "no row"
WHOLE = 10  # the rows of a table that is shown whole


class Tables:
    """Known where the document gives them; the store of an image is not read here."""

    def __init__(self, document):
        self.known = "image" not in document
        self.columns, self.rows, self.wholes = {}, {}, {}
        self.fault = None       # of the entries: the rows after it are not known
        for table in document.get("tables", []):
            self.columns[table["name"]] = [name for name, _ in table["columns"]]
            self.rows[table["name"]] = {key_of(row[0]): row for row in table.get("rows", [])}

    def changes_by_entry(self, entries):
        """Carries out the entries. Gives for each identifier what that entry changed, in words."""
        found = {}
        try:
            for entry in entries if self.known else ():
                found[tuple(entry["ltxid"])] = self.changed_rows(entry)
        except (Misfit, *FAULTS) as why:
            self.fault = why
        return found

    def changed_rows(self, entry):
        """Carries out an entry. Gives what it changed, in words."""
        was = {table: dict(rows) for table, rows in self.rows.items() if len(rows) <= WHOLE}
        changes = self.changes(entry)
        names = sorted({table for table, _, _ in changes if table in was and len(self.rows[table]) <= WHOLE})
        self.wholes[tuple(entry["ltxid"])] = [line for name in names for line in
                                              (whole(name, "before", was[name]), whole(name, "after", self.rows[name]))]
        return [(table, row(before), row(after)) for table, before, after in changes]

    def changes(self, entry):
        """Carries out an entry. Gives (table, row before, row after) for each row that is another afterwards."""
        self.before, self.settings = {}, dict(map(tuple, entry["settings"]))
        for call, answers, draws in entry["pieces"]:
            if not is_refused(answers):
                self.draws = list(draws)
                for statement in call:
                    getattr(self, "on_" + statement[0], self.reads)(*statement[1:])
        found = [(table, before, self.rows[table].get(key)) for (table, key), before in self.before.items()]
        return [one for one in found if one[1] != one[2]]

    def reads(self, *_):
        """A statement that changes no row."""

    def on_set(self, name, value):
        self.settings[name] = value

    def on_insert(self, table, operands):
        row = [self.value(one) for one in operands]
        self.write(table, key_of(row[0]), row)

    def on_update(self, table, operand, column, how, change):
        key, change = key_of(self.value(operand)), self.value(change)
        row = self.rows[table].get(key)
        if row is not None:
            at = self.columns[table].index(column)
            self.write(table, key, [*row[:at], row[at] + change if how == "plus" else change, *row[at + 1:]])

    def on_delete(self, table, operand):
        self.write(table, key_of(self.value(operand)), None)

    def write(self, table, key, row):
        self.before.setdefault((table, key), self.rows[table].get(key))
        self.rows[table].pop(key, None)
        if row is not None:
            self.rows[table][key] = row

    def value(self, operand):
        """What an operand stands for: itself, a setting, or the next value that the call drew of its kind."""
        if not isinstance(operand, dict) or "hex" in operand:
            return operand
        (kind, name), = operand.items()
        if kind == "var":
            return self.settings[name]
        wanted = ["seq", name] if kind == "seq" else [name]
        draw = next((draw for draw in self.draws if draw[:-1] == wanted), None)
        need(draw, f"an entry has no value drawn for {operand}")
        self.draws.remove(draw)
        return {"hex": draw[-1]} if draw[0] == "id" else draw[-1]

    def close(self, tables):
        """At the end there have to be these."""
        if self.fault:
            raise self.fault
        for name, rows in tables if self.known else ():
            mine = sorted(map(key_of, self.rows[name].values()))
            need(mine == sorted(map(key_of, rows)), f"the entries lead to other rows of table {name} than the report's")


def key_of(value):
    return json.dumps(value, separators=(",", ":"))


def is_refused(answers):
    return isinstance(answers[-1], dict) and "refused" in answers[-1]


def row(given):
    return NO_ROW if given is None else "(" + ", ".join(map(words.value, given)) + ")"


def whole(table, when, rows):
    """A line with all rows of a table, in the order of their keys."""
    ordered = sorted(rows.values(), key=lambda one: one[0]["hex"] if isinstance(one[0], dict) else one[0])
    return f"{table} {when}: " + (" ".join(map(row, ordered)) or "no rows")


def in_words(changes):
    """A line for each changed row."""
    return [f"{table}: before {before}, after {after}" for table, before, after in changes or ()]
