"""The tables in SQLite. What is done can be written along as a script of SQL."""

import sqlite3

TYPES = {"int": "INTEGER", "text": "TEXT", "bytes": "BLOB"}
TESTS = {"eq": "=", "lt": "<", "ge": ">="}
# The columns that PostgreSQL gives each table.
KEPT = ("tableoid", "xmin", "cmin", "xmax", "cmax", "ctid")
# STRICT tables came with this version.
STRICT_SINCE = (3, 37, 0)


def inside(value):
    """A document's value as SQLite has it."""
    return bytes.fromhex(value["hex"]) if isinstance(value, dict) else value


def outside(value):
    return {"hex": value.hex()} if isinstance(value, bytes) else value


def quoted(name):
    """A name as SQL has it, also where it is a word of SQL. Those that a database keeps for itself get a _ in front."""
    is_kept = name.startswith("sqlite_") or name in KEPT
    return f'"_{name}"' if is_kept else f'"{name}"'


class Base:
    """Tables of a document in a database in memory."""

    def __init__(self, tables, script=None):
        self.script = script
        self.database = sqlite3.connect(":memory:", isolation_level=None)
        self.is_strict = sqlite3.sqlite_version_info >= STRICT_SINCE
        self.keys = {table["name"]: table["columns"][0][0] for table in tables}
        self.names = {table["name"]: [name for name, _ in table["columns"]] for table in tables}
        for table in tables:
            self.create(table)

    def create(self, table):
        parts = [f"{quoted(name)} {TYPES[kind]} NOT NULL" for name, kind in table["columns"]]
        parts.append(f"PRIMARY KEY ({quoted(self.keys[table['name']])})")
        ends = " STRICT, WITHOUT ROWID" if self.is_strict else " WITHOUT ROWID"
        self.database.execute(f"CREATE TABLE {quoted(table['name'])} ({', '.join(parts)}){ends}")
        if self.script:
            self.script.create(table)
        for row in table.get("rows", []):
            self.insert(table["name"], row)

    def run(self, text, *values):
        """Runs a statement in which each value stands as a ?, and gives what it found."""
        if self.script:
            self.script.statement(text, values)
        return self.database.execute(text, [inside(value) for value in values])

    def rows(self, text, *values):
        return [[outside(value) for value in row] for row in self.run(text, *values)]

    # ---- Transactions

    def begin(self, title):
        self.database.execute("BEGIN")
        if self.script:
            self.script.begin(title)

    def commit(self):
        self.database.execute("COMMIT")
        if self.script:
            self.script.commit()

    def begin_call(self):
        self.run("SAVEPOINT call")

    def end_call(self):
        self.run("RELEASE SAVEPOINT call")

    def take_back(self, why):
        if self.script:
            self.script.note(f"refused: {why}")
        self.run("ROLLBACK TO SAVEPOINT call")
        self.end_call()

    # ---- Statements

    def insert(self, table, row):
        """Whether there was no row of this key."""
        places = ", ".join("?" * len(row))
        script, self.script = self.script, None
        try:
            self.run(f"INSERT INTO {quoted(table)} VALUES ({places})", *row)
        except sqlite3.IntegrityError:
            return False
        finally:
            self.script = script
        if script:
            script.statement(f"INSERT INTO {quoted(table)} VALUES ({places})", row)
        return True

    def at_key(self, table):
        return f"WHERE {quoted(self.keys[table])} = ?"

    def in_order(self, table):
        return f"ORDER BY {quoted(self.keys[table])}"

    def set_to(self, table, key, column, value):
        text = f"UPDATE {quoted(table)} SET {quoted(column)} = ? {self.at_key(table)}"
        return self.run(text, value, key).rowcount

    def add_to(self, table, key, column, value):
        name = quoted(column)
        text = f"UPDATE {quoted(table)} SET {name} = {name} + ? {self.at_key(table)}"
        return self.run(text, value, key).rowcount

    def delete(self, table, key):
        return self.run(f"DELETE FROM {quoted(table)} {self.at_key(table)}", key).rowcount

    def get(self, table, key):
        return self.rows(f"SELECT * FROM {quoted(table)} {self.at_key(table)}", key)

    def select(self, table, column, test, value, most):
        where = f"WHERE {quoted(column)} {TESTS[test]} ?"
        return self.rows(f"SELECT * FROM {quoted(table)} {where} {self.in_order(table)} LIMIT {most}", value)

    def count(self, table):
        return self.rows(f"SELECT COUNT(*) FROM {quoted(table)}")[0][0]

    def sum(self, table, column):
        """The sum, in two parts that stay within 64 bits."""
        name = quoted(column)
        parts = f"COALESCE(SUM({name} >> 32), 0), COALESCE(SUM({name} & 4294967295), 0)"
        above, below = self.rows(f"SELECT {parts} FROM {quoted(table)}")[0]
        return (above << 32) + below

    def show(self, value):
        return self.rows("SELECT ?", value)[0]

    def table(self, name):
        return self.rows(f"SELECT * FROM {quoted(name)} {self.in_order(name)}")
