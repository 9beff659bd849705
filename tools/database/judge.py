"""Judges a call's statements as the service does, over tables that a database holds."""

INSERT, UPDATE = "insert", "update"
NO_TABLE, NO_COLUMN, KIND, KEY_TWICE, NO_SEQUENCE, NO_SETTING, ROWS, SUM, KEY_COLUMN = range(1, 10)
REASONS = {
    NO_TABLE: "no such table", NO_COLUMN: "no such column", KIND: "a value of another kind",
    KEY_TWICE: "the key is there already", NO_SEQUENCE: "no such sequence", NO_SETTING: "no such setting",
    ROWS: "more than 32 rows", SUM: "a sum past 64 bits", KEY_COLUMN: "the key column may not be updated",
}
LEAST, MOST = -(1 << 63), (1 << 63) - 1
MOST_ROWS = 32


class Refused(Exception):
    """A statement is refused with this code."""

    def __init__(self, code):
        super().__init__(REASONS[code])
        self.code = code


class Differs(Exception):
    """The report says something else than was found."""


def kind_of(value):
    if isinstance(value, dict):
        return "bytes"
    return "text" if isinstance(value, str) else "int"


class Judge:
    """What the statements of one transaction come to: each method gives the answer, or is refused."""

    def __init__(self, base, tables, sequences, settings):
        self.base = base
        self.columns = {table["name"]: dict(map(tuple, table["columns"])) for table in tables}
        self.sequences = {sequence["name"] for sequence in sequences}
        self.settings = dict(map(tuple, settings))
        self.draws = []

    # ---- Parts of statements

    def columns_of(self, table):
        if table not in self.columns:
            raise Refused(NO_TABLE)
        return self.columns[table]

    def column(self, table, name):
        columns = self.columns_of(table)
        if name not in columns:
            raise Refused(NO_COLUMN)
        return columns[name]

    def key_kind(self, table):
        return next(iter(self.columns_of(table).values()))

    def drawn(self, kind, name=None):
        """The next value that the report says was drawn."""
        wanted = [kind] if name is None else [kind, name]
        if not self.draws or self.draws[0][:-1] != wanted:
            raise Differs(f"a draw of {' '.join(wanted)} is wanted, and the report's next draws are {self.draws}")
        value = self.draws.pop(0)[-1]
        return {"hex": value} if kind == "id" else value

    def operand(self, operand):
        if not isinstance(operand, dict) or "hex" in operand:
            return {"hex": operand["hex"].lower()} if isinstance(operand, dict) else operand
        (form, name), = operand.items()
        if form == "draw":
            return self.drawn(name)
        if form == "seq":
            if name not in self.sequences:
                raise Refused(NO_SEQUENCE)
            return self.drawn("seq", name)
        if name not in self.settings:
            raise Refused(NO_SETTING)
        return self.settings[name]

    @staticmethod
    def of_kind(value, kind):
        if kind_of(value) != kind:
            raise Refused(KIND)

    # ---- Statements, each with its checks in the service's order

    def insert(self, table, operands):
        kinds = list(self.columns_of(table).values())
        row = [self.operand(operand) for operand in operands]
        if [kind_of(value) for value in row] != kinds:
            raise Refused(KIND)
        if not self.base.insert(table, row):
            raise Refused(KEY_TWICE)
        return {"done": 1}

    def update(self, table, key, column, how, operand):
        kind = self.column(table, column)
        if column == next(iter(self.columns_of(table))):
            raise Refused(KEY_COLUMN)
        key, value = self.operand(key), self.operand(operand)
        self.of_kind(key, self.key_kind(table))
        self.of_kind(value, kind)
        if how == "to":
            return {"done": self.base.set_to(table, key, column, value)}
        self.of_kind(value, "int")
        found = self.base.get(table, key)
        names = list(self.columns_of(table))
        if found and not LEAST <= found[0][names.index(column)] + value <= MOST:
            raise Refused(SUM)
        return {"done": self.base.add_to(table, key, column, value)}

    def delete(self, table, key):
        return {"done": self.base.delete(table, self.key(table, key))}

    def get(self, table, key):
        return {"rows": self.base.get(table, self.key(table, key))}

    def key(self, table, operand):
        kind = self.key_kind(table)
        key = self.operand(operand)
        self.of_kind(key, kind)
        return key

    def select(self, table, column, test, operand):
        kind = self.column(table, column)
        value = self.operand(operand)
        self.of_kind(value, kind)
        rows = self.base.select(table, column, test, value, MOST_ROWS + 1)
        if len(rows) > MOST_ROWS:
            raise Refused(ROWS)
        return {"rows": rows}

    def count(self, table):
        self.columns_of(table)
        return {"number": self.base.count(table)}

    def sum(self, table, column):
        if self.column(table, column) != "int":
            raise Refused(KIND)
        total = self.base.sum(table, column)
        if not LEAST <= total <= MOST:
            raise Refused(SUM)
        return {"number": total}

    def show(self, operand):
        return {"rows": [self.base.show(self.operand(operand))]}

    # ---- Calls

    def call(self, call, draws):
        """The answers of a call. What a refused one wrote is taken back."""
        self.draws = list(draws)
        first = call[0]
        if first[0] == "set":
            self.settings[first[1]] = first[2]
            return [{"done": 1}]
        if first[0] in ("alter", "disable"):
            return [{"done": 1 if first[0] == "alter" else 0}]
        answers = []
        self.base.begin_call()
        try:
            for word, *parts in call:
                if word == "commit":
                    answers.append("committed")
                else:
                    answers.append(getattr(self, word)(*parts))
        except Refused as why:
            self.base.take_back(str(why))
            return [*answers, {"refused": why.code}]
        self.base.end_call()
        return answers
