"""Reads the tables and sequences out of a store's bytes."""

MAGIC = b"TGSTORE1"
KINDS = {1: "int", 2: "text", 3: "bytes"}
BASE, COMMIT = 1, 3


class BadImage(ValueError):
    """The bytes are none of a store."""


class Reader:
    """Takes canonical bytes from the front."""

    def __init__(self, data):
        self.data, self.at = data, 0

    def take(self, count):
        if self.at + count > len(self.data):
            raise BadImage(f"the bytes end at {len(self.data)}, in the middle of a part")
        self.at += count
        return self.data[self.at - count : self.at]

    def byte(self):
        return self.take(1)[0]

    def number(self):
        return int.from_bytes(self.take(8), "big")

    def signed(self):
        return int.from_bytes(self.take(8), "big", signed=True)

    def octets(self):
        return self.take(self.number())

    def text(self):
        return self.octets().decode()

    def list(self, item):
        return [item() for _ in range(self.number())]

    def tagged(self, *ways):
        """The part whose tag, from 1, comes next."""
        tag = self.byte()
        if not 1 <= tag <= len(ways):
            raise BadImage(f"no part has the tag {tag}")
        return ways[tag - 1]()

    def value(self):
        """A value as a document has it."""
        return self.tagged(self.signed, self.text, lambda: {"hex": self.octets().hex()})

    def row(self):
        return self.list(self.value)

    def table(self):
        name = self.text()
        columns = self.list(lambda: [self.text(), KINDS[self.byte()]])
        return {"name": name, "columns": columns, "rows": self.list(self.row)}

    def sequence(self):
        return {"name": self.text(), "start": self.signed(), "keep": bool(self.byte())}

    def draw_kind(self):
        self.tagged(self.text, lambda: None, lambda: None)

    def operand(self):
        self.tagged(self.value, self.text, self.draw_kind)

    def change(self):
        self.tagged(self.operand, self.operand)

    def statement(self):
        def parts(*those):
            return lambda: [part() for part in those]

        self.tagged(
            parts(self.text, lambda: self.list(self.operand)),
            parts(self.text, self.operand, self.text, self.change),
            parts(self.text, self.operand),
            parts(self.text, self.operand),
            parts(self.text, self.text, self.byte, self.operand),
            self.text,
            parts(self.text, self.text),
            self.operand,
        )

    def work(self):
        self.list(self.statement)
        self.byte()

    def setting(self):
        return self.text(), self.value()

    def call(self):
        self.tagged(self.work, self.setting, self.text, lambda: None, lambda: None)

    def answer(self):
        nothing = lambda: None  # noqa: E731
        rows = lambda: self.list(self.row)  # noqa: E731
        self.tagged(self.number, rows, self.signed, nothing, nothing, nothing, nothing, self.byte)

    def draw(self):
        self.tagged(lambda: (self.text(), self.signed()), self.number, lambda: self.take(16))

    def piece(self):
        self.call()
        self.list(self.answer)
        self.list(self.draw)

    def write(self):
        """A table, a key and the row that stands there now, or None."""
        return self.text(), self.value(), self.row() if self.byte() else None

    def writes(self):
        """Those of an entry, whose other parts are passed over."""
        self.take(25)
        self.list(self.setting)
        self.list(self.piece)
        return self.list(self.write)


def records(data):
    """The payloads of the records of a store, up to the first gate that is closed."""
    reader = Reader(data)
    if reader.take(len(MAGIC)) != MAGIC:
        raise BadImage("the bytes do not begin as a store's")
    while reader.byte() == 1:
        yield Reader(reader.octets())


def contents(data):
    """The tables and sequences of a store as a document has them: its first ones, and what was committed over them."""
    tables, sequences = [], []
    for payload in records(data):
        tag = payload.byte()
        if tag == BASE:
            tables, sequences = payload.list(payload.table), payload.list(payload.sequence)
        elif tag == COMMIT:
            for write in payload.writes():
                put(tables, *write)
    return tables, sequences


def put(tables, name, key, row):
    """Puts a row in the place of that with its key, or takes it away."""
    table = next(it for it in tables if it["name"] == name)
    table["rows"] = [it for it in table["rows"] if it[0] != key] + ([row] if row else [])
