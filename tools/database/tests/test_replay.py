"""What is run on SQLite is compared, and what differs is told."""

import contextlib
import copy
import io
import json
import pathlib
import sys
import tempfile
import unittest

sys.path.insert(0, str(pathlib.Path(__file__).resolve().parents[2]))
from database import command, image, judge  # noqa: E402

EXAMPLES = pathlib.Path(__file__).resolve().parents[3] / "examples"
TABLES = [{"name": "t", "columns": [["id", "int"], ["name", "text"], ["bits", "bytes"]],
           "rows": [[1, "a", {"hex": "0A"}]]},
          {"name": "sqlite_order", "columns": [["group", "text"], ["n", "int"]], "rows": []}]
DOCUMENT = {"clients": [], "tables": TABLES, "sequences": [{"name": "s", "start": 1}]}
BEFORE = [["sqlite_order", []], ["t", [[1, "a", {"hex": "0a"}]]]]


def entry(*pieces, settings=(), number=0):
    """A transaction of these pieces, each a call with its answers and draws, and of a commit."""
    alone = [[["commit"]], ["committed"], []]
    return {"completed": True, "ltxid": [1, 1, number], "settings": list(settings), "pieces": [*map(list, pieces), alone]}


def report(*entries, t=None, order=()):
    tables = [["t", t or [[1, "a", {"hex": "0a"}]]], ["sqlite_order", list(order)]]
    return {"entries": list(entries), "tables": tables}


def found(given, document=DOCUMENT):
    """The status, what was printed and what was told."""
    with tempfile.TemporaryDirectory() as room:
        paths = []
        for name, value in (("document", document), ("report", given)):
            path = pathlib.Path(room, name)
            path.write_text(json.dumps(value), encoding="utf-8")
            paths.append(str(path))
        out, err = io.StringIO(), io.StringIO()
        with contextlib.redirect_stdout(out), contextlib.redirect_stderr(err):
            status = command.main(paths)
    return status, out.getvalue(), err.getvalue()


class Answers(unittest.TestCase):
    def is_answered(self, call, answer, draws=(), settings=(), **after):
        """Whether the call's last statement is answered so."""
        done = [{"done": 1}] * (len(call) - 1)
        status, _, err = found(report(entry((call, [*done, answer], list(draws)), settings=settings), **after))
        self.assertEqual((status, err), (0, ""))

    def is_refused(self, statement, code, draws=(), document=DOCUMENT):
        """Whether the statement is refused so, and what stood before it in its call is taken back."""
        first = ["insert", "t", [9, "z", {"hex": ""}]]
        given = report(entry(([first, statement], [{"done": 1}, {"refused": code}], list(draws))))
        self.assertEqual(found(given, document), (0, found(given, document)[1], ""))

    def test_each_statement(self):
        self.is_answered([["insert", "t", [2, "b", {"hex": "FF"}]]], {"done": 1},
                         t=[[1, "a", {"hex": "0a"}], [2, "b", {"hex": "ff"}]])
        self.is_answered([["update", "t", 1, "name", "to", "c"]], {"done": 1}, t=[[1, "c", {"hex": "0a"}]])
        self.is_answered([["update", "t", 2, "name", "to", "c"]], {"done": 0})
        self.is_answered([["insert", "sqlite_order", ["x", 1]], ["update", "sqlite_order", "x", "n", "plus", -3]],
                         {"done": 1}, order=[["x", -2]])
        self.is_answered([["insert", "t", [2, "b", {"hex": ""}]], ["delete", "t", 2]], {"done": 1})
        self.is_answered([["get", "t", 1]], {"rows": [[1, "a", {"hex": "0a"}]]})
        self.is_answered([["get", "t", 7]], {"rows": []})
        self.is_answered([["select", "t", "bits", "ge", {"hex": "09"}]], {"rows": [[1, "a", {"hex": "0a"}]]})
        self.is_answered([["count", "t"]], {"number": 1})
        self.is_answered([["sum", "t", "id"]], {"number": 1})
        self.is_answered([["sum", "sqlite_order", "n"]], {"number": 0})
        self.is_answered([["show", {"hex": "AB"}]], {"rows": [[{"hex": "ab"}]]})

    def test_rows_come_in_the_order_of_bytes(self):
        rows = [["Z", 1], ["a", 2], ["é", 3], ["𝄞", 4]]
        call = [["insert", "sqlite_order", row] for row in reversed(rows)]
        self.is_answered([*call, ["select", "sqlite_order", "n", "ge", 0]], {"rows": rows}, order=rows)

    def test_operands_are_drawn_and_looked_up(self):
        call = [["insert", "t", [{"seq": "s"}, {"var": "v"}, {"draw": "id"}]]]
        draws = [["seq", "s", 5], ["id", "0" * 32]]
        self.is_answered(call, {"done": 1}, draws, [["v", "word"]],
                         t=[[1, "a", {"hex": "0a"}], [5, "word", {"hex": "0" * 32}]])
        self.is_answered([["show", {"draw": "clock"}]], {"rows": [[17]]}, [["clock", 17]])

    def test_calls_without_statements(self):
        pieces = [([["set", "v", 3]], [{"done": 1}], []), ([["show", {"var": "v"}]], [{"rows": [[3]]}], []),
                  ([["alter", "x"]], [{"done": 1}], []), ([["disable"]], [{"done": 0}], [])]
        self.assertEqual(found(report(entry(*pieces)))[0], 0)

    def test_each_refusal(self):
        for statement, code in [
            (["count", "no"], judge.NO_TABLE), (["insert", "no", [{"seq": "no"}]], judge.NO_TABLE),
            (["sum", "t", "no"], judge.NO_COLUMN), (["update", "t", {"var": "no"}, "no", "to", 1], judge.NO_COLUMN),
            (["insert", "t", [2, "b"]], judge.KIND), (["insert", "t", ["x", "b", {"hex": ""}]], judge.KIND),
            (["get", "t", "1"], judge.KIND), (["delete", "t", {"hex": ""}], judge.KIND),
            (["sum", "t", "name"], judge.KIND), (["update", "t", 1, "name", "plus", "x"], judge.KIND),
            (["update", "t", "1", "name", "to", "x"], judge.KIND), (["select", "t", "id", "lt", "x"], judge.KIND),
            (["insert", "t", [1, "b", {"hex": ""}]], judge.KEY_TWICE),
            (["show", {"seq": "no"}], judge.NO_SEQUENCE), (["show", {"var": "no"}], judge.NO_SETTING),
            (["update", "t", 1, "id", "to", "x"], judge.KEY_COLUMN),
        ]:
            with self.subTest(statement):
                self.is_refused(statement, code)

    def test_what_is_drawn_before_a_refusal_stays_drawn(self):
        self.is_refused(["insert", "t", [{"seq": "s"}, 1, 2]], judge.KIND, [["seq", "s", 1]])

    def test_sums_past_64_bits(self):
        most = (1 << 63) - 1
        big = {**DOCUMENT, "tables": [TABLES[0], {**TABLES[1], "rows": [["a", most], ["b", 1], ["c", -1]]}]}
        rows = big["tables"][1]["rows"]
        total = report(entry(([["sum", "sqlite_order", "n"]], [{"number": most}], [])), order=rows)
        self.assertEqual(found(total, big)[0], 0)
        two = {**big, "tables": [TABLES[0], {**TABLES[1], "rows": rows[:2]}]}
        for statement in (["sum", "sqlite_order", "n"], ["update", "sqlite_order", "a", "n", "plus", 1]):
            given = report(entry(([statement], [{"refused": judge.SUM}], [])), order=rows[:2])
            self.assertEqual(found(given, two)[0], 0)
        least = {**two, "tables": [TABLES[0], {**TABLES[1], "rows": [["a", -most - 1]]}]}
        given = report(entry(([["sum", "sqlite_order", "n"]], [{"number": -most - 1}], [])), order=[["a", -most - 1]])
        self.assertEqual(found(given, least)[0], 0)

    def test_the_limit_of_32_rows(self):
        for count, answer in ((32, None), (33, {"refused": judge.ROWS})):
            rows = [[f"{number:02}", number] for number in range(count)]
            full = {**DOCUMENT, "tables": [TABLES[0], {**TABLES[1], "rows": rows}]}
            call = [["select", "sqlite_order", "n", "ge", 0]]
            given = report(entry((call, [answer or {"rows": rows}], [])), order=rows)
            self.assertEqual(found(given, full)[0], 0)


class Differences(unittest.TestCase):
    def setUp(self):
        call = [["insert", "t", [{"seq": "s"}, "b", {"hex": ""}]]]
        self.good = report(entry((call, [{"done": 1}], [["seq", "s", 5]])),
                           t=[[1, "a", {"hex": "0a"}], [5, "b", {"hex": ""}]])
        self.assertEqual(found(self.good)[0], 0)

    def differs(self, word, change):
        bad = copy.deepcopy(self.good)
        change(bad)
        status, out, err = found(bad)
        self.assertEqual((status, out), (1, ""))
        self.assertIn(word, err)

    def test_what_differs_is_told(self):
        piece = lambda it: it["entries"][0]["pieces"][0]  # noqa: E731
        self.differs("[1,1,0]", lambda it: piece(it)[1].__setitem__(0, {"done": 0}))
        self.differs("a draw of seq s", lambda it: piece(it)[2].clear())
        self.differs("a draw of seq s", lambda it: piece(it)[2].__setitem__(0, ["clock", 5]))
        self.differs("no statement draws", lambda it: piece(it)[2].append(["clock", 5]))
        self.differs("table t", lambda it: it["tables"][0][1].pop())
        self.differs("table t", lambda it: it["tables"][0][1].reverse())
        self.differs("1 tables", lambda it: it["tables"].pop())
        self.differs("table t", lambda it: it["tables"].reverse())
        self.differs("refused", lambda it: it["entries"].append(it["entries"][0]))
        self.differs("table t", lambda it: it["entries"].clear())
        self.differs("completed", lambda it: it["entries"][0].update(completed=False))
        self.differs("alone has to commit", lambda it: it["entries"][0]["pieces"].pop())

    def test_files_that_are_none(self):
        self.assertEqual(found([])[0], 2)
        self.assertEqual(found({"entries": 1, "tables": []})[0], 2)
        self.assertEqual(found(self.good, {"clients": [], "image": "00"})[0], 2)


class OfAnImage(unittest.TestCase):
    def test_the_tables_of_a_printed_image_are_those_of_its_report(self):
        seen = 0
        for path in sorted(EXAMPLES.rglob("*.report.json")):
            told = json.loads(path.read_text(encoding="utf-8"))
            if "image" in told:
                tables, _ = image.contents(bytes.fromhex(told["image"]))
                rows = [[table["name"], sorted(table["rows"], key=json.dumps)] for table in tables]
                self.assertEqual(rows, [[name, sorted(kept, key=json.dumps)] for name, kept in told["tables"]])
                seen += 1
        self.assertGreater(seen, 0)

    def test_the_parts_of_an_entry_are_passed_over(self):
        def number(value):
            return value.to_bytes(8, "big")

        def text(value):
            return number(len(value)) + value.encode()

        base = b"\1" + number(1) + text("t") + number(1) + text("id") + b"\1" + number(1) + number(1) + b"\1" + number(7)
        base += number(1) + text("s") + number(3) + b"\1"
        one = b"\1" + b"\1" + number(4)
        statements = [b"\1" + text("t") + number(3) + one + b"\2" + text("v") + b"\3\1" + text("s"),
                      b"\2" + text("t") + one + text("c") + b"\1" + one, b"\2" + text("t") + one + text("c") + b"\2" + one,
                      b"\3" + text("t") + one, b"\4" + text("t") + one, b"\5" + text("t") + text("c") + b"\2" + one,
                      b"\6" + text("t"), b"\7" + text("t") + text("c"), b"\10" + b"\3\2"]
        work = b"\1" + number(len(statements)) + b"".join(statements) + b"\1"
        value = b"\1" + number(4)
        answers = [b"\1" + number(1), b"\2" + number(1) + number(1) + value, b"\3" + number(4), b"\4", b"\5", b"\6", b"\7", b"\10\4"]
        draws = [b"\1" + text("s") + number(1), b"\2" + number(1), b"\3" + bytes(16)]
        calls = [work, b"\2" + text("v") + b"\3" + number(1) + b"x", b"\3" + text("line"), b"\4", b"\5"]
        pieces = b"".join(call + number(len(answers)) + b"".join(answers) + number(len(draws)) + b"".join(draws) for call in calls)
        writes = [text("t") + value + b"\1" + number(1) + value, text("t") + b"\1" + number(7) + b"\0"]
        commit = b"\3" + bytes(24) + b"\1" + number(1) + text("v") + value + number(len(calls)) + pieces
        commit += number(len(writes)) + b"".join(writes)
        data = image.MAGIC + b"".join(b"\1" + number(len(it)) + it for it in (base, commit)) + b"\0rest"
        tables, sequences = image.contents(data)
        self.assertEqual(tables, [{"name": "t", "columns": [["id", "int"]], "rows": [[4]]}])
        self.assertEqual(sequences, [{"name": "s", "start": 3, "keep": True}])


if __name__ == "__main__":
    unittest.main()
