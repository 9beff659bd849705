"""The words are found on the pages as they stand, and on small ones of each form."""

import contextlib
import io
import pathlib
import sys
import tempfile
import unittest

sys.path.insert(0, str(pathlib.Path(__file__).resolve().parents[1]))
import explain  # noqa: E402

CODES = """# How a run ends

| Status | When | Line |
|---|---|---|
| 3 | reading failed | `read` |
| 5 | no document | |

## Codes

| Code | Comes for | Place |
|---|---|---|
| 3 | another kind: `a|b` or c\\|d | the value |
| 7 | a name twice | the second |

| Code | Document | Line |
|---|---|---|
| 7 | `{"a":["show",1]}` | `document: 7 at /a` |

| Clause | Says | Place |
|---|---|---|
| `fresh` | no value twice | the piece |
"""
REPORT = """# The report

| `failed` | Says | Then |
|---|---|---|
| `disabled` | **never**, one of `["off"]`, `["full",limit]` | ask |
| `["mismatch",call,seen,now]` | another answer | pay by hand |

| Reason | Says |
|:--|--:|
| `["statelost",call]` | a call lost its state |

| Code of a refusal | Says |
|---|---|
| 1, 2 | no table; no column |

## Served items

Each is of an event.
"""


def told(docs, *words):
    """The status, and what was printed and told."""
    out, err = io.StringIO(), io.StringIO()
    with contextlib.redirect_stdout(out), contextlib.redirect_stderr(err):
        status = explain.main(["--docs", str(docs), *words])
    return status, out.getvalue(), err.getvalue()


class OfSmallPages(unittest.TestCase):
    def setUp(self):
        room = tempfile.TemporaryDirectory()
        self.addCleanup(room.cleanup)
        self.docs = pathlib.Path(room.name)
        (self.docs / "CODES.md").write_text(CODES, encoding="utf-8")
        (self.docs / "REPORT.md").write_text(REPORT, encoding="utf-8")

    def test_a_number_is_told_from_each_table_that_has_it(self):
        status, out, _ = told(self.docs, "3")
        self.assertEqual(status, 0)
        self.assertIn("Status: 3\nWhen: reading failed\nLine: `read`", out)
        self.assertIn("Code: 3\nComes for: another kind: `a|b` or c\\|d\nPlace: the value", out)

    def test_a_cell_of_several_numbers_is_found_by_each(self):
        for number in ("1", "2"):
            self.assertIn("Code of a refusal: 1, 2\nSays: no table; no column", told(self.docs, number)[1])

    def test_an_empty_cell_is_left_out(self):
        self.assertTrue(told(self.docs, "5")[1].endswith("Status: 5\nWhen: no document\n"))

    def test_a_word_is_found_in_either_form(self):
        for word in ("disabled", "Disabled", "mismatch", "statelost"):
            with self.subTest(word):
                self.assertEqual(told(self.docs, word)[0], 0)

    def test_a_word_in_another_cell_is_found_where_no_row_begins_with_it(self):
        self.assertIn("Says: never, one of", told(self.docs, "full")[1])
        self.assertNotIn("disabled", told(self.docs, "statelost")[1])

    def test_a_heading_gives_its_text(self):
        self.assertIn("Each is of an event.", told(self.docs, "served", "items")[1])

    def test_a_word_that_no_page_has_is_told_with_those_that_have_one(self):
        status, out, err = told(self.docs, "show")
        self.assertEqual((status, out), (2, ""))
        self.assertIn("Words: 1, 2, 3, 5, 7, disabled, fresh, full, mismatch, off, statelost", err)

    def test_one_line_of_a_code(self):
        line = "continuity: 7: a name twice; see docs/CODES.md\n"
        self.assertEqual(told(self.docs, "--line", "7"), (0, line, ""))
        self.assertEqual(told(self.docs, "--line", "5")[0], 2)

    def test_one_line_of_a_clause(self):
        line = "continuity: fresh: no value twice; see docs/CODES.md\n"
        self.assertEqual(told(self.docs, "--line", "fresh"), (0, line, ""))
        self.assertEqual(told(self.docs, "--line", "disabled")[0], 2)

    def test_pages_that_are_not_there(self):
        (self.docs / "REPORT.md").unlink()
        self.assertEqual(told(self.docs, "3")[0], 2)


class OfThePages(unittest.TestCase):
    def test_each_code_and_each_clause_has_its_line(self):
        for word in [*range(1, 10), 11, "serial", "fresh", "once", "same", "stored"]:
            with self.subTest(word):
                status, out, _ = told(explain.DOCS, "--line", str(word))
                self.assertEqual(status, 0)
                self.assertTrue(out.startswith(f"continuity: {word}: "))
        self.assertIn("json.tool", told(explain.DOCS, "--line", "2")[1])

    def test_each_error_and_each_reason_is_found(self):
        errors = "disabled mismatch incomplete retries replaytimeout replays poolwait unknown"
        reasons = "off aftercommit restricted settings asked full statelost"
        for word in f"{errors} {reasons}".split():
            with self.subTest(word):
                self.assertEqual(told(explain.DOCS, word)[0], 0)


if __name__ == "__main__":
    unittest.main()
