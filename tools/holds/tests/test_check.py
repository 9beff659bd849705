"""What holds of a report is passed over in silence, and each thing that does not has its line."""

import contextlib
import io
import json
import os
import sys
import tempfile
import unittest

sys.path.insert(0, os.path.dirname(os.path.dirname(os.path.abspath(__file__))))

import check    # noqa: E402

REPORT = {"blocked": [[1, 1, 0]], "clients": [[{"failed": None, "outcomes": [[[1, 1, 0], False, True]]}]],
          "entries": [], "notes": [["go", 1, "idle"], ["up", 2]]}


class Claims(unittest.TestCase):
    def says(self, holds, *lines):
        self.assertEqual(check.faults(REPORT, holds), list(lines))

    def test_what_holds(self):
        self.says({"blocked": [[1, 1, 0]], "clients/0/0/failed": None, "clients/0/0/outcomes/0/2": True,
                   "notes/-1": ["up", 2], "notes/0/2": "idle", "": REPORT})
        self.says({"entries#": 0, "notes#": 2, "clients/0/0#": 2, "#": 4})
        self.says({"entries?": True, "forgotten?": False, "notes/1?": True, "notes/2?": False})

    def test_another_value(self):
        self.says({"notes/-1": ["up", 3], "entries#": 1, "forgotten?": True, "blocked": []},
                  'notes/-1: wanted ["up",3], got ["up",2]', "entries#: wanted 1, got 0",
                  "forgotten?: wanted true, got false", "blocked: wanted [], got [[1,1,0]]")

    def test_numbers_and_truths_differ(self):
        self.says({"blocked/0/0": True, "clients/0/0/outcomes/0/1": 0, "blocked/0/1": 1.0},
                  "blocked/0/0: wanted true, got 1", "clients/0/0/outcomes/0/1: wanted 0, got false",
                  "blocked/0/1: wanted 1.0, got 1")

    def test_nothing_there(self):
        for path in ("notes/2", "notes/-3", "notes/up", "forgotten", "blocked/0/0/0", "blocked/0/0#", "forgotten#"):
            self.says({path: None}, f"{path}: wanted null, got nothing")


class Command(unittest.TestCase):
    def ends(self, report, holds):
        """The status, and how many lines there are."""
        with tempfile.TemporaryDirectory() as folder, contextlib.redirect_stdout(io.StringIO()) as output, \
                contextlib.redirect_stderr(io.StringIO()):
            paths = [os.path.join(folder, name) for name in ("report", "holds")]
            for path, content in zip(paths, (report, holds)):
                with open(path, "w", encoding="utf-8") as file:
                    file.write(content)
            return check.main(paths), output.getvalue().count("\n")

    def test_statuses(self):
        report = json.dumps(REPORT)
        self.assertEqual(self.ends(report, '{"entries": []}'), (0, 0))
        self.assertEqual(self.ends(report, '{"entries": [], "blocked": [], "alerts": []}'), (1, 2))

    def test_files_that_are_wrong(self):
        for report, holds in (("", "{}"), ("{}", "[]"), ("[]", "{}"), ("{}", "{")):
            self.assertEqual(self.ends(report, holds), (2, 0))

    def test_words(self):
        for words, status in ((["--help"], 0), ([], 2), (["a"], 2), (["a", "b", "c"], 2), (["/none", "/none"], 2)):
            with contextlib.redirect_stdout(io.StringIO()) as output, contextlib.redirect_stderr(io.StringIO()):
                try:
                    ended = check.main(words)
                except SystemExit as end:
                    ended = end.code
            self.assertEqual(ended, status)
            self.assertEqual("HOLDS" in output.getvalue(), status == 0)


if __name__ == "__main__":
    unittest.main()
