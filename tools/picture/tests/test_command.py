"""The command's words, files and statuses: what it refuses, it refuses in one line."""

import contextlib
import io
import json
import os
import random
import tempfile
import unittest

from runs import RUNS, SHOP, changed_somewhere, page

from picture.command import main
from picture.files import Misfit

CUT = RUNS["a cut before the call was served"]


class Command(unittest.TestCase):
    def status(self, *arguments):
        output, errors = io.TextIOWrapper(io.BytesIO()), io.StringIO()
        with contextlib.redirect_stdout(output), contextlib.redirect_stderr(errors):
            try:
                status = main(arguments)
            except SystemExit as end:
                status = end.code
        self.assertEqual(errors.getvalue().count("\n"), 1 if status else 0)
        return status, errors.getvalue()

    def files(self, *contents):
        folder = tempfile.TemporaryDirectory()
        self.addCleanup(folder.cleanup)
        paths = []
        for number, content in enumerate(contents):
            paths.append(os.path.join(folder.name, str(number)))
            with open(paths[-1], "w", encoding="utf-8") as file:
                file.write(content if isinstance(content, str) else json.dumps(content))
        return paths

    def test_words(self):
        for given in ((), ("a",), ("a", "b", "c"), ("a", "b", "--from", "x"), ("a", "b", "--from", "5", "--to", "4")):
            self.assertEqual(self.status(*given)[0], 2)

    def test_a_page_has_status_0(self):
        self.assertEqual(self.status(*self.files(CUT["document"], CUT["report"])), (0, ""))

    def test_files_that_do_not_fit(self):
        document, report = CUT["document"], CUT["report"]
        without_notes = {name: value for name, value in report.items() if name != "notes"}
        for files, said in (
            ((document, SHOP["report"]), "the document has 1 clients, the report 8"),
            ((document, RUNS["a cut after the commit"]["report"]),
             "event 4 is ['cut', 1] in the document and ['serve', 1] in the report"),
            ((document, document), "no list `alerts`, which a report of a run with a schedule has"),
            ((document, without_notes), "no list `notes`"),
            ((report, report), ""),
            (("{", report), "no JSON"),
            ((document, "[" * 9000), "no JSON"),
            ((document, "[]"), "no JSON object"),
            ((document, report | {"alerts": ["x"]}), "no event explains the alert line x"),
            ((document, report | {"blocked": [[1, 9, 0]]}), "no event explains the block of (1, 9, 0)"),
            ((document, report | {"entries": []}), "one more entry"),
            ((document, report | {"notes": report["notes"][:-3]}), "no note is of the served item"),
        ):
            with self.subTest(said=said):
                status, line = self.status(*self.files(*files))
                self.assertEqual(status, 1)
                self.assertIn(said, line)

    def test_files_and_events_that_are_not_there(self):
        self.assertEqual(self.status("/nowhere/document", "/nowhere/report")[0], 1)
        status, line = self.status(*self.files(CUT["document"], CUT["report"]), "--from", "24")
        self.assertEqual((status, line), (1, "timeline: there is no event 24; the run has 23\n"))

    def test_a_report_of_another_document(self):
        """Whichever two runs are crossed, the page is refused, unless one has the other's events and calls."""
        alike, refused = 0, 0
        for document in RUNS.values():
            for report in RUNS.values():
                if document is report:
                    continue
                try:
                    page(document["document"], report["report"])
                    alike += 1
                except Misfit:
                    refused += 1
        self.assertGreater(refused, 30 * alike)

    def test_changed_files(self):
        """Whatever is changed in one, the run is drawn or refused with a Misfit."""
        chance, refused = random.Random(1), 0
        names = ("a cut before the call was served", "a cut after the commit", "an alter, which is not replayed",
                 "an orphan that is asked before it commits", "a crash at the gate of the commit, which stands",
                 "a live identifier blocked from outside", "a wait that is too long", "an outcome that is forgotten")
        for _ in range(600):
            run = changed_somewhere(chance, names)
            try:
                page(run["document"], run["report"])
            except Misfit:
                refused += 1
        self.assertGreater(refused, 200)


if __name__ == "__main__":
    unittest.main()
