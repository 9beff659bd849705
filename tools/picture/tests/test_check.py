"""What `check` says stands on the page, with its place; and a report that does not fit is drawn as far as it does."""

import contextlib
import copy
import io
import json
import os
import pathlib
import random
import re
import tempfile
import unittest
import xml.etree.ElementTree as ElementTree

from runs import RUNS, SHOP, changed_somewhere, page, words_of
from test_page import collisions

from picture.check import CLAUSES, Answer, Places, answer_of
from picture.command import main
from picture.files import Misfit
from picture.page import checked_page
from picture.walk import follow_far
from running.program import BUILT, TOP, Ended

CUT = RUNS["a cut after the commit"]
YES = Answer("yes")
# In the program's place: it keeps what it is given, and says and ends as a file tells.
STAND_IN = """#!/usr/bin/env -S python3 -SE
import json, sys
open(sys.argv[0] + ".given", "w").write(sys.argv[1] + " " + sys.stdin.read())
status, printed, told = json.load(open(sys.argv[0] + ".answer"))
sys.stdout.write(printed)
sys.stderr.write(told)
sys.exit(status)
"""


def checked(run, answer, **window):
    """A page's text and its elements but the script."""
    text = checked_page(run["document"], run["report"], answer, **window)
    return text, ElementTree.fromstring(re.sub("<!DOCTYPE html>|(?s:<script>.*</script>)", "", text))


def said(root):
    """What the page tells of the check."""
    found, = [one for one in root.iter("p") if one.get("id") == "check"]
    return words_of(found)


def links(root):
    found, = [one for one in root.iter("p") if one.get("id") == "check"]
    return [one.get("href") for one in found.iter("a")]


def changed(run, *changes):
    """The run with (path, value) changes in the object of both."""
    run = copy.deepcopy(run)
    for path, value in changes:
        *steps, last = [int(step) if step.isdecimal() else step for step in path.split("/")]
        at = run
        for step in steps:
            at = at[step]
        at[last] = value
    return run


class Answers(unittest.TestCase):
    def test_what_the_program_says(self):
        for status, printed, told, answer in (
            (0, b"yes\n", "", YES),
            (6, b"", "continuity: check: serial at /entries/0/pieces/1", Answer("serial", "/entries/0/pieces/1")),
            (6, b"", "continuity: check: stored at /blocked\ncontinuity: stored: each", Answer("stored", "/blocked")),
            (5, b"", "continuity: document: 11 at /report/alerts", Answer("11", "/report/alerts", True)),
            (5, b"", "continuity: document: 2 at ", Answer("2", "", True)),
        ):
            with self.subTest(told=told):
                self.assertEqual(answer_of(Ended(status, printed, told)), answer)

    def test_what_is_no_answer(self):
        for status, printed, told in ((1, b"", "continuity: no memory"), (0, b"", ""), (0, b"no\n", ""), (70, b"", "rt"),
                                      (5, b"", "continuity: check: once at /"), (6, b"", "continuity: document: 2 at ")):
            why = f"check gave no answer: the program ended with {status}"
            with self.subTest(told=told), self.assertRaisesRegex(Misfit, why):
                answer_of(Ended(status, printed, told))

    def test_each_answer_has_its_sentence(self):
        for word, means in CLAUSES.items():
            self.assertIn(f"check: {word} is false at /blocked", said(checked(CUT, Answer(word, "/blocked"))[1]))
            self.assertIn(means, said(checked(CUT, Answer(word, "/blocked"))[1]))
        for code, path, words in (
            ("11", "/report/alerts", "no report of this document (code 11) at /report/alerts. It cannot have this value"),
            ("7", "/document/clients/0", "a faulty document (code 7) at /document/clients/0 (client 1). ./continuity explain 7"),
            ("1", "", "a faulty object of both files (code 1). ./continuity explain 1 says what is wrong."),
        ):
            self.assertIn(f"check: {words}", said(checked(CUT, Answer(code, path, True))[1]))

    def test_the_clauses_are_those_of_the_page_on_codes(self):
        codes = (TOP / "docs/CODES.md").read_text(encoding="utf-8")
        rows = codes.split("## Clauses")[1].split("| Clause |")[1].split("\n\n")[0]
        self.assertEqual(re.findall(r"^\| `(\w+)`", rows, re.MULTILINE), list(CLAUSES))


class Pages(unittest.TestCase):
    def test_yes_adds_its_line_alone(self):
        for run in (CUT, SHOP):
            text, root = checked(run, YES)
            self.assertEqual(said(root), "check: yes, all seven clauses hold.")
            self.assertEqual(re.sub('<p id="check">.*?</p>', "", text), page(run["document"], run["report"]))

    def test_a_place_is_told_linked_and_marked(self):
        for run, path, words, row in (
            (CUT, "/served/3", "a served item of event", None),
            (CUT, "/notes/4", "the note of event 5", 5),
            (CUT, "/entries/0/pieces/1", "piece 1 of the entry [1,1,0], stored at event", None),
            (CUT, "/clients/0/0/calls/1", "client 1, request 1, call 1, shown at event", None),
            (CUT, "/clients/0/0/tried/0", "client 1, request 1, begun at event 1", 1),
            (SHOP, "/entries/3", "the entry", None),
        ):
            with self.subTest(path=path):
                text, root = checked(run, Answer("legal", path))
                self.assertIn(words, said(root))
                event, = re.findall(r"event (\d+)", said(root))
                self.assertTrue(row is None or int(event) == row)
                link, = links(root)
                self.assertIn(link[1:], {one.get("id") for one in root.iter("g")})
                self.assertIn(f"{link} .hover{{", text)

    def test_places_of_events(self):
        places = Places(SHOP["document"], SHOP["report"], follow_far(SHOP["document"], SHOP["report"])[0])
        events = {commit.identifier: commit.event for commit in places.commits}
        for number, entry in enumerate(SHOP["report"]["entries"]):
            identifier = "[{},{},{}]".format(*entry["ltxid"])
            self.assertEqual(places.place(Answer("same", f"/entries/{number}"))[1], events[identifier])
        for number, item in enumerate(SHOP["report"]["served"]):
            self.assertEqual(places.place(Answer("legal", f"/served/{number}"))[1], item[1])
        for number, block in enumerate(SHOP["report"]["blocked"]):
            event = places.place(Answer("stored", f"/blocked/{number}"))[1]
            self.assertIn(("outcome", block), [(item[0], item[3]) for item in SHOP["report"]["served"] if item[1] == event])

    def test_places_that_are_no_event(self):
        places = Places(CUT["document"], CUT["report"])
        for path, words in (("/tables/0", "table t at the end"), ("/tables", ""), ("/alerts", ""), ("", ""),
                            ("/served/999", ""), ("/clients/0", "client 1"), ("/clients", ""),
                            ("/clients/0/0/calls/1", "client 1, request 1, call 1"), ("/entries/0", "the entry [1,1,0]")):
            with self.subTest(path=path):
                self.assertEqual(places.place(Answer("whole", path)), (words, 0))

    def test_a_place_outside_of_the_window_is_told(self):
        root = checked(SHOP, Answer("legal", "/notes/99"), first=10, last=20)[1]
        self.assertIn("the note of event 100, which --from 100 draws", said(root))
        self.assertEqual(links(root), [])

    def test_a_place_behind_the_end_of_the_picture_is_told(self):
        bad = changed(CUT, ("document/schedule/3", ["tick"]))
        self.assertIn("the note of event 7, where the picture does not come", said(checked(bad, Answer("legal", "/notes/6"))[1]))

    def test_a_request_that_is_submitted_again(self):
        run = RUNS["a request that is submitted again"]
        root = checked(run, Answer("same", "/clients/0/1/calls/0"))[1]
        self.assertIn("client 1, request 1, submission 2, call 0", said(root))


class AsFarAsItFits(unittest.TestCase):
    def events(self, root):
        return [int(one.get("id")[1:]) for one in root.iter("g") if (one.get("class") or "").startswith("row")]

    def test_up_to_the_event_that_does_not_fit(self):
        bad = changed(CUT, ("report/clients/0/0/calls/0/0/0", {"done": 2}))
        text, root = checked(bad, Answer("same", "/clients/0/0/calls/0"))
        event = max(self.events(root))
        self.assertLess(event, len(CUT["report"]["notes"]))
        self.assertIn(f"<h1>The report does not fit its document from event {event} on</h1>", text)
        why = f"call 0 of client 1, shown at event {event}, is another in its report."
        self.assertIn(f"The picture ends at event {event}: {why}", said(root))
        self.assertIn("THE PICTURE ENDS HERE", text)
        self.assertIn("client 1, request 1, call 0, sent at event", said(root))
        self.assertEqual([], collisions(root))

    def test_an_event_that_is_not_the_schedules(self):
        bad = changed(CUT, ("document/schedule/3", ["tick"]))
        root = checked(bad, YES)[1]
        self.assertEqual(max(self.events(root)), 4)
        self.assertIn("event 4 is ['tick'] in the document", said(root))

    def test_whole_where_only_the_end_does_not_fit(self):
        entry, = CUT["report"]["entries"]
        for clause, path, value, why in (
            ("serial", "tables/0/1", [], "the entries lead to other rows of table t"),
            ("legal", "entries", [entry, entry | {"ltxid": [9, 9, 0]}], "the report has 2 entries, its events store 1"),
            ("whole", "clients/0/0/tried", [], "a request ended 2 transactions, and `tried` has 0 lists"),
        ):
            with self.subTest(clause=clause):
                text, root = checked(changed(CUT, (f"report/{path}", value)), Answer(clause, "/tables/0"))
                self.assertEqual(max(self.events(root)), len(CUT["report"]["notes"]))
                self.assertIn("<h1>The report does not fit its document</h1>", text)
                self.assertIn(f"Each event fits, and the end does not: {why}", said(root))

    def test_entries_that_cannot_be_carried_out(self):
        bad = changed(CUT, ("report/entries/0/pieces/0/0/0/1", "nowhere"))
        root = checked(bad, Answer("serial", "/entries/0/pieces/0"))[1]
        self.assertEqual(max(self.events(root)), len(CUT["report"]["notes"]))
        self.assertEqual(len(links(root)), 1)
        with self.assertRaises(Misfit):
            page(bad["document"], bad["report"])

    def test_nothing_where_nothing_fits(self):
        for run in ({"document": CUT["document"], "report": SHOP["report"]}, {"document": {}, "report": CUT["report"]}):
            text, root = checked(run, Answer("11", "/report/clients", True))
            self.assertIn("Nothing can be drawn: the document has", said(root))
            self.assertNotIn("<main", text)

    def test_a_member_that_is_missing(self):
        report = {name: value for name, value in CUT["report"].items() if name != "alerts"}
        root = checked({"document": CUT["document"], "report": report}, Answer("11", "/report/alerts", True))[1]
        self.assertEqual(max(self.events(root)), len(CUT["report"]["notes"]))


    def test_changed_files(self):
        """Whatever is changed in one, there is a page."""
        chance, ends = random.Random(2), set()
        for _ in range(300):
            run = changed_somewhere(chance, [name for name in RUNS if RUNS[name] is not SHOP])
            path = chance.choice(("/served/3", "/report/clients/0/0/calls/0", "/entries/0/pieces/0", "/document/schedule/2"))
            text, root = checked(run, Answer("legal", path))
            ends.update(re.findall("Nothing can be drawn|The picture ends at|and the end does not", said(root)))
            self.assertIn("check: legal is false", text)
        self.assertEqual(len(ends), 3)


class Command(unittest.TestCase):
    def setUp(self):
        room = tempfile.TemporaryDirectory()
        self.addCleanup(room.cleanup)
        self.room = pathlib.Path(room.name)
        self.program = self.room / "program"
        self.program.write_text(STAND_IN, encoding="utf-8")
        self.program.chmod(0o755)
        self.files = []
        for name in ("document", "report"):
            self.files.append(self.room / name)
            self.files[-1].write_text(json.dumps(CUT[name], indent=1) + "\n", encoding="utf-8")

    def status(self, *words, answer=(0, "yes\n", "")):
        (self.room / "program.answer").write_text(json.dumps(answer), encoding="utf-8")
        output, errors = io.TextIOWrapper(io.BytesIO()), io.StringIO()
        with contextlib.redirect_stdout(output), contextlib.redirect_stderr(errors):
            try:
                status = main(list(map(str, words)))
            except SystemExit as end:
                status = end.code
        return status, output.buffer.getvalue().decode(), errors.getvalue()

    def checked(self, **answer):
        return self.status("--check", "--program", self.program, *self.files, **answer)

    def test_the_program_is_given_both_files_as_they_are(self):
        status, drawn, errors = self.checked()
        self.assertEqual((status, errors), (0, ""))
        self.assertIn("check: yes", drawn)
        document, report = (path.read_text(encoding="utf-8") for path in self.files)
        given = (self.room / "program.given").read_text(encoding="utf-8")
        self.assertEqual(given, f'check {{"document":{document},"report":{report}}}')

    def test_a_report_that_is_wrong_has_its_page(self):
        for answer, told in (
            ((6, "", "continuity: check: once at /entries/0\n"), "check: once is false"),
            ((5, "", "continuity: document: 11 at /report/notes/2\n"), "no report of this document (code 11)"),
        ):
            status, drawn, errors = self.checked(answer=answer)
            self.assertEqual((status, errors), (0, ""))
            self.assertIn(told, drawn)

    def test_without_an_answer_there_is_no_page(self):
        for answer in ((1, "", "continuity: no memory\n"), (0, "", "")):
            status, drawn, errors = self.checked(answer=answer)
            self.assertEqual((status, drawn, errors.count("\n")), (1, "", 1))
        status, _, errors = self.status("--check", "--program", self.room / "none", *self.files)
        self.assertEqual((status, errors.count("\n")), (1, 1))
        self.assertIn("cannot be run", errors)

    def test_words(self):
        self.assertEqual(self.status("--program", self.program, *self.files)[0], 2)
        self.files[1].write_text("[]", encoding="utf-8")
        self.assertEqual(self.checked()[0], 1)


@unittest.skipUnless(os.access(BUILT, os.X_OK), "the program is not built")
class OfTheProgram(unittest.TestCase):
    def test_a_right_report_and_a_wrong_one(self):
        document, report = TOP / "examples/first.json", TOP / "examples/first.report.json"
        with tempfile.TemporaryDirectory() as room:
            wrong = pathlib.Path(room) / "report"
            wrong.write_text(json.dumps(json.loads(report.read_bytes()) | {"tables": []}), encoding="utf-8")
            for given, told in ((report, "check: yes"), (wrong, "check: serial is false</strong> at <code>/tables</code>")):
                output = io.TextIOWrapper(io.BytesIO())
                with contextlib.redirect_stdout(output):
                    self.assertEqual(main(["--check", "--program", str(BUILT), str(document), str(given)]), 0)
                self.assertIn(told, output.buffer.getvalue().decode())


if __name__ == "__main__":
    unittest.main()
