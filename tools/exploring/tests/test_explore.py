"""Each outage is tried at each place, what came of it is counted, and what cannot be is told."""

import contextlib
import copy
import io
import json
import os
import pathlib
import sys
import tempfile
import unittest
from unittest import mock

sys.path.insert(0, str(pathlib.Path(__file__).resolve().parents[2]))
from exploring import command, schedules, shown  # noqa: E402
from running import program  # noqa: E402
from running.program import BUILT  # noqa: E402

EXAMPLES = program.TOP / "examples"

# In the program's place: the first example's report with a note for the outage behind which the schedule ends.
STAND_IN = """#!/usr/bin/env -S python3 -SE
import json, sys
document, base = json.load(sys.stdin), json.load(open(sys.argv[0] + ".report"))
schedule = document.get("schedule", [])
open(sys.argv[0] + ".runs", "a").write(json.dumps(schedule[-1:]) + "\\n")
if schedule:
    kind, *parts = schedule[-1]
    note = ["cut", parts[0], min(parts[1], 36), min(parts[2], 2)] if kind == "cut" else ["crash", parts[0]]
    base["notes"].insert(len(schedule) - 1, note)
    if kind != "cut" and parts[0] and parts[1] < 2:
        base["served"].append(["crashed", len(schedule), [1, 1], False, [["commit"]]])
print(json.dumps(base))
"""


def example(name):
    document = json.loads((EXAMPLES / f"{name}.json").read_text(encoding="utf-8"))
    return document, json.loads((EXAMPLES / f"{name}.report.json").read_text(encoding="utf-8"))


def explored(*words):
    """The status, what was printed and what was told."""
    out, err = io.StringIO(), io.StringIO()
    with contextlib.redirect_stdout(out), contextlib.redirect_stderr(err):
        status = command.main(list(map(str, words)))
    return status, out.getvalue(), err.getvalue()


class Schedules(unittest.TestCase):
    def test_the_events_of_a_run_give_its_notes_again(self):
        document, report = example("cuts/cut_after_the_commit")
        events = schedules.events_of(document, report)
        self.assertEqual(len(events), len(report["notes"]))
        self.assertEqual(events[: len(document["schedule"])], document["schedule"])
        self.assertEqual({event[0] for event in events}, {"go", "serve", "cut", "reap", "tick"})

    def test_connections_that_are_open(self):
        notes = [["go", 1, "open", 1, 1], ["go", 2, "open", 2, 1], ["cut", 1, 0, 0], ["go", 1, "open", 3, 1],
                 ["crash", "down"], ["serve", 2, "close"], ["go", 1, "lost", 3], ["go", 1, "open", 4, 1], ["crash", 0]]
        seen = [schedules.opened(notes[:at]) for at in range(len(notes) + 1)]
        self.assertEqual(seen, [[], [1], [1, 2], [2], [2, 3], [2, 3], [3], [], [4], []])

    def test_numbers_of_bytes(self):
        self.assertEqual([schedules.numbers(most) for most in (0, 1, 9)], [[0], [0, 1], [0, 8, 9]])

    def test_an_own_schedule_goes_on_after_the_outage(self):
        document, report = example("cuts/cut_after_the_commit")
        each = schedules.Each(document, report)
        own = document["schedule"]
        self.assertEqual(each.changed(1, ["tick"])["schedule"], [own[0], ["tick"], *own[1:]])
        self.assertEqual(each.changed(1, ["tick"], 1)["schedule"], [own[0], ["tick"], *own[2:]])
        self.assertEqual(each.changed(len(each.events), ["tick"])["schedule"], [*each.events, ["tick"]])

    def test_random_schedules_are_those_of_their_seed(self):
        document, report = example("first")

        def made(seed):
            return [step[1]["schedule"] for step in schedules.Random(document, report, seed, 50)]

        self.assertEqual(made(1), made(1))
        self.assertNotEqual(made(1), made(2))
        wanted = {"go", "serve", "tick", "cut", "crash", "up", "upcrash", "reap"}
        self.assertEqual({event[0] for schedule in made(1) for event in schedule}, wanted)
        document["service"] = {"standby": True}
        self.assertEqual({event[0] for schedule in made(1) for event in schedule}, wanted | {"failover"})


class Reports(unittest.TestCase):
    def test_no_example_is_at_fault(self):
        for path in sorted(EXAMPLES.rglob("*.report.json")):
            with self.subTest(path.name):
                self.assertEqual(list(shown.faults_of(*example(path.relative_to(EXAMPLES).as_posix().removesuffix(".report.json")))), [])

    def test_what_was_shown_is_told(self):
        lines = [(1, 1, "3 of 3 calls, committed", "none", "once")]
        self.assertEqual(list(shown.lines_of(*example("first"))), lines)
        lines = [(1, 1, "0 of 2 calls", "disabled off", "nothing was tried")]
        self.assertEqual(list(shown.lines_of(*example("resubmitted/submitted_again_without_failover"))), lines)

    def test_what_cannot_be_is_told(self):
        document, report = example("cuts/cut_after_the_commit")
        for word, change in [
            ("twice among the entries", lambda it: it["entries"].append(it["entries"][0])),
            ("is stored twice", lambda it: (it["clients"][0][0]["tried"][0].append([9, 9, 9]),
                                            it["entries"].append({**it["entries"][0], "ltxid": [9, 9, 9]}))),
            ("0 entries are its transaction's", lambda it: it["entries"].clear()),
            ("outcome of [1,1,0]", lambda it: it["clients"][0][0]["outcomes"][0].__setitem__(1, False)),
            ("outcome of [1,1,0]", lambda it: it["clients"][0][0]["outcomes"][0].__setitem__(2, False)),
            ("outcome of [7,7,7]", lambda it: it["clients"][0][0]["outcomes"].append([[7, 7, 7], True, True])),
            ("on SQLite", lambda it: it["tables"][0][1].clear()),
        ]:
            with self.subTest(word):
                bad = copy.deepcopy(report)
                change(bad)
                self.assertTrue(any(word in fault for fault in shown.faults_of(document, bad)))


class Commands(unittest.TestCase):
    def setUp(self):
        room = tempfile.TemporaryDirectory()
        self.addCleanup(room.cleanup)
        self.room = pathlib.Path(room.name)
        self.program = self.room / "program"
        self.program.write_text(STAND_IN, encoding="utf-8")
        self.program.chmod(0o755)
        self.report = example("first")[1]
        self.prints(self.report)

    def prints(self, report):
        (self.room / "program.report").write_text(json.dumps(report), encoding="utf-8")

    def explored(self, *words):
        return explored("--program", self.program, *words, EXAMPLES / "first.json")

    def outages(self):
        lines = (self.room / "program.runs").read_text(encoding="utf-8").splitlines()
        return [tuple(event) for line in lines for event in json.loads(line)]

    def test_each_outage_is_tried_at_each_place(self):
        status, out, err = self.explored()
        tried = self.outages()
        places, serves = len(self.report["notes"]) + 1, sum(note[0] == "serve" for note in self.report["notes"])
        self.assertEqual(tried.count(("crash", 0, 0, 0)), places)
        for after in range(3):
            for pick in range(4):
                self.assertEqual(tried.count(("crash", 1, after, pick)), serves)
        # One connection is open from the second place on; all that is on its way is what the first cut told.
        for up in (0, 35, 36):
            for down in (0, 1, 2):
                wanted = (up, down) if (up, down) != (36, 2) else (schedules.ALL, schedules.ALL)
                self.assertEqual(tried.count(("cut", 1, *wanted)), places - 1)
        runs = 1 + places + 12 * serves + 9 * (places - 1)
        self.assertEqual(len(tried), runs - 1)
        self.assertEqual(status, 0)
        self.assertIn(f"{runs}   1 ", out)
        self.assertIn("3 of 3 calls, committed  none   once    the document as it is", out)
        self.assertTrue(out.endswith(f"{runs} runs; no report that cannot be\n"))
        self.assertIn(f"explore: place {places} of {places}, {runs} runs", err)

    def test_with_a_second_store_each_crash_is_a_failover_too(self):
        document = {**example("first")[0], "service": {"standby": True}}
        paired = self.room / "paired.json"
        paired.write_text(json.dumps(document), encoding="utf-8")
        self.assertEqual(explored("--program", self.program, paired)[0], 0)
        tried = self.outages()
        self.assertEqual([event[1:] for event in tried if event[0] == "failover"], [event[1:] for event in tried if event[0] == "crash"])
        self.assertEqual(tried.count(("failover", 0, 0, 0)), len(self.report["notes"]) + 1)

    def test_at_most_so_many_runs(self):
        status, out, _ = self.explored("--max", "5")
        self.assertEqual((status, len((self.room / "program.runs").read_text().splitlines())), (0, 5))
        self.assertIn("5 runs, and there are more", out)

    def test_random_schedules_in_place_of_all(self):
        (self.room / "program").write_text(STAND_IN.replace("if schedule:", "if False:"), encoding="utf-8")
        status, out, _ = self.explored("--seed", "7", "--max", "20")
        self.assertEqual(status, 0)
        self.assertTrue(out.endswith("21 runs; no report that cannot be\n"))

    def test_documents_that_lines_name_are_kept(self):
        keep = self.room / "kept"
        status, out, _ = self.explored("--max", "3", "--keep", keep)
        self.assertEqual(status, 0)
        self.assertIn(f"the document as it is ({keep}/001.json)", out)
        self.assertEqual(json.loads((keep / "001.json").read_text()), example("first")[0])
        self.assertEqual(json.loads((keep / "001.report.json").read_text()), self.report)

    def test_it_stops_at_a_report_that_cannot_be(self):
        self.prints({**self.report, "entries": self.report["entries"] * 2})
        status, out, err = self.explored("--keep", self.room / "kept")
        self.assertEqual((status, out), (1, ""))
        self.assertIn("the document as it is: an identifier stands twice among the entries", err)
        self.assertTrue((self.room / "kept/at_fault.report.json").exists())

    def test_files_and_words_that_are_wrong(self):
        self.assertEqual(explored("--program", self.room / "none", EXAMPLES / "first.json")[0], 2)
        self.assertEqual(explored("--program", "/bin/false", "--keep", self.room, EXAMPLES / "first.json")[0], 2)
        self.assertEqual(explored(self.room / "none.json")[0], 2)
        for words in (["--max", "0"], ["--seed", "x"], []):
            with self.assertRaises(SystemExit) as ended:
                explored(*words)
            self.assertEqual(ended.exception.code, 2)


class OfTheLauncher(unittest.TestCase):
    def built(self, status):
        with mock.patch.object(program.subprocess, "run", return_value=mock.Mock(returncode=status)) as run:
            return program.built(), run.call_args

    def test_what_it_says_while_it_builds_is_not_held_back(self):
        found, (words, streams) = self.built(0)
        self.assertEqual((found, words[0][0]), (BUILT, str(program.LAUNCHER)))
        self.assertNotIn("stderr", streams)
        self.assertNotIn("capture_output", streams)

    def test_no_old_program_is_run(self):
        with self.assertRaisesRegex(program.NoProgram, "continuity ended with 70"):
            self.built(70)


@unittest.skipUnless(os.access(BUILT, os.X_OK), "the program is not built")
class OfTheProgram(unittest.TestCase):
    def test_a_transaction_is_stored_once_or_an_error_is_shown(self):
        status, out, err = explored("--program", BUILT, EXAMPLES / "first.json")
        self.assertEqual(status, 0, err)
        rows = [line for line in out.splitlines()[1:-1]]
        self.assertTrue(all("once" in row for row in rows), out)

    def test_random_schedules(self):
        for name in ("first", "shop"):
            status, _, err = explored("--program", BUILT, "--seed", "1", "--max", "100", EXAMPLES / f"{name}.json")
            self.assertEqual(status, 0, err)


if __name__ == "__main__":
    unittest.main()
