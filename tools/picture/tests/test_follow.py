"""What is found out of each run: marks, frames with their fates, sentences."""

import unittest
from collections import Counter

from runs import RUNS, SHOP, followed, of_each_run

from picture import sizes


class Follow(unittest.TestCase):
    @of_each_run
    def test_all_that_was_stored_has_a_mark(self, given):
        report, run = given["report"], followed(given)
        marks = Counter((mark.lane[0], mark.shape) for mark in run.marks)
        self.assertEqual(marks["store", "disk"], len(report["entries"]))
        self.assertEqual(marks["store", "lock"], len(report["blocked"]))
        self.assertEqual(marks["store", "flag"], len(report["alerts"]))

    @of_each_run
    def test_all_that_was_shown_has_a_mark(self, given):
        report, run = given["report"], followed(given)
        marks = Counter((mark.lane[0], mark.shape) for mark in run.marks)
        requests = [request for client in report["clients"] for request in client]
        errors = [request["failed"] for request in requests if request["failed"]]
        beside_an_error = sum(error[0] == "disabled" and error[1][0] == "statelost" for error in errors)
        self.assertEqual(marks["client", "check"] + beside_an_error, sum(len(one["calls"]) for one in requests))
        self.assertEqual(marks["client", "fail"], len(errors))

    @of_each_run
    def test_all_that_was_served_has_a_mark(self, given):
        report, run = given["report"], followed(given)
        marks = Counter((mark.lane[0], mark.shape) for mark in run.marks)
        items = Counter((item[0], item[0] == "call" and item[3]) for item in report["served"])
        notes = Counter((note[0], note[-1] in ("none", "down")) for note in report["notes"])
        self.assertEqual(marks["connection", "square"], items["call", False])
        self.assertEqual(marks["connection", "diamond"], items["call", True])
        self.assertEqual(marks["connection", "hexagon"], items["outcome", False])
        self.assertEqual(marks["connection", "stop"], items["blocked", False])
        self.assertEqual(marks["connection", "cut"], notes["cut", False])
        self.assertEqual(marks["store", "bolt"], notes["crash", False] + notes["upcrash", False])

    @of_each_run
    def test_every_frame_has_its_fate(self, given):
        report, run = given["report"], followed(given)
        waiting = {frame.name for frame in run.frames if frame.fate == "waits"}
        self.assertLessEqual(waiting, {"close", "end"})
        served = sum(frame.fate == "taken" and frame.up for frame in run.frames)
        self.assertEqual(served, len(report["served"]))

    def test_which_frames_are_lost(self):
        for name, lost in {
            "a cut before the call was served": [("begin", "cut", 4), ("call", "cut", 4)],
            "a cut inside the reply": [("reply", "cut", 6)],
            "a cut after the whole reply": [],
            "an orphan that commits before it is asked": [("reply", "nowhere", 8)],
            "an orphan that is asked before it commits": [("blocked", "nowhere", 13)],
            "a crash at the gate of the commit, which stands": [],
            "a crash after the commit": [("reply", "crash", 7)],
            "a live identifier blocked from outside": [],
        }.items():
            with self.subTest(run=name):
                frames = followed(RUNS[name]).frames
                self.assertEqual([(one.name, one.fate, one.ended) for one in frames
                                  if one.fate not in ("taken", "waits")], lost)

    def test_reservations_and_horizons(self):
        for name, shape, marks in (
            ("the shop with eight clients", "comb", [(18, "ord 1001-1016"), (60, "ord 1017-1032")]),
            ("a sequence value that is kept", "comb", [(5, "s 1-16")]),
            ("a sequence value that is not kept", "comb", [(5, "s 1-16")]),
            ("an outcome that is forgotten", "horizon", [(12, "forgets below 2")]),
            ("a crash after the commit", "horizon", []),
        ):
            with self.subTest(run=name):
                self.assertEqual([(mark.event, mark.labels[0]) for mark in followed(RUNS[name]).marks
                                  if mark.shape == shape], marks)

    def test_what_a_crash_kept(self):
        for name, event, shapes in (
            ("a crash before the gate of the commit", 7, ["bolt"]),
            ("a crash at the gate of the commit, which stands", 7, ["disk", "bolt"]),
            ("a crash at the gate of the commit, which is lost", 7, ["bolt"]),
            ("a failover that loses the commit", 7, ["bolt"]),
            ("a failover that keeps the commit", 7, ["disk", "bolt"]),
            ("the shop with eight clients", 23, ["disk", "bolt"]),
        ):
            with self.subTest(run=name):
                self.assertEqual([mark.shape for mark in followed(RUNS[name]).marks
                                  if mark.event == event and mark.lane == ("store",)], shapes)

    def test_whose_outcomes_are_asked(self):
        for name, asked in (("three replays", ["[1,1,0]", "[1,2,0]", "[1,3,0]", "[1,4,0]"]),
                            ("a second transaction, static", ["[1,1,1]"]),
                            ("an outcome that is forgotten", ["[1,1,0]"])):
            with self.subTest(run=name):
                marks = [mark.labels[0] for mark in followed(RUNS[name]).marks if mark.labels[-1:] == ("asks",)]
                self.assertEqual(marks, [f"asks {one}" for one in asked])

    def test_slots_are_held_by_as_many_as_the_pool_has(self):
        run = followed(SHOP)
        for event in run.events:
            self.assertLessEqual(sum(one.held <= event.number < one.last for one in run.requests), 3)

    def test_lengths_of_frames(self):
        done, commit = ["call", 6, [1, 1], False, [], [{"done": 1}], []], [["commit"]]
        self.assertEqual(sizes.up("connect"), 9)
        self.assertEqual(sizes.up("call", submitted=commit), 28)
        self.assertEqual(sizes.down("hello", ["connect", 2, [1, 1]]), 33)
        self.assertEqual(sizes.down("reply", done), 58)


if __name__ == "__main__":
    unittest.main()
