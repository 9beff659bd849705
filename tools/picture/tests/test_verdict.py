"""The verdict on each client: by the report alone, for errors that tell and errors that do not."""

import copy
import unittest

from runs import RUNS, SHOP, of_each_run

from picture.files import Misfit
from picture.verdict import APART, Stored, ranges, verdict


def judged(report):
    return verdict(report["clients"], Stored(report))


def single(name):
    """The title and the one line of a run with one client and no session from outside."""
    title, (line,) = judged(RUNS[name]["report"])
    return title, line


class Verdict(unittest.TestCase):
    @of_each_run
    def test_no_run_differs(self, run):
        title, lines = judged(run["report"])
        self.assertNotIn("DIFFER", " ".join([title, *lines]))

    def test_what_clients_saw(self):
        for name, said in {
            "a cut after the commit": "saw 1 commit and no error; stored: 1 transaction [1,1,0]; they agree",
            "a second transaction, static":
                "saw 2 commits and no error; stored: 2 transactions [1,1,0], [1,2,0]; they agree",
            "a commit with a statement, whose answers are lost":
                "saw no commit and the ERROR incomplete; stored: 1 transaction [1,1,0]; they agree",
            "a setting lost after the commit":
                "saw 1 commit and the ERROR disabled; stored: 1 transaction [1,1,0]; they agree",
            "one replay too many": "saw no commit and the ERROR replays; stored: nothing; they agree",
        }.items():
            with self.subTest(run=name):
                self.assertEqual(single(name), ("what the clients saw and what is stored agree", "client 1: " + said))

    def test_errors_that_do_not_tell(self):
        for name, said in {
            "a stored commit, and then no server for all tries":
                "saw no commit and the ERROR retries; stored: 1 transaction [1,1,0]; the client was not told: the "
                "transaction is stored",
            "a stored commit whose outcome is forgotten":
                "saw no commit and the ERROR unknown; stored: 1 transaction [1,1,0]; the client was not told: the "
                "transaction is stored",
            "three tries while the server is down":
                "saw no commit and the ERROR retries; stored: nothing; the client was not told: nothing of it is "
                "stored",
        }.items():
            with self.subTest(run=name):
                self.assertEqual(single(name), ("a client was not told whether its transaction is stored",
                                                "client 1: " + said))

    def test_what_differs(self):
        good = RUNS["a cut after the commit"]["report"]
        lost, twice, wrong = copy.deepcopy(good), copy.deepcopy(good), copy.deepcopy(good)
        lost["entries"] = []
        twice["clients"][0][0]["tried"][0].append([1, 2, 0])
        twice["entries"].append({"ltxid": [1, 2, 0]})
        wrong["clients"][0][0] |= {"calls": [], "failed": ["replays", 4, 9], "tried": [[[1, 1, 0]]]}
        for report in (lost, twice, wrong):
            title, lines = judged(report)
            self.assertIn("DIFFER", title)
            self.assertIn("THEY DIFFER", lines[0])

    def test_an_entry_of_two_clients_differs(self):
        report = copy.deepcopy(RUNS["a cut after the commit"]["report"])
        report["clients"] *= 2
        self.assertIn("DIFFER", judged(report)[0])

    def test_lists_that_do_not_fit_the_calls(self):
        report = copy.deepcopy(RUNS["a cut after the commit"]["report"])
        report["clients"][0][0]["tried"].append([])
        with self.assertRaises(Misfit):
            judged(report)

    def test_sessions_from_outside(self):
        _, lines = judged(RUNS["a read that changed before the replay"]["report"])
        self.assertEqual(lines[1], "from outside: stored: 1 transaction [1,2,0]")

    def test_no_client(self):
        self.assertEqual(judged(RUNS["no clients"]["report"]), ("there is no client", []))

    def test_many_clients_that_are_alike(self):
        self.assertEqual(len(judged(SHOP["report"])[1]), 8)
        report = {"entries": [], "clients": [[]] * (APART + 1)}
        self.assertEqual(judged(report)[1], [f"clients 1-{APART + 1}: each saw no commit and no error; stored: each "
                                             "nothing; they agree"])
        self.assertEqual(ranges([1, 2, 3, 5, 7, 8]), "1-3, 5, 7-8")


if __name__ == "__main__":
    unittest.main()
