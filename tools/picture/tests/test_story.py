"""The title and the sentences: what is told in one, and where links lead."""

import re
import unittest

from runs import RUNS, SHOP, drawn, followed, of_each_run, words_of

from picture.request import Said
from picture.story import LINKS, headline, said_of, story


class Story(unittest.TestCase):
    def test_titles(self):
        for name, title in {
            "three calls without an outage": "No outage: no client saw an error",
            "a cut after the commit": "1 lost connection: all hidden, no client saw an error",
            "one replay too many": "5 lost connections: 1 request of 1 ended in an error",
            "a stored commit whose outcome is forgotten":
                "1 lost connection and 1 crash: 1 request of 1 ended in an error, but its transaction is stored",
            "a setting lost after the commit":
                "1 lost connection: 1 request of 1 ended in an error, but its transaction is stored",
            "a second transaction, dynamic": "1 lost connection: 1 request of 1 ended in an error",
            "a request that is submitted again": "1 lost connection: 1 submission of 2 ended in an error",
        }.items():
            with self.subTest(run=name):
                self.assertEqual(headline(followed(RUNS[name]))[0], title)

    def test_many_losses_are_told_in_one(self):
        run = followed(RUNS["one replay too many"])
        said = story(run.requests[0], False, run.stored)
        self.assertRegex(said, r"^client 1 lost its connection 5 times \(at event \d+(, event \d+){4}\); 5 outcomes "
                               r"were asked; .*the client saw the ERROR replays: .*; nothing of it is stored$")
        self.assertNotIn("lost connection ", said)

    def test_very_many_losses_name_the_first_ones(self):
        request = followed(RUNS["a cut after the commit"]).requests[0]
        request.said = [Said(at, "lost", "lost connection 1 at {} (cut)", at) for at in range(1, 26)]
        told, = said_of(request)
        self.assertTrue(told.startswith("lost its connection 25 times (at event 1, event 2"))
        self.assertTrue(told.endswith(f" and {25 - LINKS} more)"))

    def links(self, run, **window):
        root = drawn(run, **window)[1]
        rows = {one.get("id") for one in root.iter("g")} | {one.get("id") for one in root.iter("section")}
        return {one.get("href")[1:] for one in root.iter("a")}, rows

    @of_each_run
    def test_each_link_leads_to_a_row(self, run):
        links, rows = self.links(run)
        self.assertLessEqual(links, rows)

    def test_no_link_leads_out_of_a_window(self):
        for first, last in ((1, 20), (20, 60), (60, 100)):
            links, rows = self.links(SHOP, first=first, last=last)
            self.assertLessEqual(links, rows)
        self.assertIn("at event 19 (cut)", words_of(drawn(SHOP, first=20, last=60)[1]))

    def test_requests_outside_of_a_window_are_counted(self):
        said = words_of(drawn(SHOP, first=150, last=174)[1])
        self.assertIn("3 more requests met an outage or an error", re.sub(r"\s+", " ", said))


if __name__ == "__main__":
    unittest.main()
