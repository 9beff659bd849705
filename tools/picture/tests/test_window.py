"""Which events are drawn, what the page says of them, the strip, and the names above the lanes."""

import os
import re
import unittest

from runs import PICTURE, RUNS, SHOP, arranged, drawn, followed, of_each_run, stretched

from picture.drawing import Drawing
from picture.layout import PLANS, Columns
from picture.overview import LONG, kinds
from picture.page import SCRIPTS, part
from picture.sheets import Sheets
from picture.window import MOST, last_drawn


class Window(unittest.TestCase):
    def test_a_long_run_has_a_window_by_itself(self):
        run = stretched(SHOP, 60)
        count, text = len(run["report"]["notes"]), drawn(run)[0]
        last = last_drawn(followed(run), 1, None)
        self.assertLess(MOST / 3, last)
        self.assertLess(last, MOST)
        self.assertIn(f"Events 1 to {last} of {count} are drawn here.", text)
        self.assertIn("--from EVENT --to EVENT", text)
        self.assertLess(len(text), 3_000_000)

    def test_a_window_that_is_asked_for(self):
        run = followed(SHOP)
        for first, last, drawn_last in ((1, None, 174), (1, 174, 174), (60, 100, 100), (60, 999, 174),
                                        (174, None, 174)):
            self.assertEqual(last_drawn(run, first, last), drawn_last)

    def test_all_events_need_no_word(self):
        self.assertNotIn("are drawn here", drawn(SHOP)[0])

    def test_the_whole_run_is_shown_beside_a_window(self):
        root = drawn(SHOP, first=60, last=100)[1]
        bar, = [one for one in root.iter("svg") if one.get("class") == "whole"]
        titles = [title.text for title in bar.iter("title")]
        self.assertEqual(titles[:2], ["event 19: 1 outage or error", "event 23: 1 outage or error"])
        self.assertEqual(sum("commit" in title for title in titles), 7)

    def test_a_strip_stands_beside_a_long_picture(self):
        for run in RUNS.values():
            text, rows = drawn(run)[0], arranged(run)[1]
            self.assertEqual('id="strip"' in text, len(rows.groups) >= LONG)
        self.assertEqual(kinds(followed(SHOP))[23], "bad")


class Names(unittest.TestCase):
    def sheets(self, run, plan=None, sentences=0):
        followed_run, rows, columns = arranged(run)
        columns = Columns(followed_run, rows, plan) if plan else columns
        return Sheets(rows, columns, Drawing(followed_run, rows, columns), sentences)

    @of_each_run
    def test_each_lane_has_a_name_where_something_stands_in_it(self, run):
        for plan in PLANS:
            sheets = self.sheets(run, plan)
            for column, stays in sheets.columns.in_column.items():
                for stay, lane in stays:
                    self.assertEqual(sheets.name(column, stay.first, stay.first), sheets.columns.name(lane))

    def test_the_head_of_each_sheet_names_who_is_there(self):
        text = drawn(SHOP)[0]
        heads = [re.findall(r'lane">([^<]*)<', head) for head in re.findall(r'head again">(.*?)</div>', text)]
        self.assertIn("conn 1", heads[0])
        self.assertNotIn("conn 1", heads[-1])
        self.assertTrue(any("conn 4" in head for head in heads[1:]))
        self.assertTrue(all(head[-1] == "store" for head in heads))

    def test_the_first_sheet_leaves_room_for_the_sentences_above_it(self):
        ends = [self.sheets(SHOP, sentences=sentences).cuts[1][1] for sentences in range(7)]
        self.assertGreater(ends[0], ends[3])
        self.assertGreater(ends[6], ends[0])    # so many leave none: the sheet has its own page

    def test_the_script_is_told_of_each_column(self):
        sheets = self.sheets(SHOP)
        self.assertEqual(len(sheets.lanes()), len(sheets.columns.order))
        self.assertEqual(sheets.lanes()[-1], [])
        self.assertEqual(sheets.lanes()[0][0][2], "client 1")


class Scripts(unittest.TestCase):
    def test_what_scripts_look_for_is_there(self):
        text = drawn(SHOP)[0]
        code = "".join(part(f"script/{name}.js") for name in SCRIPTS)
        for name in re.findall(r'getElementById\("(\w+)"\)', code):
            self.assertIn(f'id="{name}"', text)
        for kind in re.findall(r'querySelector(?:All)?\("\.([a-z]+)', code):
            self.assertRegex(text, rf'class="[^"]*\b{kind}\b')

    def test_each_script_is_on_the_page(self):
        files = sorted(os.listdir(os.path.join(PICTURE, "script")))
        self.assertEqual(files, sorted(f"{name}.js" for name in SCRIPTS))


if __name__ == "__main__":
    unittest.main()
