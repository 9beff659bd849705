"""The rows before and after each commit, and that they lead to the tables of the report."""

import copy
import unittest

from runs import SHOP, drawn, followed, of_each_run, words_of

from picture.files import Misfit
from picture.tables import Tables


class Rows(unittest.TestCase):
    @of_each_run
    def test_each_commit_has_its_rows(self, given):
        run = followed(given)
        self.assertEqual(len(run.commits), len(given["report"]["entries"]))
        self.assertTrue(all(commit.changes is not None for commit in run.commits) or "image" in given["document"])

    def test_a_sale(self):
        commit = followed(SHOP).commits[0]
        self.assertEqual((commit.event, commit.identifier, commit.whose),
                         (23, "[1,2,0]", "client 2, connection 2, session (1,2)"))
        self.assertEqual(commit.changes, [("item", "(2, 10)", "(2, 9)"), ("sales", "no row", '(1002, 2, 0, "c2")')])

    def test_small_tables_stand_whole_in_the_details(self):
        self.assertIn('sales after: (1002, 2, 0, "c2")', words_of(drawn(SHOP)[1]))

    def test_they_stand_on_the_page(self):
        root = drawn(SHOP)[1]
        self.assertIn("item: before (2, 10), after (2, 9)", words_of(root))
        self.assertIn(["item", "(2, 10)", "(2, 9)"],
                      [[cell.text for cell in row][3:] for row in root.iter("tr")])

    def test_other_tables_at_the_end(self):
        run = copy.deepcopy(SHOP)
        run["report"]["tables"][0][1][0][1] = 7
        with self.assertRaisesRegex(Misfit, "the entries lead to other rows of table item"):
            followed(run)

    def test_statements(self):
        tables = Tables({"tables": [{"name": "t", "columns": [["id", "int"], ["n", "int"], ["b", "bytes"]],
                                     "rows": [[1, 5, {"hex": "00"}], [2, 6, {"hex": "01"}]]}]})
        calls = [
            ([["update", "t", 1, "n", "plus", -2], ["update", "t", 9, "n", "to", 1], ["get", "t", 1]],
             [{"done": 1}], []),
            ([["delete", "t", 2], ["insert", "t", [3, 1, {"hex": "02"}]]], [{"refused": 4}], []),
            ([["set", "top", 8]], [{"done": 0}], []),
            ([["insert", "t", [{"seq": "s"}, {"var": "top"}, {"draw": "id"}]]], [{"done": 1}],
             [["seq", "s", 17], ["id", "0aff"]]),
            ([["insert", "t", [{"draw": "clock"}, 0, {"hex": ""}]], ["delete", "t", 30]],
             [{"done": 1}], [["clock", 30]]),
            ([["delete", "t", 2], ["commit"]], [{"done": 1}, "committed"], []),
        ]
        entry = {"ltxid": [1, 1, 0], "settings": [["top", 1]], "pieces": calls}
        self.assertEqual(tables.changes_by_entry([entry]), {(1, 1, 0): [
            ("t", "(1, 5, 0x00)", "(1, 3, 0x00)"), ("t", "no row", "(17, 8, 0x0aff)"),
            ("t", "(2, 6, 0x01)", "no row")]})
        self.assertEqual(tables.wholes[(1, 1, 0)], ["t before: (1, 5, 0x00) (2, 6, 0x01)", "t after: (1, 3, 0x00) (17, 8, 0x0aff)"])
        tables.close([["t", [[1, 3, {"hex": "00"}], [17, 8, {"hex": "0aff"}]]]])

    def test_the_store_of_an_image_is_not_known(self):
        self.assertEqual(Tables({"image": "00"}).changes_by_entry([{"ltxid": [2, 1, 0]}]), {})


if __name__ == "__main__":
    unittest.main()
