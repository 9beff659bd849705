"""What stands on the page of each run, and that it can be read."""

import copy
import json
import os
import re
import unittest

from runs import PICTURE, RUNS, SHOP, arranged, beside, drawn, followed, of_each_run, stretched, words_of

from picture.layout import PLANS, WIDE, Columns

CHARACTER = 0.605       # a monospaced character's width, of its size


def texts(root):
    """(picture, box, words) of every text in a picture."""
    for picture in root.iter("svg"):
        for text in picture.iter("text"):
            kinds = text.get("class", "").split()
            size = 12 if "words" in kinds or "number" in kinds else 11
            words = text.text or ""
            width, x, y = len(words) * CHARACTER * size, float(text.get("x")), float(text.get("y"))
            x -= width if "end" in kinds else 0
            yield picture, (x, y - 0.78 * size, x + width, y + 0.22 * size), words


def collisions(root):
    """Texts that lie over each other, or outside of their picture."""
    found, by_picture = [], {}
    for picture, box, words in texts(root):
        by_picture.setdefault(picture, []).append((box, words))
        left, top, width, height = map(float, picture.get("viewBox").split())
        if box[0] < left or box[2] > left + width or box[1] < top - 1 or box[3] > top + height + 1:
            found.append(("outside", words))
    for boxes in by_picture.values():
        boxes.sort(key=lambda one: one[0][1])
        for at, (box, words) in enumerate(boxes):
            for other, others in boxes[at + 1:]:
                if other[1] >= box[3]:
                    break
                if other[0] < box[2] and box[0] < other[2]:
                    found.append((words, others))
    return found


class Page(unittest.TestCase):
    @of_each_run
    def test_a_page_is_whole_and_alone(self, run):
        text, root = drawn(run)
        ids = [one.get("id") for one in root.iter() if one.get("id")]
        self.assertEqual(len(ids), len(set(ids)))
        self.assertEqual([], [one.tag for one in root.iter() if one.get("src") or
                              (one.get("href") or "#")[0] != "#"])
        self.assertNotIn("http", text)
        self.assertLessEqual({one.get("href")[1:] for one in root.iter("use")}, set(ids))

    @of_each_run
    def test_no_two_texts_collide(self, run):
        self.assertEqual([], collisions(drawn(run)[1]))

    @of_each_run
    def test_all_marks_and_frames_are_drawn(self, run):
        groups = [one.get("class") for one in drawn(run)[1].iter("g")]
        self.assertGreaterEqual(groups.count("frame"), len(followed(run).frames))
        self.assertEqual(groups.count("mark"), len(followed(run).marks))

    def test_what_the_runs_say(self):
        for name, said in {
            "a cut before the call was served":
                "lost connection 1 at event 4 (cut); the outcome of [1,1,0] said not committed; call 0 was sent again; "
                "the client saw no error; its commit is stored once, as [1,2,0]",
            "a cut inside the reply": "55 of 58 bytes arrive, lost: reply (done 1)",
            "a cut after the commit":
                "[1,1,0] said committed, so call 1 was shown as committed; the client saw no error",
            "an orphan that commits before it is asked": "its lost session committed at event 8",
            "an orphan that is asked before it commits": "its lost session was refused its commit at event 13",
            "a commit with a statement, whose answers are lost":
                "said committed, in the middle of a call; the client saw the ERROR incomplete",
            "a crash before the gate of the commit":
                "call 0 was replayed with the same answer; call 1 was sent again; the client saw no error",
            "a crash at the gate of the commit, which stands":
                "its session committed at event 7; the outcome of [1,1,0] said committed",
            "one replay too many": "the limit of 4 replays is reached; the last loss was by event 32",
            "three tries while the server is down":
                "found the server down at event 6; the client saw the ERROR retries: 3 tries in a row",
            "a setting lost after the commit":
                "a setting made earlier was lost, so call 2 could not go on; its commit is stored once, as [1,1,0], "
                "and nothing after that",
            "a cut after the whole reply":
                "call 0 was replayed with the same answer; the client saw no error; its commit is stored once, as "
                "[1,2,0]",
            "a stored commit whose outcome is forgotten":
                "the outcome of [1,1,0] is no longer kept; but its last transaction is stored, as [1,1,0]",
            "a stored commit, and then no server for all tries":
                "3 tries in a row to connect failed; but its last transaction is stored, as [1,1,0]",
            "the shop with eight clients": "3 lost connections and 1 crash: all hidden, no client saw an error",
            "a wait that is too long":
                "client 2 saw the ERROR poolwait: no place in the pool became free from tick 0 to tick 5",
            "an outcome that is forgotten": "outcomes of incarnations below 2 are forgotten",
            "a request that is submitted again":
                "client 1, submission 2 of request 1, saw no error; its commit is stored once, as [1,4,0]",
        }.items():
            with self.subTest(run=name):
                self.assertIn(said, words_of(drawn(RUNS[name])[1]))

    def test_a_refused_answer_says_so_beside_its_mark(self):
        labels = [text.text for text in drawn(RUNS["a refused call that the replay does not refuse"])[1].iter("text")]
        self.assertIn("0: refused", labels)

    def test_a_legend_stands_where_there_is_a_mark(self):
        for name, there in (("no clients", False), ("three calls without an outage", True)):
            with self.subTest(run=name):
                self.assertEqual("Legend" in words_of(drawn(RUNS[name])[1]), there)

    @of_each_run
    def test_no_picture_is_wider_than_a_screen(self, run):
        _, rows, columns = arranged(run)
        self.assertLessEqual(rows.width + columns.width, WIDE)

    def test_many_clients_at_once(self):
        for clients, width in ((8, 1450), (64, 8000)):
            with self.subTest(clients=clients):
                run = beside(RUNS["three calls without an outage"], clients)
                _, rows, columns = arranged(run)
                self.assertLessEqual(rows.width + columns.width, width)
                self.assertEqual([], collisions(drawn(run)[1]))

    @of_each_run
    def test_nothing_shares_a_column_at_one_time(self, run):
        followed_run, rows, _ = arranged(run)
        columns, until = Columns(followed_run, rows, PLANS[-1]), {}
        stays = [stay for lane in columns.stays.values() for stay in lane]
        for stay in sorted(stays, key=lambda one: one.first):
            self.assertLess(until.get(stay.column, 0), stay.first)
            until[stay.column] = stay.last

    def test_a_shared_column_names_its_client(self):
        root = drawn(SHOP)[1]
        for client in range(1, 9):
            names = [text.get("class") for text in root.iter("text") if text.text == f"client {client}"]
            self.assertEqual(names.count("strong end"), 1)

    def test_any_text_may_stand_in_values(self):
        text = json.dumps(RUNS["a cut before the call was served"]).replace('"a"', json.dumps("<&>\"'\x01\U0001f600"))
        self.assertIn("insert t (1, ", words_of(drawn(json.loads(text))[1]))

    def test_a_long_run_and_its_windows(self):
        run = stretched(SHOP, 12)
        count = len(run["report"]["notes"])
        self.assertGreater(count, 2000)
        root = drawn(run)[1]
        self.assertEqual([], collisions(root))
        self.assertLessEqual({"e1", f"e{count}"}, {one.get("id") for one in root.iter("g")})
        for first, last in ((1, 1), (200, 330), (count - 3, count), (300, 10 * count)):
            root = drawn(run, first=first, last=last)[1]
            self.assertEqual([], collisions(root))
            rows = {int(one.get("id")[1:]) for one in root.iter("g") if one.get("class") == "row"}
            self.assertEqual((min(rows), min(last, count) in rows), (first, True))

    def test_idle_clients_take_no_room(self):
        """Fourteen more clients without a request, each asked once what it does."""
        run = copy.deepcopy(RUNS["a wait that is short enough"])
        document, report, schedule = run["document"], run["report"], len(run["document"]["schedule"])
        document["clients"] += [{"requests": []}] * 14
        report["clients"] += [[]] * 14
        document["schedule"] += [["go", client] for client in range(3, 17)]
        report["notes"][schedule:schedule] = [["go", client, "idle"] for client in range(3, 17)]
        for item in report["served"]:
            item[1] += 14 if item[1] > schedule else 0
        root = drawn(run)[1]
        self.assertEqual([], collisions(root))
        self.assertIn("clients 3, 4, 5, 6, 7, 8, 9, 10, 11, 12, 13, ", words_of(root))
        self.assertEqual(sum(column[0] == "client" for column in arranged(run)[2].order), 2)

    def test_colours_can_be_read(self):
        """Text stands out by 4.5 or more from both grounds, light and dark."""
        with open(os.path.join(PICTURE, "style.css"), encoding="utf-8") as file:
            themes = re.findall(r":root\s*\{([^}]*)\}", file.read())
        self.assertEqual(len(themes), 2)
        for theme in themes:
            colours = {name: light(colour) for name, colour in re.findall(r"--(\w+):\s*(#\w+)", theme)}
            for name in ("ink", "faint", "call", "ok", "replay", "ask", "bad", "warn"):
                for ground in ("bg", "finish"):
                    dark, bright = sorted((colours[name], colours[ground]))
                    self.assertGreater((bright + 0.05) / (dark + 0.05), 4.5, (name, ground))


def light(colour):
    """The luminance of #rgb or #rrggbb."""
    digits = colour[1:] if len(colour) == 7 else "".join(2 * digit for digit in colour[1:])
    parts = [int(digits[at:at + 2], 16) / 255 for at in (0, 2, 4)]
    return sum(weight * (part / 12.92 if part <= 0.04045 else ((part + 0.055) / 1.055) ** 2.4)
               for weight, part in zip((0.2126, 0.7152, 0.0722), parts))


if __name__ == "__main__":
    unittest.main()
