"""What is told of a small tree of definitions."""
import contextlib
import io
import os
import sys
import tempfile
import unittest

sys.path.insert(0, os.path.dirname(os.path.dirname(os.path.dirname(os.path.realpath(__file__)))))

from trusted import command  # noqa: E402

RUN = "crates/continuity_run/specs/meaning"
FILES = {
    f"{RUN}/Headline.antt": """-- What a report says.
use Rattle.below.specs.Words.{IsGood as Good, unused}

-- the headline
pub record Headline (report : Report) : Type 0 where
  -- all of it is good
  pub good : Good report
  pub other : Unit {0}
""",
    f"{RUN}/Clauses.antt": """use Rattle.continuity_run.specs.meaning.Headline.{Headline}

abbrev pub IsDone : Report → Type 0
IsDone report = Headline report

abbrev pub IsDenied : Report → Type 0
IsDenied report = ⊥
""",
    "crates/below/specs/Words.antt": """-- a test
abbrev pub is_good : Report → Bool
is_good report = true

-- a proof that nobody names
pub law : is_good one ≡ true
law = refl

-- one after the other
abbrev pub ◌>>=◌ : Bool → (Bool → Told) → Told
told >>= next = next told

pub data Told : Type 0 where
  Well : Told

module _ {A : Type 0} where
  abbrev pub IsGood : Report → Type 0
  IsGood report = (is_good report >>= λ _. Well) ≡ Well

unfoldable pub unused : ℕ
unused = 3
""",
}
HEADLINE = "Headline: 5 definitions of 15 lines in 2 files"
DONE = "IsDone: 6 definitions of 17 lines in 3 files"
DENIED = "IsDenied: 1 definitions of 2 lines in 1 files"


class Reading(unittest.TestCase):
    def setUp(self):
        room = tempfile.TemporaryDirectory()
        self.addCleanup(room.cleanup)
        self.top = room.name
        for name, text in FILES.items():
            os.makedirs(os.path.dirname(f"{self.top}/{name}"), exist_ok=True)
            with open(f"{self.top}/{name}", "w", encoding="utf-8") as file:
                file.write(text)

    def told(self, *words):
        out, err = io.StringIO(), io.StringIO()
        with contextlib.redirect_stdout(out), contextlib.redirect_stderr(err):
            status = command.main(self.top, list(words))
        return status, out.getvalue().splitlines(), err.getvalue()

    def test_counts_what_is_reached(self):
        self.assertEqual(self.told(), (0, [HEADLINE, DONE, DENIED], ""))

    def test_lists_the_files(self):
        status, lines, _ = self.told("--files")
        self.assertEqual(status, 0)
        self.assertIn("   10 lines,   4 of   6 definitions  crates/below/specs/Words.antt", lines)

    def test_compares_a_page(self):
        page = f"{self.top}/page.md"
        with open(page, "w", encoding="utf-8") as file:
            file.write(f"{HEADLINE}\n{DONE}\n{DENIED}\n")
        self.assertEqual(self.told("--check", page), (0, [], ""))
        with open(page, "w", encoding="utf-8") as file:
            file.write(f"{HEADLINE}\n{DENIED}\n")
        status, _, told = self.told("--check", page)
        self.assertEqual((status, told), (1, f"{page} does not say: {DONE}\n"))

    def test_tells_what_stands_in_the_wrong_folder(self):
        words = f"{self.top}/crates/below/specs/Words.antt"
        status, _, told = self.told("--folders")
        self.assertEqual(status, 1)
        self.assertEqual(
            told.splitlines(),
            [f"crates/below/specs/Words.antt: {name} is outside of specs/meaning/" for name in ("IsGood", "Told", "is_good", "◌>>=◌")],
        )
        with open(words, encoding="utf-8") as file:
            text = file.read()
        os.remove(words)
        os.makedirs(f"{self.top}/crates/below/specs/meaning")
        with open(f"{self.top}/crates/below/specs/meaning/Words.antt", "w", encoding="utf-8") as file:
            file.write(text)
        headline = f"{self.top}/{RUN}/Headline.antt"
        with open(headline, encoding="utf-8") as file:
            text = file.read()
        with open(headline, "w", encoding="utf-8") as file:
            file.write(text.replace("specs.Words", "specs.meaning.Words"))
        status, _, told = self.told("--folders")
        self.assertEqual(
            told.splitlines(),
            [f"crates/below/specs/meaning/Words.antt: {name} is inside of specs/meaning/" for name in ("law", "unused")],
        )

    def test_refuses_other_words(self):
        self.assertEqual(self.told("--all"), (2, [], f"{command.USAGE}\n"))


if __name__ == "__main__":
    unittest.main()
