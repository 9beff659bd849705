#!/usr/bin/env python3
"""Says in words what a code or a word of continuity stands for, as the pages have it."""

import argparse
import pathlib
import re
import sys

ABOUT = """Prints what docs/CODES.md and docs/REPORT.md say of a WORD: a code (7), a clause (serial), an error or a
reason of a report (mismatch, statelost), or another word that begins a row of their tables or is one of their headings.
Status 0; 2 where no page has the word, with a list of those that have."""

DOCS = pathlib.Path(__file__).resolve().parents[2] / "docs"
CODES, REPORT = "CODES.md", "REPORT.md"
# Code 2 says only that the bytes are no JSON.
WHERE = {"2": "`jq . FILE` or `python3 -m json.tool FILE` tells the place"}


class Row:
    """A row of a table: its cells by the table's heads, and the heading that it stands under."""

    def __init__(self, page, heading, heads, cells):
        self.page, self.heading, self.heads, self.cells = page, heading, heads, cells

    def words(self):
        """What the row is found by: the first cell, or the word that a report has for it."""
        first = self.cells[0]
        spans = re.findall(r"`([^`]+)`", first)
        texts = [text for span in spans for text in re.findall(r'"([^"]+)"', span)]
        # (a cell without backticks may have several numbers)
        return texts[:1] or spans or (first.split(", ") if re.fullmatch(r"[\d, ]+", first) else [first])

    def inner(self):
        """The words that the cells after the first one give as a report prints them."""
        return [word for cell in self.cells[1:] for word in re.findall(r'\["(\w+)"', cell)]

    def text(self):
        pairs = [f"{head}: {cell}" for head, cell in zip(self.heads, self.cells) if cell]
        return "\n".join(pairs).replace("**", "")


def cells_of(line):
    """The cells of a table's line. A bar inside backticks or after a backslash ends none."""
    parts = re.findall(r"(?:`[^`]*`|\\.|[^|`\\]|`)+|(?<=\|)(?=\|)", line.strip().strip("|"))
    return [part.strip() for part in parts]


def rows_of(page, text):
    """The rows of a page's tables, in order."""
    rows, heading, heads = [], "", None
    for line in text.splitlines():
        if line.startswith("#"):
            heading, heads = line.lstrip("#").strip(), None
        elif not line.startswith("|"):
            heads = None
        elif heads is None:
            heads = [cell.strip("`") for cell in cells_of(line)]
        elif not re.fullmatch(r"[|:\s-]+", line):
            rows.append(Row(page, heading, heads, cells_of(line)))
    return rows


def sections_of(page, text):
    """The headings of a page below its title, and the text under each."""
    parts = re.split(r"(?m)^#{2,}\s+(.+)$", text)[1:]
    return [(page, title.strip(), body.strip()) for title, body in zip(parts[::2], parts[1::2])]


def read(docs):
    """The rows and the sections of both pages."""
    rows, sections = [], []
    for page in (CODES, REPORT):
        text = (docs / page).read_text(encoding="utf-8")
        rows += rows_of(page, text)
        sections += sections_of(page, text)
    return rows, sections


def found(word, rows, sections):
    """What the pages say of a word, each with where it stands."""
    asked = word.lower()
    titled = [it for it in sections if it[1].strip("`").lower() == asked]
    hits = [it for it in rows if asked in [known.lower() for known in it.words()]]
    hits = hits or [it for it in rows if it.page == REPORT and asked in it.inner()]
    told = [f"docs/{it.page}, {it.heading}\n{it.text()}" for it in hits]
    return told + [f"docs/{page}, {title}\n{body}" for page, title, body in titled]


def known(rows):
    """The words that rows are found by, but for places in a document: numbers first."""
    words = {word for row in rows for word in row.words()}
    words |= {word for row in rows if row.page == REPORT for word in row.inner()}
    numbers = sorted((it for it in words if it.isdigit()), key=int)
    return numbers + sorted(it for it in words if not it.isdigit() and "/" not in it)


def line_of(word, rows):
    """The program's code or clause in one line."""
    for row in rows:
        is_told = row.heads[0] in ("Code", "Clause") or row.heading.startswith("Codes")
        if row.page == CODES and is_told and row.words() == [word]:
            where = f"; {WHERE[word]}" if word in WHERE else ""
            return f"continuity: {word}: {row.cells[1]}{where}; see docs/{row.page}"
    return None


def main(arguments=None):
    parser = argparse.ArgumentParser(prog="continuity explain", description=ABOUT,
                                     formatter_class=argparse.RawDescriptionHelpFormatter)
    parser.add_argument("--line", action="store_true", help="of a code or a clause, one line")
    parser.add_argument("--docs", type=pathlib.Path, default=DOCS, help="the folder of the pages")
    parser.add_argument("word", metavar="WORD", nargs="+")
    given = parser.parse_args(arguments)
    try:
        rows, sections = read(given.docs)
    except (OSError, ValueError) as why:
        print(f"continuity: {why}", file=sys.stderr)
        return 2
    word = " ".join(given.word)
    told = [line_of(word, rows)] if given.line else found(word, rows, sections)
    told = [it for it in told if it]
    if not told:
        print(f"continuity: no page tells of {word}. Words: {', '.join(known(rows))}", file=sys.stderr)
        return 2
    print("\n\n".join(told))
    if word in WHERE and not given.line:
        print(f"\nWhere the bytes of code {word} are no JSON: {WHERE[word]}")
    return 0


if __name__ == "__main__":
    sys.exit(main())
