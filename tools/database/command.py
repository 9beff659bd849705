"""The command: its words, its files and its status."""

import argparse
import json
import sqlite3
import sys

from .image import BadImage, contents
from .judge import Differs, Judge
from .script import NoScript, Script
from .sqlite import Base

ABOUT = """Runs the transactions that a report says were committed, one after the other, on SQLite, and compares
each answer and the tables at the end. DOCUMENT is what `continuity run` read, REPORT what it printed. Names, kinds,
the limit of 32 rows and sums past 64 bits are judged here, in the service's order of checks; all else is SQLite's.
With --sql the same is then printed as a script that sqlite3 and psql run as it is.
Status 0; 1 where something differs, with a line for it; 2 where the words or the files are wrong."""


def plain(value):
    return json.dumps(value, ensure_ascii=True, separators=(",", ":"), sort_keys=True)


def lower(value):
    """A document's values with lower-case hexadecimal digits, as a report has them."""
    if isinstance(value, list):
        return [lower(item) for item in value]
    if isinstance(value, dict) and "hex" in value:
        return {"hex": value["hex"].lower()}
    return value


def run_call(judge, piece, where):
    """Compares a call's answers with those of the report, and gives the number of its items."""
    call, answers, draws = piece
    if judge.base.script:
        judge.base.script.note(f"{plain(call)} answered {plain(answers)}")
    found = judge.call(lower(call), draws)
    if plain(found) != plain(answers):
        raise Differs(f"{where}, {plain(call)}: the report answers {plain(answers)}, SQLite {plain(found)}")
    if judge.draws:
        raise Differs(f"{where}, {plain(call)}: no statement draws {plain(judge.draws)}")
    return len(call)


def run_entry(base, tables, sequences, entry):
    """Runs one transaction and gives the number of its items."""
    name = plain(entry["ltxid"])
    pieces = entry["pieces"]
    ends = [piece[1][-1:] == ["committed"] for piece in pieces]
    if ends != [False] * (len(pieces) - 1) + [True]:
        raise Differs(f"transaction {name}: its last call alone has to commit")
    if entry["completed"] != (pieces[-1][0] == [["commit"]]):
        raise Differs(f"transaction {name}: completed is {plain(entry['completed'])}")
    base.begin(f"transaction {name}")
    judge = Judge(base, tables, sequences, lower(entry["settings"]))
    count = sum(run_call(judge, piece, f"transaction {name}") for piece in pieces)
    base.commit()
    return count


def run(document, report, script=None):
    """Runs all transactions and compares the tables at the end; gives the numbers of both."""
    if "image" in document:
        tables, sequences = contents(bytes.fromhex(document["image"]))
    else:
        tables, sequences = document.get("tables", []), document.get("sequences", [])
    base = Base(lower_rows(tables), script)
    count = sum(run_entry(base, tables, sequences, entry) for entry in report["entries"])
    if script:
        script.note("the tables at the end")
    found = [[table["name"], base.table(table["name"])] for table in tables]
    for (name, rows), told in zip(found, report["tables"]):
        if plain([name, rows]) != plain(told):
            raise Differs(f"table {name}: the report has {plain(told)}, SQLite {plain(rows)}")
    if len(found) != len(report["tables"]):
        raise Differs(f"the report has {len(report['tables'])} tables, and the document {len(found)}")
    return len(report["entries"]), count


def lower_rows(tables):
    return [{**table, "rows": lower(table.get("rows", []))} for table in tables]


def read(path):
    with open(path, encoding="utf-8") as file:
        value = json.load(file)
    if not isinstance(value, dict):
        raise ValueError(f"{path}: no JSON object")
    return value


def main(arguments=None):
    parser = argparse.ArgumentParser(prog="replay", description=ABOUT,
                                     formatter_class=argparse.RawDescriptionHelpFormatter)
    parser.add_argument("--sql", action="store_true", help="print it as a script, too")
    parser.add_argument("document", metavar="DOCUMENT")
    parser.add_argument("report", metavar="REPORT")
    given = parser.parse_args(arguments)
    script = Script() if given.sql else None
    try:
        document, report = read(given.document), read(given.report)
        entries, items = run(document, report, script)
    except Differs as why:
        print(f"replay: {why}", file=sys.stderr)
        return 1
    except (OSError, BadImage, NoScript, ValueError, LookupError, TypeError, RecursionError) as why:
        print(f"replay: {type(why).__name__}: {why}", file=sys.stderr)
        return 2
    if script:
        sys.stdout.write(script.text())
    else:
        print(f"{entries} transactions with {items} items give the same answers and tables on SQLite "
              f"{sqlite3.sqlite_version}")
    return 0
