"""The scripts run as they are by sqlite3 and by psql, and both print the same, the report's tables at the end."""

import contextlib
import glob
import io
import json
import os
import pathlib
import shutil
import subprocess
import sys
import tempfile
import unittest

sys.path.insert(0, str(pathlib.Path(__file__).resolve().parents[2]))
from database import command, script  # noqa: E402

EXAMPLES = pathlib.Path(__file__).resolve().parents[3] / "examples"
# The folders with PostgreSQL's own programs, as Debian has them, and as they are elsewhere.
POSTGRES = [*sorted(glob.glob("/usr/lib/postgresql/*/bin"), reverse=True), *filter(os.path.isdir, ["/usr/local/pgsql/bin"])]
AS_NOBODY = ["setpriv", "--reuid=65534", "--regid=65534", "--clear-groups"] if os.geteuid() == 0 else []

# Words of SQL, names that a database keeps for itself, and texts with all that a literal may stumble over.
WORDS = ["it's", 'a "word"', "back\\slash", ":name $1 ? %s", "-- no comment", "two\nlines\tand a tab", "é𝄞", ""]
ODD = {"clients": [], "tables": [{"name": "sqlite_table", "columns": [["order", "text"], ["xmin", "int"], ["b", "bytes"]]}]}
ODD_CALL = [["insert", "sqlite_table", [word, -(1 << 63) + at, {"hex": "0aff"}]] for at, word in enumerate(WORDS)]
ODD_ROWS = sorted((item[2] for item in ODD_CALL), key=lambda row: row[0].encode())
ODD_REPORT = {"entries": [{"completed": True, "ltxid": [1, 1, 0], "settings": [], "pieces": [
    [ODD_CALL, [{"done": 1}] * len(WORDS), []],
    [[["update", "sqlite_table", "", "xmin", "plus", -1], ["get", "sqlite_table", "x"], ["get", "none", 1]],
     [{"done": 1}, {"rows": []}, {"refused": 1}], []],
    [[["commit"]], ["committed"], []]]}], "tables": [["sqlite_table", ODD_ROWS]]}


def cases():
    """The names, documents and reports of all examples, and the odd one."""
    yield "odd", ODD, ODD_REPORT
    for path in sorted(EXAMPLES.rglob("*.report.json")):
        name = path.relative_to(EXAMPLES).as_posix().removesuffix(".report.json")
        document = (EXAMPLES / f"{name}.json").read_text(encoding="utf-8")
        yield name, json.loads(document), json.loads(path.read_text(encoding="utf-8"))


def script_of(document, report):
    made = script.Script()
    command.run(document, report, made)
    return made.text()


def plain(value):
    return value["hex"] if isinstance(value, dict) else str(value)


def lines_of(report):
    return "".join("|".join(map(plain, row)) + "\n" for _, rows in report["tables"] for row in rows)


def printed(words, given):
    """What a command prints that may tell no error."""
    ran = subprocess.run(words, input=given.encode(), capture_output=True, check=False)
    if ran.returncode or ran.stderr:
        raise AssertionError(f"{words[0]} ended with {ran.returncode}: {ran.stderr.decode()}")
    return ran.stdout.decode()


@contextlib.contextmanager
def cluster():
    """The words that begin a psql over an empty cluster of PostgreSQL of its own, which is ended and removed."""
    with tempfile.TemporaryDirectory(prefix="replay-") as room:
        if AS_NOBODY:
            os.chown(room, 65534, 65534)
        data, tools, quiet = f"{room}/data", POSTGRES[0], {"stdout": subprocess.DEVNULL, "cwd": room}
        run = lambda *words: subprocess.run([*AS_NOBODY, *words], check=True, **quiet)  # noqa: E731
        run(f"{tools}/initdb", "-D", data, "-U", "reader", "--locale=C", "--encoding=UTF8", "--auth=trust", "--no-sync")
        start = f"-c listen_addresses='' -c unix_socket_directories={room} -c fsync=off"
        run(f"{tools}/pg_ctl", "start", "-w", "-D", data, "-l", f"{room}/log", "-o", start)
        try:
            yield ["psql", "-h", room, "-U", "reader", "-d", "postgres", "-X", "-q", "-A", "-t", "-v", "ON_ERROR_STOP=1"]
        finally:
            run(f"{tools}/pg_ctl", "stop", "-w", "-m", "immediate", "-D", data)


class Scripts(unittest.TestCase):
    @unittest.skipUnless(shutil.which("sqlite3"), "sqlite3 is not there")
    def test_sqlite3_runs_each(self):
        for name, document, report in cases():
            with self.subTest(name):
                told = printed(["sqlite3", "-batch", "-bail", ":memory:"], script_of(document, report))
                self.assertTrue(told.endswith(lines_of(report)))

    @unittest.skipUnless(POSTGRES and shutil.which("psql"), "PostgreSQL is not there")
    def test_psql_runs_each_and_prints_the_same(self):
        with cluster() as psql:
            for name, document, report in cases():
                with self.subTest(name):
                    printed(psql, "SET client_min_messages = error; DROP SCHEMA public CASCADE; CREATE SCHEMA public;")
                    given = script_of(document, report)
                    told = printed(psql, given)
                    self.assertTrue(told.endswith(lines_of(report)))
                    if shutil.which("sqlite3"):
                        self.assertEqual(told, printed(["sqlite3", "-batch", "-bail", ":memory:"], given))

    def test_what_no_script_can_have_is_told(self):
        for word in ("\0", "\r"):
            report = {"entries": [], "tables": [["t", [[word]]]]}
            document = {"tables": [{"name": "t", "columns": [["c", "text"]], "rows": [[word]]}]}
            self.assertEqual(command.run(document, report), (0, 0))
            with self.assertRaises(script.NoScript):
                script_of(document, report)

    def test_the_words(self):
        out, err = io.StringIO(), io.StringIO()
        paths = [str(EXAMPLES / "first.json"), str(EXAMPLES / "first.report.json")]
        with contextlib.redirect_stdout(out), contextlib.redirect_stderr(err):
            self.assertEqual(command.main(["--sql", *paths]), 0)
        self.assertIn("BEGIN; -- transaction [1,1,0]\n", out.getvalue())
        self.assertEqual(err.getvalue(), "")


if __name__ == "__main__":
    unittest.main()
