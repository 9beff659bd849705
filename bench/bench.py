#!/usr/bin/env python3
"""Times the built programs on large inputs, each at two sizes, so that growth shows.

Usage: bench/bench.py [NAME ..]   with no name, all. Build the programs before, by `rt run` in
crates/continuity, in crates/wire_bench and in crates/log_bench. It needs GNU time at /usr/bin/time.
"""

import json
import multiprocessing
import os
import random
import subprocess
import sys
import tempfile
import time
import typing

TOP = os.path.dirname(os.path.dirname(os.path.abspath(__file__)))
MEGABYTE = 1_000_000


def program(name):
    return os.path.join(TOP, "crates", name, "out", name)


class Cost(typing.NamedTuple):
    """What one run cost: seconds by the clock and of a processor, and the peak memory in bytes."""

    seconds: float
    processor: float
    peak: int


def run(command, source=os.devnull):
    """The cost of one run, which has to succeed."""
    with open(source, "rb") as source, tempfile.TemporaryFile() as sink, tempfile.NamedTemporaryFile() as told:
        # A child is charged its parent's peak, so that of a small program stands between.
        timed = ["/usr/bin/time", "--format=%M", f"--output={told.name}", *command]
        began = time.monotonic()
        child = subprocess.Popen(timed, stdin=source, stdout=sink)
        _, status, usage = os.wait4(child.pid, 0)
        seconds = time.monotonic() - began
        child.returncode = os.waitstatus_to_exitcode(status)
        if child.returncode != 0:
            sys.exit(f"{' '.join(command)}: status {child.returncode}")
        return Cost(seconds, usage.ru_utime + usage.ru_stime, int(told.read()) * 1024)


def least(runs, command, source=os.devnull):
    """The least of so many runs, which other work on the machine touches least."""
    return Cost(*map(min, zip(*(run(command, source) for _ in range(runs)))))


def compact(value):
    return json.dumps(value, separators=(",", ":")).encode()


def table(name, rows):
    return {
        "name": name,
        "columns": [["id", "int"], ["name", "text"]],
        "rows": [[key, f"row {key:08d}"] for key in range(rows)],
    }


def rows_document(tables, rows):
    """Keys of many rows in many tables: are they tested for duplicates in n log n?"""
    return compact({"tables": [table(f"t{n}", rows) for n in range(tables)], "clients": []})


def calls_document(calls, rows):
    """One request of many calls over a table, each with reads and a write, and each third one a commit."""
    script = []
    for n in range(calls):
        statements = [["get", "t", n % rows], ["update", "t", n % rows, "name", "to", f"call {n}"]]
        script.append(statements + ([["commit"]] if n % 3 == 2 else []))
    return compact({"tables": [table("t", rows)], "clients": [{"requests": [{"calls": script}]}]})


def one_request(tables, script):
    return compact({"tables": tables, "clients": [{"requests": [{"calls": script}]}]})


def accounts(rows):
    return {"name": "acc", "columns": [["id", "int"], ["bal", "int"]], "rows": [[key, 100] for key in range(rows)]}


def updates_document(calls):
    """One transaction of eight updates a call, over 8,192 rows at most: what own writes cost."""
    update = lambda n: ["update", "acc", n % 8_192, "bal", "plus", 1]
    script = [[update(8 * call + n) for n in range(8)] for call in range(calls)]
    return one_request([accounts(8_192)], script + [[["commit"]]])


def reads_document(reads, rows):
    """One transaction that reads a whole table so often: what a note of a table costs."""
    return one_request([accounts(rows)], [[["count", "acc"]] for _ in range(reads)] + [[["commit"]]])


def commits_document(commits, rows):
    """So many transactions, each of which reads the whole table and writes one row of it: does a commit copy the table?"""
    script = [[["count", "acc"], ["update", "acc", n % rows, "bal", "plus", 1], ["commit"]] for n in range(commits)]
    return one_request([accounts(rows)], script)


def beside_document(reads, every, rows):
    """A transaction that reads a whole table so often, and a client that commits into another table beside it, which takes
    part in each so manieth round: what does a read cost where others have committed since the one before?"""
    reader = [[["count", "acc"]] for _ in range(reads)] + [[["commit"]]]
    writer = [{"calls": [[["update", "log", n % 64, "bal", "plus", 1], ["commit"]]]} for n in range(reads // every)]
    step = lambda client: [["go", client], ["serve", client], ["serve", client]]
    schedule = [event for n in range(reads) for event in step(1) + (step(2) if n % every == 0 else [])]
    return compact(
        {
            "service": {"pool": {"max": 2}},
            "tables": [accounts(rows), {**accounts(64), "name": "log"}],
            "clients": [{"requests": [{"calls": reader}]}, {"requests": writer}],
            "schedule": schedule,
        }
    )


def sums_document(sums, rows):
    """One transaction that sums a column of a whole table so often: what a scan costs for each row."""
    return one_request([accounts(rows)], [[["sum", "acc", "bal"]] for _ in range(sums)] + [[["commit"]]])


def groups(rows):
    """A table whose rows stand in groups of 32 with one value of a column."""
    return {"name": "t", "columns": [["id", "int"], ["of", "int"]], "rows": [[key, key // 32] for key in range(rows)]}


def selects_document(selects, rows, column):
    """Selects of 32 rows by a column that is no key, or of one row by the key: what does finding them cost?"""
    found = lambda n: n % rows if column == "id" else n % (rows // 32)
    return one_request([groups(rows)], [[["select", "t", column, "eq", found(n)]] for n in range(selects)] + [[["commit"]]])


def many_selects_document(selects, rows, index):
    """Selects of 32 rows by a column, two of them in a call: what does an index of the column save?"""
    select = lambda n: ["select", "t", "of", "eq", n % (rows // 32)]
    script = [[select(2 * n), select(2 * n + 1)] for n in range(selects // 2)]
    return one_request([{**groups(rows), "index": index}], script + [[["commit"]]])


def inserts_document(inserts, rows, index):
    """Inserts into a table of so many rows, each its own transaction: what does keeping indexes cost a write?"""
    script = [[["insert", "t", [rows + n, n // 32, f"row {n:08d}"]], ["commit"]] for n in range(inserts)]
    columns = [["id", "int"], ["of", "int"], ["name", "text"]]
    filled = [[key, key // 32, f"row {key:08d}"] for key in range(rows)]
    return one_request([{"name": "t", "columns": columns, "rows": filled, "index": index}], script)


def shared_document(readers, rounds, rows):
    """So many clients that each read a whole table, change a row of it and commit, each beside the others: one of them commits in
    each round, and the others conflict."""
    call = [["count", "acc"], ["update", "acc", 0, "bal", "plus", 1]]
    scripts = [{"requests": [{"calls": [call, [["commit"]]]}] * rounds} for _ in range(readers)]
    step = lambda client: [["go", client], ["serve", client], ["serve", client]]
    schedule = [event for _ in range(3 * rounds) for client in range(1, readers + 1) for event in step(client)]
    pool = {"pool": {"max": readers}}
    return compact({"service": pool, "tables": [accounts(rows)], "clients": scripts, "schedule": schedule})


def transfers(clients, calls):
    """So many clients that each submit so many transactions of one call."""
    call = lambda client, n: [["update", "acc", (client * calls + n) % 64, "bal", "plus", 1], ["commit"]]
    return [{"requests": [{"calls": [call(client, n)]} for n in range(calls)]} for client in range(clients)]


class Traffic:
    """A schedule over clients that each hold a connection: who holds which, so that its events find something to do."""

    def __init__(self, clients):
        self.drawn = random.Random(1)
        self.clients = clients
        self.opened = clients
        self.held = list(range(1, clients + 1))
        self.events = []

    def round(self):
        """Each client makes a step, and up to two frames are served on its connection."""
        for place, connection in enumerate(self.held):
            self.events += [["go", place + 1], ["serve", connection], ["serve", connection]]

    def cut(self):
        """One connection is cut in the middle of what is on its way, and its session ended. Its client opens another one."""
        place = self.drawn.randrange(self.clients)
        connection = self.held[place]
        self.events += [["cut", connection, self.drawn.randint(0, 60), self.drawn.randint(0, 60)], ["reap", connection], ["tick"]]
        self.opened += 1
        self.held[place] = self.opened

    def crash(self):
        """The server falls while it serves, and comes up. Each client opens another connection."""
        connection = self.drawn.choice(self.held)
        self.events += [["crash", connection, self.drawn.randint(0, 4), self.drawn.randint(0, 3)], ["up"]]
        self.held = [self.opened + 1 + place for place in range(self.clients)]
        self.opened += self.clients


def under_schedule(clients, scripts, schedule):
    pool = {"pool": {"max": clients}}
    return compact({"service": pool, "tables": [accounts(64)], "clients": scripts, "schedule": schedule})


def events_document(events):
    """A schedule over 64 clients, with a cut behind each round and a crash behind each eighth: what an event costs."""
    traffic = Traffic(64)
    while len(traffic.events) < events:
        for _ in range(8):
            traffic.round()
            traffic.cut()
        traffic.crash()
    return under_schedule(64, transfers(64, 31), traffic.events[:events])


def answers_document(events, selects):
    """The same over calls that each select so many times 32 rows: what does it cost to judge a report that is long?"""
    wide = {
        "name": "t",
        "columns": [["id", "int"], ["of", "int"], ["name", "text"]],
        "rows": [[key, key // 32, f"{key:08d}" + "x" * 24] for key in range(4_096)],
    }
    found = lambda n: ["select", "t", "of", "eq", n % 128]
    scripts = transfers(64, 31)
    for client, script in enumerate(scripts):
        for n, request in enumerate(script["requests"]):
            request["calls"][0][:0] = [found(client * 31 + n + place) for place in range(selects)]
    document = json.loads(events_document(events))
    return compact({**document, "tables": [accounts(64), wide], "clients": scripts})


def crashes_document(clients):
    """So many clients, of 32 calls each but for four of them with 31, and a crash behind each eighth round: what a call costs
    that has to outlive crashes."""
    scripts = transfers(clients, 32)
    for client in scripts[:4]:
        client["requests"].pop()
    traffic = Traffic(clients)
    for _ in range(16):
        for _ in range(8):
            traffic.round()
        traffic.crash()
    return under_schedule(clients, scripts, traffic.events)


def openings_document(openings, rows):
    """A store that crashes and is opened so often: what an opening costs."""
    schedule = [["crash", 0, 0, 0], ["up"]] * openings
    return compact({"tables": [accounts(rows)], "clients": [], "schedule": schedule})


def image_of(records):
    """The bytes of a store without a table, which was opened so many times less one: its base, and a record for each opening."""
    payloads = [bytes([1]) + bytes(16)] + [bytes([2]) + n.to_bytes(8, "big") for n in range(1, records)]
    opened = b"".join(b"\1" + len(payload).to_bytes(8, "big") + payload for payload in payloads)
    return b"TGSTORE1" + opened + b"\0"


def stores_document(commits, records, standby):
    """So many commits over a store of so many records: what does a second store cost, which has to get each record too?"""
    requests = [{"calls": [[["commit"]]] * min(1_000, commits - n)} for n in range(0, commits, 1_000)]
    image = image_of(records).hex()
    return compact({"service": {"standby": standby}, "image": image, "clients": [{"requests": requests}]})


def stopped_openings_document(openings, rows):
    """A store whose openings stop before they are stored, so often: what such an opening costs."""
    schedule = [["crash", 0, 0, 0]] + [["upcrash", 0, 0]] * openings + [["up"]]
    return compact({"tables": [accounts(rows)], "clients": [], "schedule": schedule})


def stopped_calls_document(stops, rows):
    """A store that is stopped in a commit and opened so often, in each device call of the commit in turn: what does an opening
    behind it cost? The commits are of 64 clients in turn, and each first asks what became of the one that it lost."""
    clients = 64
    schedule = []
    for n in range(stops):
        client, connection = n % clients + 1, n + 1
        begin = [["go", client], ["serve", connection]]
        lost = [["go", client], ["tick"]] + begin if n >= clients else []
        schedule += [*lost, *begin, *begin, ["crash", connection, n % 5, n // 5 % 4], ["up"]]
    pool = {"pool": {"max": clients}}
    scripts = transfers(clients, 31)
    return compact({"service": pool, "tables": [accounts(rows)], "clients": scripts, "schedule": schedule})


def limits_document(events, size):
    """64 clients, 2,048 calls, so many events, and rows up to about so many bytes: all limits at once."""
    traffic = Traffic(64)
    while len(traffic.events) < events:
        for _ in range(8):
            traffic.round()
            traffic.cut()
        traffic.crash()
    schedule = traffic.events[:events]
    left = size - len(compact(schedule)) - 200_000
    wide = json.loads(long_document(left))["tables"][:31]
    pool = {"pool": {"max": 64}}
    return compact({"service": pool, "tables": [accounts(64), *wide], "clients": transfers(64, 32), "schedule": schedule})


def long_document(size):
    """A document of about so many bytes, nearly all of them texts of rows in 32 tables."""
    rows = size // 32 // 76
    wide = [
        {
            "name": f"t{n}",
            "columns": [["id", "int"], ["name", "text"]],
            "rows": [[key, f"{key:08d}" + "x" * 54] for key in range(rows)],
        }
        for n in range(32)
    ]
    return compact({"tables": wide, "clients": []})


def write(path, make, sizes):
    with open(path, "wb") as out:
        out.write(make(*sizes))


def written(path, make, sizes):
    """Makes the document in a process of its own: what a child is charged begins with its parent's memory."""
    maker = multiprocessing.Process(target=write, args=(path, make, sizes))
    maker.start()
    maker.join()


def document_case(name, make, sizes_list, runs=1):
    print(f"{name}")
    for sizes in sizes_list:
        with tempfile.TemporaryDirectory() as folder:
            path = os.path.join(folder, "document.json")
            written(path, make, sizes)
            size = os.path.getsize(path) / MEGABYTE
            cost = least(runs, [program("continuity"), "run"], path)
        print(
            f"  {size:7.2f} MB: {cost.seconds:7.3f} s, {cost.seconds / size:7.3f} s/MB, "
            f"peak {cost.peak / MEGABYTE:8.1f} MB, {cost.peak / MEGABYTE / size:6.1f} MB/MB"
        )


def check_case(name, make, sizes_list, runs=1):
    print(f"{name}")
    for sizes in sizes_list:
        with tempfile.TemporaryDirectory() as folder:
            document, pair = (os.path.join(folder, name) for name in ("document.json", "pair.json"))
            written(document, make, sizes)
            with open(document, "rb") as source, open(pair, "wb") as out:
                out.write(b'{"document":' + source.read() + b',"report":')
                out.flush()
                source.seek(0)
                subprocess.run([program("continuity"), "run"], stdin=source, stdout=out, check=True)
                out.write(b"}")
            size = os.path.getsize(pair) / MEGABYTE
            cost = least(runs, [program("continuity"), "check"], pair)
        print(
            f"  {size:7.2f} MB: {cost.processor:7.3f} s, {cost.processor / size:7.3f} s/MB, "
            f"peak {cost.peak / MEGABYTE:8.1f} MB, {cost.peak / MEGABYTE / size:6.1f} MB/MB"
        )


def start_case(runs):
    """The start of the program, by a document of nothing."""
    with tempfile.NamedTemporaryFile() as document:
        document.write(compact({"clients": []}))
        document.flush()
        cost = least(runs, [program("continuity"), "run"], document.name)
    print(f"start of the program: {cost.seconds * 1e3:.1f} ms, peak {cost.peak / MEGABYTE:.1f} MB")


def program_case(name, words_list, unit):
    print(f"{name}")
    for words in words_list:
        cost = run([program(name), *words])
        count = int(words[-1])
        print(
            f"  {' '.join(words):>20}: {cost.seconds:7.3f} s, {cost.seconds / count * 1e6:8.3f} us/{unit}, "
            f"peak {cost.peak / MEGABYTE:8.1f} MB"
        )


CASES = {
    "start": lambda: start_case(100),
    "long": lambda: document_case("long documents", long_document, [(4_000_000,), (8_000_000,)]),
    "rows": lambda: document_case("32 tables of rows", rows_document, [(32, 2_500), (32, 10_000)]),
    "calls": lambda: document_case("calls of one request", calls_document, [(256, 10_000), (1_024, 10_000)]),
    "updates": lambda: document_case("one transaction of updates", updates_document, [(256,), (1_023,)]),
    "reads": lambda: document_case("reads of a whole table in one transaction", reads_document, [(512, 1_000), (512, 10_000)]),
    "whole": lambda: document_case("a whole-table read, an update and a commit", commits_document, [(512, 1_000), (512, 10_000)]),
    "beside": lambda: document_case("reads beside commits of others", beside_document, [(512, 64, 10_000), (512, 1, 10_000)]),
    "sums": lambda: document_case("sums of a whole table", sums_document, [(512, 1_000), (512, 10_000)]),
    "selects": lambda: document_case("selects of 32 rows", selects_document, [(1_000, 10_000, "of"), (1_023, 1_000, "of")]),
    "indexed": lambda: document_case(
        "selects without an index, and with one", many_selects_document, [(2_000, 10_000, []), (2_000, 10_000, ["of"])]
    ),
    "inserts": lambda: document_case(
        "inserts without an index, and with two", inserts_document, [(1_000, 9_000, []), (1_000, 9_000, ["of", "name"])]
    ),
    "keys": lambda: document_case("selects of one row by its key", selects_document, [(1_000, 10_000, "id"), (1_023, 1_000, "id")]),
    "shared": lambda: document_case("sessions that read one table and commit", shared_document, [(8, 32, 1_000), (8, 32, 10_000)]),
    "events": lambda: document_case("events of a schedule", events_document, [(1_000,), (10_000,), (100_000,)], 5),
    "checks": lambda: check_case("reports that are judged", answers_document, [(100_000, 2), (100_000, 6)], 3),
    "crashes": lambda: document_case("calls of clients under crashes", crashes_document, [(16,), (64,)], 5),
    "openings": lambda: document_case("openings of a store", openings_document, [(200, 5_000), (2_000, 5_000)]),
    "stores": lambda: document_case(
        "commits over a store of many records, and over two such stores", stores_document,
        [(2_000, 80_000, False), (2_000, 80_000, True)], 5
    ),
    "stopped": lambda: document_case("openings that stop", stopped_openings_document, [(1_000, 64), (4_000, 64)]),
    "stopped calls": lambda: document_case("commits that stop", stopped_calls_document, [(250, 64), (1_000, 64), (1_000, 5_000)]),
    "alternations": lambda: document_case("crashes and openings of a small store", openings_document, [(2_000, 64), (20_000, 64)]),
    "limits": lambda: document_case("all limits at once", limits_document, [(10_000, 1_000_000), (100_000, 8_300_000)]),
    "answers": lambda: program_case("wire_bench", [["answers", "100000"], ["answers", "1000000"]], "answer"),
    "stream": lambda: program_case("wire_bench", [["stream", "1000000"], ["stream", "4000000"]], "byte"),
    "commits": lambda: program_case("log_bench", [["10000"], ["100000"]], "commit"),
    "frame": lambda: program_case("wire_bench", [["frame", "1000000"], ["frame", "4000000"]], "byte"),
}


def main():
    for name in sys.argv[1:] or CASES:
        CASES[name]()


if __name__ == "__main__":
    main()
