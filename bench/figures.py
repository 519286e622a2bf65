#!/usr/bin/env python3
"""Holds the program against its bounds: durable lines, lines in memory, old and deep tables, locks, sqlite3, opening and memory.

    python3 bench/figures.py build/wm [ROWS]

ROWS (100,000 where it is left out) rows are inserted, and each figure is told with its bound; the status is 1 where one is over
it. Bounds are ratios of two times of one run, or seconds of the processor, so that other work on the machine counts for little.
The other side is Python's sqlite3 (journal DELETE, synchronous FULL), whose rows are fetched into Python, where the program
writes them as text. Only what is said to be durable has its store on a disk; the other stores lie in memory where there is
/dev/shm. Answers are looked at, so that what was timed is what was asked.
"""
import os
import re
import sqlite3
import subprocess
import sys
import tempfile
import time
from pathlib import Path

from merges import CHILD, Run, merged
from statements import OPENING, made

MICRO = 1_000_000
MEMORY = "/dev/shm" if Path("/dev/shm").is_dir() else None
# How often what is short is timed.
TIMES = 5
# How many lines are timed together, and how many durable ones, in how many turns.
LINES, DURABLE, TURNS = 1_000, 100, 9
PAGE, WRITES = 4_096, 4
VERSIONS, JOINED, FEW, MANY, LOCKS = 4_000, 10_000, 500, 2_000, 10_000

over = []


def told(name, figure, unit, bound=None):
    """Prints a figure and its bound, and keeps in mind that it is over it."""
    is_over = bound is not None and figure > bound
    limit = "" if bound is None else f"at most {bound:g}{', OVER' if is_over else ''}"
    print(f"{name:<58} {figure:>10.2f} {unit:<6} {limit}".rstrip(), flush=True)
    if is_over:
        over.append(name)


class Timed(Run):
    """A run over a store, asked how long the processor worked for lines."""

    def __init__(self, program, store):
        if not Path(store).exists():
            subprocess.run([program, store, "init", "--limit", "1048576"], check=True, stdout=subprocess.DEVNULL)
        super().__init__(program, store)
        self.seconds(OPENING, ["OK"])

    def spent(self):
        return int(Path(f"/proc/{self.process.pid}/schedstat").read_text().split()[0]) / 1e9

    def work(self, lines, wanted):
        """The seconds of the processor that the lines took, whose answers must be `wanted`."""
        start = self.spent()
        self.seconds(lines, wanted)
        return self.spent() - start

    def least(self, line, wanted):
        return min(self.work([line], wanted) for _ in range(TIMES))

    def fill(self, table, rows):
        lines = made(table, rows)
        self.work(lines, ["OK"] * 2 + ["DONE 1"] * rows)

    def most_memory(self):
        return int(re.search(r"VmHWM:\s*(\d+) kB", Path(f"/proc/{self.process.pid}/status").read_text())[1]) * 1024


def of_lines(run, lines, wanted):
    """The microseconds of the processor that each line took."""
    return run.work(lines, wanted) / len(lines) * MICRO


def inserts(first, count=LINES):
    return [f"A: INSERT INTO BUD VALUES ({row}, {row * 7 % 1000})" for row in range(first, first + count)]


def synced(file, lines):
    """How long it takes to write and sync so many pages as lines are given four each."""
    start = time.monotonic()
    for write in range(lines * WRITES):
        os.pwrite(file, bytes(PAGE), write % 64 * PAGE)
        os.fdatasync(file)
    return time.monotonic() - start


def durable(program, folder):
    """Durable INSERT lines beside as many times four pages that are written and synced, in turn."""
    run = Timed(program, f"{folder}/durable.store")
    run.fill("BUD", 1)
    file = os.open(f"{folder}/pages", os.O_RDWR | os.O_CREAT)
    os.pwrite(file, bytes(PAGE * 64), 0)
    pairs = [(run.seconds(inserts(1 + turn * DURABLE, DURABLE), ["DONE 1"] * DURABLE), synced(file, DURABLE)) for turn in range(TURNS)]
    os.close(file)
    run.end()
    lines, pages = (min(times) for times in zip(*pairs))
    told("a durable INSERT line, to 4 pages written and synced", lines / pages, "times", 1.2)
    told("  so many durable lines a second", DURABLE / lines, "")


def in_memory(program, folder, rows):
    """INSERT lines, few and many rows in; memory, and opening."""
    store = f"{folder}/memory.store"
    run = Timed(program, store)
    run.fill("BUD", LINES)
    before = run.most_memory()
    early = of_lines(run, inserts(LINES), ["DONE 1"] * LINES)
    between = rows - 3 * LINES
    run.work(inserts(2 * LINES, between), ["DONE 1"] * between)
    late = of_lines(run, inserts(rows - LINES), ["DONE 1"] * LINES)
    memory = (run.most_memory() - before) / (rows - LINES)
    told(f"an INSERT line behind {LINES:,} rows", early, "us", 60)
    told(f"an INSERT line behind {rows - LINES:,} rows", late, "us", 60)
    told(f"  to that behind {LINES:,}", late / early, "times", 1.3)
    told("memory of a row of two numbers", memory, "bytes", 1_100)
    run.end()
    told(f"opening {rows:,} rows", min(opened(program, store) for _ in range(2)), "s")
    return store


def opened(program, store):
    run = Timed(program, store)
    seconds = run.spent()
    run.end()
    return seconds


def by_key(run, row):
    return of_lines(run, [f"A: SELECT * FROM BUD WHERE ID = {row}"] * LINES, [None, "ROWS 1"] * LINES)


def versions(program, folder):
    """SELECT by key, of a row that has one version and of one that has many."""
    run = Timed(program, f"{folder}/versions.store")
    run.fill("BUD", 1_000)
    run.seconds(CHILD, ["OK"] * len(CHILD))
    early = by_key(run, 0)
    merged(run, 1, VERSIONS)
    late, other = by_key(run, 0), by_key(run, 1)
    run.end()
    told("a SELECT by key, of one version", early, "us", 50)
    told(f"a SELECT by key, of {VERSIONS:,} versions", late, "us", 50)
    told("  to that of one version", late / early, "times", 1.3)
    told(f"  of another key beside {VERSIONS:,} versions", other, "us", 50)


def compared(program, store, folder, rows):
    """Queries beside those of sqlite3 over the same rows."""
    run, database = Timed(program, store), sqlite3.connect(f"{folder}/s.db")
    database.executescript("PRAGMA synchronous = FULL; PRAGMA journal_mode = DELETE")
    for table, count in [("BUD", rows), ("L", JOINED), ("R", JOINED)]:
        if table != "BUD":
            run.fill(table, count)
        database.execute(f"CREATE TABLE {table} (ID INTEGER PRIMARY KEY, AMT INTEGER)")
        database.executemany(f"INSERT INTO {table} VALUES (?, ?)", ((row, row * 7 % 1000) for row in range(count)))
        database.commit()
    queries = [(f"SELECT of {rows:,} rows", "SELECT * FROM BUD", rows, 2),
               (f"GROUP BY over {rows:,} rows", "SELECT AMT, COUNT(*) FROM BUD GROUP BY AMT", 1_000, 2),
               (f"a join of {JOINED:,} and {JOINED:,} rows", "SELECT L.AMT, R.AMT FROM L JOIN R ON L.ID = R.ID", JOINED, 4)]
    for name, query, count, bound in queries:
        ours = run.least(f"A: {query}", [None] * count + [f"ROWS {count}"])
        theirs = min(fetched(database, query) for _ in range(TIMES))
        told(f"{name}, to sqlite3's", ours / theirs, "times", bound)
        told("  of the program", ours * 1_000, "ms")
    run.end()


def fetched(database, query):
    start = time.process_time()
    database.execute(query).fetchall()
    return time.process_time() - start


def day(number):
    return f"DATE '{2000 + number // 336}-{number // 28 % 12 + 1:02}-{number % 28 + 1:02}'"


def changed(run, table, periods):
    """The microseconds of changes of single ones of so many periods of one key."""
    spans = [f"A: INSERT INTO {table} VALUES (1, {number}, WM_PERIOD({day(number)}, {day(number + 1)}))" for number in range(periods)]
    making = [f"A: CREATE TABLE {table} (ID INTEGER PRIMARY KEY, AMT INTEGER)", f"A: EXECUTE DBMS_WM.EnableVersioning('{table}', 'NONE', FALSE, TRUE)"]
    run.seconds(making + spans, ["OK"] * 2 + ["DONE 1"] * periods)
    places = [periods * part // 40 for part in range(40)]
    times = []
    for place in places:
        run.seconds([f"A: EXECUTE DBMS_WM.SetValidTime({day(place)}, {day(place + 1)})"], ["OK"])
        times.append(run.work([f"A: UPDATE {table} SET AMT = 7 WHERE ID = 1"], ["DONE 1"]))
    return sum(times) / len(times) * MICRO


def periods(program, folder):
    run = Timed(program, f"{folder}/periods.store")
    few, many = changed(run, "FEW", FEW), changed(run, "MANY", MANY)
    run.end()
    told(f"a change of one of {FEW} periods of a key", few, "us")
    told(f"a change of one of {MANY:,} periods of a key", many, "us")
    told(f"  to one of {FEW}", many / few, "times", 4)


def locks(program, folder):
    """INSERT lines beside no locks, and as many of other keys beside many; and the line that locks."""
    run = Timed(program, f"{folder}/locks.store")
    run.fill("BUD", LOCKS)
    none = of_lines(run, inserts(LOCKS), ["DONE 1"] * LINES)
    locking = run.work([f"A: EXECUTE DBMS_WM.LockRows('LIVE', 'BUD', 'ID < {LOCKS}')"], [f"DONE {LOCKS}"])
    many = of_lines(run, inserts(LOCKS + LINES), ["DONE 1"] * LINES)
    run.work(["A: SELECT COUNT(*) FROM BUD_LOCK"], [str(LOCKS), "ROWS 1"])
    run.end()
    told("an INSERT line beside no locks", none, "us")
    told(f"an INSERT line beside {LOCKS:,} locks of other keys", many, "us")
    told("  to that beside none", many / none, "times", 1.3)
    told("  the line that locked them, for each", locking / LOCKS * MICRO, "us")


def main():
    program = str(Path(sys.argv[1]).resolve())
    rows = int(sys.argv[2]) if len(sys.argv) > 2 else 100_000
    with tempfile.TemporaryDirectory() as folder:
        durable(program, folder)
    with tempfile.TemporaryDirectory(dir=MEMORY) as folder:
        store = in_memory(program, folder, rows)
        compared(program, store, folder, rows)
        versions(program, folder)
        periods(program, folder)
        locks(program, folder)
    return 1 if over else 0


if __name__ == "__main__":
    sys.exit(main())
