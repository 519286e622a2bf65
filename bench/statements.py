#!/usr/bin/env python3
"""Times INSERT lines, a SELECT of all rows, SELECT lines by key, UPDATE lines and a join of two tables on their keys.

    python3 bench/statements.py build/wm [ROWS] [JOINED]

ROWS (10,000 where it is left out) rows are inserted into one table, each by a line of its own, and read by one SELECT. Some
of them are then read one by one by their keys, and changed one by one: by their keys, which are looked up, and by another
column, for which all rows are read. Two tables of JOINED (1,000) rows are then joined on their keys. Each part is a run of
the program on the same store in a fresh folder, so that it has the time of opening the store in it; opening alone is timed
too. Answers are looked at, so that what was timed is what was asked.
"""
import subprocess
import sys
import tempfile
import time
from pathlib import Path

OPENING = ["CONNECT A ANN"]
# How many rows are read and changed one by one.
CHANGED = 100
# Above each AMT that `made` writes, so that a row is found again by it.
LARGE = 5_000


def made(table, rows):
    """Lines that make a table, ready it and fill it."""
    return [
        f"A: CREATE TABLE {table} (ID INTEGER PRIMARY KEY, AMT INTEGER)",
        f"A: EXECUTE DBMS_WM.EnableVersioning('{table}')",
        *(f"A: INSERT INTO {table} VALUES ({row}, {row * 7 % 1000})" for row in range(rows)),
    ]


def timed(program, store, name, lines, last):
    """Runs the lines on the store and prints how long it took; the last line of the answers must be `last`."""
    script = "".join(line + "\n" for line in OPENING + lines)
    start = time.monotonic()
    run = subprocess.run(
        [program, store, "run", "--now", "2020-01-01"], input=script, capture_output=True, text=True, check=True
    )
    seconds = time.monotonic() - start
    answer = run.stdout.splitlines()[-1]
    if answer != last:
        sys.exit(f"{name}: the last answer is {answer!r} and not {last!r}")
    print(f"{name:<40} {seconds:8.2f} s", flush=True)


def main():
    program = str(Path(sys.argv[1]).resolve())
    rows = int(sys.argv[2]) if len(sys.argv) > 2 else 10_000
    joined = int(sys.argv[3]) if len(sys.argv) > 3 else 1_000
    changed = min(rows, CHANGED)
    read_by_key = [f"A: SELECT * FROM BUD WHERE ID = {row}" for row in range(changed)]
    by_key = [f"A: UPDATE BUD SET AMT = {LARGE + row} WHERE ID = {row}" for row in range(changed)]
    by_other = [f"A: UPDATE BUD SET AMT = 5 WHERE AMT = {LARGE + row}" for row in range(changed)]
    join = "A: SELECT L.AMT, R.AMT FROM L JOIN R ON L.ID = R.ID"
    with tempfile.TemporaryDirectory() as folder:
        store = str(Path(folder, "s.store"))
        subprocess.run([program, store, "init", "--limit", "100000"], check=True, stdout=subprocess.DEVNULL)
        timed(program, store, f"{rows} INSERT lines", made("BUD", rows), "DONE 1")
        timed(program, store, "opening that store", [], "OK")
        timed(program, store, f"SELECT of {rows} rows", ["A: SELECT * FROM BUD"], f"ROWS {rows}")
        timed(program, store, f"{changed} SELECT lines of one row by its key", read_by_key, "ROWS 1")
        timed(program, store, f"{changed} UPDATE lines of one row by its key", by_key, "DONE 1")
        timed(program, store, f"{changed} UPDATE lines of one row by its AMT", by_other, "DONE 1")
        timed(program, store, f"two tables of {joined} rows", made("L", joined) + made("R", joined), "DONE 1")
        timed(program, store, "their join on the keys", [join], f"ROWS {joined}")


if __name__ == "__main__":
    main()
