#!/usr/bin/env python3
"""Times a SELECT of a table and INSERT lines behind one merge and behind many, and tells how much longer the latter take.

    python3 bench/merges.py build/wm [MERGES] [ROWS]

A table of ROWS (1,000 where it is left out) rows is made, and a child of LIVE. Again and again the child changes one row and is
merged, MERGES (1,000) times. Behind the first merge and behind the last one the table is read by one SELECT, the least of some
times, and ROWS rows are inserted into an empty table in LIVE, by a line of its own each. All of it is one run of the program, so
that no time of opening is in it, and each two times that are compared are of one process. Answers are looked at, so that what
was timed is what was asked.
"""
import subprocess
import sys
import tempfile
import threading
import time
from pathlib import Path

from statements import OPENING, made

CHILD = ["CONNECT B BEN", "A: EXECUTE DBMS_WM.CreateWorkspace('W')", "B: EXECUTE DBMS_WM.GotoWorkspace('W')"]
# How often a SELECT is timed.
TIMES = 5


class Run:
    """One run of the program, which is given lines and asked how long their answers took."""

    def __init__(self, program, store):
        words = [program, store, "run", "--now", "2020-01-01"]
        self.process = subprocess.Popen(words, stdin=subprocess.PIPE, stdout=subprocess.PIPE)

    def write(self, lines):
        self.process.stdin.write("".join(line + "\n" for line in lines).encode())
        self.process.stdin.flush()

    def seconds(self, lines, wanted):
        """How long the lines took, whose answers must be `wanted`."""
        writer = threading.Thread(target=self.write, args=(lines,))
        start = time.monotonic()
        writer.start()
        answers = [self.process.stdout.readline().decode().rstrip("\n") for _ in wanted]
        seconds = time.monotonic() - start
        writer.join()
        for place, (answer, asked) in enumerate(zip(answers, wanted)):
            if asked not in (None, answer):
                sys.exit(f"line {place + 1} of the answers to {lines[0]!r} and so on is {answer!r} and not {asked!r}")
        return seconds

    def end(self):
        self.process.stdin.close()
        if self.process.wait():
            sys.exit(f"the run ended with status {self.process.returncode}")


def told(name, seconds, before=None):
    """Prints a time, and how it stands to one from before."""
    ratio = f", {seconds / before:.2f} times as long" if before else ""
    print(f"{name:<40} {seconds:8.3f} s{ratio}", flush=True)


def merged(run, first, till):
    """How long it took that the child changed one row and was merged, once for each number."""
    pairs = [(f"B: UPDATE BUD SET AMT = {number} WHERE ID = 0", "A: EXECUTE DBMS_WM.MergeWorkspace('W')") for number in range(first, till)]
    return run.seconds([line for pair in pairs for line in pair], ["DONE 1", "OK"] * len(pairs))


def measured(run, rows, table):
    """How long a SELECT of all rows takes, and so many INSERT lines into an empty table."""
    listing = [None] * rows + [f"ROWS {rows}"]
    selecting = min(run.seconds(["A: SELECT * FROM BUD"], listing) for _ in range(TIMES))
    making, inserting = made(table, rows)[:2], made(table, rows)[2:]
    run.seconds(making, ["OK"] * len(making))
    return selecting, run.seconds(inserting, ["DONE 1"] * rows)


def main():
    program = str(Path(sys.argv[1]).resolve())
    merges = int(sys.argv[2]) if len(sys.argv) > 2 else 1_000
    rows = int(sys.argv[3]) if len(sys.argv) > 3 else 1_000
    with tempfile.TemporaryDirectory() as folder:
        store = str(Path(folder, "s.store"))
        subprocess.run([program, store, "init", "--limit", "1048576"], check=True, stdout=subprocess.DEVNULL)
        run = Run(program, store)
        lines = [*OPENING, *made("BUD", rows), *CHILD]
        run.seconds(lines, ["OK"] * (len(OPENING) + 2) + ["DONE 1"] * rows + ["OK"] * len(CHILD))
        told("1 merge of one row", merged(run, 0, 1))
        selecting, inserting = measured(run, rows, "EARLY")
        told(f"SELECT of {rows} rows behind 1 merge", selecting)
        told(f"{rows} INSERT lines behind 1 merge", inserting)
        told(f"{merges - 1} merges more", merged(run, 1, merges))
        later = measured(run, rows, "LATE")
        told(f"SELECT of {rows} rows behind {merges} merges", later[0], selecting)
        told(f"{rows} INSERT lines behind {merges} merges", later[1], inserting)
        run.end()


if __name__ == "__main__":
    main()
