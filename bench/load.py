#!/usr/bin/env python3
"""Times `load --seed 7 --lines 100000`, and tells how much longer its last lines take than its first.

    python3 bench/load.py build/wm [LINES]

LINES (100,000 where it is left out) drawn lines are loaded into a fresh store on a disk. A load says nothing before its
end. So the last tenth of the lines is played as a script over a store into which the others were loaded, and as many
lines behind the first hundredth likewise; a script that only connects the two sessions tells what opening takes. Each
time is the least of some. The last lines may take at most half as long again as the first: else the status is 1. Beside
that stand the seconds of the processor alone, which show what the disk hides; they have no bound.
"""
import resource
import shutil
import subprocess
import sys
import tempfile
import time
from itertools import islice
from pathlib import Path
from typing import NamedTuple

sys.path.insert(0, str(Path(__file__).resolve().parent.parent / "tools"))
from drawn_script import OPENING, script

SEED = 7
# How often a script is played.
TIMES = 5
# How much longer the last lines may take.
BOUND = 1.5
# The opening lines that make the table and the workspace: a store has them for good, and not where the sessions stand.
MAKING = ("A: CREATE", "A: EXECUTE DBMS_WM.EnableVersioning", "A: EXECUTE DBMS_WM.CreateWorkspace")


def spent():
    """The seconds of the processor that all programs took that were run from here."""
    used = resource.getrusage(resource.RUSAGE_CHILDREN)
    return used.ru_utime + used.ru_stime


class Taken(NamedTuple):
    """How long something took, on the clock and of the processor."""
    clock: float
    processor: float

    @classmethod
    def now(cls):
        return cls(time.monotonic(), spent())

    def __sub__(self, other):
        return Taken(self.clock - other.clock, self.processor - other.processor)


def told(what, taken):
    print(f"{what:<40} {taken.clock:8.2f} s, {taken.processor:8.2f} s of the processor", flush=True)


def load(program, store, lines):
    """Loads so many lines into a fresh store, and gives how long it took."""
    subprocess.run([program, store, "init", "--limit", "1048576"], check=True, stdout=subprocess.DEVNULL)
    words = [program, store, "load", "--seed", str(SEED), "--lines", str(lines)]
    start = Taken.now()
    run = subprocess.run(words, capture_output=True, text=True, check=True)
    taken = Taken.now() - start
    counts = [line.split(" ") for line in run.stdout.splitlines()]
    if [name for name, _ in counts] != ["LINES", "OK", "DONE", "ROWS", "REFUSED"]:
        sys.exit(f"load of {lines} lines says {run.stdout!r}")
    if not sum(int(count) for _, count in counts[1:]) == int(counts[0][1]) == lines + len(OPENING):
        sys.exit(f"load of {lines} lines counts {run.stdout!r}")
    return taken


def played(program, store, lines):
    """The least that it took to play a script over a copy of a store."""
    text = "".join(f"{line}\n" for line in lines)
    words = [program, f"{store}.copy", "run", "--now", "2020-01-01"]

    def once():
        shutil.copy(store, f"{store}.copy")
        start = Taken.now()
        subprocess.run(words, input=text, text=True, stdout=subprocess.DEVNULL, check=True)
        return Taken.now() - start

    return Taken(*map(min, zip(*(once() for _ in range(TIMES)))))


def behind(program, folder, before, count):
    """How long so many lines take behind others."""
    store = f"{folder}/{before}.store"
    load(program, store, before)
    connecting = [line for line in OPENING if not line.startswith(MAKING)]
    drawn = islice(script(SEED, before + count), len(OPENING) + before, None)
    taken = played(program, store, connecting + list(drawn)) - played(program, store, connecting)
    told(f"lines {before + 1} to {before + count}", taken)
    return taken


def main():
    program = str(Path(sys.argv[1]).resolve())
    lines = int(sys.argv[2]) if len(sys.argv) > 2 else 100_000
    few, part = lines // 100, lines // 10
    with tempfile.TemporaryDirectory(dir=".") as folder:
        told(f"load of {lines} lines", load(program, f"{folder}/all.store", lines))
        first = behind(program, folder, few, part)
        last = behind(program, folder, lines - part, part)
    if min(first) <= 0:
        sys.exit("they are too few to be timed")
    ratio = last.clock / first.clock
    of_processor = last.processor / first.processor
    print(f"{'the last to the first':<40} {ratio:8.2f} times, at most {BOUND}; {of_processor:.2f} of the processor")
    return 0 if ratio <= BOUND else 1


if __name__ == "__main__":
    sys.exit(main())
