#!/usr/bin/env python3
"""refuse PROGRAM [--every N] [--from N]

Plays a script through the program again and again, and each time refuses one other allocation. Each run must end with status 10 and
say a front of the answers, and the store must then say what it says after the lines that were answered, or after one more. Where the
program can do without the allocation, the run must end with status 0, all answers and the last state.
A C compiler (cc) builds the shim that stands before the C library.
"""
import argparse
import os
import shutil
import subprocess
import sys
import tempfile
from concurrent.futures import ThreadPoolExecutor
from pathlib import Path

sys.path.insert(0, str(Path(__file__).resolve().parents[1]))
from every_line import MAKING, NOW, READING, SCRIPT, lines_of
from machine import SECONDS, built_shim


def play(program, store, lines, **more):
    """Returns the status, the answers and the standard error of a run of the lines over the store."""
    words = [program, store, "run", "--now", NOW]
    ran = subprocess.run(words, input=b"".join(lines), capture_output=True, timeout=SECONDS, env={**os.environ, **more})
    return ran.returncode, ran.stdout, ran.stderr


def copied(room, store, name):
    to = f"{room}/{name}.store"
    shutil.copyfile(store, to)
    return to


def listing_of(program, room, store, name):
    """Returns what the store says, which is left as it is."""
    copy = copied(room, store, f"{name}-listed")
    status, said, complaint = play(program, copy, lines_of(READING, MAKING))
    os.remove(copy)
    if status:
        raise SystemExit(f"the listing ended with status {status}: {complaint!r}")
    return said


class Expected:
    """The answers to the lines, and what the store says after each of them."""

    def __init__(self, program, room, store, lines):
        after = copied(room, store, "after")
        self.answers, self.listings = [], [listing_of(program, room, after, "before")]
        whole = b""
        for count in range(1, len(lines) + 1):
            after = copied(room, store, "after")
            status, said, complaint = play(program, after, lines[:count])
            if status or not said.startswith(whole):
                raise SystemExit(f"without a refusal line {count} ended with status {status}: {complaint!r}")
            self.answers.append(said[len(whole):])
            self.listings.append(listing_of(program, room, after, "after"))
            whole = said
        self.whole = whole

    def fault(self, status, said, complaint, listing):
        """Says what is wrong with a run in which an allocation was refused, if something is."""
        if (status, said, complaint, listing) == (0, self.whole, b"", self.listings[-1]):
            return None
        if status != 10 or complaint != b"wm: out of memory\n":
            return f"it ended with status {status} and {complaint!r}"
        if not self.whole.startswith(said):
            return f"it said what is no front of the answers: {said[-200:]!r}"
        answered, length = 0, 0
        while answered < len(self.answers) and length + len(self.answers[answered]) <= len(said):
            length += len(self.answers[answered])
            answered += 1
        # Lines that say nothing are answered by nothing, so any of them may have been run.
        first = answered
        while first > 0 and not self.answers[first - 1]:
            first -= 1
        if listing not in self.listings[first:answered + 2]:
            return f"{answered} lines were answered, and the store says {listing!r}"
        return None


def main():
    words = argparse.ArgumentParser(description=__doc__, formatter_class=argparse.RawDescriptionHelpFormatter)
    words.add_argument("program")
    words.add_argument("--every", type=int, default=1, help="refuse each Nth allocation only")
    words.add_argument("--from", type=int, default=1, dest="first", help="begin at the Nth")
    given = words.parse_args()
    program, lines = os.path.abspath(given.program), lines_of(SCRIPT)
    with tempfile.TemporaryDirectory(prefix="wm-refuse-") as room:
        store, counted = f"{room}/fresh.store", f"{room}/count"
        shim = built_shim(Path(__file__).with_name("shim.c"), room)
        subprocess.run([program, store, "init", "--limit", "1000"], check=True, capture_output=True)
        expected = Expected(program, room, store, lines)
        play(program, copied(room, store, "counted"), lines, LD_PRELOAD=shim, REFUSE_COUNT=counted)
        count = int(Path(counted).read_text())

        def attempt(number):
            copy = copied(room, store, f"at-{number}")
            status, said, complaint = play(program, copy, lines, LD_PRELOAD=shim, REFUSE_AT=str(number))
            fault = expected.fault(status, said, complaint, listing_of(program, room, copy, f"at-{number}"))
            os.remove(copy)
            return f"allocation {number}: {fault}" if fault else None

        numbers = range(given.first, count + 1, given.every)
        with ThreadPoolExecutor() as pool:
            faults = [it for it in pool.map(attempt, numbers) if it]
    for fault in faults[:20]:
        print(fault)
    print(f"{len(lines)} lines, {count} allocations: {len(numbers)} refused, {len(faults)} ended wrongly")
    return 1 if faults else 0


if __name__ == "__main__":
    sys.exit(main())
