#!/usr/bin/env python3
"""edge PROGRAM [--times N]

Tries the program where no clause speaks of it: two runs of one store at once, standard streams that are closed or full, disks that
are full, scripts that go on and on, and paths and words that are none. It looks at the status, the answers, standard error and the
file, and at what the store then holds. It prints a line for each kind of try, and ends with 1 where one of them is not as it should be.
"""
import argparse
import sys
import tempfile

import deepest
import endless
import runs
import storage
import streams
import words
from room import Kind, Room


def main():
    given = argparse.ArgumentParser(description=__doc__, formatter_class=argparse.RawDescriptionHelpFormatter)
    given.add_argument("program")
    given.add_argument("--times", type=int, default=20, help="how often two runs are tried at once")
    given = given.parse_args()
    found = 0
    with tempfile.TemporaryDirectory(prefix="wm-edge-") as folder:
        room = Room(folder, given.program)
        kinds = {
            "a run beside an open one": lambda kind: runs.beside(kind, room, given.times),
            "two runs from the start": lambda kind: runs.race(kind, room, given.times),
            "two inits from the start": lambda kind: runs.race_to_make(kind, room, given.times),
            "a run after one that was killed": lambda kind: runs.killed(kind, room),
            "a store that another program writes to": lambda kind: runs.written_to(kind, room),
            "standard streams closed": lambda kind: streams.closed(kind, room),
            "standard streams that fail": lambda kind: streams.failing(kind, room),
            "answers that are not taken": lambda kind: streams.not_taken(kind, room),
            "a script that is too long": lambda kind: streams.too_long(kind, room),
            "a line without an end": lambda kind: endless.without_end(kind, room),
            "lines that are deepest": lambda kind: deepest.chains(kind, room),
            "one short line again and again": lambda kind: endless.again(kind, room),
            "paths that lead to no store": lambda kind: storage.no_stores(kind, room),
            "a file that may only be read": lambda kind: storage.read_only(kind, room),
            "a file that may not grow": lambda kind: storage.limited(kind, room),
            "a disk that is full": lambda kind: storage.full(kind, room),
            "words that are none": lambda kind: words.none(kind, room),
        }
        for name, attempt in kinds.items():
            kind = Kind()
            attempt(kind)
            found += len(kind.findings)
            print("; ".join([f"{name}: {kind.tries} looked at, {len(kind.findings)} wrong", *kind.remarks]), flush=True)
            for finding in kind.findings[:5]:
                print(f"  {finding}")
    return 1 if found else 0


if __name__ == "__main__":
    sys.exit(main())
