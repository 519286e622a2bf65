#!/usr/bin/env python3
"""faults PROGRAM [--every N]

Plays a script through the program again and again. Each time one other call on the store, the script or the answers
goes wrong: it fails, does half or nothing, is to be made again, or the program is killed before, in or behind it.
Looked at are the status, the answers and standard error; and each file that the power may leave where it goes then:
with all that was written since the last sync, with none of it, and with parts. It must be opened, and hold all lines
that were answered, or one more, and none in part. The same is done with the power alone at each moment of the whole
run, and again while what that left is repaired; and with init, check and load. A C compiler (cc) builds the shim that
stands before the C library. With --every N each Nth try alone is made.
"""
import argparse
import os
import sys
import tempfile
from concurrent.futures import ThreadPoolExecutor
from pathlib import Path

from expected import Expected
from recording import KINDS
from room import INIT, RUN, Room
from trying import FATES, AgainTries, CheckTries, InitTries, LoadTries, RunTries

from drawn_script import script
from every_line import SCRIPT, lines_of
from machine import built_shim, folder_in_memory

# Rows that fill pages, so that a line changes several.
WIDE = [
    b"A: CREATE TABLE WIDE (ID NUMBER PRIMARY KEY, NOTE VARCHAR2(1900))\n",
    b"A: EXECUTE DBMS_WM.EnableVersioning('WIDE')\n",
    *[b"A: INSERT INTO WIDE VALUES (%d, '%s')\n" % (number, b"%d" % number * 1800) for number in range(1, 6)],
    b"A: UPDATE WIDE SET NOTE = NULL WHERE ID < 3\n",
    b"A: DELETE FROM WIDE\n",
]

# What a load draws: inserts, updates, deletes, counts, merges and a refresh are among the lines.
SEED, DRAWN = 7, 32
# A load begins at the moment of the last change, and what is played before it makes that the moment of the runs.
BEFORE = b"CONNECT A ANN\nA: CREATE TABLE BUD (ID NUMBER PRIMARY KEY)\n"

# How many bytes of the script the program is given at a time, so that it takes it in pieces.
TAKEN = 64


class Told:
    """The faults that were found, each kind of try with its line."""

    def __init__(self, pool):
        self.pool, self.found = pool, 0

    def kind(self, name, attempt, tries):
        tries = list(tries)
        faults = [it for it in self.pool.map(lambda given: attempt(*given), tries) if it]
        self.found += len(faults)
        print(f"{name}: {len(tries)} tried, {len(faults)} ended wrongly", flush=True)
        for fault in faults[:5]:
            print(f"  {fault}")


def powers(moments, every):
    """The files that the power may leave, each once with what was said at most before."""
    found = dict.fromkeys((said, image) for said, images in moments for image in sorted(images))
    return list(found)[::every]


def try_run(told, room, fresh, every):
    lines = lines_of(SCRIPT)
    lines = [*lines[:-1], *WIDE, *lines[-1:]]
    run = RunTries(room, fresh, Expected(room, told.pool, fresh, lines), TAKEN)
    # A program that names the place with each read and write has no seeks.
    missing = set(KINDS) - {call.kind for call in run.whole.calls} - {"seek"}
    if missing or run.whole.status:
        raise SystemExit(f"a run ended with status {run.whole.status}; no calls were seen of {sorted(missing)}")
    for fate, (name, _, _) in FATES.items():
        told.kind(name, run.fault, [(*call, fate) for call in run.calls(fate, every)])
    left = powers(run.moments(), every)
    told.kind("the power goes", run.fault_of_power, left)
    told.kind("the power goes twice", run.fault_of_repair, [it for it in left if is_open(it[1])])
    return [file for _, file in powers(run.moments(), 1) if is_open(file)]


def is_open(file):
    """Whether the journal's gate is open, so that opening repairs the file."""
    return file[8:9] == b"\x47"


def try_init(told, room, fresh, every):
    made = room.look(fresh)
    starts = {"no file": None, "a text": b"no store\n" * 3000}
    for name, start in starts.items():
        init = InitTries(room, start, made)
        tries = [(*call, fate) for fate in FATES for call in init.calls(fate, every)]
        told.kind(f"init over {name}", init.fault, tries)
        told.kind(f"init over {name}, and the power goes", init.fault_of_power, powers(init.moments(), every))
    again = AgainTries(room, fresh)
    tries = [(*call, fate) for fate in FATES for call in again.calls(fate, every)]
    told.kind("init over a store", again.fault, tries)


def try_check(told, room, stores, every):
    for name, store in stores.items():
        check = CheckTries(room, store)
        tries = [(*call, fate) for fate in FATES for call in check.calls(fate, every)]
        told.kind(f"check of {name}", check.fault, tries)
        told.kind(f"check of {name}, and the power goes", check.fault_of_power, powers(check.moments(), every))


def try_load(told, room, fresh, every):
    store = room.play(fresh, RUN, BEFORE).file
    lines = [f"{line}\n".encode() for line in script(SEED, DRAWN)]
    words = "load", "--seed", str(SEED), "--lines", str(DRAWN)
    load = LoadTries(room, store, Expected(room, told.pool, store, lines), words)
    if load.whole.status:
        raise SystemExit(f"a load ended with status {load.whole.status}")
    for fate, (name, _, _) in FATES.items():
        told.kind(f"load, {name}", load.fault, [(*call, fate) for call in load.calls(fate, every)])
    left = powers(load.moments(), every)
    told.kind("load, the power goes", load.fault_of_power, left)


def main():
    words = argparse.ArgumentParser(description=__doc__, formatter_class=argparse.RawDescriptionHelpFormatter)
    words.add_argument("program")
    words.add_argument("--every", type=int, default=1, help="make each Nth try only")
    given = words.parse_args()
    # A folder in memory often is one from which no library is loaded.
    with (tempfile.TemporaryDirectory(prefix="wm-faults-", dir=folder_in_memory()) as folder,
          tempfile.TemporaryDirectory(prefix="wm-faults-") as built, ThreadPoolExecutor() as pool):
        shim = built_shim(Path(__file__).with_name("shim.c"), built)
        room, told = Room(folder, os.path.abspath(given.program), shim), Told(pool)
        fresh = room.play(None, INIT).file
        stopped = try_run(told, room, fresh, given.every)
        try_init(told, room, fresh, given.every)
        try_check(told, room, {"a fresh store": fresh, "a store to be repaired": stopped[-1]}, given.every)
        try_load(told, room, fresh, given.every)
    return 1 if told.found else 0


if __name__ == "__main__":
    sys.exit(main())
