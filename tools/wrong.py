#!/usr/bin/env python3
"""python3 tools/wrong.py [RT [CRATE..]]

Tries wrong bodies that the gate leaves out, since the proof of their crates is dear: those of crates/*/wrong, which are written as
those of must-fail/ are. Each must be refused. Crates that 'rt check' proved on this machine are not proved again for it.
"""
import shutil
import subprocess
import sys
import tempfile
from pathlib import Path

TOP = Path(__file__).resolve().parents[1]


def prepare(room):
    """A copy of the repository in which the wrong bodies stand where they are tried. The crates that have some."""
    shutil.copytree(TOP / "crates", room / "crates", ignore=shutil.ignore_patterns("out", "must-fail"))
    for name in "crates.txt", "HANDLES":
        shutil.copyfile(TOP / name, room / name)
    found = sorted((room / "crates").glob("*/wrong"))
    for folder in found:
        folder.rename(folder.with_name("must-fail"))
    return [folder.parent.name for folder in found]


def main():
    rt, *names = sys.argv[1:] or ["rt"]
    # Outside the repository, where rt would meet files that no crate names.
    with tempfile.TemporaryDirectory(prefix="wm-wrong-") as folder:
        room = Path(folder)
        every = prepare(room)
        lacking = set(names) - set(every)
        if lacking:
            sys.exit(f"there are no wrong bodies of {', '.join(sorted(lacking))}")
        return subprocess.run([rt, "must-fail", *(names or every)], cwd=room).returncode


if __name__ == "__main__":
    sys.exit(main())
