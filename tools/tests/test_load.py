"""`load` plays the lines that tools/drawn_script.py writes, and counts their answers."""
import random
import shlex
import subprocess
from collections import Counter

from around import PROGRAM, TOP, WithFolder, made, run, tool
from machine import SECONDS

KINDS = [b"OK", b"DONE", b"ROWS", b"REFUSED"]


def kind(line):
    """What a line of answers counts as: a row of a listing counts as nothing."""
    return b"REFUSED" if line.startswith(b"WM-") else line.split(b" ")[0]


class Load(WithFolder):
    def played(self, seed, lines):
        """The store of a load, what it said, and the store and the answers of a run of the same lines as a script."""
        loaded, other = made(self.folder / "loaded.store"), made(self.folder / "other.store")
        said = subprocess.run([*shlex.split(PROGRAM), str(loaded), "load", "--seed", str(seed), "--lines", str(lines)], capture_output=True,
                              check=True, timeout=SECONDS, stdin=subprocess.DEVNULL)
        # A load begins at the store's last moment, which is the first there is where the store is fresh.
        answers = run(other, "0001-01-01", tool("drawn_script.py", seed, lines).stdout.encode())
        return loaded, said.stdout, other, answers.stdout

    def test_a_load_is_a_run_of_the_same_lines(self):
        for seed, lines in [(7, 0), (7, 1), (0, 200), (2**64 - 1, 200), (random.randrange(2**64), 400)]:
            with self.subTest(seed=seed, lines=lines):
                loaded, said, other, answers = self.played(seed, lines)
                counted = Counter(map(kind, answers.splitlines()))
                self.assertEqual(said.splitlines(), [b"LINES %d" % (lines + 8), *(b"%s %d" % (name, counted[name]) for name in KINDS)])
                self.assertEqual(loaded.read_bytes(), other.read_bytes())
                loaded.unlink()
                other.unlink()

    def test_the_script_begins_as_a_case_has_it(self):
        case = (TOP / "cases" / "store" / "loaded.case").read_text().splitlines()
        lines = [line[2:] for line in case[case.index("$ run --now 0001-01-01"):] if line.startswith("< ")]
        self.assertEqual(tool("drawn_script.py", 7, len(lines) - 8).stdout.splitlines(), lines)
