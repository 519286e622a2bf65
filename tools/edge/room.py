"""A folder with the program and stores for it, and what a run over one is to end with."""
import os
import shutil
import subprocess
import sys
from pathlib import Path

sys.path.insert(1, str(Path(__file__).resolve().parents[1]))

from machine import SECONDS

NOW = "2024-06-01"
INIT = ("init", "--limit", "1000")
RUN = ("run", "--now", NOW)
CHECK = ("check",)

COMPLAINTS = {
    0: b"",
    2: b"wm: usage\n",
    3: b"wm: source fault\n",
    4: b"wm: say fault\n",
    5: b"wm: disk fault\n",
    6: b"wm: not a store\n",
    8: b"wm: store exists\n",
    9: b"wm: input limit\n",
    11: b"wm: store changed\n",
}

TABLE = b"""CONNECT A ANN
A: CREATE TABLE T (ID NUMBER PRIMARY KEY)
A: EXECUTE DBMS_WM.EnableVersioning('T')
"""


def ended(status, said=b""):
    """The status, the answers and the standard error of a run that ends so."""
    return status, said, COMPLAINTS[status]


def inserting(numbers):
    """A script that inserts these rows, and its answers."""
    lines = [b"A: INSERT INTO T VALUES (%d)\n" % number for number in numbers]
    return b"CONNECT A ANN\n" + b"".join(lines), b"OK\n" + b"DONE 1\n" * len(lines)


class Room:
    def __init__(self, folder, program):
        # Other users are to find the program.
        os.chmod(folder, 0o755)
        self.folder, self.program = folder, f"{folder}/wm"
        shutil.copyfile(program, self.program)
        os.chmod(self.program, 0o755)
        first = self.path("first")
        self.must(self.play(first, INIT), ended(0, b"OK\n"))
        self.fresh = read(first)
        self.must(self.play(first, RUN, TABLE), ended(0, b"OK\n" * 3))
        self.ready = read(first)
        self.made = 0

    @staticmethod
    def must(got, wanted):
        if got != wanted:
            raise SystemExit(f"a store cannot be made: {got}")

    def path(self, name):
        return os.path.join(self.folder, name)

    def store(self, content=None):
        """A file of its own with this content, or with a store that has an empty table T."""
        self.made += 1
        path = self.path(f"{self.made}.store")
        with open(path, "wb") as file:
            file.write(self.ready if content is None else content)
        return path

    def absent(self):
        """A path of its own with no file."""
        self.made += 1
        return self.path(f"{self.made}.store")

    def play(self, path, words, script=b"", **more):
        streams = {"stdout": subprocess.PIPE, "stderr": subprocess.PIPE, **more}
        if "stdin" not in streams:
            streams["input"] = script
        ran = subprocess.run([self.program, path, *words], timeout=SECONDS, **streams)
        return ran.returncode, ran.stdout or b"", ran.stderr

    def begin(self, path, words=RUN):
        """A run whose script is written piece by piece."""
        pipe = subprocess.PIPE
        return subprocess.Popen([self.program, path, *words], stdin=pipe, stdout=pipe, stderr=pipe)

    def rows(self, path):
        """The rows of T, or how the run ended that was to list them."""
        ran = self.play(path, RUN, b"CONNECT Z ZOE\nZ: SELECT ID FROM T\n")
        status, said, _ = ran
        lines = said.split(b"\n")
        return [int(line) for line in lines[1:-2]] if status == 0 and lines[0] == b"OK" else ran


class Kind:
    """The tries of one kind, and what was not as it should be."""

    def __init__(self):
        self.tries, self.findings, self.remarks = 0, [], []

    def expect(self, what, got, *wanted):
        self.tries += 1
        if got not in wanted:
            self.findings.append(f"{what}: {got!r}, and {' or '.join(map(repr, wanted))} is wanted")

    def expect_kept(self, what, room, path, said):
        """A front of the answers to inserting 0, 1 and so on was said: the store has the rows answered, or one more."""
        whole = inserting(range(len(said)))[1]
        self.expect(f"{what}: a front of the answers", whole.startswith(said), True)
        count = max(0, said.count(b"\n") - 1)
        rows = room.rows(path)
        self.expect(f"{what}: the rows", rows, list(range(count)), list(range(count + 1)))
        script, answers = inserting([9999])
        self.expect(f"{what}: a run afterwards", room.play(path, RUN, script), ended(0, answers))


def read(path):
    with open(path, "rb") as file:
        return file.read()
