"""A folder in which the program is run with a shim before the C library, and what is then looked at."""
import hashlib
import os
import subprocess
import sys
import threading
from pathlib import Path
from typing import NamedTuple

sys.path.insert(0, str(Path(__file__).resolve().parents[1]))

from every_line import NOW, READING, lines_of
from machine import SECONDS
from recording import calls_of
from storefile.pages import Damaged, NotAStore, Pages

INIT = "init", "--limit", "1000"
RUN = "run", "--now", NOW
CHECK = "check",
ASKING = b"".join(lines_of(READING))
COMPLAINTS = {3: b"wm: source fault\n", 4: b"wm: say fault\n", 5: b"wm: disk fault\n", 8: b"wm: store exists\n"}


class Ran(NamedTuple):
    status: int
    said: bytes
    complaint: bytes
    calls: list
    file: bytes


def sum_of(data):
    return hashlib.sha256(data).digest()


def records_in(file):
    """The sum of the records that a file holds by their ids, or why it holds none."""
    try:
        return sum_of(repr(sorted((name, data) for _, name, data in Pages(file).slots())).encode())
    except (Damaged, NotAStore) as fault:
        return repr(fault)


class Room:
    def __init__(self, folder, program, shim):
        self.folder, self.program, self.shim = folder, program, shim
        self.made, self.looked, self.alone = 0, {}, threading.Lock()

    def path(self):
        with self.alone:
            self.made += 1
            return f"{self.folder}/{self.made}"

    def play(self, file, words, script=b"", call=None, taken=0):
        """A run over a file of these bytes, or over none, in which this call goes wrong ('KIND NUMBER FATE')."""
        path = self.path()
        store, record, source = f"{path}.store", f"{path}.record", f"{path}.script"
        if file is not None:
            Path(store).write_bytes(file)
        Path(source).write_bytes(script)
        more = {"LD_PRELOAD": self.shim, "FAULTS_STORE": store, "FAULTS_LOG": record, "FAULTS_TAKE": str(taken)}
        more |= {"FAULTS_CALL": call} if call else {}
        with open(source, "rb") as given:
            how = {"stdin": given, "capture_output": True, "timeout": SECONDS, "env": {**os.environ, **more}}
            ran = subprocess.run([self.program, store, *words], **how)
        calls = calls_of(Path(record).read_bytes())
        left = Path(store).read_bytes() if os.path.exists(store) else b""
        for each in store, record, source:
            Path(each).unlink(missing_ok=True)
        return Ran(ran.returncode, ran.stdout, ran.stderr, calls, left)

    def look(self, image):
        """How a run ends that opens a file and reads all, what it says, and the records that the file then holds."""
        name = sum_of(image)
        if name not in self.looked:
            ran = self.play(image, RUN, ASKING)
            self.looked[name] = ran.status, ran.said, records_in(ran.file)
        return self.looked[name]
