"""What the tests share: the program, the tools, stores of examples and of random scripts."""
import os
import shlex
import subprocess
import sys
import tempfile
import unittest
from pathlib import Path

from machine import SECONDS, folder_in_memory

TOP = Path(__file__).resolve().parents[2]
# It may have words behind the program, as where another runs it.
PROGRAM = os.environ.get("WM") or shlex.quote(str(TOP / "build" / "wm"))
EXAMPLES = [("first", "2020-01-01"), ("again", "2020-01-02"), ("budget", "2024-06-01"), ("survey", "2024-07-01"),
            ("plans", "2024-08-01"), ("teams", "2024-09-02")]
TUTORIAL = [("planner", "2024-06-01"), ("surveyor", "2024-06-01"), ("officer", "2024-06-01")]


def tool(name, *words, **named):
    """What a tool did. Its words are texts and paths."""
    return subprocess.run([sys.executable, str(TOP / "tools" / name), *map(str, words)], capture_output=True, text=True, timeout=SECONDS,
                          **named)


def run(store, now, script):
    """A run of the program alone."""
    return subprocess.run([*shlex.split(PROGRAM), str(store), "run", "--now", now], input=script, capture_output=True, timeout=SECONDS)


def made(store, limit=1_048_576):
    subprocess.run([*shlex.split(PROGRAM), str(store), "init", "--limit", str(limit)], check=True, capture_output=True, stdin=subprocess.DEVNULL)
    return store


def store_of_examples(store):
    made(store)
    for name, now in EXAMPLES:
        assert run(store, now, (TOP / "examples" / f"{name}.wm").read_bytes()).returncode == 0
    return store


def store_of_tutorial(store, name):
    made(store)
    assert run(store, dict(TUTORIAL)[name], (TOP / "examples" / "tutorial" / f"{name}.wm").read_bytes()).returncode == 0
    return store


class WithFolder(unittest.TestCase):
    """Each test has an empty folder of its own."""

    def setUp(self):
        kept = tempfile.TemporaryDirectory(dir=folder_in_memory())
        self.addCleanup(kept.cleanup)
        self.folder = Path(kept.name)
        self.store = self.folder / "s.store"
