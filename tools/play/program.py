"""The built program while it plays a script, line by line."""
import os
import shlex
import shutil
import subprocess
from pathlib import Path

from called import installed_program
from lines import ends_answer, is_silent

BUILD = Path(__file__).resolve().parents[2] / "build"
# What 'make try' leaves.
UNPROVED = str(BUILD / "wm-unproved")


class Ended(Exception):
    """The program ended before it had answered a line."""


class NoProgram(Exception):
    """Why there is nothing to play through."""


def found_program(asked):
    """The words that begin a call of the program: those asked for, else the one that was installed with this tool or
    was built here, else the one on the path, else the unproved one."""
    asked = asked or os.environ.get("WM")
    if asked:
        return named_program(asked)
    found = installed_program() or shutil.which(str(BUILD / "wm")) or shutil.which("wm") or shutil.which(UNPROVED)
    if found is None:
        raise NoProgram("there is no built program: 'make wm' builds it, and --program names another")
    return [found]


def named_program(asked):
    """The words of a command, of which the first is a program that is there."""
    try:
        words = shlex.split(asked)
    except ValueError:
        words = []
    if not words or shutil.which(words[0]) is None:
        raise NoProgram(f"there is no program {asked}")
    return words


class Program:
    """A run over a store. Each line is sent when the one before it is answered."""

    def __init__(self, program, store, now):
        call = [*program, str(store), "run", "--now", now]
        # In a session of its own no key of the terminal reaches it: Ctrl-C is for who asks for lines.
        self.process = subprocess.Popen(call, stdin=subprocess.PIPE, stdout=subprocess.PIPE, stderr=subprocess.PIPE,
                                        start_new_session=True)

    def answer(self, line):
        """The lines of the answer."""
        try:
            self.process.stdin.write(line + b"\n")
            self.process.stdin.flush()
        except BrokenPipeError:
            raise Ended from None
        found = []
        while not is_silent(line) and not (found and ends_answer(found[-1])):
            said = self.process.stdout.readline()
            if not said.endswith(b"\n"):
                raise Ended
            found.append(said[:-1])
        return found

    def end(self):
        """Ends the script. The status, and what the program says of it."""
        try:
            self.process.stdin.close()
        except BrokenPipeError:
            pass
        self.process.stdout.close()
        complaint = self.process.stderr.read()
        return self.process.wait(), complaint.decode("utf-8", "replace").strip()


def make_store(program, store, limit):
    """Makes a store. The status, and what the program says of it."""
    done = subprocess.run([*program, str(store), "init", "--limit", str(limit)], stdin=subprocess.DEVNULL, capture_output=True)
    return done.returncode, done.stderr.decode("utf-8", "replace").strip()
