"""How the tools are called: over which Python, by which names, and as they are installed."""
import ast
import os
import shlex
import shutil
import subprocess
import sys

from around import PROGRAM, TOP, WithFolder, made, run, tool
from machine import SECONDS

TOOLS = {"play": "play", "show": "show", "sheet": "sheet", "insert": "insert_lines.py"}
# A tool is run as by an older Python, of which only the number is seen.
OLDER = "import runpy, sys; sys.version_info = (3, 8, 18, 'final', 0); sys.argv = sys.argv[1:]; runpy.run_path(sys.argv[0], run_name='__main__')"
# The words of these files are read by each Python that is asked to run a tool.
FIRST_READ = ["called.py", "insert_lines.py", "play/__main__.py", "show/__main__.py", "sheet/__main__.py", "first_look.py"]


class Called(WithFolder):
    def test_older_pythons_are_told(self):
        for name in [*TOOLS.values(), "first_look.py"]:
            done = subprocess.run([sys.executable, "-c", OLDER, str(TOP / "tools" / name), "x"], capture_output=True, text=True, timeout=SECONDS)
            self.assertEqual((done.returncode, done.stdout), (2, ""), name)
            self.assertEqual(done.stderr, f"The tools need Python 3.9 or later, and this is Python 3.8.18: {sys.executable}\n")
        for name in FIRST_READ:
            ast.parse((TOP / "tools" / name).read_text(encoding="utf-8"), feature_version=(3, 7))

    def test_a_day_is_told(self):
        for short, name in TOOLS.items():
            self.assertRegex(tool(name, "--version").stdout, rf"^wm-{short} (\d{{4}}-\d\d-\d\d [0-9a-f]{{7,}}(, changed since)?|of no commit)\n$")

    def test_an_unproved_program_is_the_last_choice(self):
        """A copy of the tools, in which nothing was built: the program on the path, and else the one that was not proved, which is told."""
        shutil.copytree(TOP / "tools", self.folder / "tools", ignore=shutil.ignore_patterns("__pycache__", "tests"))
        unproved, path = self.folder / "build" / "wm-unproved", self.folder / "bin"
        for folder in (unproved.parent, path):
            folder.mkdir()
        (self.folder / "s.wm").write_bytes(b"CONNECT A ANN\n")
        unproved.write_text(f'#!/bin/sh\nexec {PROGRAM} "$@"\n')
        unproved.chmod(0o755)
        environment = {**{name: value for name, value in os.environ.items() if name != "WM"}, "PATH": str(path) + ":/bin:/usr/bin"}
        call = [sys.executable, str(self.folder / "tools" / "play"), str(made(self.store)), str(self.folder / "s.wm")]

        def said():
            return subprocess.run(call, env=environment, capture_output=True, text=True, timeout=SECONDS).stderr
        if shutil.which("wm", path="/bin:/usr/bin") is None:
            self.assertIn("nothing of it is proved", said())
        shutil.copy(unproved, path / "wm")
        self.assertEqual(said(), "play: 1 accepted, 0 refused\n")


class Installed(WithFolder):
    def setUp(self):
        super().setUp()
        if shutil.which("make") is None or not (TOP / "build" / "wm").is_file():
            self.skipTest("there is no make, or no built program")
        call = ["make", "-s", "-C", str(TOP), "-o", "build/wm", "install", f"PREFIX={self.folder / 'a b'}", f"PYTHON={shlex.quote(sys.executable)}"]
        subprocess.run(call, check=True, capture_output=True, timeout=SECONDS)
        self.bin = self.folder / "a b" / "bin"

    def call(self, name, *words):
        """A tool off the path, with no program on the path."""
        environment = {**{name: value for name, value in os.environ.items() if name != "WM"}, "PATH": "/bin:/usr/bin"}
        return subprocess.run([str(self.bin / name), *map(str, words)], env=environment, capture_output=True, text=True, timeout=SECONDS)

    def test_tools_find_the_program_beside_them(self):
        (self.folder / "s.wm").write_bytes(b"CONNECT A ANN\n")
        done = self.call("wm-play", self.store, self.folder / "s.wm", "--new")
        self.assertEqual((done.returncode, done.stderr), (0, "play: 1 accepted, 0 refused\n"))
        self.assertEqual(self.call("wm-show", self.store).returncode, 0)
        self.assertEqual(run(self.store, "2024-06-01", b"").returncode, 0)

    def test_their_help_has_their_names(self):
        for short in TOOLS:
            said = self.call(f"wm-{short}", "--help").stdout
            self.assertEqual((said.startswith(f"wm-{short} "), "tools/" in said), (True, False), said)
            self.assertRegex(self.call(f"wm-{short}", "--version").stdout, rf"^wm-{short} \S")
            self.assertIn(f"wm-{short}", self.call(f"wm-{short}", "--none").stderr)

    def test_the_manual_names_what_is_installed(self):
        text = (self.bin.parent / "share" / "man" / "man1" / "wm.1").read_text().replace("\\-", "-")
        for path in self.bin.iterdir():
            self.assertIn(path.name, text)
        self.assertNotIn("(1)", text)
