#!/usr/bin/env python3
"""python3 tools/play_documents.py [--write] FILE.md ..

Plays what documents show. Two kinds of blocks are played, in order:

    ```wm       lines of the language. All of a document's go through one run over a store of their own. A line that is
                followed by lines '--> ..' is answered by exactly these; any other is not refused. As these are
                remarks, a block can be played as it is.
    ```console  a line '$ COMMAND' is given to a shell at the top of the repository, and says the lines that follow
                it. What a command makes is there for the ones behind it, and gone at the end of the document.

With --write the console blocks get what the commands say now. The built program is build/wm, or $WM.
"""
import os
import re
import subprocess
import sys
import tempfile
from pathlib import Path

TOP = Path(__file__).resolve().parents[1]
sys.path[:0] = [str(TOP / "tools" / "play"), str(TOP / "tools")]

from lines import is_refusal, readable
from machine import SECONDS
from program import Ended, Program, found_program, make_store

LIMIT, NOW = 1_048_576, "2024-06-01"
# What tools/play tells from time to time on a slow machine.
PROGRESS = re.compile(r"\d+ of \d+ lines, \d+ refused, \d+ s")
SHARED = ("tools", "examples", "docs", "build")


def blocks(lines, kind):
    """The blocks of a kind, each as the range of its lines."""
    found, begin = [], None
    for place, line in enumerate(lines):
        if begin is not None and line == "```":
            found.append((begin, place))
            begin = None
        elif line == "```" + kind:
            begin = place + 1
    return found


def steps(lines, begin, till, mark, is_answer):
    """Each line that begins with the mark, as its place and the places of the lines behind it that are its answer."""
    found, place = [], begin
    while place < till:
        end = place + 1
        while end < till and is_answer(lines[end]):
            end += 1
        if lines[place].startswith(mark):
            found.append((place, end))
        place = end
    return found


# Lines of the language

def play_lines(path, lines):
    """What the program answers otherwise than the document says."""
    found = []
    with tempfile.TemporaryDirectory() as folder:
        store = Path(folder) / "s.store"
        program = found_program(None)
        make_store(program, store, LIMIT)
        run = Program(program, store, NOW)
        for begin, till in blocks(lines, "wm"):
            for place, end in steps(lines, begin, till, "", lambda line: line.startswith("--> ")):
                wanted = [line.removeprefix("--> ") for line in lines[place + 1:end]]
                answer = run.answer(lines[place].encode())
                said = [readable(line) for line in answer]
                if (wanted and said != wanted) or (not wanted and is_refusal(answer)):
                    told = f"{path}:{place + 1}: {lines[place]}\n  is answered {said}"
                    found.append(f"{told}, and {wanted or 'no refusal'} is wanted")
        run.end()
    return found


# Commands

def said_by(command, folder):
    # A locale that the machine does not have is told of by the shell, which is no answer of the command.
    environment = {**os.environ, "PATH": f"{TOP / 'build'}:{os.environ['PATH']}", "COLUMNS": "100", "LC_ALL": "C"}
    done = subprocess.run(["bash", "-c", command], cwd=folder, env=environment, stdin=subprocess.DEVNULL, stdout=subprocess.PIPE,
                          stderr=subprocess.STDOUT, timeout=SECONDS)
    lines = [line.rstrip() for line in done.stdout.decode("utf-8", "replace").splitlines()]
    return [line for line in lines if not PROGRESS.fullmatch(line)]


def play_commands(path, lines, is_written):
    """What commands say otherwise than the document does; and the document's lines, as they should be."""
    found, written, last = [], [], 0
    with tempfile.TemporaryDirectory() as folder:
        for name in SHARED:
            (Path(folder) / name).symlink_to(TOP / name)
        for begin, till in blocks(lines, "console"):
            for place, end in steps(lines, begin, till, "$ ", lambda line: not line.startswith("$ ")):
                said = said_by(lines[place].removeprefix("$ "), folder)
                written += [*lines[last:place + 1], *said]
                last = end
                if said != lines[place + 1:end] and not is_written:
                    found.append(f"{path}:{place + 1}: {lines[place]}\n  says\n" + "\n".join("  | " + line for line in said))
    return found, written + lines[last:]


def main():
    words = [word for word in sys.argv[1:] if word != "--write"]
    if not words:
        sys.exit(__doc__)
    is_written, found, count = "--write" in sys.argv, [], 0
    for path in map(Path, words):
        lines = path.read_text(encoding="utf-8").split("\n")
        count += len(blocks(lines, "wm")) + len(blocks(lines, "console"))
        try:
            found += play_lines(path, lines)
        except Ended:
            found.append(f"{path}: the run ended before its end")
        differences, written = play_commands(path, lines, is_written)
        found += differences
        if is_written:
            path.write_text("\n".join(written), encoding="utf-8")
    print(*found, f"{count} blocks of documents, {len(found)} differences", sep="\n")
    sys.exit(1 if found else 0)


if __name__ == "__main__":
    main()
