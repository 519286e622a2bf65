#!/usr/bin/env python3
"""python3 tools/first_look.py [RT]

Plays the examples through the program as 'rt try' compiles it, in three minutes and without any proof, and shows
each line with its answer. What it makes is below build/try: the store, and a page with pictures of it; and the program
stays at build/wm-unproved, to follow docs/TUTORIAL.md with.
"""
import os
import shutil
import subprocess
import sys
import time
from pathlib import Path

TOP = Path(__file__).resolve().parents[1]
sys.path[:0] = [str(TOP / "tools" / "play"), str(TOP / "tools")]

from called import see_to_python

see_to_python()

from catalog import Catalog
from lines import ends_answer, is_silent, script_lines
from output import Transcript
from program import UNPROVED, make_store

FOLDER = TOP / "build" / "try"
STORE, PAGE, CASES = FOLDER / "demo.store", FOLDER / "demo.html", FOLDER / "cases"
# Where rt works. The program that it runs has this name there while it runs, and is gone behind it.
WORKPLACE, NAME = FOLDER / "work", "program"
LOOK, TELL = 0.05, 10
LIMIT = 1_048_576
EXAMPLES = [("first", "2020-01-01"), ("again", "2020-01-02"), ("budget", "2024-06-01"), ("survey", "2024-07-01"),
            ("plans", "2024-08-01"), ("teams", "2024-09-02")]


def write_case(name, script, words):
    (CASES / name).write_bytes(script)
    (CASES / f"{name}.args").write_text("\n".join([str(STORE), *words]) + "\n")


def prepare():
    """A case for each call of the program, which are made in the order of their names."""
    shutil.rmtree(FOLDER, ignore_errors=True)
    CASES.mkdir(parents=True)
    WORKPLACE.mkdir()
    write_case("0-init", b"", ["init", "--limit", str(LIMIT)])
    for place, (name, now) in enumerate(EXAMPLES, 1):
        write_case(f"{place}-{name}", (TOP / "examples" / f"{name}.wm").read_bytes(), ["run", "--now", now])


def answers(said):
    """The lines that the program said, by case."""
    found, name = {}, None
    for line in said.split(b"\n"):
        if line.startswith(b"== "):
            name = line[3:].decode()
            found[name] = []
        elif line.startswith(b"case="):
            name = None
        elif name is not None:
            found[name].append(line)
    return found


def show(script, said):
    """The lines of a script with their answers. Whether each was answered."""
    transcript, said = Transcript(Catalog(STORE)), iter(said)
    for number, line in enumerate(script_lines(script), 1):
        answer = []
        while not is_silent(line) and not (answer and ends_answer(answer[-1])):
            told = next(said, None)
            if told is None:
                return False
            answer.append(told)
        transcript.show(number, line, answer)
    return True


def keep_program():
    """Gives the program another name, which lasts. Whether that could be done."""
    for path in WORKPLACE.rglob(NAME):
        try:
            os.link(path, FOLDER / NAME)
            return True
        except OSError:
            pass  # it is gone again
    return False


def tell(begun, is_running):
    """What is going on, on a terminal in one line that is written over."""
    what = "the examples are played" if is_running else "rt reads and compiles the program"
    print(f"  {time.monotonic() - begun:4.0f} s  {what} ..", end="\r" if sys.stdout.isatty() else "\n", flush=True)


def tried(call):
    """What is said where rt tries the program. It tells what goes on, and keeps the program."""
    said, begun, told, is_kept = FOLDER / "said", time.monotonic(), time.monotonic() - TELL, False
    with said.open("wb") as out:
        trying = subprocess.Popen(call, cwd=TOP / "crates" / "wm", stdout=out, env={**os.environ, "TMPDIR": str(WORKPLACE)})
        while trying.poll() is None:
            if time.monotonic() - told >= TELL:
                told = time.monotonic()
                tell(begun, is_kept)
            is_kept = is_kept or keep_program()
            time.sleep(LOOK)
    if sys.stdout.isatty():
        print("\x1b[K", end="")
    return said.read_bytes()


def is_program_kept():
    """Whether the program that was kept makes a store. Then it gets its name."""
    trial = FOLDER / "trial.store"
    try:
        status, _ = make_store([str(FOLDER / NAME)], trial, LIMIT)
    except OSError:
        return False
    trial.unlink(missing_ok=True)
    if status != 0:
        return False
    (FOLDER / NAME).chmod(0o755)
    os.replace(FOLDER / NAME, UNPROVED)
    return True


def last_words(is_kept):
    print("\nThis was the program as it is compiled. Nothing of it was proved: 'make demo' does, and may take an hour.\n"
          f"A browser shows what the store holds now: {PAGE.relative_to(TOP)}")
    if is_kept:
        kept = Path(UNPROVED).relative_to(TOP)
        print(f"The program stays at {kept}, and tools/play takes it where there is no other: docs/TUTORIAL.md can be\n"
              f"followed now. It tests itself at each step, so it is slow.")
    else:
        print("It could not be kept, so docs/TUTORIAL.md wants 'make wm' first.")


def main():
    prepare()
    print("The program is compiled, and not proved; that takes three minutes, and longer beside other work.", flush=True)
    output = tried([*(sys.argv[1:] or ["rt"]), "try", "--cases", str(CASES)])
    found = answers(output)
    if found.get("0-init") != [b"OK"]:
        print(output.decode("utf-8", "replace"), "The program could not be tried.")
        return 1
    for place, (name, now) in enumerate(EXAMPLES, 1):
        print(f"\nexamples/{name}.wm, on {now}")
        if not show((TOP / "examples" / f"{name}.wm").read_bytes(), found.get(f"{place}-{name}", [])):
            print(output.decode("utf-8", "replace"))
            return 1
    subprocess.run([sys.executable, str(TOP / "tools" / "show"), str(STORE), "--html", str(PAGE)], check=True)
    last_words(is_program_kept())
    return 0


if __name__ == "__main__":
    sys.exit(main())
