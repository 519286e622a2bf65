#!/usr/bin/env python3
"""python3 tools/against PROGRAM [--scripts N] [--lines N] [--seed N] [--show] [--shrink]

Plays random scripts through the built program and through the reference in this folder, and prints where the answers differ. The
reference was written from the rules of the language alone, and shares nothing with the program; it is no proof, and a
difference says that one of the two is wrong.

    --scripts N   how many scripts (1000)        --seed N    the number of the first one (1)
    --lines N     about how many lines each (60) --show      print each script with the answers that the reference gives
    --shrink      drop the lines that a difference does not need

A script has a store file and a limit of its own, and is played in one run or in two. Behind each run the counters in the
file are compared too: so it is seen which lines changed the store, and how much work they counted.
"""
import argparse
import shlex
import subprocess
import sys
import tempfile
from collections import Counter
from pathlib import Path

sys.path.insert(1, str(Path(__file__).resolve().parents[1]))

from machine import SECONDS, folder_in_memory
from reference import Reference, ended
from scripts import Writer
from storefile.pages import Pages
from storefile.records import Counters, records_of
from values import TIMESTAMP_FORMS, instant


def expected(limit, runs):
    """The answers of the reference, by run and line; behind each run what is told of the counters."""
    reference, found = Reference(limit), []
    for now, lines in runs:
        reference.begin(instant(now.encode(), TIMESTAMP_FORMS))
        found.append([*(reference.answer(ended(line)) for line in lines), told(*reference.counters())])
    return found


def told(stamp, moment, limit, work):
    return b"counters: next stamp %d, last moment %d, limit %d, work %d\n" % (stamp, moment, limit, work)


def counters_in(store):
    """The same of a store's file."""
    [found] = [record for record in records_of(Pages(Path(store).read_bytes())) if isinstance(record, Counters)]
    return told(found.next_stamp, found.last_moment, found.limit, found.work)


def answered(program, limit, runs):
    """What the program says, by run, with how it ended where that is not well, and else with what is told of the counters in the file."""
    with tempfile.TemporaryDirectory(dir=folder_in_memory()) as folder:
        store, found = str(Path(folder) / "s.store"), []
        subprocess.run([*program, store, "init", "--limit", str(limit)], check=True, capture_output=True, timeout=SECONDS)
        for now, lines in runs:
            done = subprocess.run([*program, store, "run", "--now", now], input=b"".join(line + b"\n" for line in lines),
                                  capture_output=True, timeout=SECONDS)
            found.append(done.stdout + (b"status %d\n" % done.returncode if done.returncode else counters_in(store)))
        return found


def difference(program, limit, runs):
    """The first difference as (run, line, expected, answered), or None."""
    for run, (wanted, said) in enumerate(zip(expected(limit, runs), answered(program, limit, runs))):
        for line, answer in enumerate(wanted):
            if not said.startswith(answer):
                return run, line, answer, b"\n".join(said.split(b"\n")[:max(answer.count(b"\n"), 1)]) + b"\n"
            said = said[len(answer):]
        if said:
            return run, len(wanted) - 1, b"", said
    return None


def kind_of(found):
    """What two differences of one kind have in common."""
    return tuple(answer[:6] if answer.startswith(b"WM-") else b"" for answer in found[2:])


def shrunk(program, limit, runs, kind):
    """The runs without the lines that a difference of the kind does not need."""
    runs = [(now, list(lines)) for now, lines in runs]
    for _, lines in runs:
        size = max(len(lines) // 2, 1)
        while size:
            at = 0
            while at < len(lines):
                kept = lines[at:at + size]
                del lines[at:at + size]
                found = difference(program, limit, runs)
                if found is None or kind_of(found) != kind:
                    lines[at:at] = kept
                    at += size
            size //= 2
    return [(now, lines) for now, lines in runs if lines]


def readable(text):
    return text[:400].decode("utf-8", "backslashreplace")


def word_of(answer):
    """What is counted of an answer: its number, or its last word but the count."""
    if answer.startswith(b"WM-"):
        return answer[:6].decode()
    return answer.splitlines()[-1].split()[0].decode() if answer else "no bytes"


def main():
    parser = argparse.ArgumentParser(usage=__doc__)
    parser.add_argument("program")
    for name, default in [("scripts", 1000), ("lines", 60), ("seed", 1)]:
        parser.add_argument(f"--{name}", type=int, default=default)
    parser.add_argument("--show", action="store_true")
    parser.add_argument("--shrink", action="store_true")
    asked = parser.parse_args()
    program = [str(Path(word).resolve()) if "/" in word else word for word in shlex.split(asked.program)]
    tally, different = Counter(), 0
    for seed in range(asked.seed, asked.seed + asked.scripts):
        writer = Writer(seed)
        runs = writer.script(asked.lines)
        for (now, lines), answers in zip(runs, expected(writer.limit, runs)):
            tally.update(map(word_of, answers[:-1]))
            if asked.show:
                print(f"script {seed}, limit {writer.limit}, run --now {now}")
                for line, answer in zip(lines, answers):
                    print(readable(line), *("    " + readable(text) for text in answer.splitlines()), sep="\n")
        found = difference(program, writer.limit, runs)
        if found is None:
            continue
        different += 1
        if asked.shrink:
            runs = shrunk(program, writer.limit, runs, kind_of(found))
            found = difference(program, writer.limit, runs)
            print(f"script {seed}, limit {writer.limit}", *(readable(line) for now, lines in runs for line in [now.encode(), *lines]), sep="\n    ")
        run, at, wanted, said = found
        line = readable(runs[run][1][at]) if at < len(runs[run][1]) else "the end"
        print(f"script {seed}, run {run + 1}, line {at + 1}: {line}\n  expected {wanted!r}\n  answered {said!r}", flush=True)
    print(f"{asked.scripts} scripts, {sum(tally.values())} lines, {different} scripts differ")
    print(", ".join(f"{name} {count}" for name, count in sorted(tally.items())))
    sys.exit(1 if different else 0)


if __name__ == "__main__":
    sys.setrecursionlimit(100_000)
    main()
