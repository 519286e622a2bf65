#!/usr/bin/env python3
"""play_cases.py PROGRAM FILE-OR-FOLDER..

Plays case files through the program. A case has a store file of its own in a fresh folder, which is not there at its
start, so most cases begin with 'init'. A line of a case is

    $ WORDS     a command: the words behind the store's path, split as a shell splits them
    < TEXT      a line of its input, with LF          <- TEXT    its last line, without LF
    <* N C      a line of N times the character C     <x HEX     a line given in hexadecimal
    <x* N HEX   a line of N times the bytes given in hexadecimal
    <# A B TEXT lines for the numbers from A to B, each in the place of @ in TEXT; ># A B TEXT the same of the output
    > TEXT      a line of its output, with LF         >? REGEX   a line that the expression matches
    = N         its status (0 where there is none)    ! TEXT     its line on standard error
    @ cut N | poke OFFSET HEX | new | save NAME | load NAME      done to the store file between commands
    @ few NAME N TAGS   at most N records differ from those of the file saved as NAME, and none of them has one of the tags
    @ same NAME         the file is the one that was saved as NAME
    @ count TAG N       there are N records of the tag
    @ is TAG N HEX      the N-th record of a tag, in order of ids from 1, has these bytes (given with blanks between them)
    @ has HEX | lacks HEX    some record has these bytes, or none has
    @ set TAG N AT HEX  bytes of such a record, from AT on, become these
    @ add HEX           a record of these bytes is added (given with blanks between them)

and a comment begins with '#'. The output of a command is its '>' lines and nothing beside.
"""
import re
import shlex
import shutil
import subprocess
import sys
import tempfile
from pathlib import Path

from machine import SECONDS, folder_in_memory


class Command:
    def __init__(self, at, words):
        self.at, self.words = at, words
        self.input, self.output = b"", []
        self.status, self.complaint = 0, None

    def take(self, mark, rest):
        if mark == b"<":
            self.input += rest + b"\n"
        elif mark == b"<-":
            self.input += rest
        elif mark == b"<*":
            count, char = rest.split(b" ", 1)
            self.input += int(count) * char + b"\n"
        elif mark == b"<x":
            self.input += bytes.fromhex(rest.decode()) + b"\n"
        elif mark == b"<x*":
            count, digits = rest.decode().split(" ", 1)
            self.input += int(count) * bytes.fromhex(digits) + b"\n"
        elif mark == b"<#":
            self.input += b"".join(line + b"\n" for line in numbered(rest))
        elif mark == b">#":
            self.output += [(b">", line) for line in numbered(rest)]
        elif mark in (b">", b">?"):
            self.output.append((mark, rest))
        elif mark == b"=":
            self.status = int(rest)
        elif mark == b"!":
            self.complaint = rest
        else:
            raise ValueError(f"no such line: {mark!r}")

    def difference(self, program, store):
        """What the program did otherwise, or None."""
        call = [*program, str(store), *self.words]
        try:
            done = subprocess.run(call, input=self.input, capture_output=True, timeout=SECONDS)
        except subprocess.TimeoutExpired:
            return f"it has not ended after {SECONDS} seconds"
        said = done.stdout.split(b"\n")
        if said.pop() != b"":
            return f"the output ends without LF: {done.stdout[-80:]!r}"
        for place in range(max(len(said), len(self.output))):
            want = self.output[place] if place < len(self.output) else None
            got = said[place] if place < len(said) else None
            if want is None or got is None or not fits(want, got):
                return f"output line {place + 1} is {got!r}, and {want and want[1]!r} is wanted"
        if done.returncode != self.status:
            return f"the status is {done.returncode}, and {self.status} is wanted"
        if self.complaint is not None and done.stderr != self.complaint + b"\n":
            return f"standard error has {done.stderr[:200]!r}, and {self.complaint!r} is wanted"
        return None


def numbered(rest):
    first, last, text = rest.split(b" ", 2)
    return [text.replace(b"@", b"%d" % number) for number in range(int(first), int(last) + 1)]


def fits(want, got):
    mark, text = want
    return text == got if mark == b">" else re.fullmatch(text, got) is not None


def read_case(path):
    """The commands of a case, and the '@' lines as lists of words, in order."""
    steps = []
    for at, line in enumerate(path.read_bytes().split(b"\n"), 1):
        if not line or line.startswith(b"#"):
            continue
        mark, _, rest = line.partition(b" ")
        if mark == b"$":
            steps.append(Command(at, shlex.split(rest.decode())))
        elif mark == b"@":
            steps.append(rest.decode().split())
        else:
            steps[-1].take(mark, rest)
    return steps


def change(store, words):
    kind, rest = words[0], words[1:]
    if kind == "cut":
        store.write_bytes(store.read_bytes()[: int(rest[0])])
    elif kind == "poke":
        at, new = int(rest[0]), bytes.fromhex(rest[1])
        old = store.read_bytes().ljust(at, b"\0")
        store.write_bytes(old[:at] + new + old[at + len(new):])
    elif kind == "new":
        store.unlink(missing_ok=True)
    elif kind == "set":
        old = bytearray(store.read_bytes())
        at, new = placed(old, rest[0], rest[1])[0] + int(rest[2]), bytes.fromhex(rest[3])
        old[at:at + len(new)] = new
        store.write_bytes(old)
    elif kind == "add":
        store.write_bytes(with_record(bytearray(store.read_bytes()), bytes.fromhex("".join(rest))))
    elif kind in ("save", "load"):
        kept = store.with_name("kept-" + rest[0])
        shutil.copyfile(*((store, kept) if kind == "save" else (kept, store)))
    else:
        raise ValueError(f"no such change: {kind}")


def slots(file):
    """Where each record stands by its id, and its size, the journal's gate being closed."""
    found = {}
    for page in range(2, int.from_bytes(file[4096:4104], "big")):
        at = page * 4096 + 2
        for _ in range(int.from_bytes(file[at - 2:at], "big")):
            size = int.from_bytes(file[at + 8:at + 10], "big")
            found[bytes(file[at:at + 8])] = at + 10, size
            at += 10 + size
    return found


def records(file):
    """The bytes of each record by its id."""
    return {key: file[at:at + size] for key, (at, size) in slots(file).items()}


def placed(file, tag, number):
    """Where the record of a number among those of a tag stands, and its size."""
    found = [place for _, place in sorted(slots(file).items()) if file[place[0]] == int(tag)]
    return found[int(number) - 1]


def otherwise(store, words):
    """What of the file is not as it should be, or None."""
    file = store.read_bytes()
    if words[0] == "few":
        return too_many(store, words)
    if words[0] == "same":
        return None if file == store.with_name("kept-" + words[1]).read_bytes() else "the file is another one"
    if words[0] == "count":
        count = sum(1 for at, _ in slots(file).values() if file[at] == int(words[1]))
        return None if count == int(words[2]) else f"there are {count}"
    if words[0] in ("has", "lacks"):
        is_there = bytes.fromhex("".join(words[1:])) in records(file).values()
        return None if is_there == (words[0] == "has") else "it is there" if is_there else "there is none"
    at, size = placed(file, words[1], words[2])
    return None if file[at:at + size] == bytes.fromhex("".join(words[3:])) else f"the record is {file[at:at + size].hex(' ')}"


def with_record(file, record):
    """The file with a record more, under the next id, behind the last slot of the last page."""
    found = slots(file)
    at, size = max(found.values())
    start = at // 4096 * 4096
    file[start:start + 2] = (int.from_bytes(file[start:start + 2], "big") + 1).to_bytes(2, "big")
    name = int.from_bytes(max(found), "big") + 1
    slot = name.to_bytes(8, "big") + len(record).to_bytes(2, "big") + record
    file[at + size:at + size + len(slot)] = slot
    return file


def too_many(store, words):
    """Which records differ from those of a saved file that should not, or None."""
    name, most, tags = words[1], int(words[2]), {int(tag) for tag in words[3].split(",")}
    old, new = records(store.with_name("kept-" + name).read_bytes()), records(store.read_bytes())
    changed = [record for key in old.keys() | new.keys() if old.get(key) != new.get(key) for record in (old.get(key), new.get(key))]
    ids = sum(1 for key in old.keys() | new.keys() if old.get(key) != new.get(key))
    bad = {record[0] for record in changed if record} & tags
    return f"{ids} records differ, with the tags {sorted({r[0] for r in changed if r})}" if ids > most or ids == 0 or bad else None


def play(program, path):
    """The first difference of a case, or None."""
    with tempfile.TemporaryDirectory(dir=folder_in_memory()) as folder:
        store = Path(folder) / "s.store"
        for step in read_case(path):
            if isinstance(step, list) and step[0] in ("few", "same", "count", "is", "has", "lacks"):
                why = otherwise(store, step)
                if why is not None:
                    return f"{path}: @ {' '.join(step)}: {why}"
                continue
            if isinstance(step, list):
                change(store, step)
                continue
            why = step.difference(program, store)
            if why is not None:
                return f"{path}:{step.at}: {why}"
    return None


def main():
    if len(sys.argv) < 3:
        sys.exit(__doc__)
    program = [str(Path(word).resolve()) if "/" in word else word for word in shlex.split(sys.argv[1])]
    paths = [Path(word) for word in sys.argv[2:]]
    cases = [case for path in paths for case in (sorted(path.rglob("*.case")) if path.is_dir() else [path])]
    failed = 0
    for case in cases:
        why = play(program, case)
        if why is not None:
            failed += 1
            print(why)
    print(f"{len(cases) - failed} passed, {failed} failed")
    sys.exit(1 if failed or not cases else 0)


if __name__ == "__main__":
    main()
