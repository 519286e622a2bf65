"""Two runs of one store at once, and a store that another program writes to."""
import os
import subprocess

from room import CHECK, INIT, RUN, SECONDS, ended, inserting, read

PAGE = 4096
# The first page that has records, the counters among them, which each change rewrites.
FIRST_RECORDS = 2


def answer(run, line):
    """The one line that answers a line of an open run."""
    run.stdin.write(line)
    run.stdin.flush()
    return run.stdout.readline()


def finished(run):
    said, complaint = run.communicate(timeout=SECONDS)
    return run.returncode, said, complaint


def other_names(room, path):
    """The store by its path, by a symbolic link and by a hard link."""
    os.symlink(path, path + ".symbolic")
    os.link(path, path + ".hard")
    return path, path + ".symbolic", path + ".hard"


def beside(kind, room, times):
    for number in range(times):
        path = room.store()
        names = other_names(room, path)
        name = names[number % len(names)]
        first = room.begin(path)
        kind.expect("CONNECT of the open run", answer(first, b"CONNECT A ANN\n"), b"OK\n")
        kind.expect("INSERT of the open run", answer(first, b"A: INSERT INTO T VALUES (1)\n"), b"DONE 1\n")
        content = read(path)
        kind.expect("a run beside it", room.play(name, RUN, inserting([2])[0]), ended(5))
        kind.expect("an init beside it", room.play(name, INIT), ended(5))
        kind.expect("a check beside it", room.play(name, CHECK), ended(5))
        kind.expect("the file is as it was", read(path) == content, True)
        kind.expect("INSERT behind them", answer(first, b"A: INSERT INTO T VALUES (3)\n"), b"DONE 1\n")
        kind.expect("the open run", finished(first), ended(0))
        kind.expect("the rows", room.rows(name), [1, 3])


def race(kind, room, times):
    numbers = list(range(1, 31)), list(range(101, 131))
    scripts = [room.store(inserting(each)[0]) for each in numbers]
    both = 0
    for _ in range(times):
        path = room.store()
        begun = [begin_from(room, path, script) for script in scripts]
        ends = [finished(run) for run in begun]
        rows = []
        for end, each in zip(ends, numbers):
            kind.expect("each of the two runs", end, ended(0, inserting(each)[1]), ended(5))
            rows += each if end[0] == 0 else []
        kind.expect("neither had the store", rows == [], False)
        kind.expect("the rows are those answered", room.rows(path), rows)
        both += len(rows) == 60
    kind.remarks.append(f"in {both} of {times} pairs each had the store in its turn")


def begin_from(room, path, script):
    pipe = subprocess.PIPE
    with open(script, "rb") as file:
        return subprocess.Popen([room.program, path, *RUN], stdin=file, stdout=pipe, stderr=pipe)


def race_to_make(kind, room, times):
    for _ in range(times):
        path = room.absent()
        begun = [room.begin(path, INIT) for _ in range(2)]
        ends = [finished(run) for run in begun]
        for end in ends:
            kind.expect("each of the two inits", end, ended(0, b"OK\n"), ended(5), ended(8))
        kind.expect("one of them made the store", [end[0] for end in ends].count(0), 1)
        kind.expect("the store is a fresh one", read(path) == room.fresh, True)


def killed(kind, room):
    path = room.store()
    first = room.begin(path)
    answer(first, b"CONNECT A ANN\n")
    answer(first, b"A: INSERT INTO T VALUES (1)\n")
    kind.expect("a run beside it", room.play(path, RUN), ended(5))
    first.kill()
    first.communicate()
    kind.expect("the rows after it was killed", room.rows(path), [1])
    script, answers = inserting([2])
    kind.expect("a run after it was killed", room.play(path, RUN, script), ended(0, answers))


def written_to(kind, room):
    """Another program, which asks for no lock, writes over a page that the run has read."""
    path = room.store()
    first = room.begin(path)
    kind.expect("CONNECT of the open run", answer(first, b"CONNECT A ANN\n"), b"OK\n")
    kind.expect("INSERT of the open run", answer(first, b"A: INSERT INTO T VALUES (1)\n"), b"DONE 1\n")
    with open(path, "r+b") as file:
        file.seek(FIRST_RECORDS * PAGE)
        file.write(b"\xff" * PAGE)
    kind.expect("INSERT behind the other's writing", answer(first, b"A: INSERT INTO T VALUES (2)\n"), b"")
    kind.expect("the open run", finished(first), ended(11))
    kind.expect("a run over what is left", room.play(path, RUN)[0], 7)
    kind.expect("a check of what is left", room.play(path, CHECK)[0], 7)
