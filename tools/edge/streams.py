"""Standard input, output and error that are closed, full or of another kind, and a script that is too long."""
import fcntl
import os
import subprocess
from itertools import combinations

from room import CHECK, INIT, RUN, SECONDS, COMPLAINTS, ended, inserting, read

SCRIPT, ANSWERS = inserting([0])


def redirected(room, redirection, path, words):
    """Plays the script through the program as a shell starts it with these redirections."""
    call = ["sh", "-c", f'exec "$0" "$@" {redirection}', room.program, path, *words]
    ran = subprocess.run(call, input=SCRIPT, capture_output=True, timeout=SECONDS)
    return ran.returncode, ran.stdout, ran.stderr


def closed(kind, room):
    for size in (1, 2, 3):
        for numbers in combinations((0, 1, 2), size):
            closing = " ".join(f"{number}>&-" for number in numbers)
            made, path = room.absent(), room.store()
            status = 4 if 1 in numbers else 0
            said = b"" if 1 in numbers else b"OK\n"
            complaint = b"" if 2 in numbers else COMPLAINTS[status]
            kind.expect(f"init {closing}", redirected(room, closing, made, INIT), (status, said, complaint))
            kind.expect(f"the store of init {closing}", read(made) == room.fresh, True)
            kind.expect(f"check {closing}", redirected(room, closing, made, CHECK), (status, said, complaint))
            kind.expect(f"the store of check {closing}", read(made) == room.fresh, True)
            status = 3 if 0 in numbers else status
            said = ANSWERS if status == 0 else b""
            complaint = b"" if 2 in numbers else COMPLAINTS[status]
            kind.expect(f"run {closing}", redirected(room, closing, path, RUN), (status, said, complaint))
            kind.expect(f"the rows after run {closing}", room.rows(path), [0] if status == 0 else [])
            kind.expect(f"the file after run {closing}", status == 0 or read(path) == room.ready, True)


def failing(kind, room):
    for redirection, init_status, run_status in [
        ("> /dev/full", 4, 4),
        ("1< /dev/null", 4, 4),
        ("0> /dev/null", 0, 3),
        ("< /", 0, 3),
        ("2> /dev/full", 0, 0),
    ]:
        made, path = room.absent(), room.store()
        says = init_status == 0
        init, run = redirected(room, redirection, made, INIT), redirected(room, redirection, path, RUN)
        kind.expect(f"init {redirection}", init, ended(init_status, b"OK\n" if says else b""))
        kind.expect(f"the store of init {redirection}", read(made) == room.fresh, True)
        check = redirected(room, redirection, made, CHECK)
        kind.expect(f"check {redirection}", check, ended(init_status, b"OK\n" if says else b""))
        kind.expect(f"the store of check {redirection}", read(made) == room.fresh, True)
        kind.expect(f"run {redirection}", run, ended(run_status, ANSWERS if run_status == 0 else b""))
        kind.expect(f"the rows after run {redirection}", room.rows(path), [0] if run_status == 0 else [])


def not_taken(kind, room):
    """Nobody reads the answers: the pipe is closed, or it is full and may not be waited for."""
    path = room.store()
    script = inserting(range(500))[0]
    reading, writing = os.pipe()
    os.close(reading)
    status, _, complaint = room.play(path, RUN, script, stdout=writing)
    os.close(writing)
    kind.expect("a pipe that nobody reads", (status, b"", complaint), ended(4))
    kind.expect_kept("a pipe that nobody reads", room, path, b"")
    path = room.store()
    reading, writing = os.pipe()
    fcntl.fcntl(writing, fcntl.F_SETPIPE_SZ, 4096)
    # Most of the pipe is filled before, so that the answers soon are too many.
    os.set_blocking(writing, False)
    os.write(writing, b"-" * 3000)
    status, _, complaint = room.play(path, RUN, script, stdout=writing)
    os.close(writing)
    with open(reading, "rb") as pipe:
        said = pipe.read()[3000:]
    kind.expect("a pipe that is full", (status, b"", complaint), ended(4))
    kind.expect("some answers came", said.count(b"\n") > 10, True)
    kind.expect_kept("a pipe that is full", room, path, said)


def too_long(kind, room):
    """A script of 2^30 bytes, and one of a byte more: a line, and remarks behind it."""
    for more, status in (0, 0), (1, 9):
        path = room.store()
        run = room.begin(path)
        left = 2**30 + more
        line = b"CONNECT A ANN\n"
        remark = b"--" + b"x" * (2**14 - 3) + b"\n"
        chunk = remark * 64
        run.stdin.write(line)
        left -= len(line)
        while left >= len(chunk):
            run.stdin.write(chunk)
            left -= len(chunk)
        run.stdin.write(chunk[: left - 1] + b"\n" if left else b"")
        said, complaint = run.communicate(timeout=SECONDS)
        kind.expect(f"2^30 + {more} bytes", (run.returncode, said, complaint), ended(status, b"OK\n"))
