"""Scripts that go on and on: one byte again and again, and one short line. A run holds one line of them at most, and counts the bytes."""
import os
import subprocess

from room import RUN, ended
from runs import finished

MOST = 2**30
PIECE = 2**16
# Of what a run is given so much may still be on its way.
UNDERWAY = 2 * PIECE
# So many bytes are given of what is not given for ever, and by so many a run may hold more at their end than it held soon.
SOME, MORE = 2**22, 2**18
SOON = 2 * UNDERWAY

BYTES = b"x", b" ", b"-", b"'", b"(", b"1", b"\r", b"\0", b"\xff"
LINES = {
    b"\n": b"",
    b"--\n": b"",
    b"x\n": b"WM-003 syntax 2\n",
    b"CONNECT A ANN\n": b"WM-005 session exists A\n",
    b"A: SELECT ID FROM T\n": b"ROWS 0\n",
    b"A: DELETE FROM T WHERE ID = 1\n": b"DONE 0\n",
}


def held(run):
    """The most bytes that a run has held by now; 0 where the system does not tell."""
    try:
        with open(f"/proc/{run.pid}/status", encoding="ascii") as file:
            return next((1024 * int(line.split()[1]) for line in file if line.startswith("VmHWM")), 0)
    except OSError:
        return 0


def put(run, piece, most):
    """Gives a run the piece again and again, up to so many bytes or until it takes no more. How many it was given."""
    given = 0
    try:
        while given < most:
            given += os.write(run.stdin.fileno(), piece)
    except BrokenPipeError:
        pass
    return given


def fed(run, piece, most):
    """So many bytes are given: how many, and by how many more the run held at their end than soon behind its beginning."""
    given, soon = put(run, piece, SOON), held(run)
    given += put(run, piece, most - SOON)
    return given, held(run) - soon


def begun(room, answers):
    """A run that has its first line, with its answers in a file."""
    with open(answers, "wb") as file:
        run = subprocess.Popen([room.program, room.store(), *RUN], stdin=subprocess.PIPE, stdout=file, stderr=subprocess.PIPE)
    run.stdin.write(b"CONNECT A ANN\n")
    run.stdin.flush()
    return run


def without_end(kind, room):
    answers = room.path("answers")
    run = begun(room, answers)
    given, more = fed(run, b"x" * PIECE, MOST - UNDERWAY)
    given += put(run, b"x" * PIECE, MOST)
    kind.expect("a byte for ever", ended_with(run, answers), ended(9, b"OK\n"))
    kind.expect(f"a byte for ever: it took 2^30 bytes of {given}", MOST - UNDERWAY <= given <= MOST + UNDERWAY, True)
    kind.expect(f"a byte for ever: it held {more} bytes more", more <= MORE, True)
    for byte in BYTES:
        for end in b"", b"\n":
            run = begun(room, answers)
            _, more = fed(run, byte * PIECE, SOME)
            run.stdin.write(end)
            name = f"a line of {byte!r} that ends with {end!r}"
            kind.expect(name, ended_with(run, answers), ended(0, b"OK\nWM-001 line too long\n"))
            kind.expect(f"{name}: it held {more} bytes more", more <= MORE, True)


def again(kind, room):
    answers = room.path("answers")
    for line, answer in LINES.items():
        run = begun(room, answers)
        count = PIECE // len(line)
        given, more = fed(run, line * count, SOME // 4)
        status, said, complaint = ended_with(run, answers)
        kind.expect(f"{line!r} again and again", (status, complaint), (0, b""))
        kind.expect(f"{line!r} again and again: the answers", said == b"OK\n" + answer * (given // len(line)), True)
        kind.expect(f"{line!r} again and again: it held {more} bytes more", more <= MORE, True)


def ended_with(run, answers):
    """How a run ended, with what it said."""
    status, _, complaint = finished(run)
    with open(answers, "rb") as file:
        return status, file.read(), complaint
