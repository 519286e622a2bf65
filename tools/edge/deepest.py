"""Lines of the greatest length, with chains that are as deep as a line can have them: each takes the most of the stack that its kind takes."""
import resource

from room import RUN, ended

LONGEST = 16_384
# What a system gives a program that asks for nothing, in bytes.
USUAL = 2**23
READY = b"CONNECT A ANN\nA: INSERT INTO T VALUES (1)\n"

# How a line begins, what is repeated in it, how it ends, and its answer, in which @ is how often it is repeated and one more.
CHAINS = [
    (b"A: SELECT ID", b"+1", b" FROM T", b"@\nROWS 1\n"),
    (b"A: SELECT ID", b"*1", b" FROM T", b"1\nROWS 1\n"),
    (b"A: SELECT COUNT(ID", b"-1", b") FROM T", b"1\nROWS 1\n"),
    (b"A: INSERT INTO T VALUES (2", b"-0", b")", b"DONE 1\n"),
    (b"A: SELECT ID FROM T WHERE 1=1", b"OR 1=2", b"", b"1\nROWS 1\n"),
    (b"A: SELECT ID FROM T WHERE 1=1", b"AND 1=1", b"", b"1\nROWS 1\n"),
    (b"A: DELETE T WHERE 1=2", b"OR 1=2", b"", b"DONE 0\n"),
    (b"A: SELECT ID FROM T WHERE ID IN (1", b",2", b")", b"1\nROWS 1\n"),
    (b"A: SELECT ID FROM T ORDER BY 1", b",1", b"", b"1\nROWS 1\n"),
    (b"A: EXEC DBMS_WM.ResolveConflicts('W','T','ID=1", b"OR ID=1", b"','BASE')", b"WM-020 no workspace 'W'\n"),
]


def chains(kind, room):
    if 0 <= resource.getrlimit(resource.RLIMIT_STACK)[0] < USUAL:
        kind.remarks.append(f"skipped, for a program has less than {USUAL} bytes of stack here")
        return
    for begin, link, end, answer in CHAINS:
        count = (LONGEST - len(begin) - len(end)) // len(link)
        answer = answer.replace(b"@", b"%d" % (count + 1))
        ran = room.play(room.store(), RUN, READY + begin + link * count + end + b"\n")
        kind.expect(f"{begin!r} and {count} times {link!r}", ran, ended(0, b"OK\nDONE 1\n" + answer))
