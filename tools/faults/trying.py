"""The tries: calls that go wrong in a run, an init and a check, and the power that goes at each moment of these."""
from expected import fault_of_end
from recording import KINDS, Disk, moments
from room import CHECK, INIT, RUN

STATUS = dict.fromkeys(KINDS, 5) | {"take": 3, "say": 4}
KILLED = -9
DATA = "read", "write", "take", "say"

# What becomes of a call, the kinds of calls that it is tried with, and whether the run is to come to its end all the same.
FATES = {
    "fails": ("a call that fails", KINDS, False),
    "nothing": ("a call that does nothing", DATA, False),
    "torn": ("a write or an answer that fails half-way", ("write", "say"), False),
    "less": ("a call that does half", DATA, True),
    "interrupted": ("a call that is to be made again", DATA, True),
    "before": ("a run killed before a call", KINDS, False),
    "in": ("a run killed in a write or an answer", ("write", "say"), False),
    "after": ("a run killed behind a call", KINDS, False),
}


def left(start, ran):
    """The files that may be there where the run ended and the power then goes."""
    disk = Disk(start)
    for call in ran.calls:
        disk.take(call)
    return disk.images() | {ran.file}


def status_of(kind, fate):
    if fate in ("before", "in", "after"):
        return KILLED
    return 0 if FATES[fate][2] or (kind, fate) == ("take", "nothing") else STATUS[kind]


class Tries:
    """Tries of one start: the words, the file and the script of a run, and what is wrong with one that did not end well."""

    def __init__(self, room, words, start, script, taken):
        self.room, self.words, self.start, self.script, self.taken = room, words, start, script, taken
        self.whole = self.play(None)

    def play(self, call):
        return self.room.play(self.start, self.words, self.script, call, self.taken)

    def calls(self, fate, every):
        """The calls with which a fate is tried."""
        count = dict.fromkeys(KINDS, 0)
        for call in self.whole.calls:
            count[call.kind] += 1
        kinds = [kind for kind in FATES[fate][1] if count[kind]]
        return [(kind, number) for kind in kinds for number in range(1, count[kind] + 1)][::every]

    def fault(self, kind, number, fate):
        ran = self.play(f"{kind} {number} {fate}")
        why = self.fault_of(ran, status_of(kind, fate), kind, fate)
        return f"{' '.join(self.words)}, {kind} {number} {fate}: {why}" if why else None

    def moments(self):
        return moments(self.start or b"", self.whole.calls)


class RunTries(Tries):
    def __init__(self, room, store, expected, taken):
        self.expected = expected
        super().__init__(room, RUN, store, b"".join(expected.lines), taken)

    def said(self, ran, status, kind, fate):
        """What must have been said, where it is known."""
        taken = sum(call.at for call in ran.calls if call.kind == "take")
        if status == 3:
            return self.expected.front_of(taken)
        if (kind, fate) == ("take", "nothing"):
            return self.room.play(self.start, RUN, self.script[:taken]).said
        return self.expected.whole if status == 0 else None

    def fault_of(self, ran, status, kind, fate):
        why = fault_of_end(ran, status, self.said(ran, status, kind, fate))
        if why or (kind, fate) == ("take", "nothing"):
            return why
        return self.expected.fault_of_store(ran.said, left(self.start, ran))

    def fault_of_power(self, said, image):
        return self.expected.fault_of_store(said, [image])

    def fault_of_repair(self, said, image):
        """Says what is wrong where the power goes once more, while the file is repaired."""
        ran = self.room.play(image, RUN)
        for _, images in moments(image, ran.calls):
            for each in images:
                if self.room.look(each) != self.room.look(image):
                    return f"the power goes twice behind the answers {said[-40:]!r}, and the store says {self.room.look(each)!r}"
        return None


class InitTries(Tries):
    def __init__(self, room, start, fresh):
        self.fresh = fresh
        super().__init__(room, INIT, start, b"", 0)

    def fault_of(self, ran, status, kind, fate):
        why = fault_of_end(ran, status)
        if why or not b"OK\n".startswith(ran.said) or status == 5 and ran.said:
            return why or f"it said {ran.said!r}"
        images = left(self.start or b"", ran)
        faults = (self.fault_of_power(ran.said or status in (0, 4), image) for image in images)
        return next((it for it in faults if it), None)

    def fault_of_power(self, said, image):
        """A store is there, or none is and it can be made."""
        found = self.room.look(image)
        if found == self.fresh:
            return None
        if said or found[:2] != (6, b""):
            return f"a file of {len(image)} bytes is opened with status {found[0]}, and says {found[1]!r}"
        ran = self.room.play(image, INIT)
        return fault_of_end(ran, 0, b"OK\n") or (None if self.room.look(ran.file) == self.fresh else "init makes another store")


class AgainTries(Tries):
    """An init of a store that is there: it is left alone, whatever happens."""

    def __init__(self, room, store):
        super().__init__(room, INIT, store, b"", 0)

    def fault_of(self, ran, status, kind, fate):
        why = fault_of_end(ran, 8 if status in (0, 4) else status, b"")
        return why or (None if left(self.start, ran) == {self.start} else "the store is another one")


class CheckTries(Tries):
    """A check of a store, also of one that is to be repaired: what it holds stays as it was, whatever happens."""

    def __init__(self, room, store):
        super().__init__(room, CHECK, store, b"", 0)

    def fault_of(self, ran, status, kind, fate):
        why = fault_of_end(ran, status, {0: b"OK\n", 5: b""}.get(status))
        if why or not b"OK\n".startswith(ran.said):
            return why or f"it said {ran.said!r}"
        faults = (self.fault_of_power(ran.said, image) for image in left(self.start, ran))
        return next((it for it in faults if it), None)

    def fault_of_power(self, said, image):
        found = self.room.look(image)
        if found == self.room.look(self.start):
            return None
        return f"where {said!r} was said, a file of {len(image)} bytes is opened with status {found[0]}, and says {found[1]!r}"


class LoadTries(Tries):
    """A load of some lines: it says nothing before all were played, and what it then says is known."""

    def __init__(self, room, store, expected, words):
        self.expected = expected
        super().__init__(room, words, store, b"", 0)

    def fault_of(self, ran, status, kind, fate):
        why = fault_of_end(ran, status, {0: self.whole.said, 5: b""}.get(status))
        if why or not self.whole.said.startswith(ran.said):
            return why or f"it said {ran.said!r}"
        is_played = ran.said or status in (0, 4)
        faults = (self.fault_of_power(is_played, image) for image in left(self.start, ran))
        return next((it for it in faults if it), None)

    def fault_of_power(self, said, image):
        """The store holds what a front of the lines made; where anything was said, what all of them did."""
        found = self.room.look(image)
        if found in (self.expected.states[-1:] if said else self.expected.states):
            return None
        return f"where {said!r} was said, a file of {len(image)} bytes is opened with status {found[0]}, and says {found[1]!r}"
