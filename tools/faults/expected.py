"""What a script is answered, what the store holds behind each of its lines, and what is wrong with a run."""
from room import COMPLAINTS, RUN


class Expected:
    def __init__(self, room, pool, store, lines):
        self.room, self.lines = room, lines
        fronts = [b"".join(lines[:count]) for count in range(1, len(lines) + 1)]
        runs = list(pool.map(lambda script: room.play(store, RUN, script), fronts))
        self.answers = [ran.said[len(before):] for ran, before in zip(runs, [b"", *[ran.said for ran in runs]])]
        self.states = list(pool.map(room.look, [store, *[ran.file for ran in runs]]))
        self.whole = runs[-1].said
        for number, ran in enumerate(runs, 1):
            if ran.status or not self.whole.startswith(ran.said) or self.states[number][0]:
                raise SystemExit(f"line {number} ended with {ran.status}, {ran.complaint!r}, {self.states[number]}")

    def allowed(self, said):
        """The states in which a store may be where this was said."""
        answered = length = 0
        while answered < len(self.answers) and length + len(self.answers[answered]) <= len(said):
            length += len(self.answers[answered])
            answered += 1
        if length < len(said):
            # A line whose answer was begun was kept.
            return self.states[answered + 1:answered + 2]
        # Lines that say nothing are answered by nothing, so any of them may have been run.
        first = answered
        while first > 0 and not self.answers[first - 1]:
            first -= 1
        return self.states[first:answered + 2]

    def front_of(self, count):
        """The answers to the lines that LF ends in the first bytes of the script."""
        said, length = b"", 0
        for line, answer in zip(self.lines, self.answers):
            length += len(line)
            said += answer if length <= count else b""
        return said

    def fault_of_store(self, said, images):
        """Says what is wrong with the files that may be there where this was said, if something is."""
        if not self.whole.startswith(said):
            return f"it said what is no front of the answers: {said[-200:]!r}"
        allowed = self.allowed(said)
        for image in images:
            found = self.room.look(image)
            if found not in allowed:
                opened = f"a file of {len(image)} bytes is opened with status {found[0]}, and says {found[1]!r}"
                return f"behind the answers {said[-40:]!r} {opened}"
        return None


def fault_of_end(ran, status, said=None):
    """Says what is wrong with how a run ended, if something is."""
    if (ran.status, ran.complaint) != (status, COMPLAINTS.get(status, b"")):
        return f"it ended with status {ran.status} and {ran.complaint!r}, and {status} is wanted"
    if said is not None and ran.said != said:
        return f"it said {ran.said[-200:]!r}, and {said[-200:]!r} is wanted"
    return None
