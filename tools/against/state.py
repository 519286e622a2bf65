"""What a session, a savepoint and a workspace are."""
from dataclasses import dataclass, field

from lists import copied, over, put
from values import Instant, Period


@dataclass
class Session:
    user: str
    workspace: bytes = b"LIVE"
    savepoint: bytes | None = None
    date: Instant | None = None
    period: Period | None = None  # of SetValidTime
    conflict: bytes | None = None  # of SetConflictWorkspace
    difference: list | None = None  # of SetDiffVersions, two workspaces each with its savepoint
    resolve: bytes | None = None  # the workspace whose resolve it has open
    decisions: list = field(default_factory=list)  # of that resolve
    locking: bytes | None = None  # the mode in which it locks what it changes
    freezes: set = field(default_factory=set)  # the workspaces that it froze for itself alone


@dataclass
class Savepoint:
    place: int
    moment: Instant
    content: dict
    own: list
    log_length: int
    rebases: int
    settled: dict


@dataclass
class Workspace:
    number: int
    parent: int | None
    born: Instant
    birth_place: int  # in the parent
    log_from: int  # how long the parent's log was when 'base' was taken of it
    first: dict  # what it was born with
    base: dict  # its copy of what the parent has
    content: dict  # what it has now: the base, and over it what is its own
    own: list = field(default_factory=list)  # its changes that are not merged
    log: list = field(default_factory=list)  # of all its changes
    turns: list = field(default_factory=list)  # of the parent, at birth and at each rebase: the length of its log, and its rebases
    savepoints: dict = field(default_factory=dict)  # by name
    place: int = 0  # the last one given; none is given again
    implicit: int = 0  # how many implicit savepoints were ever made
    settled: dict = field(default_factory=dict)  # the marks of what resolves decided
    locks: list = field(default_factory=list)  # in order of making
    freeze: bytes | None = None  # its mode, unless a session froze it for itself
    writer: str = ""  # for whom it is frozen in 1WRITER

    @property
    def rebases(self):
        return max(len(self.turns) - 1, 0)

    def append(self, entries):
        self.own, self.log = self.own + entries, self.log + entries
        for entry in entries:
            put(self.content, entry)

    def rebase(self, parent):
        self.base, self.log_from = copied(parent.content), len(parent.log)
        self.turns.append((len(parent.log), parent.rebases))
        self.content, self.settled = over(self.base, self.own), {}
