"""Records: a tag and its fields in order. The table of kinds is that of docs/FORMAT.md."""
from typing import NamedTuple

from .pages import Damaged
from .values import Instant, Period, UNTIL_CHANGED


class NoRecord(Exception):
    """The bytes are no record."""


class Column(NamedTuple):
    name: str
    kind: int
    size: int
    is_needed: bool


class Counters(NamedTuple):
    next_stamp: int
    last_moment: Instant
    limit: int
    next_version: int
    work: int


class Table(NamedTuple):
    number: int
    name: str
    is_versioned: bool
    is_valid: bool
    has_history: bool
    key_columns: list
    columns: list

    def key_name(self):
        return ", ".join(self.columns[place].name for place in self.key_columns)

    def has_in_key(self, column):
        return any(self.columns[place] is column for place in self.key_columns)


class Space(NamedTuple):
    number: int
    name: str
    parent: int
    born: Instant
    birth_version: int
    birth_place: int
    base_version: int
    parent_log_length: int
    log_length: int
    rebases: int
    next_place: int
    next_implicit: int
    freeze: int
    writer: str


class Version(NamedTuple):
    number: int
    space: int
    parent: int


class Savepoint(NamedTuple):
    space: int
    name: str
    is_implicit: bool
    place: int
    making: int
    moment: Instant
    version: int
    base_version: int
    parent_log_length: int
    log_length: int
    rebases: int


class Row(NamedTuple):
    stamp: int
    table: int
    values: list


class Cells(NamedTuple):
    table: int
    key: object
    period: Period


class Piece(NamedTuple):
    version: int
    cells: Cells
    stamp: int
    kind: int
    is_gone: bool


class Trace(NamedTuple):
    space: int
    place: int
    cells: Cells
    position: int


class Touch(Trace):
    """Cells that a workspace changed."""


class Mark(Trace):
    """Cells whose conflict with the parent was settled: what its log holds there below the position."""


class Lock(NamedTuple):
    space: int
    place: int
    cells: Cells
    mode: int
    user: str
    making: int


class Hist(NamedTuple):
    space: int
    position: int
    cells: Cells
    stamp: int
    kind: int
    is_gone: bool
    moment: Instant
    user: str


class Turn(NamedTuple):
    space: int
    rebase: int
    log_length: int
    rebases: int


class Reader:
    """Takes fields from the front of a record's bytes."""

    def __init__(self, data):
        self.data, self.at = data, 0

    def take(self, size):
        found = self.data[self.at:self.at + size]
        if len(found) < size:
            raise NoRecord
        self.at += size
        return found

    def number(self, size):
        return int.from_bytes(self.take(size), "big")

    def truth(self):
        return bool(self.one_of(0, 1))

    def one_of(self, *allowed):
        found = self.number(1)
        if found not in allowed:
            raise NoRecord
        return found

    def text(self):
        """Lines write UTF-8 alone, but any bytes are a text."""
        return self.take(self.number(2)).decode("utf-8", "backslashreplace")

    def instant(self):
        """A field that is a time, of which the rules over all records may say more."""
        return Instant(self.number(8))

    def value(self):
        tag = self.one_of(0, 1, 2, 3)
        if tag == 1:
            return int.from_bytes(self.take(8), "big", signed=True)
        if tag == 2:
            found = self.text()
            if not found:
                raise NoRecord
            return found
        return self.time() if tag == 3 else None

    def time(self):
        found = self.instant()
        if found > UNTIL_CHANGED:
            raise NoRecord
        return found

    def cells(self):
        return Cells(self.number(2), self.value(), Period(self.instant(), self.instant()))

    def column(self):
        return Column(self.text(), self.one_of(1, 2, 3), self.number(2), self.truth())

    def key_columns(self):
        """The places of the key's columns. Today a key has one, and the place of none is 0."""
        has_key, place = self.truth(), self.number(1)
        if place and not has_key:
            raise NoRecord
        return [place] * has_key

    def many(self, item):
        return [item() for _ in range(self.number(1))]

    def freeze(self):
        return self.one_of(0, 1, 2, 3, 4)

    def kind(self):
        return self.one_of(1, 2, 3)

    def mode(self):
        return self.one_of(1, 2, 3, 4)


def n(size):
    return lambda reader: reader.number(size)


TEXT, TRUTH, INSTANT, CELLS, KIND = Reader.text, Reader.truth, Reader.instant, Reader.cells, Reader.kind
KINDS = {
    1: (Counters, [n(8), INSTANT, n(4), n(8), n(8)]),
    2: (Table, [n(2), TEXT, TRUTH, TRUTH, TRUTH, Reader.key_columns, lambda reader: reader.many(reader.column)]),
    3: (Space, [n(4), TEXT, n(4), INSTANT, n(8), n(4), n(8), n(8), n(8), n(4), n(4), n(4), Reader.freeze, TEXT]),
    4: (Version, [n(8), n(4), n(8)]),
    5: (Savepoint, [n(4), TEXT, TRUTH, n(4), n(8), INSTANT, n(8), n(8), n(8), n(8), n(4)]),
    6: (Row, [n(8), n(2), lambda reader: reader.many(reader.value)]),
    7: (Piece, [n(8), CELLS, n(8), KIND, TRUTH]),
    8: (Touch, [n(4), n(4), CELLS, n(8)]),
    9: (Lock, [n(4), n(4), CELLS, Reader.mode, TEXT, n(8)]),
    10: (Hist, [n(4), n(8), CELLS, n(8), KIND, TRUTH, INSTANT, TEXT]),
    11: (Mark, [n(4), n(4), CELLS, n(8)]),
    12: (Turn, [n(4), n(4), n(8), n(4)]),
}


def decoded(data):
    """The record whose spelling the bytes are."""
    reader = Reader(data)
    tag = reader.number(1)
    if tag not in KINDS:
        raise NoRecord
    make, fields = KINDS[tag]
    found = make(*[field(reader) for field in fields])
    if reader.at < len(data):
        raise NoRecord
    return found


def records_of(pages):
    """All records of a store's pages."""
    found = []
    for place, _, data in pages.slots():
        try:
            found.append(decoded(data))
        except NoRecord:
            raise Damaged(place, "record") from None
    return found
