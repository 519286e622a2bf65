"""Values, instants and periods, and how the program prints them."""
from datetime import datetime, timedelta
from typing import NamedTuple

BEGINNING = datetime(1, 1, 1)
# Seconds from 0001-01-01 00:00:00 to just behind 9999-12-31 23:59:59.
UNTIL_CHANGED = 315_537_897_600


class Instant(int):
    """A time, as seconds from the beginning of the year 1. A number of its own type, so that a value tells its kind."""

    def __str__(self):
        if self >= UNTIL_CHANGED:
            return "UNTIL_CHANGED" if self == UNTIL_CHANGED else f"second {int(self)}"
        return str(BEGINNING + timedelta(seconds=int(self)))


class Period(NamedTuple):
    """The instants from the first end to just before the second one."""
    begin: Instant
    till: Instant

    def __str__(self):
        return f"[{self.begin}, {self.till})"

    def overlap(self, other):
        """What two periods share, or None."""
        begin, till = max(self.begin, other.begin), min(self.till, other.till)
        return Period(begin, till) if begin < till else None

    def without(self, other):
        """The parts of this period that the other does not cover."""
        parts = [(self.begin, min(self.till, other.begin)), (max(self.begin, other.till), self.till)]
        return [Period(begin, till) for begin, till in parts if begin < till]


ALWAYS = Period(Instant(0), Instant(UNTIL_CHANGED))


def printed(value):
    """A value as an answer shows it."""
    if value is None:
        return "NULL"
    if isinstance(value, str):
        return "'" + value.replace("'", "''") + "'"
    return str(value)


def in_order(key):
    """What keys of one table are sorted by: numbers and times by size, texts byte by byte."""
    return key.encode() if isinstance(key, str) else key
