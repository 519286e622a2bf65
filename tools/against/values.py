"""The values of the language: how they are printed and weighed, and what the text of a time means."""
import datetime
from typing import NamedTuple

# A value is None, an int, bytes, an Instant or a Period.

LEAST, GREATEST = -(2 ** 63), 2 ** 63 - 1
END = 315_537_897_600
FIRST_DAY = datetime.datetime(1, 1, 1)


class Instant(int):
    """Seconds since the first moment of the year 1; END stands for UNTIL_CHANGED."""


class Period(NamedTuple):
    """From an instant to one before another. Periods sort by the first and then by the second."""
    start: Instant
    till: Instant

    def overlaps(self, other):
        return self.start < other.till and other.start < self.till

    def shared(self, other):
        """What both include, where they overlap."""
        return Period(max(self.start, other.start), min(self.till, other.till))

    def outside(self, other):
        """What is left of the period beside another that it overlaps."""
        parts = [Period(self.start, other.start), Period(other.till, self.till)]
        return [part for part in parts if part.start < part.till]

    def beside(self, others):
        """What is left of the period beside all others."""
        left = [self]
        for other in others:
            left = [part for one in left for part in (one.outside(other) if one.overlaps(other) else [one])]
        return left


ALWAYS = Period(Instant(0), Instant(END))


def printed(value):
    if value is None:
        return b"NULL"
    if isinstance(value, Period):
        return b"[" + printed(value.start) + b", " + printed(value.till) + b")"
    if isinstance(value, bytes):
        return b"'" + value.replace(b"'", b"''") + b"'"
    if not isinstance(value, Instant):
        return b"%d" % value
    if value == END:
        return b"UNTIL_CHANGED"
    when = FIRST_DAY + datetime.timedelta(seconds=int(value))
    return b"%04d-%02d-%02d %02d:%02d:%02d" % (when.year, when.month, when.day, when.hour, when.minute, when.second)


def weight(value):
    return 1 if value is None else 3 + len(value) if isinstance(value, bytes) else 9


def instant(text, forms):
    """The instant of a text in one of the forms, or None. Small letters of a form stand for digits, all else for itself."""
    for form in forms:
        fields = {}
        for byte, place in zip(text, form):
            if place.islower() and chr(byte) in "0123456789":
                fields[place] = fields.get(place, "") + chr(byte)
            elif byte != ord(place) or place.islower():
                break
        else:
            if len(text) == len(form):
                try:
                    when = datetime.datetime(*(int(fields.get(place, "0")) for place in "ymdhis"))
                except ValueError:
                    return None
                return Instant((when - FIRST_DAY) // datetime.timedelta(seconds=1))
    return None


DATE_FORMS = ["yyyy-mm-dd"]
TIMESTAMP_FORMS = ["yyyy-mm-dd", "yyyy-mm-dd hh:ii:ss", "yyyy-mm-ddThh:ii:ss"]
MASKS = {b"YYYY-MM-DD": "yyyy-mm-dd", b"MM-DD-YYYY": "mm-dd-yyyy", b"YYYY-MM-DD HH24:MI:SS": "yyyy-mm-dd hh:ii:ss"}


def ascending(value):
    """A key that sorts values of one kind, NULL behind all others."""
    return (1, 0) if value is None else (0, value)
