"""What a cell says. Numbers and times are read in the form that is told, and in that of the language."""
import re
from datetime import datetime
from functools import lru_cache
from typing import NamedTuple, Optional

from storefile.values import BEGINNING, UNTIL_CHANGED, Instant

NUMBER, TEXT, TIME = 1, 2, 3
LEAST, GREATEST = -(2 ** 63), 2 ** 63 - 1
MOMENT = re.compile(r"(\d{4})-(\d\d)-(\d\d)(?:[ T](\d\d):(\d\d):(\d\d))?", re.ASCII)
PARTS = {"YYYY": r"(?P<year>\d{4})", "MM": r"(?P<month>\d\d?)", "DD": r"(?P<day>\d\d?)"}
CLOCK = r"(?:[ T](?P<hour>\d\d?):(?P<minute>\d\d)(?::(?P<second>\d\d))?)?"
# What is written like a number or a day in one country or another, and what is a code, for no number begins so.
LIKE_NUMBER = re.compile(r"[-+]?\d{1,3}(?:[.,' \u00a0\u202f]\d{3})*[.,]\d+|[-+]?\d+[.,]\d+|[-+]?\d{1,3}(?:[.,' \u00a0\u202f]\d{3})+", re.ASCII)
LIKE_TIME = re.compile(r"\d{1,2}([./-])\d{1,2}\1(?:\d{4}|\d\d)(?:[ T].*)?|\d{4}([./-])\d{1,2}\2\d{1,2}(?:[ T].*)?", re.ASCII)
THOUSANDS = (".", ",", "'", " ", "\u00a0", "\u202f")
CODE = re.compile(r"0\d+", re.ASCII)
FOREVER = "UNTIL_CHANGED"


class Misfit(Exception):
    """Why a cell says no value of the kind that is wanted."""


@lru_cache(maxsize=None)
def pattern_of(dates):
    """What reads days that are written in a form, as DD.MM.YYYY."""
    parts = re.split("(YYYY|MM|DD)", dates)
    if sorted(part for part in parts if part in PARTS) != sorted(PARTS) or re.search(r"[\dA-Za-z]", "".join(part for part in parts if part not in PARTS)):
        raise Misfit(f"{dates!r} is no form of days: it has DD, MM and YYYY, and signs between them, as DD.MM.YYYY")
    return re.compile("".join(PARTS.get(part) or re.escape(part) for part in parts) + CLOCK, re.ASCII)


@lru_cache(maxsize=None)
def number_pattern(decimal):
    """What reads numbers. Where no sign is told a sign may mean either thing, so no signs stand between thousands."""
    if decimal is None:
        return re.compile(r"([-+]?)(\d+)()(?:\.(\d+))?", re.ASCII)
    signs = "".join(re.escape(sign) for sign in THOUSANDS if sign != decimal)
    return re.compile(rf"([-+]?)(\d+|\d{{1,3}}([{signs}])\d{{3}}(?:\3\d{{3}})*)(?:{re.escape(decimal)}(\d+))?", re.ASCII)


class Forms(NamedTuple):
    """How numbers and days are written: the sign before decimals, the form of days, and of some columns how many decimals they
    have in the sheet. The table holds of those the whole number of their last place, as cents of an amount."""
    decimal: Optional[str] = None
    dates: str = "YYYY-MM-DD"
    places: dict = {}

    def read(self, cell, kind, column=""):
        """The value that a cell says, None where it is empty."""
        if kind == TEXT:
            return text_in(cell)
        cell = cell.strip()
        if not cell:
            return None
        return self.number_in(cell, self.places.get(column, 0)) if kind == NUMBER else self.time_in(cell)

    def number_in(self, cell, places=0):
        """A whole number of so many last places."""
        found = number_pattern(self.decimal).fullmatch(cell)
        if not found or self.decimal is None and found[4] and not places:
            raise Misfit(f"{cell!r} is no {'number' if places else 'whole number'}{self.of_sign()}")
        whole, decimals = re.sub(r"\D", "", found[2]), (found[4] or "").ljust(places, "0")
        if decimals[places:].strip("0"):
            raise Misfit(f"{cell!r} has more than {places} decimals" if places else f"{cell!r} is no whole number")
        value = int(whole + decimals[:places]) * (-1 if found[1] == "-" else 1)
        if not LEAST <= value <= GREATEST:
            raise Misfit(f"{cell!r} is beyond numbers of 64 bits")
        return value

    def of_sign(self):
        return "" if self.decimal is None else f" with {self.decimal!r} before decimals"

    def time_in(self, cell):
        if cell == FOREVER:
            return Instant(UNTIL_CHANGED)
        plain, own = MOMENT.fullmatch(cell), pattern_of(self.dates).fullmatch(cell)
        if not plain and not own:
            raise Misfit(f"{cell!r} is no day or time, as {self.dates}")
        parts = plain.groups() if plain else own.group("year", "month", "day", "hour", "minute", "second")
        try:
            moment = datetime(*[int(part or 0) for part in parts])
        except ValueError:
            raise Misfit(f"{cell!r} is in no calendar") from None
        return Instant((moment - BEGINNING).total_seconds())

    def number_out(self, value, places=0):
        digits = str(abs(value)).rjust(places + 1, "0")
        shown = digits if not places else digits[:-places] + (self.decimal or ".") + digits[-places:]
        return "-" * (value < 0) + shown

    def time_out(self, value):
        """The day alone at midnight."""
        if value >= UNTIL_CHANGED:
            return FOREVER
        day, clock = str(value).split(" ")
        year, month, date = day.split("-")
        shown = self.dates.replace("YYYY", year).replace("MM", month).replace("DD", date)
        return shown if clock == "00:00:00" else f"{shown} {clock}"

    def written(self, value, column=""):
        """The cell that says a value."""
        if value is None:
            return ""
        if isinstance(value, str):
            return value
        return self.time_out(value) if isinstance(value, Instant) else self.number_out(value, self.places.get(column, 0))

    def is_number(self, cell):
        return self.fits(cell, NUMBER) and not CODE.fullmatch(cell.lstrip("-"))

    def fits(self, cell, kind):
        try:
            self.read(cell, kind)
        except Misfit:
            return False
        return True


def text_in(cell):
    if "\n" in cell or "\r" in cell:
        raise Misfit("a text goes over several lines, and a statement stands on one")
    return cell or None


def quoted(text):
    return "'" + text.replace("'", "''") + "'"


def constant(value):
    """A value as a statement has it."""
    if value is None:
        return "NULL"
    if isinstance(value, str):
        return quoted(value)
    if not isinstance(value, Instant):
        return str(value)
    if value >= UNTIL_CHANGED:
        return "DBMS_WM.UNTIL_CHANGED"
    day, clock = str(value).split(" ")
    return f"DATE '{day}'" if clock == "00:00:00" else f"TIMESTAMP '{day} {clock}'"
