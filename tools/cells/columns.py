"""The columns of a sheet: their names, what they hold, and which of them are the ends of a period."""
import re

from against.tokens import RESERVED
from storefile.pages import Damaged, NotAStore
from storefile.store import opened

from .forms import CODE, LIKE_NUMBER, LIKE_TIME, NUMBER, TEXT, TIME, Misfit

NAME = re.compile(r"[A-Za-z][A-Za-z0-9_$#]*")
WM_VALID = "WM_VALID"


class Fault(Exception):
    """Where and why a sheet cannot be taken: a line, the name of a column or None, and what is wrong there."""

    def __init__(self, line, column, why):
        super().__init__(f"line {line}{f', column {column}' if column else ''}: {why}")


class NoTable(Exception):
    """Why a store has no such table."""


def is_name(text):
    """Whether the language takes it for a name."""
    return NAME.fullmatch(text) is not None and text.upper() not in RESERVED


def named_table(store, name):
    """A table of a store."""
    try:
        tables = opened(store).tables.values()
    except NotAStore:
        raise NoTable(f"{store} is no store") from None
    except Damaged as damage:
        raise NoTable(f"{store}: {damage}") from None
    found = next((table for table in tables if table.name == name.upper()), None)
    if found is None:
        raise NoTable(f"{store} has no table {name.upper()}")
    return found


def period_columns(names, begin=None, till=None):
    """The places of the columns that say when a row holds, each None where there is none."""
    def place(asked, usual):
        if asked and asked.upper() not in names:
            raise Fault(1, None, f"the file has no column {asked}")
        fitting = [asked.upper()] if asked else [usual, f"{WM_VALID}.{usual}"]
        return next((names.index(name) for name in fitting if name in names), None)
    return place(begin, "VALIDFROM"), place(till, "VALIDTILL")


def kind_of(forms, cells):
    """The kind of a column by its cells, and the place of the first one that does not go with it, or None."""
    said = [(place, cell.strip()) for place, cell in enumerate(cells) if cell.strip()]
    if not said or any(CODE.fullmatch(cell) for _, cell in said):
        return TEXT, None
    for kind, like in ((NUMBER, LIKE_NUMBER), (TIME, LIKE_TIME)):
        fits = [forms.is_number(cell) if kind == NUMBER else forms.fits(cell, TIME) for _, cell in said]
        if all(fits):
            return kind, None
        if any(fits):
            return kind, next(place for (place, _), fit in zip(said, fits) if not fit)
        odd = next((place for place, cell in said if like.fullmatch(cell)), None)
        if odd is not None:
            return kind, odd
    return TEXT, None


def misfit(forms, cell, kind):
    """Why a cell does not go with those of a kind."""
    try:
        forms.read(cell, kind)
    except Misfit as why:
        return why
    return f"{cell!r} is written like a code, and not like a number"


def kinds_seen(forms, names, places, rows, texts):
    """The kind of each column, by its cells, but for those that are to be texts."""
    found = {}
    for name, place in zip(names, places):
        kind, odd = (TEXT, None) if name in texts else kind_of(forms, [row.cells[place] for row in rows])
        if odd is not None:
            row = rows[odd]
            raise Fault(row.line, name, f"{misfit(forms, row.cells[place], kind)}. --text {name} takes the column as one of texts, "
                        "and --store STORE the types of a table")
        found[name] = kind
    return found
