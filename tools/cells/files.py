"""The rows of a CSV file. How its letters are spelled and what parts its values is told by who calls, or seen."""
import codecs
import csv
import io
import re
from typing import NamedTuple

MARKS = {codecs.BOM_UTF8: "utf-8-sig", codecs.BOM_UTF16_LE: "utf-16", codecs.BOM_UTF16_BE: "utf-16"}
SEPARATORS = ";\t,"
# What some programs put before the rows, for others to see.
TOLD = re.compile(r"sep=(.)\r?\n")


class BadFile(Exception):
    """Why a file has no rows, with the line where that shows, if one does."""


class Row(NamedTuple):
    """A row with the line on which it begins."""
    line: int
    cells: list


def known_encoding(name):
    try:
        return codecs.lookup(name).name
    except LookupError:
        raise BadFile(f"there is no encoding {name}") from None


def decoded(data, encoding=None):
    """The letters of a file. They are what a mark at its beginning says, else UTF-8, and where they are not that, cp1252."""
    seen = next((name for mark, name in MARKS.items() if data.startswith(mark)), None)
    names = [seen] if seen else [known_encoding(encoding)] if encoding else ["utf-8", "cp1252"]
    for name in names:
        try:
            return data.decode(name)
        except UnicodeDecodeError as error:
            line = data[:error.start].count(b"\n") + 1
    raise BadFile(f"line {line}: no letters of {' or '.join(names)}; --encoding names what they are")


def seen_separator(text):
    """What parts the names in the first line, which have none of the three in them."""
    head = text.split("\n", 1)[0]
    return next((mark for mark in SEPARATORS if mark in head), ",")


def rows_of(data, separator=None, encoding=None):
    """The rows that say anything."""
    text = decoded(data, encoding)
    told = TOLD.match(text)
    first = 1
    if told:
        text, first = text[told.end():], 2
    reader = csv.reader(io.StringIO(text, newline=""), delimiter=separator or (told[1] if told else seen_separator(text)), strict=True)
    found, line = [], first
    try:
        for cells in reader:
            if any(cells):
                found.append(Row(line, cells))
            line = first + reader.line_num
    except csv.Error as error:
        raise BadFile(f"line {line}: {error}") from None
    return found
