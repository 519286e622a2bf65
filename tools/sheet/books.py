"""Sheets in files: CSV, and XLSX where openpyxl is installed."""
import csv
import io
import sys
from datetime import date, datetime, time

from cells.files import Row, rows_of
from cells.forms import NUMBER, TEXT, Misfit
from storefile.pages import MADE
from storefile.values import BEGINNING, UNTIL_CHANGED, Instant, Period

# The first day that a spreadsheet's calendar has, and the greatest number that it keeps to the last digit.
FIRST_DAY, GREATEST = datetime(1900, 3, 1), 10 ** 15


class NoBook(Exception):
    """Why no sheet can be read or written."""


def is_workbook(path):
    return path is not None and path.suffix.lower() == ".xlsx"


def workbooks():
    try:
        import openpyxl
    except ImportError:
        raise NoBook("a sheet of XLSX wants Python's openpyxl, which is not installed: 'pip install openpyxl', or name a file of CSV") from None
    return openpyxl


# In

def read_book(words):
    """The rows of a sheet that say anything."""
    if not is_workbook(words.file):
        return rows_of(words.file.read_bytes(), words.separator, words.encoding)
    sheet = workbooks().load_workbook(words.file, data_only=True).worksheets[0]
    found = [Row(line, ["" if cell is None else cell for cell in cells]) for line, cells in enumerate(sheet.iter_rows(values_only=True), 1)]
    return [row for row in found if any(cell != "" for cell in row.cells)]


def value_in(forms, cell, kind, column):
    """The value of a cell, which is a text, but in a workbook."""
    if isinstance(cell, str):
        return forms.read(cell, kind, column)
    if isinstance(cell, (date, time)):
        return moment_in(cell, kind)
    if isinstance(cell, bool) or not isinstance(cell, (int, float)):
        raise Misfit(f"{cell!r} is no value of a table")
    if kind == TEXT:
        return str(int(cell) if cell == int(cell) else cell)
    scaled = cell * 10 ** forms.places.get(column, 0)
    if kind != NUMBER or abs(scaled - round(scaled)) > 1e-6:
        raise Misfit(f"{cell!r} is no {'whole number' if kind == NUMBER else 'day or time'}")
    return round(scaled)


def moment_in(cell, kind):
    if isinstance(cell, time) or kind in (NUMBER, TEXT):
        raise Misfit(f"{str(cell)!r} is a day or a time, and the column has none")
    moment = cell if isinstance(cell, datetime) else datetime(cell.year, cell.month, cell.day)
    return Instant(round((moment - BEGINNING).total_seconds()))


# Out

def written(words, forms, names, rows):
    """Writes the rows. The status."""
    heads, columns = [], list(zip(*rows)) if rows else [()] * len(names)
    for name, column in zip(names, columns):
        is_period = isinstance(next((value for value in column if value is not None), None), Period) or name.endswith("WM_VALID")
        heads += [f"{name}.VALIDFROM", f"{name}.VALIDTILL"] if is_period else [name]
    cells = [[part for value in row for part in (value if isinstance(value, Period) else [value])] for row in rows]
    if words.file is not None and words.file.is_file():
        with words.file.open("rb") as file:
            if file.read(1) == bytes([MADE]):
                raise NoBook(f"{words.file} is a store or begins as one, and is not written over")
    (write_workbook if is_workbook(words.file) else write_text)(words, forms, heads, cells)
    return 0


def write_text(words, forms, heads, rows):
    out = io.StringIO(newline="")
    writer = csv.writer(out, delimiter=words.separator_out, lineterminator="\n" if words.file is None else "\r\n")
    writer.writerow(heads)
    for row in rows:
        writer.writerow([forms.written(value, name) for name, value in zip(heads, row)])
    try:
        data = out.getvalue().encode(words.encoding or ("utf-8" if words.file is None else "utf-8-sig"))
    except LookupError:
        raise NoBook(f"there is no encoding {words.encoding}") from None
    except UnicodeEncodeError as error:
        raise NoBook(f"{words.encoding} has no letter {error.object[error.start]!r}") from None
    if words.file is None:
        sys.stdout.buffer.write(data)
    else:
        words.file.write_bytes(data)


def write_workbook(words, forms, heads, rows):
    """Values as a spreadsheet has them: what it would not keep as it is stands there as a text."""
    book = workbooks().Workbook()
    book.active.append(heads)
    for row in rows:
        book.active.append([cell_out(forms, value, forms.places.get(name, 0), name) for name, value in zip(heads, row)])
    book.save(words.file)


def cell_out(forms, value, places, name):
    if isinstance(value, Instant):
        moment = None if value >= UNTIL_CHANGED else datetime.fromisoformat(str(value))
        return moment if moment is not None and moment >= FIRST_DAY else forms.written(value)
    if isinstance(value, int):
        return forms.written(value, name) if abs(value) >= GREATEST else value / 10 ** places if places else value
    return value
