#!/usr/bin/env python3
"""python3 tools/insert_lines.py TABLE FILE.csv [OPTION ..] > SCRIPT

Makes a script of a CSV file: an INSERT line for each of its lines. The first line has the names of the columns.

    --session S     the session that says the lines (LOADER)
    --user U        whom CONNECT opens the session for; without it the session is open already
    --workspace W   where the session goes first
    --from COLUMN   the column with the beginning of the row's period, and
    --till COLUMN   the one with its end, where nothing means UNTIL_CHANGED. Without these the columns VALIDFROM
                    and VALIDTILL, if there are any, also with 'WM_VALID.' before them, as tools/play --csv writes them
    --store STORE   takes the types of the columns from the table in a store
    --text COLUMN   takes a column as one of texts, whatever its values look like. It may be said several times
    --separator C   what stands between values. Without it a semicolon, a tab or a comma, as seen in the first line
    --decimal C     the sign before decimals, a comma or a point. A table takes whole numbers, so 12,00 is one and 12,50
                    is none; other signs may stand between thousands. Without it numbers are of digits alone
    --dates FORM    how days are written, as DD.MM.YYYY, beside 2024-10-31
    --encoding E    how letters are spelled, as cp1252. Without it UTF-8, and what is not UTF-8 is read as cp1252
    --version       says of which day this tool is

Without a store a column of whole numbers is one of numbers, a column of days or times (2024-10-31,
2024-10-31 17:30:00) one of times, and each other one of texts; a value that looks like a number or a day, and is none
or stands among others, is told. Nothing between two separators is NULL. The status is 1 where a value does not fit its
column, or a line of the file cannot be a statement: it is told with its line and column, and no script is made.
"""
import argparse
import signal
import sys
from pathlib import Path

sys.path.insert(1, str(Path(__file__).resolve().parent))

from called import named, see_to_python, tell_of_itself

see_to_python()

from cells.columns import WM_VALID, Fault, NoTable, is_name, kinds_seen, named_table, period_columns
from cells.files import BadFile, rows_of
from cells.forms import TIME, Forms, Misfit, constant, pattern_of, quoted

LONGEST = 16_384
WORDS = ("session", "user", "workspace", "from", "till", "store", "separator", "decimal", "dates", "encoding")
USUAL = {"session": "LOADER", "dates": "YYYY-MM-DD"}


class NoScript(Exception):
    """Why no file makes a script with these words."""


def asked():
    tell_of_itself("insert", __doc__)
    parser = argparse.ArgumentParser(prog=named("tools/insert_lines.py"), usage=named(__doc__.split("\n")[0]), add_help=False)
    parser.add_argument("table")
    parser.add_argument("file", type=Path)
    for name in WORDS:
        parser.add_argument(f"--{name}", default=USUAL.get(name), dest=f"{name}_")
    parser.add_argument("--text", action="append", default=[], dest="texts")
    return parser.parse_args()


def see_to_words(words):
    for kind, name in (("table", words.table), ("session", words.session_), ("user", words.user_)):
        if name is not None and not is_name(name):
            raise NoScript(f"{name!r} is no name of a {kind}")
    if words.separator_ is not None and len(words.separator_) != 1:
        raise NoScript(f"{words.separator_!r} is not one character")
    if words.decimal_ not in (None, ",", "."):
        raise NoScript(f"{words.decimal_!r} is neither a comma nor a point")
    try:
        pattern_of(words.dates_)
    except Misfit as why:
        raise NoScript(why) from None


class Sheet:
    """The rows of a file, with what their columns are."""

    def __init__(self, words, rows):
        self.words, self.forms = words, Forms(words.decimal_, words.dates_)
        self.head, self.rows = rows[0], rows[1:]
        self.names = [name.strip().upper() for name in self.head.cells]
        self.begin, self.till = period_columns(self.names, words.from_, words.till_)
        self.plain = [place for place in range(len(self.names)) if place not in (self.begin, self.till)]
        self.see_to_shape()
        self.columns = self.columns_of_table() if words.store_ else None
        texts = [name.upper() for name in words.texts]
        self.kinds = ({name: column.kind for name, column in self.columns.items()} if self.columns is not None
                      else kinds_seen(self.forms, [self.names[place] for place in self.plain], self.plain, self.rows, texts))

    def see_to_shape(self):
        for place in self.plain:
            if not is_name(self.names[place]) and self.names[place] not in ("VALIDFROM", "VALIDTILL"):
                raise Fault(self.head.line, None, f"{self.names[place]!r} is no name of a column")
        for row in self.rows:
            if len(row.cells) != len(self.names):
                raise Fault(row.line, None, f"{len(row.cells)} values, and the first line has {len(self.names)} names")

    def columns_of_table(self):
        table = named_table(self.words.store_, self.words.table)
        columns = {column.name: column for column in table.columns}
        missing = next((self.names[place] for place in self.plain if self.names[place] not in columns), None)
        if missing:
            raise Fault(self.head.line, None, f"table {table.name} has no column {missing}")
        return columns

    def value(self, row, place):
        """What a cell says, as a statement has it."""
        name, cell = self.names[place], row.cells[place]
        try:
            value = self.forms.read(cell, self.kinds[name])
            column = self.columns.get(name) if self.columns is not None else None
            if column is not None and isinstance(value, str) and len(value.encode()) > column.size:
                raise Misfit(f"{cell!r} has {len(value.encode())} bytes, and the column takes {column.size}")
            if column is not None and value is None and column.is_needed:
                raise Misfit("nothing stands there, and the column is NOT NULL")
            return constant(value)
        except Misfit as why:
            raise Fault(row.line, name, why) from None

    def end(self, row, place):
        try:
            return constant(self.forms.read(row.cells[place], TIME)) if place is not None else "NULL"
        except Misfit as why:
            raise Fault(row.line, self.names[place], why) from None

    def period(self, row):
        if self.begin is None:
            return []
        begin, till = self.end(row, self.begin), self.end(row, self.till)
        if begin == "NULL":
            raise Fault(row.line, self.names[self.begin], "nothing stands there, and a period has a beginning")
        return [f"WM_PERIOD({begin}, {'DBMS_WM.UNTIL_CHANGED' if till == 'NULL' else till})"]

    def statements(self):
        """The INSERT lines."""
        listed = ", ".join([self.names[place] for place in self.plain] + [WM_VALID] * (self.begin is not None))
        for row in self.rows:
            values = [self.value(row, place) for place in self.plain] + self.period(row)
            line = f"{self.words.session_}: INSERT INTO {self.words.table} ({listed}) VALUES ({', '.join(values)})"
            if len(line.encode()) > LONGEST:
                raise Fault(row.line, None, f"the statement has more than {LONGEST} bytes")
            yield line


def script(words):
    """The lines of the script."""
    see_to_words(words)
    rows = rows_of(words.file.read_bytes(), words.separator_, words.encoding_)
    if not rows:
        raise BadFile("the file is empty")
    first = [f"CONNECT {words.session_} {words.user_}"] if words.user_ else []
    if words.workspace_:
        first.append(f"{words.session_}: EXECUTE DBMS_WM.GotoWorkspace({quoted(words.workspace_)})")
    return [*first, *Sheet(words, rows).statements()]


def main():
    words, tool = asked(), named("tools/insert_lines.py").removeprefix("tools/").removesuffix(".py")
    try:
        lines = script(words)
    except (NoScript, NoTable) as why:
        return f"{tool}: {why}"
    except OSError as error:
        return f"{tool}: {error.filename}: {error.strerror}"
    except (Fault, BadFile) as why:
        return f"{tool}: {words.file}: {why}"
    print("\n".join(lines))
    return 0


if __name__ == "__main__":
    # Who reads only the beginning of what is written ends this quietly. A script is in UTF-8, whatever the locale is.
    signal.signal(signal.SIGPIPE, signal.SIG_DFL)
    sys.stdout.reconfigure(encoding="utf-8")
    sys.exit(main())
