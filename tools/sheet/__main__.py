#!/usr/bin/env python3
"""python3 tools/sheet pull STORE TABLE|'SELECT ..' [FILE] [OPTION ..], or push STORE TABLE FILE [OPTION ..]

'pull' gives a table, or what a query answers, as a sheet: to FILE, or as CSV to standard output. The first line has the
names of the columns. Of a table with valid time it gives the rows of all of time. The views of a table are pulled too.

'push' compares a sheet with the table as it stands in the workspace, and shows how the two differ and each change. Then
it makes a savepoint and plays the changes through the program, as lines of a script. Before that it tries them on a
copy of the store. The first value that does not fit its column is told with line and column, and the first change that
would be refused with its line; then nothing is played. A row that the sheet does not have is deleted, so a sheet of
some rows wants --keep; a column that it does not have stays as it is. Rows are found by their key and, with valid time,
by the period for which they hold.

    --user U        whom the session is opened for; without it, who is logged in
    --workspace W   where the session goes first (LIVE)
    --now T         when the run begins, in UTC, as of tools/play. Without it, by the clock
    --look          push: shows the changes, and plays none
    --keep          push: rows that the sheet does not have stay
    --separator C   what stands between values. Without it a comma, and a semicolon where the comma is before decimals;
                    in a sheet that is read, what is seen in its first line
    --decimal C     the sign before decimals, a comma or a point; other signs may then stand between thousands
    --places C=N    column C has N decimals in the sheet, and in the table the whole number of the last of them (cents
                    of an amount for 2). It may be said of several columns
    --dates FORM    how days are written, as DD.MM.YYYY. 2024-10-31 is always read
    --encoding E    how letters are spelled, as cp1252. Without it a file is written as UTF-8 with a mark at its
                    beginning; one that is read is in UTF-8, and what is not UTF-8 is read as cp1252
    --program WM    the program, as of tools/play
    --version       says of which day this tool is

FILE may be one of XLSX, by its name, where Python's openpyxl is installed. The status is 0 where the sheet is written,
or the workspace holds what the sheet says; 1 where something of it is wrong; 2 where nothing could be asked; and else
the program's own. Where some of the changes were played and not all, as behind a full disk, that is told too.
"""
import argparse
import getpass
import os
import sys
from datetime import datetime, timezone
from pathlib import Path

TOOLS = Path(__file__).resolve().parents[1]
sys.path[1:1] = [str(TOOLS), str(TOOLS / "play")]

from called import named, see_to_python, tell_of_itself

see_to_python()

from alone import InUse
from asking import Asked, NoAnswer, Refused
from books import NoBook, read_book, written
from cells.columns import Fault, NoTable, is_name, named_table
from cells.files import BadFile
from cells.forms import MOMENT, TIME, Forms, Misfit, pattern_of, quoted
from changes import Changes, Wish
from program import NoProgram, found_program

SESSION = "SHEET"
# What a table's views end in, which no table does.
VIEWS = ("_CONF", "_DIFF", "_HIST", "_LOCK")


class Wrong(Exception):
    """Why nothing is asked with these words."""


def asked():
    tell_of_itself("sheet", __doc__)
    parser = argparse.ArgumentParser(prog=named("tools/sheet"), usage=named(__doc__.split("\n")[0]), add_help=False)
    parser.add_argument("what", choices=["pull", "push"])
    parser.add_argument("store", type=Path)
    parser.add_argument("table")
    parser.add_argument("file", type=Path, nargs="?")
    for name in ("user", "workspace", "now", "separator", "decimal", "encoding", "program"):
        parser.add_argument(f"--{name}")
    parser.add_argument("--dates", default="YYYY-MM-DD")
    parser.add_argument("--places", action="append", default=[])
    for name in ("look", "keep"):
        parser.add_argument(f"--{name}", action="store_true")
    if len(sys.argv) == 1:
        print(named(__doc__.strip()))
        sys.exit(2)
    return parser.parse_intermixed_args()


def places(texts):
    found = {}
    for text in texts:
        column, _, count = text.partition("=")
        if not is_name(column) or not count.isdecimal() or int(count) > 18:
            raise Wrong(f"--places is a column and how many decimals it has, as EUROS=2, and not {text!r}")
        found[column.upper()] = int(count)
    return found


def forms_of(words):
    """How the sheet has its values."""
    if words.decimal not in (None, ",", "."):
        raise Wrong(f"--decimal is a comma or a point, and not {words.decimal!r}")
    if words.separator is not None and len(words.separator) != 1 or words.separator is not None and words.separator == words.decimal:
        raise Wrong(f"--separator is one character, and not the one before decimals: {words.separator!r}")
    try:
        pattern_of(words.dates)
    except Misfit as why:
        raise Wrong(f"--dates: {why}") from None
    return Forms(words.decimal, words.dates, places(words.places))


def see_to_words(words):
    """Sees that the words go together, and fills in those that were left out."""
    if words.what == "push" and words.file is None:
        raise Wrong("push wants a sheet: push STORE TABLE FILE")
    if words.what == "push" and not is_name(words.table):
        raise Wrong(f"{words.table!r} is no name of a table")
    words.user = words.user or getpass.getuser()
    if not is_name(words.user):
        raise Wrong(f"{words.user!r} is no name of a user: --user names another")
    if words.now is not None and not (MOMENT.fullmatch(words.now) and Forms().fits(words.now, TIME)):
        raise Wrong("--now is a day, '2024-06-01', or a day and a time, '2024-06-01 17:30:00'")
    words.now = words.now or datetime.now(timezone.utc).strftime("%Y-%m-%d %H:%M:%S")
    words.separator_out = words.separator or (";" if words.decimal == "," else ",")


def pull(words, forms):
    with Asked(found_program(words.program), words.store, words.now, SESSION) as run:
        run.stand(words.user, words.workspace)
        if not is_name(words.table):
            names, rows = run.query(words.table)
        elif words.table.upper().endswith(VIEWS):
            names, rows = run.query(f"SELECT * FROM {words.table}")
        else:
            names, rows = run.table(named_table(words.store, words.table))
    return written(words, forms, names, rows)


def push(words, forms):
    table = named_table(words.store, words.table)
    if not table.key_columns:
        raise NoTable(f"table {table.name} has no key, by which rows are found")
    wish = Wish(table, forms, read_book(words))
    with Asked(found_program(words.program), words.store, words.now, SESSION) as run:
        run.stand(words.user, words.workspace)
        changes = Changes(table, wish, run.table(table)[1], words.keep)
        print(changes.told(), *changes.shown(), sep="\n")
        lines = changes.lines()
        if words.look or not lines:
            return 0
        run.tries(words.user, words.workspace, lines)
        place = words.workspace or "LIVE"
        back = f"RollbackToSP({quoted(place)}, {quoted(run.savepoint(place))})"
        try:
            run.plays(lines)
        except BaseException:
            print(f"Not all of it was played: {back} takes back what was.", file=sys.stderr)
            raise
    print(f"All of it was played; {back} takes it back.")
    return 0


def main():
    words = asked()
    try:
        see_to_words(words)
        return (pull if words.what == "pull" else push)(words, forms_of(words))
    except (Wrong, NoProgram, NoBook, NoTable) as why:
        status, told = 2, str(why)
    except InUse:
        status, told = 2, f"another run has {words.store} open"
    except OSError as error:
        status, told = 2, f"{error.filename}: {error.strerror}"
    except (Fault, BadFile) as why:
        status, told = 1, f"{words.file}: {why}"
    except Refused as why:
        status, told = 1, str(why)
    except NoAnswer as why:
        status, told = why.status or 1, str(why)
    print(f"{named('tools/sheet').removeprefix('tools/')}: {told}", file=sys.stderr)
    return status


if __name__ == "__main__":
    # Where the locale has no letter for something, a question mark stands for it.
    sys.stdout.reconfigure(errors="replace")
    try:
        sys.exit(main())
    except (BrokenPipeError, KeyboardInterrupt):
        # Nobody reads any more, or the user has had enough. The program ends with its input, behind an answered line.
        os.dup2(os.open(os.devnull, os.O_WRONLY), sys.stdout.fileno())
        sys.exit(1)
