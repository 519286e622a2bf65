"""A run of the program that is asked for rows and given lines. From its first answer to its end no other run has the store."""
import re
import shutil
import tempfile
from datetime import datetime
from pathlib import Path

from alone import InUse, hold
from catalog import Catalog
from cells.columns import WM_VALID, Fault, NoTable
from cells.forms import quoted
from columns import SELECT, names_of_columns
from lines import is_refusal, readable
from program import Ended, Program
from rows import values
from storefile.pages import MADE
from storefile.store import opened
from storefile.use import has_a_run
from storefile.values import BEGINNING, UNTIL_CHANGED, Instant, Period

ALL_OF_TIME = "EXECUTE DBMS_WM.SetValidTime(DATE '0001-01-01')"
NUMBER, PERIOD = re.compile(r"-?\d+", re.ASCII), re.compile(r"\[(.*), (.*)\)")
POINT = "sheet-"


class Refused(Exception):
    """The program refused a line."""


class NoAnswer(Exception):
    """The program ended before it had answered a line."""

    def __init__(self, status, complaint):
        super().__init__(complaint or f"wm: ended with status {status}")
        self.status = status


def instant(text):
    if text == "UNTIL_CHANGED":
        return Instant(UNTIL_CHANGED)
    return Instant((datetime.fromisoformat(text) - BEGINNING).total_seconds())


def value_of(text):
    """What a value of an answer is."""
    if text == "NULL":
        return None
    if text.startswith("'"):
        return text[1:-1].replace("''", "'")
    period = PERIOD.fullmatch(text)
    if period:
        return Period(*map(instant, period.groups()))
    return int(text) if NUMBER.fullmatch(text) else instant(text)


class Asked:
    """A run over a store, by one session."""

    def __init__(self, program, store, now, session):
        self.program, self.store, self.now, self.session = program, store, now, session
        self.held, self.run = None, None

    def __enter__(self):
        with self.store.open("rb") as file:
            if file.read(1) != bytes([MADE]):
                raise NoTable(f"{self.store} is no store")
            if has_a_run(file):
                raise InUse
        self.held = hold(self.store)
        self.run = Program(self.program, self.store, self.now)
        return self

    def __exit__(self, kind, *_):
        status, complaint = self.run.end()
        self.held.close()
        if kind is None and status:
            raise NoAnswer(status, complaint)

    def answer(self, line):
        """The lines that answer a line of the session, or one without any."""
        try:
            answer = self.run.answer(line.encode())
        except Ended:
            raise NoAnswer(*self.run.end()) from None
        if is_refusal(answer):
            raise Refused(f"{line}\n  {readable(answer[-1])}")
        return [readable(text) for text in answer]

    def say(self, statement):
        return self.answer(f"{self.session}: {statement}")

    def stand(self, user, workspace):
        """Opens the session, and leads it to the workspace."""
        self.answer(f"CONNECT {self.session} {user}")
        if workspace is not None:
            self.say(f"EXECUTE DBMS_WM.GotoWorkspace({quoted(workspace)})")

    def query(self, text):
        """The names and the rows that a query answers."""
        line = f"{self.session}: {text}"
        if not SELECT.match(line) or "\n" in text:
            raise Refused(f"{text!r} is neither the name of a table nor a SELECT on one line")
        rows = [list(map(value_of, values(row))) for row in self.answer(line)[:-1]]
        return names_of_columns(line, Catalog(self.store).columns()), rows

    def table(self, table):
        """The names and the rows of a table, of all of time where it has valid time."""
        if table.is_valid:
            self.say(ALL_OF_TIME)
        _, rows = self.query(f"SELECT * FROM {table.name}")
        return [column.name for column in table.columns] + [WM_VALID] * table.is_valid, rows

    def tries(self, user, workspace, lines):
        """Plays the lines over a copy of the store, and tells the first one that is refused."""
        with tempfile.TemporaryDirectory() as folder:
            copy = Path(folder) / "copy.store"
            shutil.copyfile(self.store, copy)
            with Asked(self.program, copy, self.now, self.session) as trial:
                trial.stand(user, workspace)
                for line in lines:
                    try:
                        trial.say(line.statement)
                    except Refused as why:
                        if line.place is None:
                            raise
                        raise Fault(line.place, None, f"the line would be refused: {why}") from None

    def savepoint(self, workspace):
        """Makes a savepoint in the workspace. Its name is the first that is free."""
        store = opened(self.store)
        space = next(space for space in store.spaces.values() if space.name == workspace)
        there = {point.name for point in store.savepoints_of(space)}
        name = next(f"{POINT}{number}" for number in range(1, len(there) + 2) if f"{POINT}{number}" not in there)
        self.say(f"EXECUTE DBMS_WM.CreateSavepoint({quoted(workspace)}, {quoted(name)})")
        return name

    def plays(self, lines):
        for line in lines:
            self.say(line.statement)
