"""How a sheet and a table differ, and the statements that make the table what the sheet says."""
from typing import NamedTuple, Optional

from books import value_in
from cells.columns import WM_VALID, Fault, period_columns
from cells.forms import TEXT, TIME, Misfit, constant
from storefile.values import ALWAYS, UNTIL_CHANGED, Instant, Period, in_order, printed


class Line(NamedTuple):
    """A statement, and the line of the sheet that wants it, None where the sheet has none."""
    statement: str
    place: Optional[int]


class Wanted(NamedTuple):
    """A row of the sheet: its line, and its values by their columns."""
    place: int
    values: dict


class Wish:
    """What a sheet says of a table's rows, each found by its key and the period for which it holds."""

    def __init__(self, table, forms, rows):
        if not rows:
            raise Fault(1, None, "the sheet is empty")
        self.table, self.forms = table, forms
        self.columns = {column.name: column for column in table.columns}
        self.key = table.columns[table.key_columns[0]].name
        self.head, self.names = rows[0], [str(name).strip().upper() for name in rows[0].cells]
        self.begin, self.till = period_columns(self.names) if table.is_valid else (None, None)
        self.see_to_names()
        self.rows, self.held = {}, {}
        for row in rows[1:]:
            self.take(row)

    def see_to_names(self):
        plain = [name for place, name in enumerate(self.names) if place not in (self.begin, self.till)]
        for place, name in enumerate(plain):
            if name not in self.columns:
                raise Fault(self.head.line, None, f"table {self.table.name} has no column {name!r}")
            if name in plain[:place]:
                raise Fault(self.head.line, None, f"column {name} stands there twice")
        missing = [self.key] * (self.key not in plain) + [f"{WM_VALID}.VALIDFROM"] * (self.table.is_valid and self.begin is None)
        if missing:
            raise Fault(self.head.line, None, f"there is no column {missing[0]}, by which rows are found")

    def value(self, row, place):
        """What a cell says, where that fits its column."""
        name, cell = self.names[place], row.cells[place]
        column = None if place in (self.begin, self.till) else self.columns[name]
        try:
            value = value_in(self.forms, cell, column.kind if column else TIME, name)
            if column is not None and column.kind == TEXT and value is not None and len(value.encode()) > column.size:
                raise Misfit(f"{cell!r} has {len(value.encode())} bytes, and the column takes {column.size}")
            if value is None and place != self.till and (column is None or column.is_needed or name == self.key):
                raise Misfit("nothing stands there, and something is needed")
            return value
        except Misfit as why:
            raise Fault(row.line, name, why) from None

    def take(self, row):
        """Takes a row of the sheet. No two of one key share a moment."""
        if len(row.cells) != len(self.names):
            raise Fault(row.line, None, f"{len(row.cells)} values, and the first line has {len(self.names)} names")
        found = [self.value(row, place) for place in range(len(self.names))]
        values = {name: value for place, (name, value) in enumerate(zip(self.names, found)) if place not in (self.begin, self.till)}
        period, key = self.period(found), values[self.key]
        if period.begin >= period.till:
            raise Fault(row.line, self.names[self.begin], "the period does not begin before it ends")
        for other, place in self.held.setdefault(key, []):
            if other.overlap(period):
                at_once = ", for some of the time," if self.table.is_valid else ""
                raise Fault(row.line, self.key, f"{printed(key)} stands{at_once} on line {place} too")
        self.held[key].append((period, row.line))
        self.rows[key, period] = Wanted(row.line, values)

    def period(self, found):
        if not self.table.is_valid:
            return ALWAYS
        till = found[self.till] if self.till is not None else None
        return Period(found[self.begin], Instant(UNTIL_CHANGED) if till is None else till)


class Changes:
    """The deletions, updates and insertions that lead from the rows of a table to those of a sheet, in this order."""

    def __init__(self, table, wish, rows, is_kept):
        self.table, self.key, self.period = table, wish.key, None
        names = [column.name for column in table.columns]
        there = {(row[names.index(wish.key)], row[-1] if table.is_valid else ALWAYS): dict(zip(names, row)) for row in rows}
        self.deletes = [] if is_kept else [(cell, values) for cell, values in there.items() if cell not in wish.rows]
        self.updates = [(cell, wanted, there[cell]) for cell, wanted in wish.rows.items()
                        if cell in there and any(there[cell][name] != value for name, value in wanted.values.items())]
        self.inserts = [(cell, wanted) for cell, wanted in wish.rows.items() if cell not in there]
        self.deletes.sort(key=lambda item: (in_order(item[0][0]), item[0][1]))

    def told(self):
        return f"{len(self.updates)} UPDATE, {len(self.inserts)} INSERT, {len(self.deletes)} DELETE"

    def name(self, cell):
        key, period = cell
        return f"{self.table.name} {printed(key)}" + (f" {period}" if self.table.is_valid else "")

    def shown(self):
        """A line for each change, with the line of the sheet before it."""
        for cell, values in self.deletes:
            yield f"          DELETE {self.name(cell)}: {'|'.join(map(printed, values.values()))}"
        for cell, wanted, before in self.updates:
            told = ", ".join(f"{name} {printed(before[name])} -> {printed(value)}" for name, value in changed(wanted, before))
            yield f"{f'line {wanted.place}':<9} UPDATE {self.name(cell)}: {told}"
        for cell, wanted in self.inserts:
            yield f"{f'line {wanted.place}':<9} INSERT {self.name(cell)}: {'|'.join(map(printed, wanted.values.values()))}"

    def lines(self):
        """The statements. Before each change of a row with a period the session speaks of that period alone."""
        found = []
        for cell, _ in self.deletes:
            found += [*self.speaks_of(cell, None), Line(f"DELETE FROM {self.table.name} {self.where(cell)}", None)]
        for cell, wanted, before in self.updates:
            values = ", ".join(f"{name} = {constant(value)}" for name, value in changed(wanted, before))
            found += [*self.speaks_of(cell, wanted.place), Line(f"UPDATE {self.table.name} SET {values} {self.where(cell)}", wanted.place)]
        return found + [Line(self.insert(cell, wanted.values), wanted.place) for cell, wanted in self.inserts]

    def speaks_of(self, cell, place):
        if not self.table.is_valid or cell[1] == self.period:
            return []
        self.period = cell[1]
        return [Line(f"EXECUTE DBMS_WM.SetValidTime({', '.join(map(constant, cell[1]))})", place)]

    def where(self, cell):
        return f"WHERE {self.key} = {constant(cell[0])}"

    def insert(self, cell, values):
        names, constants = list(values), list(map(constant, values.values()))
        if self.table.is_valid:
            names.append(WM_VALID)
            constants.append(f"WM_PERIOD({', '.join(map(constant, cell[1]))})")
        return f"INSERT INTO {self.table.name} ({', '.join(names)}) VALUES ({', '.join(constants)})"


def changed(wanted, before):
    """The columns that the sheet has otherwise, with what it has."""
    return [(name, value) for name, value in wanted.values.items() if before[name] != value]
