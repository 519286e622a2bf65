"""The words of random lines: names, values, expressions and conditions, of which some miss narrowly."""
from choices import BAD_LITERALS, ENDS, MARKS, VALUES, WIDE_NUMBERS, WIDE_TEXTS
from lists import rows_by_key
from parser import Parser
from scopes import View
from tokens import OPERATORS
from trees import Column
from values import END, Instant, printed


class Words:
    """The part of the writer that makes words."""

    def table_name(self):
        ready = [name for name, table in self.reference.tables.items() if table.is_versioned]
        if not ready or self.is_bad():
            return self.one([*self.reference.tables, "NOPE", "BUD_CONF", "BUD_HISTX", "WM_MEETS"])
        return self.one(ready)

    def source_name(self):
        """A table, or now and then one of its views; least a history that is not kept."""
        name = self.table_name()
        if not self.chance(0.2):
            return name
        table = self.reference.tables.get(name)
        has_history = table is not None and table.has_history
        return name + self.weighted({"_CONF": 4, "_HIST": 6 if has_history else 0.5, "_LOCK": 3, "_DIFF": 4, "_CONF_HIST": self.noise})

    def columns_of(self, name):
        table = self.reference.tables.get(name)
        return table.columns if table else [Column(0, "ID"), Column(0, "AMT")]

    def shown_of(self, name):
        """The columns that a condition may name."""
        source = self.reference.source(name)
        return source.shown_columns() if source else self.columns_of(name)

    def kind(self):
        return self.weighted({"number": 5, "text": 3, "time": 2})

    def value(self, kind):
        """A constant of the kind."""
        if self.is_bad():
            choice = self.random.randrange(8)
            if choice == 0:
                return self.one(BAD_LITERALS)
            if choice == 1:
                return self.period()
            if choice < 4:
                return "NULL"
            kind = self.kind()
        if self.chance(0.07):
            return self.one(["NULL", "NULL", "''"])
        if self.chance(0.04) and kind != "time":
            return self.one(WIDE_NUMBERS if kind == "number" else WIDE_TEXTS)
        return self.one(VALUES[kind])

    def instant_of(self, end):
        return Parser(end.encode(), self.reference.moment).end_of_period().value

    def period(self):
        """A period, most likely with moments in it, and often a short one, so that a key has several rows."""
        place = self.random.randrange(len(ENDS) - 1)
        start, till = self.random.sample(ENDS, 2) if self.chance(0.5) else ENDS[place:place + 2]
        if not self.is_bad(0.02) and self.instant_of(start) >= self.instant_of(till):
            start, till = till, start
        if self.instant_of(start) == self.instant_of(till) and not self.is_bad(0.1):
            return self.period()
        return f"{self.one(['', '', 'WMSYS . '])}WM_PERIOD ( {start} , {till} )"

    def per(self, names):
        """An operand of an operator on periods."""
        columns = names("period")
        return self.one(columns) if columns and self.chance(0.6) else self.period()

    def question(self, names):
        """An operator on periods."""
        return f"{self.one(sorted(OPERATORS))} ( {self.per(names)} , {self.per(names)} )"

    def expression(self, kind, names, depth=3):
        """An expression of the kind; 'names' gives the columns of a kind."""
        if self.is_bad():
            kind = self.kind()
        columns = names(kind)
        if kind == "number" and depth and self.chance(0.35):
            left, right = (self.expression(kind, names, depth - 1) for _ in range(2))
            return self.one([f"{left} + {right}", f"{left} - {right}", f"{left} * {right}", f"- {left}", f"( {left} )",
                             f"( {left} - {right} ) * {right}"])
        if depth and self.chance(0.04):
            return self.one(["( {} )", "( {} )", "- {}", "1 + {}"] if self.noise else ["( {} )"]).format(self.expression(kind, names, depth - 1))
        if kind == "number" and names("period") and self.chance(0.15):
            return self.question(names)
        return self.one(columns) if columns and self.chance(0.6) else self.value(kind)

    def namer(self, sources):
        """A function that gives the names of the columns of a kind that the sources, pairs of a label and columns, have."""
        def names(kind):
            if self.is_bad() and kind != "period":
                label = sources[0][0]
                return [self.one(["NOPE", "Z . ID", f"{label} . NOPE", "WM_VALID", "ID", "Z . NOPE", f"{label} . WM_VALID . VALIDFROM"])]
            found = []
            for label, columns in sources:
                for column in columns:
                    ends = [" . VALIDFROM", " . VALIDTILL"] if column.kind == "period" and kind == "time" else [""]
                    if column.kind == kind or len(ends) > 1:
                        found += [f"{label} . {column.name}{end}" for end in ends]
                        is_one = sum(other.name == column.name for _, others in sources for other in others) == 1
                        if is_one or self.noise and self.chance(0.1):
                            found += [column.name + end for end in ends]
            return found
        return names

    def operand(self, kind, names):
        columns = names(kind)
        if self.is_bad() and self.chance(0.1):
            return f"WM_OVERLAPS ( WM_VALID , {self.period()} )"
        return self.one(columns) if columns and self.chance(0.7) else self.value(kind)

    def test(self, names):
        if names("period") and self.chance(0.25):
            return f"{self.question(names)} {self.one(['=', '=', '=', '<>', '>='])} {self.one('110')}"
        marks = [name for kind in ("text", "time") for name in names(kind) if name.split(" . ")[-1] in MARKS]
        if marks and self.chance(0.4):
            mark = self.one(marks)
            return f"{mark} {self.one(['=', '=', '<>', '<', '>='])} {self.one(MARKS[mark.split(' . ')[-1]])}"
        kind = self.kind()
        if not names(kind) and self.chance(0.8):
            kind = "number"
        left, right = self.operand(kind, names), self.operand(self.kind() if self.is_bad() else kind, names)
        columns = names(kind)
        if self.chance(0.3) and len(columns) > 1:
            left, right = self.random.sample(columns, 2)
        negation = self.one(["", "", "NOT "])
        return self.weighted({
            f"{left} {self.one(['=', '=', '<>', '!=', '<', '<=', '>', '>='])} {right}": 6, f"{left} IS {negation}NULL": 1,
            f"{left} {negation}BETWEEN {right} AND {self.operand(kind, names)}": 1,
            f"{left} {negation}IN ( {self.listed(self.value(kind) for _ in range(self.random.randrange(1, 4)))} )": 2})

    def condition(self, names, depth=2):
        if depth and self.chance(0.45):
            left, right = (self.condition(names, depth - 1) for _ in range(2))
            return self.one([f"{left} AND {right}", f"{left} OR {right}", f"NOT {left}", f"( {left} )", f"NOT ( {left} OR {right} )",
                             f"( {left} OR {right} ) AND {left}"])
        return self.test(names)

    def where(self, names):
        return f" WHERE {self.condition(names)}" if self.chance(0.6) else ""

    def table_of(self, name):
        """The table of a name, also of that of a view."""
        source = self.reference.source(name)
        return source.table if isinstance(source, View) else source

    def is_key(self, name, column):
        table = self.table_of(name)
        return table is not None and table.key is not None and table.columns[table.key] is column

    def new_key(self, name, kind):
        """A constant that is most likely no key of a row that is there, or now and then one that is locked."""
        table = self.table_of(name)
        locked = [lock.key for workspace in self.reference.workspaces.values() for lock in workspace.locks if lock.table == table.name]
        if locked and self.chance(0.2):
            key = self.one(locked)
            return self.time(key) if kind == "time" else printed(key).decode()
        used = {key for workspace in self.reference.workspaces.values() for key in rows_by_key(workspace.content, table.name)}
        most = 13
        if table.has_periods or table.name != name:
            used, most = set(), self.one([3, 3, 5])
        for _ in range(10):
            number = self.random.randrange(1, most)
            text = {"number": str(number), "text": f"'{chr(96 + number)}'", "time": f"DATE '2020-01-{number:02}'"}[kind]
            if kind == "text" and self.chance(0.05):
                text = self.one(WIDE_TEXTS)
            if Parser(text.encode(), Instant(0)).constant().value not in used or self.chance(0.1):
                break
        return text

    def time(self, when):
        return "DBMS_WM . UNTIL_CHANGED" if when == END else f"TIMESTAMP '{printed(when).decode().replace(' ', 'T')}'"

    def where_key(self, name, names, likely):
        """A condition that most likely asks for one key, and for more or not."""
        key = [column for column in self.shown_of(name) if self.is_key(name, column)]
        if not key or not self.chance(likely):
            return self.where(names)
        test = f"{key[0].name} = {self.new_key(name, key[0].kind) if self.chance(0.5) else self.value(key[0].kind)}"
        return f" WHERE {self.one([test, test, f'{test} AND {self.test(names)}', f'{self.test(names)} AND {test}'])}"

    def rows_in(self, name):
        source = self.reference.source(name)
        if isinstance(source, View):
            lists = [one for its in self.reference.workspaces.values() for one in (its.log, its.locks)]
            return sum(sum(one.table == source.table.name for one in entries) for entries in lists)
        return max(sum(map(len, rows_by_key(workspace.content, name).values())) for workspace in self.reference.workspaces.values())
