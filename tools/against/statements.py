"""Random lines that are no calls."""
from choices import (
    COLUMNS, CONFLICTS, DIFFERENCES, ENDS, HISTORIES, KINDS, LABELS, LOCKS, LONG_NAME, LONGEST_NAME, PERIODS, TABLES,
)
from lists import rows_by_key
from trees import Column
from values import ALWAYS, END, Instant, printed


class Statements:
    """The part of the writer that makes statements, and lines on sessions and the moment."""

    def create(self):
        name = self.one([name for name in TABLES if name not in self.reference.tables] or TABLES)
        if self.is_bad(0.02):
            name = self.one([LONG_NAME, LONGEST_NAME, "X_CONF", "X_LOCK", LONG_NAME[:26] + "_HIST", *self.reference.tables, "A_DIFF"])
        names = self.random.sample(COLUMNS, self.random.randrange(1, 6))
        if "ID" not in names and self.chance(0.8):
            names.insert(0, "ID")
        if self.is_bad(0.02):
            names.insert(self.random.randrange(len(names) + 1), self.one([names[0], "WM_X", LONG_NAME, LONGEST_NAME, "WM_MEETS"]))
        if self.is_bad(0.02) and self.chance(0.2):
            names += [f"C{number}" for number in range(self.one([26, 27, 28, 29, 30, 31, 32]))]
        key = None if self.chance(0.05) else self.random.randrange(len(names)) if self.chance(0.3) else 0
        is_inline = self.chance(0.7)
        items = []
        for place, column in enumerate(names):
            words = self.one(KINDS[self.kind()])
            if self.is_bad(0.02):
                words = self.one(["VARCHAR2 ( 0 )", "VARCHAR2 ( 2001 )", "VARCHAR2", "NUMBER ( 5 , 1 )", "NUMBER ( 5 , 00 )", "NUMBER ( )",
                                  "NUMBER ( 9223372036854775808 )", "TEXT", "VARCHAR2 ( 99999999999999999999 )", "NUMBER ( 5 , 0 , 0 )"])
            words += " PRIMARY KEY" * (is_inline and place == key) + " NOT NULL" * self.chance(0.15)
            if self.is_bad(0.02):
                words += self.one([" NOT NULL", " PRIMARY KEY", " NULL", " NOT NULL PRIMARY KEY"])
            items.append(f"{column} {words}")
        if key is not None and not is_inline or self.is_bad(0.02):
            keys = [names[key or 0]] + [self.one([names[-1], "NOPE", names[0]]) for _ in range(self.is_bad(0.02))]
            items.insert(self.random.randrange(len(items) + 1) if self.chance(0.3) else len(items),
                         f"{self.one(['', 'CONSTRAINT PK '])}PRIMARY KEY ( {self.listed(keys)} )")
        return self.said(f"CREATE TABLE {name} ( {self.listed(items)} )")

    def insert(self, name=None):
        name = name or self.table_name()
        columns, listed = list(self.columns_of(name)), ""
        names = self.namer([(name, self.shown_of(name))])
        table = self.reference.tables.get(name)
        has_period = table is not None and table.has_periods and self.chance(0.7)
        if self.chance(0.25):
            columns = [column for column in columns if column.name == "ID" or column.not_null or self.chance(0.7)] or columns
            columns += [Column(0, "WM_VALID", "period")] * has_period
            has_period = False
            self.random.shuffle(columns)
            written = [column.name for column in columns]
            if self.is_bad():
                written[self.random.randrange(len(written))] = self.one(["NOPE", written[0], "WM_VALID", "ID"])
            listed = f" ( {self.listed(written)} )"
        values = [self.period() if column.kind == "period" else self.new_key(name, column.kind) if self.is_key(name, column) and self.chance(0.8) else
                  self.expression(column.kind, names if self.is_bad() else lambda kind: [], 1) for column in columns]
        values += [self.period()] * has_period
        if self.is_bad():
            values = values[:-1] or ["1", "2"] if self.chance(0.5) else values + ["1"]
        return self.said(f"INSERT INTO {name}{listed} VALUES ( {self.listed(values)} )")

    def update(self):
        name = max([self.table_name(), self.table_name()], key=lambda name: len(self.columns_of(name)) > 1)
        columns, table = self.columns_of(name), self.reference.tables.get(name)
        names = self.namer([(name, self.shown_of(name))])
        free = [column for place, column in enumerate(columns) if table is None or place != table.key or self.is_bad()] or columns
        chosen = self.random.sample(free, self.random.randrange(1, min(3, len(free)) + 1))
        if self.is_bad():
            chosen.append(self.one(chosen))
        settings = [f"{self.one(['NOPE', 'WM_VALID', 'ID']) if self.is_bad() else column.name} = {self.expression(column.kind, names)}"
                    for column in chosen]
        return self.said(f"UPDATE {name} SET {self.listed(settings)}{self.where_key(name, names, 0.3)}")

    def move(self):
        """An UPDATE that sets WM_VALID, most likely of a row that is there, to a period near those of its key."""
        ready = [name for name, table in self.reference.tables.items() if table.has_periods]
        if not ready and self.chance(0.9):
            return self.update()
        name, session = self.one(ready) if ready and not self.is_bad() else self.table_name(), self.session()
        names, table = self.namer([(name, self.shown_of(name))]), self.reference.tables.get(name)
        key, mine, periods = self.one_row(name, session)
        free = [column for place, column in enumerate(self.columns_of(name)) if table is None or place != table.key or self.is_bad()]
        chosen = self.random.sample(free, min(len(free), self.one([0, 0, 0, 1, 2])))
        settings = [f"{column.name} = {self.expression(column.kind, names)}" for column in chosen]
        moved = self.weighted({self.near(mine, periods): 4 + 4 * len(periods), "WM_VALID": 2 * len(periods), f"{name} . WM_VALID": 1, self.period(): 1})
        if self.is_bad():
            moved = self.one(["NULL", "''", "WM_VALID . VALIDFROM", self.value("number"), self.question(names), "WM_PERIOD ( SYSDATE , SYSDATE )"])
        settings.insert(self.random.randrange(len(settings) + 1), f"WM_VALID = {moved}")
        if self.is_bad():
            settings.append(self.one(settings))
        return self.said(f"UPDATE {name} SET {self.listed(settings)}{self.where_moved(name, names, key, mine, periods)}", session)

    def one_row(self, name, session):
        """A key, the period of one of its rows and those of all its rows, most likely of several and a row that the session is shown."""
        table, session = self.reference.tables.get(name), self.reference.sessions.get(session)
        rows = rows_by_key(self.reference.content(session, table), name) if session and table and table.has_periods else None
        if not rows:
            return None, ALWAYS, [ALWAYS]
        window = self.reference.window(session, table) if self.chance(0.8) else ALWAYS
        shown = [(key, period) for key in rows for period, _ in rows[key] if period.overlaps(window)]
        key, mine = max((self.one(shown or [(key, rows[key][0][0]) for key in rows]) for _ in range(3)), key=lambda row: len(rows[row[0]]))
        return key, mine, [period for period, _ in rows[key]]

    def where_moved(self, name, names, key, mine, periods):
        """A condition that most likely is true of one row of a key, or of some rows of it."""
        if key is None or self.chance(0.15):
            return self.where(names)
        first = f"WM_VALID . VALIDFROM = {self.time(mine.start)}"
        some = f"WM_OVERLAPS ( WM_VALID , {self.near(mine, periods)} ) = 1"
        column = self.key_of(name)
        of_key = f"{column.name} = {self.time(key) if column.kind == 'time' else printed(key).decode()}"
        return " WHERE " + self.weighted({f"{of_key} AND {first}": 6, of_key: 4 * len(periods), first: 1, some: 2, f"{of_key} AND {some}": 3,
                                          f"{some} AND NOT {of_key}": 1})

    def near(self, mine, periods):
        """A period that lies within, over, across, beside or apart from one of a key's periods, and so from the others."""
        inner = [Instant(at) for at in (mine.start + 1, (mine.start + mine.till) // 2, mine.till - 1) if mine.start < at < mine.till]
        ends = [*mine, *inner, *(end for period in periods for end in period), *(self.instant_of(self.one(ENDS)) for _ in range(2))]
        start, till = sorted(self.random.sample(ends, 2))
        return f"WM_PERIOD ( {self.time(start)} , {self.time(till)} )" if start < till else self.near(mine, periods)

    def delete(self):
        name = self.table_name()
        names = self.namer([(name, self.shown_of(name))])
        return self.said(f"DELETE {self.one(['FROM ', ''])}{name}{self.where_key(name, names, 0.7)}")

    def select(self):
        count = self.weighted({1: 60, 2: 25, 3: 6, 4: 2 + 5 * bool(self.noise), 5: 3 * bool(self.noise)})
        sources, written, tuples = [], [], 1
        for _ in range(count):
            name = self.source_name()
            tuples *= self.rows_in(name)
            if sources and tuples > 1000:
                break
            label = self.one(["A", "B", "C", "D", "BUD"]) if self.chance(0.7 if count > 1 else 0.2) else name
            if label in [other for other, _ in sources] and not self.is_bad():
                label = f"S{len(sources)}"
            sources.append((label, self.shown_of(name)))
            written.append(name if label == name else f"{name} {label}")
        names = self.namer(sources)
        is_grouped = self.chance(0.3) and (len(sources) == 1 or bool(self.noise))
        groups = []
        if is_grouped and self.chance(0.75):
            groups = [self.one(names(self.one([self.kind(), self.kind(), "period"])) or ["ID"]) for _ in range(self.one([1, 1, 2]))]
        items = [self.item(names, is_grouped, groups) for _ in range(self.one([1, 1, 2, 2, 3]))]
        if self.chance(0.05 if is_grouped else 0.25):
            items = ["*"]
        text = f"SELECT {self.one(['', '', '', 'DISTINCT '])}{self.listed(items)} FROM {written[0]}"
        for one in written[1:]:
            text += f" {self.one(['JOIN', 'INNER JOIN'])} {one} ON {self.condition(names, 1)}" if self.chance(0.5) else f" , {one}"
        text += self.where_key(written[0], names, 0.15) if written[0] == sources[0][0] and len(sources) == 1 else self.where(names)
        if groups:
            text += f" GROUP BY {self.listed(groups)}"
        if self.chance(0.4):
            text += f" ORDER BY {self.listed(self.order(names, items, groups, is_grouped) for _ in range(self.one([1, 1, 2])))}"
        return self.said(text)

    def item(self, names, is_grouped, groups):
        kind = self.kind()
        if names("period") and self.chance(0.2):
            text = self.one([*names("period"), self.period(), self.question(names)])
            return f"COUNT ( {text} )" if is_grouped and text not in groups else text
        text = self.expression(kind, names, 2)
        if is_grouped and not self.is_bad():
            word = self.one(["COUNT", "MIN", "MAX", "SUM"] if kind == "number" or self.is_bad() else ["COUNT", "MIN", "MAX"])
            text = self.weighted({f"{word} ( {text} )": 4, "COUNT ( * )": 2, self.value(kind): 1, self.one(groups or ["COUNT ( * )"]): 5})
        return text + (f" AS {self.one(LABELS)}" if self.chance(0.15) else "")

    def order(self, names, items, groups, is_grouped):
        labels = [item.split(" AS ")[1] for item in items if " AS " in item]
        plain = [item.split(" AS ")[0] for item in items if item[:1].isalpha() and not set(item) & set("(+-*'")]
        by = self.one([*labels, *plain, *groups, str(self.random.randrange(1, len(items) + 1))])
        if not is_grouped and self.chance(0.3):
            by = self.one(names(self.one([self.kind(), "period"])) or ["1"])
        if self.is_bad():
            by = self.one(["0", "9", "NOPE", "Z . ID", "AMT", "ID", "P", "007", "WM_VALID", "9223372036854775808"])
        return by + self.one(["", "", " ASC", " DESC"])

    def connect(self):
        session = self.one([LONG_NAME, LONGEST_NAME, "SELECT"] if self.is_bad() else ["A", "B", "C", "D"])
        return f"CONNECT {session} {self.one([LONG_NAME, 'AT', LONGEST_NAME] if self.is_bad() else ['ANN', 'BEN', 'KIM'])}"

    def disconnect(self):
        return f"DISCONNECT {self.one(['B', 'C', 'D', 'Z'])}"

    def on_periods(self):
        """What is said of periods, also of tables that have none."""
        words = self.one(PERIODS)
        words = words.replace("@", self.source_name() if words.startswith("SELECT") else self.table_name())
        while "$" in words:
            words = words.replace("$", self.period(), 1)
        return self.said(words)

    def view(self):
        """A query of one view, most likely of a table that has one and by a session that stands where there is something to be seen."""
        tables = {name: 1 + 3 * (its.has_history and its.is_versioned) for name, its in self.reference.tables.items()}
        name = self.weighted(tables) if tables and not self.is_bad(0.02) else self.one(["NOPE", "BUD"])
        table = self.reference.tables.get(name)
        has_history = table is not None and table.has_history or self.chance(0.05)
        is_locked = any(lock.table == name for its in self.reference.workspaces.values() for lock in its.locks)
        comparing = [session for session, its in self.reference.sessions.items() if its.difference]
        lines = self.weighted({"CONFLICTS": 3, "HISTORIES": 3 * has_history, "LOCKS": 4 if is_locked else 0.5,
                               "DIFFERENCES": 5 if comparing else 0.3})
        if lines == "DIFFERENCES" and comparing and not self.is_bad(0.05):
            return self.different(name, self.one(comparing))
        lines = {"CONFLICTS": CONFLICTS, "HISTORIES": HISTORIES, "LOCKS": LOCKS, "DIFFERENCES": DIFFERENCES}[lines]
        words = self.one(lines) if self.is_bad() or self.chance(0.3) else self.one(lines[:10])
        likely = {session: 1 + 5 * bool(self.reference.workspaces[its.workspace].own) for session, its in self.reference.sessions.items()}
        return self.said(words.replace("@", name), self.weighted(likely) if likely else None)

    def different(self, name, session):
        """A query of the differences of a table, most likely of one in which the session's points differ."""
        points = self.reference.sessions[session].difference
        is_there = all(workspace in self.reference.workspaces and (point == b"LATEST" or point in self.reference.workspaces[workspace].savepoints)
                       for workspace, point in points)
        tables = [other for other, its in self.reference.tables.items() if is_there and its.is_versioned
                  and list(self.reference.differing(self.reference.sessions[session], its))]
        words = self.one(DIFFERENCES) if self.is_bad() or self.chance(0.15) else self.one(DIFFERENCES[:10])
        return self.said(words.replace("@", self.one(tables) if tables and self.chance(0.85) else name), session)

    def at(self):
        """The moment that is, a later one, or one just before it."""
        change = self.weighted({0: 2, 1: 2, 43_200: 1, 86_400: 3, 20 * 86_400: 2, -1: 1, -86_400: 1})
        moment = printed(Instant(min(max(self.reference.moment + change, 0), END - 1))).decode()
        if self.is_bad(0.05):
            return self.one(["AT SYSDATE", "AT DBMS_WM . UNTIL_CHANGED", "AT DATE '2021-02-29'", "AT NULL", f"AT {moment}", "AT DATE '0001-01-01'",
                             "AT WM_PERIOD ( SYSDATE , DBMS_WM . UNTIL_CHANGED )", f"AT DATE '{moment}'", "AT 5"])
        day, month = moment[:10], f"{moment[5:10]}-{moment[:4]}"
        return self.weighted({f"AT TIMESTAMP '{moment}'": 5, f"AT TIMESTAMP '{moment.replace(' ', 'T')}'": 1, f"AT DATE '{day}'": 2,
                              f"AT TO_DATE ( '{month}' , 'MM-DD-YYYY' )": 1, f"AT TO_DATE ( '{moment}' , 'YYYY-MM-DD HH24:MI:SS' )": 1})

    def deep(self):
        """Parentheses, NOT and minus signs, about as deep as they may stand."""
        is_condition = self.chance(0.5)
        opened = [self.one(["(", "(", "NOT"] if is_condition else ["(", "-"]) for _ in range(self.one([62, 63, 64, 65, 66]))]
        closed = [")" for word in opened if word == "("]
        if is_condition:
            words = ["DELETE", "FROM", self.table_name(), "WHERE", *opened, "1", "=", self.one(["0", "- 1", "( 1 )"]), *closed]
        else:
            words = ["SELECT", *opened, self.one(["1", "1", "- 1", "( 1 )"]), *closed, "FROM", self.table_name()]
        return self.said(" ".join(words))

    def long(self):
        """A line of many like parts, up to about as long as a line may be."""
        name = self.table_name()
        names, size = self.namer([(name, self.columns_of(name))]), self.one([300, 3000, 15_000])
        number = self.one([column.name for column in self.columns_of(name) if column.kind == "number"] or ["AMT"])
        front, part, between = self.one([
            (f"SELECT COUNT ( * ) FROM {name} WHERE", self.test(names), self.one([" OR ", " AND ", " OR NOT "])),
            (f"SELECT 1 FROM {name} WHERE 0 NOT IN (", self.value("number"), " , "), (f"UPDATE {name} SET {number} =", "1", self.one([" + ", " - ", " * "])),
            ("SELECT", self.expression("number", names, 1), " , "), (f"SELECT * FROM {name} ORDER BY", "1", " , "),
            (f"INSERT INTO {name} VALUES (", self.value("number"), " , "), (f"SELECT SUM (", self.expression("number", names, 1), self.one([" + ", " * "]))])
        back = " )" * front.count("(") if not front.startswith("SELECT COUNT") else ""
        middle = between.join([part] * max(1, size // len(part + between)))
        return self.said(f"{front} {middle}{back}{f' FROM {name}' if 'FROM' not in front and front.startswith('SELECT') else ''}")

    def wide(self):
        """A product about as large as an answer may be, where a table has the rows; whatever it has, a product with itself."""
        name = self.table_name()
        sources = [f"{name} {label}" for label in "ABCD"[:3 if self.rows_in(name) > 20 else 2]]
        return self.said(f"SELECT {self.one(['', 'DISTINCT '])}{self.one(['1', '*', '2 * 3'])} FROM {self.listed(sources)}")
