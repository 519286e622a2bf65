"""The state, and what each line answers, by the rules of the language alone."""
from calls import Calls
from freezes import Freezes
from lists import Entry, entries_of, rows_of
from locks import Locks
from merges import Merges
from parser import BadToken, Parser, VIEWS
from points import Points
from queries import Queries
from refusals import Refused, first_of, refuse
from scopes import Scope, Table, View, WM_VALID, names_of
from state import Session, Workspace
from trees import At, Call, Connect, Create, Delete, Disconnect, Insert, Select, Update
from values import ALWAYS, Instant, printed, weight


class Reference(Queries, Calls, Freezes, Locks, Merges, Points):
    """A store, its sessions, and what each line answers."""

    MOST_ROWS, MOST_SESSIONS, MOST_TABLES, MOST_WORKSPACES, MOST_SAVEPOINTS = 100_000, 256, 256, 1024, 4096
    LINE_WORK = 4096

    def __init__(self, limit):
        self.limit, self.stamps, self.work, self.last_moment, self.moment = limit, 0, 0, Instant(0), Instant(0)
        self.tables, self.workspaces, self.sessions = {}, {b"LIVE": Workspace(0, None, Instant(0), 0, 0, {}, {}, {})}, {}

    def begin(self, now):
        self.sessions = {}
        self.moment = Instant(max(now, self.last_moment))

    def answer(self, line):
        """The bytes that a line answers."""
        bare = line.lstrip(b" \t")
        if len(line) <= 16_384 and (not bare or bare.startswith(b"--")):
            return b""
        try:
            rows, words = self.run(self.read(line))
            return b"".join(b"|".join(map(printed, row)) + b"\n" for row in rows) + words.encode() + b"\n"
        except Refused as refused:
            return str(refused).encode("utf-8", "surrogateescape") + b"\n"

    def read(self, line):
        if len(line) > 16_384:
            refuse("WM-001 line too long")
        try:
            line.decode("utf-8")
        except UnicodeDecodeError:
            refuse("WM-002 not UTF-8")
        parser = Parser(line, self.moment)
        try:
            tree = parser.line()
        except BadToken as bad:
            refuse("WM-003 syntax", bad.column)
        if parser.bad_literals:
            refuse("WM-065 literal", min(parser.bad_literals))
        self.has_empty_period = parser.has_empty_period
        return tree

    def run(self, tree):
        """The rows and the word of the answer."""
        if isinstance(tree, Connect):
            return self.connect(tree)
        if isinstance(tree, At):
            return self.at(tree)
        if tree.session not in self.sessions:
            refuse("WM-004 no session", tree.session)
        session = self.sessions[tree.session]
        if isinstance(tree, Disconnect):
            del self.sessions[tree.session]
            return [], "OK"
        statement = tree.statement
        if isinstance(statement, Call):
            return self.call(session, statement)
        return {Create: self.create, Insert: self.insert, Update: self.update, Delete: self.delete,
                Select: self.select}[type(statement)](session, statement)

    def changed(self, locks=0):
        """A line changes a durable part, and makes so many locks."""
        self.last_moment, self.work = self.moment, self.work + self.LINE_WORK + locks

    def counters(self):
        """What a store keeps of them: the next stamp, the last moment, the limit and the work."""
        return self.stamps + 1, self.last_moment, self.limit, self.work

    def connect(self, tree):
        if tree.session in self.sessions:
            refuse("WM-005 session exists", tree.session)
        if len(tree.session) > 30 or len(tree.user) > 30:
            refuse("WM-016 bad name 30")
        if len(self.sessions) == self.MOST_SESSIONS:
            refuse("WM-075 sessions", self.MOST_SESSIONS)
        self.sessions[tree.session] = Session(tree.user)
        return [], "OK"

    def at(self, tree):
        if tree.when.value < self.moment:
            refuse("WM-031 moment goes back", printed(self.moment))
        self.moment = tree.when.value
        return [], "OK"

    def write(self, session, table, changes):
        """Entries of changes, each a key, a period, a row or None, and a kind; each has the next stamp."""
        workspace, cells = self.workspaces[session.workspace], [(table.name, key, period) for key, period, _, _ in changes]
        self.test_locks(workspace, session.user, cells)
        if self.stamps + len(changes) > self.limit:
            refuse("WM-070 change limit", self.limit)
        entries = [Entry(table.name, key, period, row, self.stamps + count, kind, self.moment, session.user)
                   for count, (key, period, row, kind) in enumerate(changes, 1)]
        workspace.append(entries)
        self.stamps += len(changes)
        locks = self.lock(workspace, session.locking, session.user, cells) if session.locking else 0
        if changes:
            self.changed(locks)

    def used(self, names):
        """The tables of these names, which are all there and version-enabled."""
        for name in names:
            if name not in self.tables:
                refuse("WM-010 no table", name)
        for name in names:
            if not self.tables[name].is_versioned:
                refuse("WM-019 versioning", name, "off")
        return [self.tables[name] for name in names]

    def source(self, name):
        """The table or view of a name, or None."""
        if not name.endswith(VIEWS):
            return self.tables.get(name)
        table = self.tables.get(name[:-len(VIEWS[0])])
        return table and View(name, table)

    def used_sources(self, names):
        """The tables and views of these names, which are all there, and the tables version-enabled."""
        sources = [self.source(name) for name in names]
        if None in sources:
            refuse("WM-010 no table", names[sources.index(None)])
        self.used([source.table.name if isinstance(source, View) else source.name for source in sources])
        return sources

    def test_views(self, session, sources):
        views = [source for source in sources if isinstance(source, View)]
        for view in views:
            if view.kind == "HIST" and not view.table.has_history:
                refuse("WM-018 no history", view.table.name)
        for view in views:
            for name in self.meant(session, view):
                self.workspace(name)
        if any(view.kind == "DIFF" for view in views):
            self.test_points(session.difference or [])

    def meant(self, session, view):
        """The workspaces whose names a session keeps for a view."""
        return {"CONF": [self.conflict_workspace(session)], "DIFF": [name for name, _ in session.difference or []]}.get(view.kind, [])

    # CREATE TABLE

    def create(self, session, tree):
        names = [column.name for column in tree.columns]
        if any(len(name) > 30 for name in [tree.table, *names]):
            refuse("WM-016 bad name 30")
        reserved = [tree.table] if tree.table.endswith(VIEWS) else []
        reserved += [name for name in names if name.startswith("WM_")]
        if reserved:
            refuse("WM-024 reserved", reserved[0])
        if tree.table in self.tables:
            refuse("WM-011 table exists", tree.table)
        keys = tree.keys or []
        bad = [(column.at, column.name) for place, column in enumerate(tree.columns) if column.name in names[:place]]
        bad += [(key.at, key.name) for place, key in enumerate(keys)
                if key.name not in names or key.name in [other.name for other in keys[:place]]]
        if bad:
            refuse("WM-012 no column", first_of(bad))
        too_many = [(keys[1].at, 1)] if len(keys) > 1 else []
        too_many += [(tree.columns[32].at, 32)] if len(names) > 32 else []
        if too_many:
            refuse("WM-014 count", first_of(too_many))
        if len(self.tables) == self.MOST_TABLES:
            refuse("WM-073 tables", self.MOST_TABLES)
        key = names.index(keys[0].name) if keys else None
        if key is not None:
            tree.columns[key].not_null = True
        self.tables[tree.table] = Table(tree.table, tree.columns, key)
        self.changed()
        return [], "OK"

    # INSERT, UPDATE, DELETE

    def at_latest(self, session):
        if session.savepoint is not None or session.date is not None:
            refuse("WM-030 not at LATEST")

    def test_periods(self):
        if self.has_empty_period:
            refuse("WM-033 empty period")

    def test_change(self, session):
        """Refuses a change of rows where and as the session stands."""
        self.at_latest(session)
        self.test_periods()
        self.test_frozen(session, session.workspace, "write")

    def test_lacking(self, scope, trees):
        if bad := [fault for tree in trees for fault in scope.lacking(tree)]:
            refuse("WM-017 not valid-time", first_of(bad))

    def insert(self, session, tree):
        [table] = self.used([tree.table])
        columns = {column.name: column for column in [*table.columns, WM_VALID]}
        declared = [column.name for column in table.columns]
        names = [name.name for name in tree.names] if tree.names is not None else declared
        bad = [(name.at, name.name) for place, name in enumerate(tree.names or [])
               if name.name not in columns or name.name in names[:place]]
        bad += [(name.at, name.name) for value in tree.values for name in names_of(value)]
        if bad:
            refuse("WM-012 no column", first_of(bad))
        if tree.names is None and table.has_periods and len(tree.values) == len(names) + 1:
            names = [*names, "WM_VALID"]
        if len(tree.values) != len(names):
            refuse("WM-014 count", len(names))
        scope = Scope([])
        bad = [fault for name, value in zip(names, tree.values) for fault in scope.misfits(columns[name], value)]
        if bad:
            refuse("WM-013 type", first_of(bad))
        if "WM_VALID" in names and not table.has_periods:
            refuse("WM-017 not valid-time", table.name)
        self.test_change(session)
        given = {name: scope.value(value, ()) for name, value in zip(names, tree.values)}
        row = tuple(given.get(name) for name in declared)
        self.test_rows(table, [row])
        key, period = row[table.key], given.get("WM_VALID") or table.has_periods and session.period or ALWAYS
        for old, _ in rows_of(entries_of(self.content(session, table), table.name, key)):
            if old.overlaps(period):
                refuse("WM-060 key there", printed(key), *[printed(old.shared(period))] * table.has_periods)
        self.write(session, table, [(key, period, row, "I")])
        return [], "DONE 1"

    def test_rows(self, table, rows):
        for row in rows:
            for column, value in zip(table.columns, row):
                if value is None and column.not_null:
                    refuse("WM-061 NULL in", column.name)
        for row in rows:
            for place, (column, value) in enumerate(zip(table.columns, row)):
                if isinstance(value, bytes) and len(value) > column.size or place == table.key and weight(value) > 200:
                    refuse("WM-063 too heavy", column.name)
            if sum(map(weight, row)) > 2000:
                refuse("WM-063 too heavy", "ROW")

    def update(self, session, tree):
        [table] = self.used([tree.table])
        scope = Scope([(table.name, table)])
        names = [name.name for name, _ in tree.settings]
        trees = [part for setting in tree.settings for part in setting] + [tree.condition]
        bad = [(name.at, name.name) for place, (name, _) in enumerate(tree.settings) if name.name in names[:place]]
        bad += [fault for one in trees for fault in scope.bad_names(one)]
        if bad:
            refuse("WM-012 no column", first_of(bad))
        columns = [*table.columns, WM_VALID]
        places = [[column.name for column in columns].index(name) for name in names]
        bad = [fault for place, (_, value) in zip(places, tree.settings) for fault in scope.misfits(columns[place], value)]
        bad += scope.bad_kinds(tree.condition)
        if bad:
            refuse("WM-013 type", first_of(bad))
        if table.key in places:
            refuse("WM-062 key column", table.columns[table.key].name)
        self.test_lacking(scope, trees)
        self.test_change(session)
        changes = []  # the old period, the new one and the new row
        for (period, values), row in zip(self.pieces(session, table), self.rows(session, table)):
            if scope.truth(tree.condition, row) is True:
                new = [*values, period.shared(self.window(session, table))]
                for place, (_, value) in zip(places, tree.settings):
                    new[place] = scope.value(value, row)
                changes.append((period, new[-1], tuple(new[:-1])))
        self.test_rows(table, [row for _, _, row in changes])
        if "WM_VALID" in names:
            entries = self.moved(session, table, changes)
        else:
            entries = [(row[table.key], period, row, "U") for _, period, row in changes]
        self.write(session, table, entries)
        return [], f"DONE {len(changes)}"

    def moved(self, session, table, changes):
        """The entries of rows that move in time: each over its new period, and gone entries where an old row was and no new one of its key is."""
        entries = []
        for key in sorted({row[table.key] for _, _, row in changes}):
            mine = [change for change in changes if change[2][table.key] == key]
            old, new = [change[0] for change in mine], [change[1] for change in mine]
            stays = [period for period, _ in rows_of(entries_of(self.content(session, table), table.name, key)) if period not in old]
            shared = [one.shared(other) for place, one in enumerate(new) for other in stays + new[:place] if one.overlaps(other)]
            if shared:
                refuse("WM-060 key there", printed(key), printed(min(shared)))
            found = [(key, period, row, "U") for _, period, row in mine] + [(key, period, None, "D") for one in old for period in one.beside(new)]
            entries += sorted(found, key=lambda entry: entry[1])
        return entries

    def delete(self, session, tree):
        [table] = self.used([tree.table])
        scope = Scope([(table.name, table)])
        if bad := scope.bad_names(tree.condition):
            refuse("WM-012 no column", first_of(bad))
        if bad := scope.bad_kinds(tree.condition):
            refuse("WM-013 type", first_of(bad))
        self.test_lacking(scope, [tree.condition])
        self.test_change(session)
        gone = [(row[table.key], period.shared(self.window(session, table)), None, "D")
                for (period, _), row in zip(self.pieces(session, table), self.rows(session, table)) if scope.truth(tree.condition, row) is True]
        self.write(session, table, gone)
        return [], f"DONE {len(gone)}"


def ended(line):
    """A line without the CR that is dropped before its LF."""
    return line[:-1] if line.endswith(b"\r") else line
