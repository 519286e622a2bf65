"""Random scripts, in which most lines are in order and the others miss it narrowly."""
import random

from choices import DIFFERENCES, LONG_NAME, ODD_LINES, SAVEPOINTS, STRAY
from reference import Reference, ended
from spoken import Spoken
from statements import Statements
from values import END, Instant, TIMESTAMP_FORMS, instant, printed
from words import Words


class Writer(Words, Statements, Spoken):
    """Writes a random script. It plays each line through a reference as it goes, so that it knows which names there are."""

    def __init__(self, seed):
        self.random = random.Random(seed)
        self.limit = self.random.choice([1000] * 12 + [1_048_576, 12, 25])
        self.reference = Reference(self.limit)
        self.noise = 0.0  # how likely each choice within the line is a bad one
        self.branching = self.random.choice([1, 1, 1, 3])  # how often lines on workspaces and savepoints come
        self.locking = self.random.choice([0.5, 0.5, 1, 4])  # how often rows are locked
        self.freezing = self.random.choice([0.5, 0.5, 1, 4])  # how often a workspace is frozen
        self.dating = self.random.choice([0.5, 0.5, 1, 4])  # how often a session goes to a date
        self.comparing = self.random.choice([0.5, 0.5, 1, 4])  # how often points of workspaces are compared

    def chance(self, likely):
        return self.random.random() < likely

    def is_bad(self, least=0.0):
        return self.chance(max(self.noise, least))

    def one(self, choices):
        return self.random.choice(list(choices))

    def weighted(self, choices):
        """One of the keys, by their weights."""
        return self.random.choices(list(choices), list(choices.values()))[0]

    def listed(self, items):
        return " , ".join(items)

    def script(self, length):
        """A script as runs: each its moment and its lines."""
        runs, now = [], self.one(["2020-01-01", "2020-01-01", "2020-03-01T12:00:00", "2020-01-01 00:00:01"])
        for part in range(2 if self.chance(0.3) else 1):
            self.reference.begin(instant(now.encode(), TIMESTAMP_FORMS))
            lines = [self.played(line) for line in self.opening(part)]
            lines += [self.played(self.line()) for _ in range(length // 2 if part else length)]
            runs.append((now, lines))
            now = self.one(["2020-01-01", "2019-01-01", "2021-06-01"])
        if self.chance(0.5):
            lines += [self.played(line.encode()) for line in self.closing()]
        return runs

    def played(self, line):
        self.reference.answer(ended(line))
        return line

    def opening(self, part):
        """The lines that most scripts begin with."""
        self.noise = 0.0
        yield b"CONNECT A ANN"
        yield b"CONNECT B BEN"
        count = 0 if part else self.random.randrange(1, 4)
        while len(self.reference.tables) < count:
            line = self.create()
            yield line.encode()
            name = line.split()[4]
            if name in self.reference.tables and self.chance(0.95):
                ready = self.one(["", ", 'VIEW_WO_OVERWRITE'", ", 'NONE', FALSE, TRUE", ", 'VIEW_WO_OVERWRITE', FALSE, TRUE", ", validTime => TRUE"])
                yield f"A: EXECUTE DBMS_WM.EnableVersioning('{name}'{ready})".encode()
                for _ in range(self.random.randrange(0, 9)):
                    yield self.insert(name).encode()
        if self.chance(0.4):
            yield b"A: EXEC DBMS_WM.CreateWorkspace('W')"
            yield b"B: EXEC DBMS_WM.GotoWorkspace('W')"
            if self.chance(0.2 * self.branching):
                yield from self.branched()
        elif self.chance(0.5):
            yield from self.levels()
        if self.chance(0.5):
            yield from self.one([self.torn, self.decided, self.decided])()
        if self.chance(0.25 * self.locking):
            yield from self.one([self.locked, self.held, self.barred])()
        if self.chance(0.15 * self.freezing):
            yield from self.frozen()
        if self.chance(0.2 * self.dating):
            yield from self.aged()
        if self.chance(0.2 * self.comparing):
            yield from self.compared()
        if self.chance(0.4):
            yield self.spaced(self.set_valid_time().split(" "))
        if not part and self.chance(0.02):
            yield b"A: CREATE TABLE WIDE (ID INTEGER PRIMARY KEY)"
            yield b"A: EXEC DBMS_WM.EnableVersioning('WIDE')"
            for number in range(self.one([46, 47])):
                yield b"A: INSERT INTO WIDE VALUES (%d)" % number

    def branched(self):
        """W gets savepoints, at one of which a session may stay, and a child."""
        for point in self.random.sample(SAVEPOINTS, self.one([1, 2, 3])):
            yield f"B: EXEC DBMS_WM.CreateSavepoint('W', '{point}')".encode()
            yield self.spaced(self.one([self.insert, self.update, self.delete])().split(" "))
        yield self.one([f"B: EXEC DBMS_WM.GotoSavepoint('{point}')", "B: EXEC DBMS_WM.GotoWorkspace('LIVE')"]).encode()
        if self.chance(0.5):
            yield b"A: EXEC DBMS_WM.GotoWorkspace('W')"
            yield b"A: EXEC DBMS_WM.CreateWorkspace('V')"
            yield f"A: EXEC DBMS_WM.GotoWorkspace('{self.one(['LIVE', 'V'])}')".encode()

    def levels(self):
        """A workspace below another, and at times one below that; in each something may be changed, and then one is merged or refreshed."""
        names = [b"W", b"V", b"w"][:self.one([2, 2, 3])]
        for name in names:
            yield b"A: EXEC DBMS_WM.CreateWorkspace('%s')" % name
            yield b"A: EXEC DBMS_WM.GotoWorkspace('%s')" % name
        yield b"B: EXEC DBMS_WM.GotoWorkspace('W')"
        for _ in range(self.one([1, 2, 4])):
            if self.chance(0.4):
                yield f"{self.one('AB')}: EXEC DBMS_WM.GotoWorkspace('{self.one(['LIVE', 'W', 'V'])}')".encode()
            yield self.spaced(self.one([self.insert, self.insert, self.update, self.move, self.delete])().split(" "))
        for _ in range(self.one([1, 2])):
            yield self.spaced(self.one([self.merge, self.refresh])().split(" "))

    def child_name(self):
        """A workspace below another, and lines that make it where there is none."""
        name = self.one(list(self.reference.workspaces)[1:] or [b"W"])
        return name, [] if name in self.reference.workspaces else [b"A: EXEC DBMS_WM.CreateWorkspace('%s')" % name.replace(b"'", b"''")]

    def above(self, name):
        """The name of the workspace above another."""
        return self.reference.above(self.reference.workspaces[name])

    def clashing(self, name):
        """Both sides of a workspace change the same rows, or one of them is away."""
        quoted, above = printed(name), printed(self.above(name))
        shared, places = self.insert().split(" : ", 1)[1], [quoted, above if self.chance(0.8) else quoted]
        for session, place in zip(self.random.sample("AB", 2), places):
            yield b"%s: EXEC DBMS_WM.GotoWorkspace(%s)" % (session.encode(), place)
            if self.chance(0.6):
                yield f"{session}: {shared}".encode()
            for _ in range(self.one([1, 2, 3])):
                yield self.spaced(self.one([self.insert, self.update, self.move, self.delete, self.clash, self.clash])().split(" "))

    def torn(self):
        """Rows are in conflict; then the conflicts are looked at, at times from a third workspace and behind a removal."""
        name, lines = self.child_name()
        yield from lines
        if name not in self.reference.workspaces:
            return
        yield from self.clashing(name)
        quoted = printed(name)
        lines = [b"A: EXEC DBMS_WM.GotoWorkspace('LIVE')"] if self.chance(0.5) else []
        lines += [b"%c: EXEC DBMS_WM.SetConflictWorkspace(%s)" % (self.one(b"AB"), quoted)] if self.chance(0.7) else []
        if self.chance(0.3):
            lines += [b"B: EXEC DBMS_WM.GotoWorkspace('LIVE')", b"A: EXEC DBMS_WM.RemoveWorkspace(%s)" % quoted, None]
            lines += [b"B: EXEC DBMS_WM.CreateWorkspace(%s)" % quoted] if self.chance(0.6) else []
        for line in [*lines, None, None]:
            yield self.spaced(self.view().split(" ")) if line is None else line

    def decided(self):
        """Rows are in conflict; then that is resolved, and more happens around it."""
        name, lines = self.child_name()
        yield from lines
        if name not in self.reference.workspaces:
            return
        for workspace, point in [(name, "S"), (self.above(name), "R")]:
            if self.chance(0.4):
                yield f"A: EXEC DBMS_WM.CreateSavepoint({printed(workspace).decode()}, '{point}')".encode()
        yield from self.clashing(name)
        for _ in range(6):
            if not self.is_torn(name):
                yield self.spaced(self.clash().split(" "))
        if self.chance(0.3):
            yield b"CONNECT C KIM"
        for _ in range(self.one([6, 12, 24])):
            yield self.spaced(self.weighted({
                self.resolve: 16, self.clash: 8, self.rollback: 4, self.create_savepoint: 3, self.merge: 2, self.refresh: 1, self.remove: 0.3,
                self.view: 2, self.disconnect: 0.5, self.connect: 0.3, self.set_valid_time: 1})().split(" "))

    def locked(self):
        """Rows of a workspace or of the one above are locked; then others change them, lock them and merge them."""
        name, lines = self.child_name()
        yield from lines
        if name not in self.reference.workspaces:
            return
        yield from self.clashing(name)
        yield from [b"CONNECT C BEN"] if self.chance(0.5) else []
        for _ in range(self.one([6, 12, 24])):
            is_locked = any(its.locks for its in self.reference.workspaces.values())
            yield self.spaced(self.weighted({
                self.lock_rows: 4 if is_locked else 10, self.unlock_rows: 1.5 if is_locked else 0.2, self.set_locking: 2, self.insert: 2,
                self.update: 3, self.move: 2, self.delete: 1, self.clash: 5, self.merge: 4, self.resolve: 4, self.refresh: 1, self.rollback: 1.5,
                self.create_savepoint: 1, self.goto_workspace: 2, self.set_valid_time: 2, self.remove: 0.5, self.disconnect: 0.3,
                self.connect: 0.3, self.view: 1})().split(" "))

    def held(self):
        """Rows of a workspace are locked between savepoints; then it goes back to some of these."""
        name, lines = self.child_name()
        yield from lines
        if name not in self.reference.workspaces:
            return
        name = self.one([name, name, self.above(name)])
        for point in self.random.sample(SAVEPOINTS, self.one([2, 3])):
            for _ in range(self.one([1, 2])):
                yield self.spaced(self.lock_rows(name).split(" "))
            yield b"A: EXEC DBMS_WM.CreateSavepoint(%s, '%s')" % (printed(name), point.encode())
        for _ in range(self.one([3, 6])):
            yield self.spaced(self.weighted({lambda: self.lock_rows(name): 3, self.rollback: 4, self.unlock_rows: 0.5, self.update: 0.5,
                                             self.create_savepoint: 0.5, self.remove: 0.3})().split(" "))

    def barred(self):
        """What a session decides about a workspace, and what it merges, lies under locks that another has set there, above or beside it."""
        name, lines = self.child_name()
        yield from lines
        if name not in self.reference.workspaces:
            return
        yield from self.clashing(name)
        for _ in range(6):
            if not self.is_torn(name):
                yield self.spaced(self.clash().split(" "))
        if name not in self.reference.workspaces or len(self.reference.sessions) < 2:
            return
        quoted, above = printed(name), self.above(name)
        mine, other = self.random.sample(list(self.reference.sessions), 2)
        yield b"%s: EXEC DBMS_WM.BeginResolve(%s)" % (mine.encode(), quoted)
        for _ in range(self.one([1, 2])):
            yield self.spaced(self.decide(mine, quoted.decode()).split(" "))
        if self.reference.sessions[mine].decisions and self.chance(0.7):
            table, mode = self.one(self.reference.sessions[mine].decisions).table, self.one(["E", "WE", "WE", "VE"])
            yield b"%s: EXEC DBMS_WM.LockRows(%s, '%s', NULL, '%s')" % (other.encode(), quoted, table.encode(), mode.encode())
        yield self.spaced(self.lock_rows(self.one([name, name, above]), other).split(" "))
        commit, merge = (b"%s: EXEC DBMS_WM.%s(%s)" % (mine.encode(), call, quoted) for call in (b"CommitResolve", b"MergeWorkspace"))
        yield from [commit, merge]
        for _ in range(self.one([1, 2])):
            yield self.spaced(self.unlock_rows().split(" "))
        yield from [commit, self.spaced(self.lock_rows(self.one([name, above, None]), other).split(" ")), merge]
        yield from [self.spaced(self.lock_rows(name).split(" ")), merge]

    def frozen(self):
        """A workspace or the one above is frozen; then what that bars is tried, and what it does not."""
        name, lines = self.child_name()
        yield from lines
        if name not in self.reference.workspaces:
            return
        if self.chance(0.6):
            yield from self.clashing(name)
        yield from [b"B: EXEC DBMS_WM.GotoWorkspace(%s)" % printed(self.one([name, name, b"LIVE"])), b"CONNECT C BEN"]
        for _ in range(self.one([6, 12, 24])):
            is_frozen = any(map(self.reference.frozen, self.reference.workspaces))
            yield self.spaced(self.weighted({
                self.freeze: 1 if is_frozen else 12, self.unfreeze: 2 if is_frozen else 0.3, self.insert: 2, self.update: 2, self.move: 1,
                self.delete: 1, self.clash: 3, self.create_savepoint: 2, self.create_workspace: 2, self.goto_workspace: 3, self.rollback: 2,
                self.remove: 2, self.merge: 4, self.refresh: 3, self.resolve: 4, self.disconnect: 0.7, self.connect: 0.7,
                self.goto_savepoint: 1, self.set_conflict: 0.5})().split(" "))

    def aged(self):
        """Rows change on several days, with savepoints in between; then they are read on dates, and what cannot be done there is tried."""
        name, lines = self.child_name()
        yield from lines if self.chance(0.5) else []
        name = self.one([b"LIVE", name if name in self.reference.workspaces else b"LIVE"])
        for session in "AB":
            yield b"%s: EXEC DBMS_WM.GotoWorkspace(%s)" % (session.encode(), printed(name))
        for _ in range(self.one([3, 6, 9])):
            moment = min(self.reference.moment + self.one([0, 1, 86_400]), END - 1)
            yield b"AT TIMESTAMP '%s'" % printed(Instant(moment))
            for _ in range(self.one([0, 1, 2])):
                yield self.spaced(self.one([self.insert, self.update, self.update, self.move, self.delete])().split(" "))
            if self.chance(0.4):
                yield b"A: EXEC DBMS_WM.CreateSavepoint(%s, '%s')" % (printed(name), self.one(SAVEPOINTS).encode())
        for _ in range(self.one([6, 12])):
            yield self.spaced(self.goto_date(self.one("AB")).split(" "))
            for _ in range(self.one([1, 2])):
                yield self.spaced(self.weighted({
                    self.select: 12, self.view: 3, self.insert: 1, self.update: 1, self.delete: 1, self.create_workspace: 1, self.rollback: 1.5,
                    self.create_savepoint: 1, self.goto_savepoint: 1, self.set_valid_time: 1, self.lock_rows: 0.5, self.merge: 1,
                    self.remove: 0.5, self.at: 0.5})().split(" "))

    def compared(self):
        """Workspaces differ, and points of them are compared; then these points move, or are lost."""
        name, lines = self.child_name()
        yield from lines
        if name not in self.reference.workspaces:
            return
        yield from self.clashing(name)
        if self.chance(0.3):
            yield from self.lost(name)
        if self.chance(0.6) and name in self.reference.workspaces:
            yield b"A: EXEC DBMS_WM.GotoWorkspace(%s)" % printed(self.one([name, self.above(name)]))
            yield from [b"A: EXEC DBMS_WM.CreateWorkspace('V')", b"A: EXEC DBMS_WM.GotoWorkspace('V')"]
        for _ in range(self.one([6, 12, 24])):
            has_pair = any(its.difference for its in self.reference.sessions.values())
            yield self.spaced(self.weighted({
                self.set_difference: 3 if has_pair else 12, self.view: 8 if has_pair else 1, self.insert: 2, self.update: 2, self.move: 1,
                self.delete: 2, self.clash: 3, self.create_savepoint: 3, self.rollback: 3, self.merge: 2, self.refresh: 2, self.remove: 1,
                self.create_workspace: 1, self.goto_workspace: 3, self.resolve: 1, self.disconnect: 0.2, self.connect: 0.2})().split(" "))

    def lost(self, name):
        """A point that a session compares goes by a rollback or by a removal, and others may take its name; each time it is looked at."""
        quoted, ready = printed(name), [table for table, its in self.reference.tables.items() if its.is_versioned]
        first, second = self.random.sample(SAVEPOINTS, 2)
        saved = [b"A: EXEC DBMS_WM.CreateSavepoint(%s, '%s')" % (quoted, point.encode()) for point in (first, second)]
        points = [b"%s, '%s'" % (quoted, second.encode()), self.one([b"'LIVE', 'LATEST'", b"%s, 'LATEST'" % quoted, b"%s, '%s'" % (quoted, first.encode())])]
        self.random.shuffle(points)
        rolled = b"B: EXEC DBMS_WM.RollbackToSP(%s, '%s')" % (quoted, first.encode())
        away = [b"%c: EXEC DBMS_WM.GotoWorkspace('LIVE')" % session for session in b"AB"]
        removed, made = (b"A: EXEC DBMS_WM.%s(%s)" % (call, quoted) for call in (b"RemoveWorkspace", b"CreateWorkspace"))
        lines = [*saved, b"A: EXEC DBMS_WM.SetDiffVersions(%s, %s)" % tuple(points), None, rolled, None, *saved[1:] * self.chance(0.5), None]
        if self.chance(0.6):
            lines += [*away, b"A: EXEC DBMS_WM.SetConflictWorkspace(%s)" % quoted, removed, None, None, made, *saved * self.chance(0.5), None]
        for line in lines:
            if line is None and ready:
                line = f"A: {self.one(DIFFERENCES[:12])}".replace("@", self.one(ready)).encode()
            yield from [line] if line else []

    def closing(self):
        """Lines that list what stands in each workspace, and some of what stands at each savepoint."""
        ready = [name for name, table in self.reference.tables.items() if table.is_versioned]
        yield from ["CONNECT Z ZED", "Z: EXEC DBMS_WM.SetValidTime(DATE '0001-01-01')", *(f"Z: SELECT * FROM {table}_LOCK" for table in ready)]
        for workspace, its in self.reference.workspaces.items():
            yield f"Z: EXEC DBMS_WM.UnfreezeWorkspace({printed(workspace).decode()})"
            yield f"Z: EXEC DBMS_WM.GotoWorkspace({printed(workspace).decode()})"
            yield from (f"Z: SELECT * FROM {source}" for table in ready for source in (table, f"{table}_CONF", f"{table}_HIST"))
            for savepoint in its.savepoints if ready else []:
                yield f"Z: EXEC DBMS_WM.GotoSavepoint({printed(savepoint).decode()})"
                yield f"Z: SELECT * FROM {self.one(ready)}"
            for moment in {its.born, self.one([entry.moment for entry in its.log] or [its.born])} if ready else []:
                yield f"Z: EXEC DBMS_WM.GotoDate({self.time(moment)})"
                yield from (f"Z: SELECT * FROM {table}" for table in ready)
        for one, other in self.pairs():
            yield f"Z: EXEC DBMS_WM.SetDiffVersions({', '.join([*self.point(one), *self.point(other)])})"
            yield from (f"Z: SELECT * FROM {table}_DIFF" for table in ready)

    def pairs(self):
        """Some pairs of workspaces."""
        names = list(self.reference.workspaces)
        return [(self.one(names), self.one(names)) for _ in range(min(len(names), 6))]

    # Lines and their bytes

    def line(self):
        self.noise = self.one([0, 0, 0, 0, 0, 0, 0.04, 0.1, 0.25])
        if self.chance(0.04):
            return self.one(ODD_LINES)
        count = sum(1 for name in self.reference.workspaces if self.reference.frozen(name))
        words = self.weighted({
            self.insert: 26, self.update: 13, self.move: 11, self.delete: 5, self.select: 32, self.create: 3, self.enable: 3,
            self.create_workspace: 6 * self.branching, self.create_savepoint: 6 * self.branching, self.goto_workspace: 8 * self.branching,
            self.goto_savepoint: 7 * self.branching, self.rollback: 7 * self.branching, self.remove: 4 * self.branching,
            self.merge: 8 * self.branching, self.refresh: 5 * self.branching, self.clash: 9 * self.branching,
            self.resolve: 8 * self.branching, self.view: 12, self.set_conflict: 2 + 2 * self.branching, self.freeze: 2 * self.freezing,
            self.unfreeze: 0.3 + 8 * count, self.lock_rows: 4 * self.locking, self.unlock_rows: 2 * self.locking,
            self.set_locking: 1.5 * self.locking, self.goto_date: 3 * self.dating, self.set_difference: 3 * self.comparing, self.connect: 3,
            self.disconnect: 1, self.set_valid_time: 10, self.at: 6,
            self.on_periods: 4, self.deep: 1, self.wide: 0.3, self.long: 0.3})().split(" ")
        if self.chance(0.12):
            words = self.damaged(words)
        return self.spaced(words)

    def damaged(self, words):
        """One or two words are dropped, doubled, put in, changed or swapped, or the rest is cut."""
        for _ in range(self.one([1, 1, 1, 2])):
            at = self.random.randrange(len(words))
            new = {"cut": [], "drop": words[at + 1:], "double": [words[at]] + words[at:], "put": [self.one(STRAY)] + words[at:],
                   "change": [self.one(STRAY)] + words[at + 1:], "swap": words[at + 1:at + 2] + words[at:at + 1] + words[at + 2:]}
            words = words[:at] + self.one(new.values()) if self.chance(0.9) else words + [self.one(STRAY)]
            words = words or ["A"]
        return words

    def spaced(self, words):
        if self.chance(0.12):
            words = [word if "'" in word else self.one([word.lower(), word, word.title()]) for word in words]
        line = " ".join(words)
        if self.chance(0.15):
            line = words[0]
            for before, after in zip(words, words[1:]):
                would_join = before[-1:].isalnum() and after[:1].isalnum() or "'" in (before[-1:], after[:1])
                line += self.one([" ", "  ", "\t"] if would_join else ["", " ", "", "\t"]) + after
        if self.chance(0.1):
            line += self.one([" ;", ";", " ", "\t", "; ", "\r", " ; ;", "--", "\r\r"])
        if self.chance(0.05):
            line = self.one([" ", "\t", "  \t"]) + line
        return line.encode()

    def session(self):
        return self.one(self.reference.sessions or ["A"])

    def said(self, words, session=None):
        return f"{self.one(['Z', 'CONNECT', LONG_NAME]) if self.is_bad() else session or self.session()} : {words}"
