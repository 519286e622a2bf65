"""What the records of a store say together."""
from collections import defaultdict
from pathlib import Path
from typing import NamedTuple

from .pages import Damaged, Pages
from .records import Counters, Hist, Lock, Mark, Piece, Row, Savepoint, Space, Table, Touch, Turn, Version, records_of
from .values import Period, in_order

LIVE, NO_VERSION = 0, 0


class Shown(NamedTuple):
    """A row as a version shows it: its piece, of which a part or the whole is seen."""
    key: object
    period: object
    stamp: int
    values: list


class Conflict(NamedTuple):
    """A longest period of a key that a workspace and its parent both changed, or on which two points differ, and on which each of the three
    sides holds one row or none."""
    table: Table
    key: object
    period: object
    base: object
    parent: object
    child: object


class Point(NamedTuple):
    """What is newest in a workspace, a savepoint of it, or what of it was taken from below: by the version that holds it."""
    name: str
    space: int
    log_length: int
    rebases: int
    version: int


class Store:
    """The records of a file, found by what they are."""

    def __init__(self, pages):
        self.pages = pages
        self.found = {}  # the conflicts of a workspace, once they were asked for
        by_kind = defaultdict(list)
        for record in records_of(pages):
            by_kind[type(record)].append(record)
        try:
            self.arrange(by_kind)
        except (LookupError, TypeError, ValueError):
            raise Damaged(0, "graph") from None

    def arrange(self, by_kind):
        [self.counters] = by_kind[Counters]
        self.tables = {table.number: table for table in sorted(by_kind[Table], key=lambda table: table.number)}
        self.spaces = {space.number: space for space in sorted(by_kind[Space], key=lambda space: space.number)}
        # LIVE has no parent, and what its record says of one is not looked at.
        self.spaces[LIVE] = self.spaces[LIVE]._replace(parent=LIVE)
        self.versions = {version.number: version for version in by_kind[Version]}
        self.savepoints = sorted(by_kind[Savepoint], key=lambda point: (point.space, point.place, point.making))
        self.rows = {row.stamp: row.values for row in by_kind[Row]}
        self.history = sorted(by_kind[Hist], key=lambda entry: (entry.space, entry.position))
        self.touches = sorted(by_kind[Touch], key=lambda touch: (touch.space, touch.place, touch.position))
        self.marks = sorted(by_kind[Mark], key=lambda mark: (mark.space, mark.place, mark.position))
        self.locks = sorted(by_kind[Lock], key=lambda lock: (lock.cells.table, in_order(lock.cells.key), lock.cells.period.begin, lock.space, lock.making))
        self.turns = sorted(by_kind[Turn])
        self.pieces = defaultdict(list)
        for piece in by_kind[Piece]:
            self.pieces[piece.version].append(piece)
        self.newest = {number: max(version.number for version in self.versions.values() if version.space == number)
                       for number in self.spaces}
        self.test_references(by_kind[Piece])

    def test_references(self, pieces):
        """Looks at what the questions below rely on. The rest of the rules over all records is the program's to test."""
        found = [self.tables[part.cells.table] for part in [*pieces, *self.history, *self.touches, *self.marks, *self.locks]]
        found += [self.spaces[part.space] for part in [*self.savepoints, *self.history, *self.touches, *self.marks, *self.locks, *self.turns]]
        found += [self.spaces[space.parent] for space in self.spaces.values()]
        found += [self.rows[part.stamp] for part in [*pieces, *self.history] if not part.is_gone]
        stacked = [version for version in self.versions.values() if version.parent != NO_VERSION]
        found += [self.versions[version.parent] for version in stacked]
        # So each path has an end.
        if any(version.parent >= version.number for version in stacked):
            raise Damaged(0, "graph")

    # Workspaces and versions

    def children(self, space):
        return [other for other in self.spaces.values() if other.parent == space.number and other.number != LIVE]

    def savepoints_of(self, space):
        return [point for point in self.savepoints if point.space == space.number]

    def path(self, version):
        """The version, the one it stands under, and so on up."""
        found = []
        while version != NO_VERSION:
            found.append(version)
            version = self.versions[version].parent
        return found

    def own_path(self, space):
        """The versions that hold what the workspace changed since it was born or last took over its parent."""
        path = self.path(self.newest[space.number])
        return path[:path.index(space.base_version)] if space.base_version in path else path

    # Points, and what two of them have in common

    def point(self, name):
        """The point of a workspace, or of 'workspace, savepoint', or None. LATEST is what is newest."""
        for space in self.spaces.values():
            newest = Point(f"{space.name}, LATEST", space.number, space.log_length, space.rebases, self.newest[space.number])
            if name in (space.name, newest.name):
                return newest
            for point in self.savepoints_of(space):
                if name == f"{space.name}, {point.name}":
                    return Point(name, space.number, point.log_length, point.rebases, point.version)
        return None

    def climbed(self, point):
        """A point, and those that lie above it: each time what its workspace took of the parent, when it was born or last rebased."""
        found = [point]
        while found[-1].space != LIVE:
            last, parent = found[-1], self.spaces[found[-1].space].parent
            turn = next(turn for turn in self.turns if (turn.space, turn.rebase) == (last.space, last.rebases))
            version = next(version for version in self.path(last.version) if self.versions[version].space == parent)
            found.append(Point(self.spaces[parent].name, parent, turn.log_length, turn.rebases, version))
        return found

    def common(self, first, second):
        """The earlier of the two points that lie above these in the nearest workspace that is above both."""
        below = {point.space: point for point in self.climbed(second)}
        mine = next(point for point in self.climbed(first) if point.space in below)
        return min(mine, below[mine.space], key=lambda point: (point.log_length, point.rebases))

    def differences(self, first, second):
        """The longest periods on which one of two points differs from what they have in common, by table and key."""
        versions = [point.version for point in (self.common(first, second), first, second)]
        found = []
        for table in self.tables.values():
            keys = {row.key for version in versions for row in self.rows_seen(version, table)}
            for key in sorted(keys, key=in_order):
                found += self.stretches(table, key, versions, [], lambda begin, till, held: len({row and row.stamp for row in held}) > 1)
        return found

    # What a version holds

    def pieces_seen(self, version, table, key=None):
        """What is seen of a table, or of one key: each part of a piece that no nearer version covers."""
        covered, found = defaultdict(list), []
        for nearer in self.path(version):
            stored = [piece for piece in self.pieces[nearer]
                      if piece.cells.table == table.number and key in (None, piece.cells.key)]
            for piece in stored:
                parts = [piece.cells.period]
                for other in covered[piece.cells.key]:
                    parts = [left for part in parts for left in part.without(other)]
                found += [piece._replace(cells=piece.cells._replace(period=part)) for part in parts]
            for piece in stored:
                covered[piece.cells.key].append(piece.cells.period)
        return sorted(found, key=lambda piece: (in_order(piece.cells.key), piece.cells.period))

    def rows_seen(self, version, table, key=None):
        """The rows of a table in a version: pieces of one stamp that meet are one row."""
        found = []
        for piece in self.pieces_seen(version, table, key):
            _, key_seen, period = piece.cells
            if piece.is_gone:
                continue
            last = found[-1] if found else None
            if last and (last.key, last.stamp, last.period.till) == (key_seen, piece.stamp, period.begin):
                found[-1] = last._replace(period=last.period._replace(till=period.till))
            else:
                found.append(Shown(key_seen, period, piece.stamp, self.rows[piece.stamp]))
        return found

    def rows_of(self, space, table, key=None):
        """What stands in a workspace now."""
        return self.rows_seen(self.newest[space.number], table, key)

    # Who changed what

    def history_of(self, space):
        """The entries of a workspace's log that are kept, which are those of tables with history."""
        return [entry for entry in self.history if entry.space == space.number]

    def touches_of(self, space):
        return [touch for touch in self.touches if touch.space == space.number]

    def own_cells(self, space):
        """The cells that the workspace changed, or that were merged into it, and that it did not merge."""
        return [piece.cells for version in self.own_path(space) for piece in self.pieces[version]]

    def news(self, space):
        """What the parent changed since the workspace last looked at its parent, as touches."""
        touches = self.touches_of(self.spaces[space.parent])
        return [touch for touch in touches if touch.position >= space.parent_log_length]

    def pending(self, space):
        """The same as cells."""
        return [touch.cells for touch in self.news(space)]

    def changes_since(self, space):
        """How many entries the parent's log has got since then."""
        return max(0, self.spaces[space.parent].log_length - space.parent_log_length)

    def last_stamps(self, table):
        """The stamp of the last change of each key of a table, in any workspace. A version that a rollback left is on no path."""
        found = {}
        versions = {version for newest in self.newest.values() for version in self.path(newest)}
        for piece in (piece for version in versions for piece in self.pieces[version] if piece.cells.table == table.number):
            found[piece.cells.key] = max(piece.stamp, found.get(piece.cells.key, 0))
        return found

    # What will conflict

    def conflicts(self, space):
        """The longest periods that the workspace and its parent both changed since they last met, by table and key, but those that
        are settled."""
        if space.number not in self.found:
            self.found[space.number] = self.find_conflicts(space) if space.number != LIVE else []
        return self.found[space.number]

    def marks_of(self, space):
        return [mark for mark in self.marks if mark.space == space.number]

    def unsettled(self, space):
        """The cells that the parent changed since the workspace last looked at its parent, and behind what was settled of them."""
        marks = defaultdict(list)
        for mark in self.marks_of(space):
            marks[mark.cells.table, mark.cells.key].append(mark)
        found = []
        for touch in self.news(space):
            parts = [touch.cells.period]
            for mark in marks[touch.cells.table, touch.cells.key]:
                if touch.position < mark.position:
                    parts = [left for part in parts for left in part.without(mark.cells.period)]
            found += [touch.cells._replace(period=part) for part in parts]
        return found

    def settled(self, space):
        """What was settled and is in no conflict again: for each key, by table, the longest periods."""
        settled = defaultdict(list)
        for mark in self.marks_of(space):
            settled[mark.cells.table, mark.cells.key].append(mark.cells.period)
        for conflict in self.conflicts(space):
            cell = conflict.table.number, conflict.key
            settled[cell] = [left for period in settled[cell] for left in period.without(conflict.period)]
        return [(self.tables[table], key, joined(periods)) for (table, key), periods in
                sorted(settled.items(), key=lambda item: (item[0][0], in_order(item[0][1]))) if periods]

    def find_conflicts(self, space):
        touched = defaultdict(list)
        for cells in self.unsettled(space):
            touched[cells.table, cells.key].append(cells.period)
        shared = defaultdict(list)
        for cells in self.own_cells(space):
            for period in touched[cells.table, cells.key]:
                part = cells.period.overlap(period)
                shared[cells.table, cells.key] += [part] if part else []
        found = []
        versions = [space.base_version, self.newest[space.parent], self.newest[space.number]]
        for table, key in sorted((cell for cell in shared if shared[cell]), key=lambda cell: (cell[0], in_order(cell[1]))):
            periods = shared[table, key]
            found += self.stretches(self.tables[table], key, versions, periods, lambda begin, till, held: any(
                period.begin <= begin and till <= period.till for period in periods))
        return found

    def stretches(self, table, key, versions, periods, is_wanted):
        """What of one key is wanted: cut at the ends of periods and where one of three sides changes, and joined where none does."""
        sides = [self.rows_seen(version, table, key) for version in versions]
        ends = {end for period in periods for end in period} | {end for rows in sides for row in rows for end in row.period}
        found = []
        for begin, till in zip(sorted(ends), sorted(ends)[1:]):
            held = [next((row for row in rows if row.period.begin <= begin < row.period.till), None) for rows in sides]
            if not is_wanted(begin, till, held):
                continue
            stretch = Conflict(table, key, Period(begin, till), *held)
            last = found[-1] if found else None
            if last and last.period.till == begin and stamps(last) == stamps(stretch):
                found[-1] = last._replace(period=last.period._replace(till=till))
            else:
                found.append(stretch)
        return found


def joined(periods):
    """The longest periods that some periods cover together."""
    found = []
    for period in sorted(periods):
        if found and period.begin <= found[-1].till:
            found[-1] = found[-1]._replace(till=max(found[-1].till, period.till))
        else:
            found.append(period)
    return found


def stamps(conflict):
    return [row and row.stamp for row in (conflict.base, conflict.parent, conflict.child)]


def opened(path):
    """The store in a file, which is only read. What is read while a run changes it may not fit together: then again.
    What is read twice the same is what the file holds."""
    before = None
    while True:
        data = Path(path).read_bytes()
        try:
            return Store(Pages(data))
        except Damaged:
            if data == before:
                raise
        before = data
