"""Locks: what they bar, how they are made, and how they go."""
from calls import folded
from lists import Lock, rows_of
from refusals import refuse
from values import printed

MODES = [b"E", b"S", b"WE", b"VE"]


class Locks:
    """The part of the reference that locks rows."""

    def bars(self, lock, holder, workspace, user):
        """Whether a lock that was set in one workspace bars what a user changes in it or in another."""
        is_other, is_parent = user != lock.user, holder.parent == workspace.number
        return {b"E": holder is workspace and is_other or is_parent, b"S": is_parent, b"WE": holder is workspace and is_other,
                b"VE": is_other}[lock.mode]

    def test_locks(self, workspace, user, cells, free=None):
        """Refuses what a user changes or locks in a workspace where a lock bars it; those of one workspace may be left out. Told is the first
        by table, key, time, workspace and making."""
        tables, found = list(self.tables), []
        for name, holder in self.workspaces.items():
            found += [((tables.index(lock.table), lock.key, lock.period.start, holder.number, making), name, lock)
                      for making, lock in enumerate(holder.locks) if holder is not free and self.bars(lock, holder, workspace, user)
                      and any((lock.table, lock.key) == (table, key) and lock.period.overlaps(period) for table, key, period in cells)]
        if found:
            _, name, lock = min(found, key=lambda one: one[0])
            refuse("WM-050 locked", printed(name), lock.user, lock.mode, printed(lock.key),
                   *[printed(lock.period)] * self.tables[lock.table].has_periods)

    def lock(self, workspace, mode, user, cells):
        """Locks cells, each where no lock of the same user and mode lay there before the line. How many locks there are more."""
        news = []
        for table, key, period in cells:
            held = [lock.period for lock in workspace.locks if (lock.table, lock.key, lock.mode, lock.user) == (table, key, mode, user)]
            news += [Lock(table, key, part, mode, user, workspace.place) for part in period.beside(held)]
        workspace.locks = workspace.locks + news
        return len(news)

    def set_locking_on(self, session, tree, given):
        self.test_arguments(tree, ["LOCKMODE"], LOCKMODE=MODES)
        session.locking = folded(given["LOCKMODE"])
        return [], "OK"

    def set_locking_off(self, session, tree, given):
        session.locking = None
        return [], "OK"

    def lock_rows(self, session, tree, given):
        table, meets = self.conditioned(tree, given, ["WORKSPACE", "TABLE_NAME"], LOCK_MODE=MODES)
        workspace = self.written(session, given["WORKSPACE"])
        mode, window = given.get("LOCK_MODE"), self.window(session, table)
        keys = workspace.content.get(table.name, {})
        cells = [(table.name, key, period.shared(window)) for key in sorted(keys) if meets(key)
                 for period, _ in rows_of(keys[key]) if period.overlaps(window)]
        self.test_locks(workspace, session.user, cells)
        if made := self.lock(workspace, b"E" if mode is None else folded(mode), session.user, cells):
            self.changed(made)
        return [], f"DONE {len(cells)}"

    def unlock_rows(self, session, tree, given):
        table, meets = self.conditioned(tree, given, ["WORKSPACE", "TABLE_NAME"])
        workspace = self.written(session, given["WORKSPACE"])
        gone = [lock for lock in workspace.locks if (lock.table, lock.user) == (table.name, session.user) and meets(lock.key)]
        if gone:
            workspace.locks = [lock for lock in workspace.locks if lock not in gone]
            self.changed()
        return [], f"DONE {len(gone)}"

    def written(self, session, name):
        """The workspace of a name, in which this session may change rows."""
        workspace = self.workspace(name)
        self.test_periods()
        self.test_frozen(session, name, "write")
        return workspace

    def locked(self, table):
        """The rows of the view of a table's locks."""
        found = [((lock.key, lock.period.start, workspace.number), name, lock) for name, workspace in self.workspaces.items()
                 for lock in workspace.locks if lock.table == table.name]
        for _, name, lock in sorted(found, key=lambda one: one[0]):
            yield lock.key, *[lock.period] * table.has_periods, name, lock.mode, lock.user.encode()
