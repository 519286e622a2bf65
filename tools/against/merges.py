"""What refreshes, merges and resolves do, and what bars them."""
from dataclasses import replace

from calls import folded
from lists import Decision, Mark, conflicts, entries_of, joined, net, outside, over, within
from refusals import refuse
from values import printed


class Merges:
    """The part of the reference that brings a workspace and its parent together."""

    def parent_of(self, workspace):
        return self.workspaces[self.above(workspace)]

    def above(self, workspace):
        """The name of the parent of a workspace."""
        return next(name for name, other in self.workspaces.items() if other.number == workspace.parent)

    def replayed(self, entries, session):
        """Entries keep their rows, stamps and kinds, and take the moment and the user of the line."""
        return [replace(entry, moment=self.moment, user=session.user) for entry in entries]

    def gained(self, workspace, session):
        """What a rebase brings: what was changed in the parent since, where the workspace changed nothing."""
        pending = self.parent_of(workspace).log[workspace.log_from:]
        return self.replayed(outside(net(pending, self.tables), workspace.own), session)

    def conflicts(self, workspace, table):
        """The conflicts of a workspace with its parent in a table."""
        parent = self.parent_of(workspace)
        news = list(enumerate(parent.log))[workspace.log_from:]
        return conflicts(workspace.own, news, workspace.settled, [workspace.base, parent.content, workspace.content], table)

    def first_conflict(self, workspace):
        """The first conflict as its table, its key and its period; or None."""
        return next(((table, key, period) for table in self.tables for key, period, _ in self.conflicts(workspace, table)), None)

    def test_conflict(self, workspace):
        conflict = self.first_conflict(workspace)
        if conflict is not None:
            table, key, period = conflict
            refuse("WM-051 conflict", table, printed(key), *[printed(period)] * self.tables[table].has_periods)

    def refresh_workspace(self, session, tree, given):
        self.test_arguments(tree, ["WORKSPACE"], WORKSPACE="text")
        workspace = self.child(given["WORKSPACE"])
        self.test_frozen(session, given["WORKSPACE"], "manage")
        self.test_resolve(given["WORKSPACE"])
        self.test_conflict(workspace)
        parent = self.parent_of(workspace)
        if len(parent.log) > workspace.log_from:
            workspace.log = workspace.log + self.gained(workspace, session)
            workspace.rebase(parent)
            self.changed()
        return [], "OK"

    def merge_workspace(self, session, tree, given):
        self.test_arguments(tree, ["WORKSPACE"], WORKSPACE="text", CREATE_SAVEPOINT="boolean", REMOVE_WORKSPACE="boolean")
        name = given["WORKSPACE"]
        workspace, keeps, removes = self.child(name), given.get("CREATE_SAVEPOINT"), given.get("REMOVE_WORKSPACE")
        for one in (name, self.above(workspace)):
            self.test_frozen(session, one, "manage")
        if removes:
            self.test_removal(name)
        self.test_resolve(name)
        self.test_conflict(workspace)
        parent, brought = self.parent_of(workspace), net(workspace.own, self.tables)
        self.test_locks(parent, session.user, cells_of(brought), workspace)
        if keeps:
            self.test_room(parent)
            self.keep_implicitly(parent, self.kept(parent))
        is_rebased = workspace.own or len(parent.log) > workspace.log_from
        if is_rebased:
            gained = self.gained(workspace, session)
            parent.append(self.replayed(brought, session))
            workspace.log, workspace.own = workspace.log + gained, []
            workspace.rebase(parent)
        if removes:
            self.drop(name)
        if keeps or removes or is_rebased or workspace.locks:
            self.changed()
        workspace.locks = []
        return [], "OK"

    def positions(self, child):
        """The positions of the parent's log that a child rests on."""
        marks = [mark for keys in child.settled.values() for marks in keys.values() for mark in marks]
        staged = [one for other in self.sessions.values() if other.resolve and self.workspaces[other.resolve] is child for one in other.decisions]
        return [child.log_from, *(one.position for one in marks + staged)]

    # Resolves

    def test_resolve(self, name):
        """Refuses where a session has a resolve of the workspace open."""
        for session, other in self.sessions.items():
            if other.resolve == name:
                refuse("WM-052 resolve open", printed(name), session)

    def resolved(self, session, name):
        """The workspace of a name, of which this session has a resolve open."""
        workspace = self.workspace(name)
        self.test_periods()
        self.test_frozen(session, name, "manage")
        if session.resolve != name:
            refuse("WM-053 no resolve open", printed(name))
        return workspace

    def begin_resolve(self, session, tree, given):
        self.test_arguments(tree, ["WORKSPACE"], WORKSPACE="text")
        self.child(given["WORKSPACE"])
        self.test_frozen(session, given["WORKSPACE"], "manage")
        self.test_resolve(given["WORKSPACE"])
        session.resolve, session.decisions = given["WORKSPACE"], []
        return [], "OK"

    def resolve_conflicts(self, session, tree, given):
        table, meets = self.conditioned(tree, given, ["WORKSPACE", "TABLE_NAME", "WHERE_CLAUSE", "KEEP"], KEEP=[b"PARENT", b"CHILD", b"BASE"])
        workspace = self.resolved(session, given["WORKSPACE"])
        parent, keep, count = self.parent_of(workspace), folded(given["KEEP"]), 0
        content = {b"PARENT": parent.content, b"CHILD": {}, b"BASE": workspace.base}[keep]
        for key, period, (base, _, _) in list(self.conflicts(workspace, table.name)):
            if meets(key) and (keep != b"BASE" or base is not None):
                copies = joined(within(entries_of(content, table.name, key), period))
                made = Decision(table.name, key, period, copies, len(parent.log))
                session.decisions = [part for old in session.decisions for part in old.beside(made)] + [made]
                count += 1
        return [], f"DONE {count}"

    def commit_resolve(self, session, tree, given):
        self.test_arguments(tree, ["WORKSPACE"], WORKSPACE="text")
        workspace, places = self.resolved(session, given["WORKSPACE"]), list(self.tables)
        decisions = sorted(session.decisions, key=lambda one: (places.index(one.table), one.key, one.period))
        copies = [entry for one in decisions for entry in one.copies]
        self.test_locks(workspace, session.user, cells_of(copies))
        if decisions:
            workspace.append(self.replayed(copies, session))
            workspace.settled = over(workspace.settled, [Mark(one.table, one.key, one.period, one.position) for one in decisions])
            self.changed()
        session.resolve, session.decisions = None, []
        return [], "OK"

    def rollback_resolve(self, session, tree, given):
        self.test_arguments(tree, ["WORKSPACE"], WORKSPACE="text")
        self.resolved(session, given["WORKSPACE"])
        session.resolve, session.decisions = None, []
        return [], "OK"


def cells_of(entries):
    return [(entry.table, entry.key, entry.period) for entry in entries]
