"""What each call of DBMS_WM does but those that merge and resolve."""
from dataclasses import replace

from lists import copied, over
from refusals import first_of, refuse
from scopes import Scope, names_of
from state import Savepoint, Workspace
from values import END, Instant, Period, printed


class Calls:
    """The part of the reference that runs calls."""

    def call(self, session, tree):
        given = {parameter: constant.value for parameter, constant in tree.given.items()}
        return {"ENABLEVERSIONING": self.enable_versioning, "CREATEWORKSPACE": self.create_workspace,
                "CREATESAVEPOINT": self.create_savepoint, "GOTOWORKSPACE": self.goto_workspace,
                "GOTOSAVEPOINT": self.goto_savepoint, "SETVALIDTIME": self.set_valid_time, "ROLLBACKTOSP": self.rollback_to_savepoint,
                "REMOVEWORKSPACE": self.remove_workspace, "REFRESHWORKSPACE": self.refresh_workspace,
                "MERGEWORKSPACE": self.merge_workspace, "SETCONFLICTWORKSPACE": self.set_conflict_workspace,
                "BEGINRESOLVE": self.begin_resolve, "RESOLVECONFLICTS": self.resolve_conflicts, "COMMITRESOLVE": self.commit_resolve,
                "ROLLBACKRESOLVE": self.rollback_resolve, "FREEZEWORKSPACE": self.freeze_workspace,
                "UNFREEZEWORKSPACE": self.unfreeze_workspace, "SETLOCKINGON": self.set_locking_on, "SETLOCKINGOFF": self.set_locking_off,
                "LOCKROWS": self.lock_rows, "UNLOCKROWS": self.unlock_rows, "GOTODATE": self.goto_date,
                "SETDIFFVERSIONS": self.set_diff_versions}[tree.procedure](session, tree, given)

    def test_arguments(self, tree, needed, bad_marks=(), **kinds):
        """Refuses the first argument that does not fit; 'kinds' tells for each parameter its kind, or the values it takes. The marks of a
        condition whose operands do not go together stand where the condition does."""
        for parameter, constant in tree.given.items():
            wanted = kinds[parameter]
            if constant.kind == "null":
                is_good = parameter not in needed or parameter == "WHERE_CLAUSE"
            elif isinstance(wanted, str):
                is_good = constant.kind == wanted
            else:
                is_good = any(folded(constant.value) == value and type(constant.value) is type(value) for value in wanted)
            if not is_good:
                refuse("WM-013 type", parameter)
            if parameter == "WHERE_CLAUSE" and bad_marks:
                refuse("WM-013 type", first_of(bad_marks))
        for parameter in needed:
            if parameter not in tree.given:
                refuse("WM-013 type", parameter)

    def conditioned(self, tree, given, needed, **kinds):
        """The table that a call names, and whether its condition is true of a key. Refuses what is wrong with them and with other arguments."""
        name, table, scope, bad_marks = folded(given.get("TABLE_NAME")), None, None, []
        if isinstance(name, bytes):
            [table] = self.used([name.decode("utf-8", "surrogateescape")])
            scope = Scope([(table.name, table)])
            if bad := [(one.at, one.name) for one in names_of(tree.condition) if not self.is_key(table, one)]:
                refuse("WM-012 no column", first_of(bad))
            bad_marks = scope.bad_kinds(tree.condition)
        self.test_arguments(tree, needed, bad_marks, WORKSPACE="text", TABLE_NAME="text", WHERE_CLAUSE="text", **kinds)
        return table, lambda key: scope.truth(tree.condition, table.keyed(key, None)) is True

    def is_key(self, table, name):
        """Whether a name in the condition of a call is a key column of its table."""
        return name.source in (None, table.name) and name.name == table.columns[table.key].name

    def enable_versioning(self, session, tree, given):
        name, table = folded(given.get("TABLE_NAME")), None
        if isinstance(name, bytes):
            if len(name) > 25:
                refuse("WM-016 bad name 25")
            table = self.tables.get(name.decode())
            if table is None:
                refuse("WM-010 no table", name)
            if table.is_versioned:
                refuse("WM-019 versioning", table.name, "on")
        self.test_arguments(tree, ["TABLE_NAME"], TABLE_NAME="text", HIST=[b"NONE", b"VIEW_WO_OVERWRITE"],
                            ISTOPOLOGY=[False], VALIDTIME="boolean")
        if table.key is None:
            refuse("WM-015 no primary key", table.name)
        table.is_versioned, table.has_periods = True, bool(given.get("VALIDTIME"))
        table.has_history = folded(given.get("HIST")) == b"VIEW_WO_OVERWRITE"
        self.changed()
        return [], "OK"

    def create_workspace(self, session, tree, given):
        name = given.get("WORKSPACE")
        self.test_new_name(name)
        if name in (b"BASE", b"DiffBase"):
            refuse("WM-024 reserved", printed(name))
        self.test_arguments(tree, ["WORKSPACE"], WORKSPACE="text", ISREFRESHED=[False], DESCRIPTION="text")
        if name in self.workspaces:
            refuse("WM-021 workspace exists", printed(name))
        if session.date is not None:
            refuse("WM-030 not at LATEST")
        self.test_frozen(session, session.workspace, "manage")
        if len(self.workspaces) == self.MOST_WORKSPACES:
            refuse("WM-071 workspaces", self.MOST_WORKSPACES)
        parent = self.workspaces[session.workspace]
        self.test_room(parent)
        point = self.kept(parent) if session.savepoint is None else replace(parent.savepoints[session.savepoint])
        self.keep_implicitly(parent, point)
        number = 1 + max(workspace.number for workspace in self.workspaces.values())
        self.workspaces[name] = Workspace(number, parent.number, self.moment, point.place, point.log_length, point.content, point.content,
                                          copied(point.content), turns=[(point.log_length, point.rebases)])
        self.changed()
        return [], "OK"

    def test_room(self, workspace):
        if len(workspace.savepoints) == self.MOST_SAVEPOINTS:
            refuse("WM-072 savepoints", self.MOST_SAVEPOINTS)

    def kept(self, workspace):
        """A savepoint of what is newest, at a new place."""
        workspace.place += 1
        return Savepoint(workspace.place, self.moment, copied(workspace.content), workspace.own, len(workspace.log), workspace.rebases,
                         workspace.settled)

    def keep_implicitly(self, workspace, point):
        workspace.implicit += 1
        workspace.savepoints[b"ICP-%d" % workspace.implicit] = point

    def test_new_name(self, name):
        if isinstance(name, bytes) and not (1 <= len(name) <= 30 and all(0x20 <= byte <= 0x7E for byte in name)):
            refuse("WM-016 bad name 30")

    def create_savepoint(self, session, tree, given):
        name = given.get("SAVEPOINT_NAME")
        self.test_new_name(name)
        if isinstance(name, bytes) and (name == b"LATEST" or name.startswith(b"ICP-")):
            refuse("WM-024 reserved", printed(name))
        self.test_arguments(tree, ["WORKSPACE", "SAVEPOINT_NAME"], WORKSPACE="text", SAVEPOINT_NAME="text", DESCRIPTION="text")
        workspace = self.workspace(given["WORKSPACE"])
        if name in workspace.savepoints:
            refuse("WM-023 savepoint exists", printed(name))
        self.test_frozen(session, given["WORKSPACE"], "manage")
        self.test_room(workspace)
        workspace.savepoints[name] = self.kept(workspace)
        self.changed()
        return [], "OK"

    def workspace(self, name):
        if name not in self.workspaces:
            refuse("WM-020 no workspace", printed(name))
        return self.workspaces[name]

    def goto_workspace(self, session, tree, given):
        self.test_arguments(tree, ["WORKSPACE"], WORKSPACE="text")
        self.workspace(given["WORKSPACE"])
        self.test_frozen(session, given["WORKSPACE"], "enter")
        session.workspace, session.savepoint, session.date = given["WORKSPACE"], None, None
        return [], "OK"

    def set_conflict_workspace(self, session, tree, given):
        self.test_arguments(tree, ["WORKSPACE"], WORKSPACE="text")
        self.workspace(given["WORKSPACE"])
        session.conflict = given["WORKSPACE"]
        return [], "OK"

    def goto_savepoint(self, session, tree, given):
        self.test_arguments(tree, [], SAVEPOINT_NAME="text")
        name = given.get("SAVEPOINT_NAME") or b"LATEST"
        if name != b"LATEST" and name not in self.workspaces[session.workspace].savepoints:
            refuse("WM-022 no savepoint", printed(name))
        session.savepoint, session.date = None if name == b"LATEST" else name, None
        return [], "OK"

    def rollback_to_savepoint(self, session, tree, given):
        name = given.get("SAVEPOINT_NAME")
        if name == b"LATEST":
            refuse("WM-024 reserved", printed(name))
        self.test_arguments(tree, ["WORKSPACE", "SAVEPOINT_NAME"], WORKSPACE="text", SAVEPOINT_NAME="text")
        workspace = self.workspace(given["WORKSPACE"])
        if name not in workspace.savepoints:
            refuse("WM-022 no savepoint", printed(name))
        self.test_frozen(session, given["WORKSPACE"], "manage")
        point = workspace.savepoints[name]
        later = {other for other, it in workspace.savepoints.items() if it.place > point.place}
        self.test_inside(given["WORKSPACE"], lambda savepoint: savepoint in later)
        self.test_child("WM-045 dependent child", workspace,
                        lambda child: child.birth_place > point.place or max(self.positions(child)) > point.log_length)
        if workspace.rebases > point.rebases:
            refuse("WM-046 rebased since", printed(name))
        self.test_resolve(given["WORKSPACE"])
        locks = [lock for lock in workspace.locks if lock.place < point.place]
        if later or len(workspace.log) > point.log_length or workspace.settled != point.settled or locks != workspace.locks:
            workspace.own, workspace.log, workspace.settled = point.own, workspace.log[:point.log_length], point.settled
            workspace.content = over(workspace.base, workspace.own)
            workspace.savepoints = {other: it for other, it in workspace.savepoints.items() if other not in later}
            workspace.locks = locks
            self.changed()
        return [], "OK"

    def remove_workspace(self, session, tree, given):
        self.test_arguments(tree, ["WORKSPACE"], WORKSPACE="text")
        name = given["WORKSPACE"]
        self.child(name)
        self.test_frozen(session, name, "manage")
        self.test_removal(name)
        self.test_resolve(name)
        self.drop(name)
        self.changed()
        return [], "OK"

    def child(self, name):
        """The workspace of a name, which has a parent."""
        workspace = self.workspace(name)
        if workspace.parent is None:
            refuse("WM-025 no parent", printed(name))
        return workspace

    def test_removal(self, name):
        self.test_inside(name, lambda savepoint: True)
        self.test_child(f"WM-044 has child {printed(name).decode()}", self.workspaces[name], lambda child: True)

    def test_inside(self, name, is_in_the_way):
        """Refuses the first session, by CONNECT, that stands in a workspace where it is in the way."""
        for session, other in self.sessions.items():
            if other.workspace == name and is_in_the_way(other.savepoint):
                refuse("WM-043 session inside", printed(name), session)

    def test_child(self, text, workspace, is_in_the_way):
        """Refuses the child of the least number that is in the way."""
        children = {child.number: name for name, child in self.workspaces.items() if child.parent == workspace.number and is_in_the_way(child)}
        if children:
            refuse(text, printed(children[min(children)]))

    def set_valid_time(self, session, tree, given):
        self.test_arguments(tree, ["VALIDFROM"] if tree.given else [], VALIDFROM="time", VALIDTILL="time")
        period = None
        if tree.given:
            till = given.get("VALIDTILL")
            period = Period(given["VALIDFROM"], Instant(END) if till is None else till)
            if period.start >= period.till:
                refuse("WM-033 empty period")
        session.period = period
        return [], "OK"


def folded(value):
    return value.upper() if isinstance(value, bytes) else value
