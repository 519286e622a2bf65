"""What is frozen, in which mode and for whom, and what that bars."""
from calls import folded
from refusals import refuse
from values import printed

ALL, NONE, HOLDER = "all", "none", "holder"
# Of each mode who may still go there, change rows, and do what else is done to a workspace.
MODES = {
    b"NO_ACCESS": {"enter": NONE, "write": NONE, "manage": NONE},
    b"READ_ONLY": {"enter": ALL, "write": NONE, "manage": NONE},
    b"1WRITER": {"enter": ALL, "write": HOLDER, "manage": HOLDER},
    b"1WRITER_SESSION": {"enter": ALL, "write": HOLDER, "manage": HOLDER},
    b"WM_ONLY": {"enter": ALL, "write": NONE, "manage": ALL},
}
OF_LIVE = (b"READ_ONLY", b"1WRITER")  # the modes that LIVE takes


class Freezes:
    """The part of the reference that freezes workspaces."""

    def frozen(self, name):
        """The mode in which a workspace is frozen, or None."""
        is_held = any(name in session.freezes for session in self.sessions.values())
        return b"1WRITER_SESSION" if is_held else self.workspaces[name].freeze

    def may(self, session, name, act):
        """Whether a session may do something in a workspace or to it."""
        mode = self.frozen(name)
        who = MODES[mode][act] if mode else ALL
        holds = name in session.freezes if mode == b"1WRITER_SESSION" else session.user == self.workspaces[name].writer
        return who == ALL or who == HOLDER and holds

    def test_frozen(self, session, name, act):
        if not self.may(session, name, act):
            refuse("WM-040 frozen", printed(name), self.frozen(name))

    def freeze_workspace(self, session, tree, given):
        name, mode, writer = (given.get(parameter) for parameter in ("WORKSPACE", "FREEZEMODE", "FREEZEWRITER"))
        mode = b"NO_ACCESS" if mode is None else folded(mode)
        self.test_new_name(writer)
        if name == b"LIVE" and mode in MODES and mode not in OF_LIVE:
            refuse("WM-024 reserved", printed(name))
        self.test_arguments(tree, ["WORKSPACE"], WORKSPACE="text", FREEZEMODE=list(MODES), FREEZEWRITER="text")
        workspace = self.workspace(name)
        if self.frozen(name):
            refuse("WM-041 already frozen", printed(name))
        if mode == b"NO_ACCESS":
            self.test_inside(name, lambda savepoint: True)
        if mode == b"1WRITER_SESSION":
            session.freezes.add(name)
        else:
            workspace.freeze, workspace.writer = mode, session.user if writer is None else folded(writer).decode()
            self.changed()
        return [], "OK"

    def unfreeze_workspace(self, session, tree, given):
        self.test_arguments(tree, ["WORKSPACE"], WORKSPACE="text")
        workspace = self.workspace(given["WORKSPACE"])
        if not self.frozen(given["WORKSPACE"]):
            refuse("WM-042 not frozen", printed(given["WORKSPACE"]))
        if workspace.freeze:
            workspace.freeze = None
            self.changed()
        for other in self.sessions.values():
            other.freezes.discard(given["WORKSPACE"])
        return [], "OK"

    def drop(self, name):
        """A workspace goes, and what it is frozen by with it."""
        del self.workspaces[name]
        for session in self.sessions.values():
            session.freezes.discard(name)
