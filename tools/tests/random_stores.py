"""Random scripts that make workspaces, savepoints and rows over periods, refresh, merge, resolve, go back, remove and freeze, and are mostly
accepted."""
import random

# Whether a table has valid time, and its history.
TABLES = {"PLOT": (True, "VIEW_WO_OVERWRITE"), "TAX": (False, "NONE"), "DEED": (True, "NONE")}
ENDS = ["DATE '2020-01-01'", "DATE '2020-03-01'", "TIMESTAMP '2020-05-01 12:00:00'", "DATE '2020-09-01'", "DATE '2021-01-01'",
        "DBMS_WM.UNTIL_CHANGED"]
MODES = ["NO_ACCESS", "READ_ONLY", "1WRITER", "WM_ONLY", "1WRITER_SESSION"]
# What a merge is asked for besides: a savepoint before it, and the removal of the workspace behind it.
BESIDES = ["", "", "", ", TRUE", ", FALSE, TRUE", ", TRUE, TRUE"]


class Writer:
    """The lines of one script."""

    def __init__(self, seed):
        self.random = random.Random(seed)
        self.workspaces, self.points, self.day = ["LIVE"], [], 1  # each savepoint with its workspace
        self.lines = ["CONNECT A ANN", "CONNECT B BEN"]
        for table, (is_valid, history) in TABLES.items():
            self.lines.append(f"A: CREATE TABLE {table} (ID NUMBER PRIMARY KEY, X NUMBER, NOTE VARCHAR2(20))")
            self.lines.append(f"A: EXECUTE DBMS_WM.EnableVersioning('{table}', '{history}', FALSE, {str(is_valid).upper()})")

    def period(self):
        begin, till = sorted(self.random.sample(range(len(ENDS)), 2))
        return f"{ENDS[begin]}, {ENDS[till]}"

    def condition(self):
        return self.random.choice(["", " WHERE ID = {}".format(self.random.randrange(6)), " WHERE X > 5", " WHERE NOTE IS NULL"])

    def line(self):
        if len(self.workspaces) > 1 and self.random.random() < 0.08:
            return self.resolve_lines(self.random.choice("AB"))
        pick, session = self.random.random(), self.random.choice("AB")
        table, number = self.random.choice(list(TABLES)), self.random.randrange(6)
        if pick < 0.26:
            note = self.random.choice(["NULL", f"'it is {session}'"])
            return f"{session}: INSERT INTO {table} VALUES ({number}, {self.random.randrange(10)}, {note})"
        if pick < 0.46:
            return f"{session}: UPDATE {table} SET X = {self.random.randrange(10)}, NOTE = NULL{self.condition()}"
        if pick < 0.52:
            return f"{session}: UPDATE PLOT SET WM_VALID = WM_PERIOD({self.period()}) WHERE ID = {number}"
        if pick < 0.58:
            return f"{session}: DELETE FROM {table}{self.condition()}"
        if pick < 0.78:
            return self.standing_line(pick, session)
        return self.workspace_line(pick, session)

    def standing_line(self, pick, session):
        """A line on the period of the session, on where it stands, or on the moment."""
        if pick < 0.66:
            return f"{session}: EXECUTE DBMS_WM.SetValidTime({self.period()})"
        if pick < 0.74:
            return f"{session}: EXECUTE DBMS_WM.GotoWorkspace('{self.random.choice(self.workspaces)}')"
        if pick < 0.76 and self.points:
            return f"{session}: EXECUTE DBMS_WM.GotoSavepoint('{self.random.choice(self.points)[1]}')"
        self.day = min(self.day + 1, 28)
        return f"AT DATE '2024-02-{self.day:02}'"

    def workspace_line(self, pick, session):
        """A line on a workspace as a whole."""
        workspace = self.random.choice(self.workspaces[1:] or self.workspaces)
        if pick < 0.83:
            self.workspaces.append(f"W{len(self.workspaces)}")
            return f"{session}: EXECUTE DBMS_WM.CreateWorkspace('{self.workspaces[-1]}')"
        if pick < 0.87:
            self.points.append((self.random.choice(self.workspaces), f"P{len(self.points)}"))
            return f"{session}: EXECUTE DBMS_WM.CreateSavepoint('{self.points[-1][0]}', '{self.points[-1][1]}')"
        if pick < 0.90 and self.points:
            workspace, point = self.random.choice(self.points)
            return f"{session}: EXECUTE DBMS_WM.RollbackToSP('{workspace}', '{point}')"
        if pick < 0.91:
            return f"{session}: EXECUTE DBMS_WM.RemoveWorkspace('{workspace}')"
        if pick < 0.92:
            return self.lock_line(session)
        if pick < 0.95:
            return f"{session}: EXECUTE DBMS_WM.RefreshWorkspace('{workspace}')"
        return f"{session}: EXECUTE DBMS_WM.MergeWorkspace('{workspace}'{self.random.choice(BESIDES)})"

    def lock_line(self, session):
        """A line on locks, most of which bar nobody but the other user in one workspace."""
        workspace, table = self.random.choice(self.workspaces), self.random.choice(list(TABLES))
        mode = self.random.choice(["WE", "WE", "WE", "VE", "S", "E"])
        return f"{session}: EXECUTE DBMS_WM." + self.random.choice([
            f"LockRows('{workspace}', '{table}', 'ID = {self.random.randrange(6)}', '{mode}')", f"UnlockRows('{workspace}', '{table}')",
            f"SetLockingON('{mode}')\n{session}: UPDATE {table} SET X = 0 WHERE ID < 2\n{session}: EXECUTE DBMS_WM.SetLockingOFF"])

    def resolve_lines(self, session):
        """A resolve of a workspace, with a decision on most tables. Now and then it stays open, or is given up."""
        workspace = self.random.choice(self.workspaces[1:])
        lines = [f"{session}: EXECUTE DBMS_WM.BeginResolve('{workspace}')"]
        for table in TABLES:
            clause = self.random.choice(["", "", "ID > {}", "ID = {}"]).format(self.random.randrange(6))
            keep = self.random.choice(["PARENT", "CHILD", "CHILD", "BASE"])
            lines.append(f"{session}: EXECUTE DBMS_WM.ResolveConflicts('{workspace}', '{table}', '{clause}', '{keep}')")
        word = self.random.choice(["Commit"] * 8 + ["Rollback"])
        return "\n".join(lines + [f"{session}: EXECUTE DBMS_WM.{word}Resolve('{workspace}')"] * (self.random.random() < 0.9))

    def freeze_line(self):
        """A line at the end, for what is frozen bars most others."""
        workspace, mode = self.random.choice(self.workspaces), self.random.choice(MODES)
        return f"{self.random.choice('AB')}: EXECUTE DBMS_WM.FreezeWorkspace('{workspace}', '{mode}', 'BEN')"

    def script(self, length):
        self.lines += [self.line() for _ in range(length)]
        # What is settled stands in the store until the next merge.
        self.lines += [self.resolve_lines("A") for _ in range(2 * (len(self.workspaces) > 1))]
        self.lines += [self.freeze_line() for _ in range(self.random.choice([0, 1, 3]))]
        return "".join(line + "\n" for line in self.lines).encode()
