"""Random lines that are calls."""
from choices import ENDS, LONG_NAME, SAVEPOINTS, TABLES, WORKSPACES
from state import Session
from values import END, Instant, printed


class Spoken:
    """The part of the writer that makes calls."""

    def call(self, procedure, arguments, bad, session=None):
        """A call; 'bad' has arguments that may be put in."""
        if self.is_bad():
            bad = [*bad, "'x'", "nope => 1", "NULL", "TRUE", "- 1", "DATE '2020-01-01'", "WM_PERIOD ( SYSDATE , SYSDATE )"]
            arguments.insert(self.random.randrange(len(arguments) + 1), self.one(bad))
        if self.is_bad():
            arguments = arguments[:-1]
        brackets = f" ( {self.listed(arguments)} )" if arguments else self.one([" ( )", ""])
        if self.is_bad():
            procedure = self.one([procedure + "X", "CompressWorkspace", "SELECT", procedure.lower()])
        return self.said(f"{self.one(['EXECUTE', 'EXEC'])} DBMS_WM . {procedure}{brackets}", session)

    def named(self, parameter, argument):
        """An argument by place or by name."""
        return f"{parameter} => {argument}" if self.chance(0.1) else argument

    def enable(self):
        name = self.one([name for name, table in self.reference.tables.items() if not table.is_versioned] or self.reference.tables or TABLES)
        if self.is_bad(0.08):
            name = self.one(["NOPE", *self.reference.tables, LONG_NAME[:26], "BUD_CONF", "", "\u00e9"])
        arguments = [self.named("table_name", f"'{self.one([name, name.lower()])}'")]
        if self.is_bad():
            arguments = [self.one(["5", "NULL", "TRUE", "table_name => 'BUD'", "SYSDATE"])]
        if self.chance(0.3):
            arguments.append(self.one(["'NONE' , FALSE , TRUE", "validTime => TRUE", "'view_wo_overwrite' , NULL , TRUE"]))
        elif self.chance(0.3):
            arguments.append(self.one(["'NONE'", "'none'", "hist => 'VIEW_WO_OVERWRITE'", "NULL", "validTime => FALSE", "isTopology => FALSE",
                                       "'NONE' , FALSE , FALSE", "'view_wo_overwrite' , NULL"]))
        return self.call("EnableVersioning", arguments, ["'ALL'", "1", "isTopology => TRUE", "validTime => TRUE", "'NONE' , FALSE , TRUE",
                                                         "validTime => 'X'", "table_name => 'BUD'", "'NONE' , FALSE , FALSE , FALSE"])

    def workspace_name(self):
        if self.is_bad(0.08):
            return self.one(["'NOPE'", "'live'", "5", "NULL", "''", "FALSE", "SYSDATE"])
        return self.one([printed(name).decode() for name in self.reference.workspaces])

    def create_workspace(self):
        unused = [name for name in WORKSPACES if name.replace("''", "'").encode() not in self.reference.workspaces]
        name = "'" + self.one(unused or WORKSPACES) + "'"
        if self.is_bad(0.08):
            name = self.one(["'BASE'", "'DiffBase'", "'base'", "'LIVE'", "''", "5", f"'{LONG_NAME}'", "'\u00e9'", "'a\tb'", "NULL", "'W'"])
        arguments = [self.named("workspace", name)]
        if self.chance(0.3):
            arguments.append(self.one(["'words'", "FALSE", "FALSE , 'words'", "description => 'words'", "isrefreshed => FALSE", "NULL", "''",
                                       "NULL , NULL", "'' , 'words'", "'words' , isrefreshed => FALSE"]))
        return self.call("CreateWorkspace", arguments, ["TRUE", "isrefreshed => TRUE", "isrefreshed => 'd'", "'d' , 'd'", "5", "description => 5",
                                                        "description => TRUE , isrefreshed => TRUE", "workspace => 'W'"])

    def create_savepoint(self):
        name = self.one([f"'{name}'" for name in SAVEPOINTS])
        if self.is_bad(0.08):
            name = self.one(["'LATEST'", "'latest'", "'ICP-1'", "'ICP-'", "''", "5", f"'{LONG_NAME}'", "'\u00e9'", "NULL", "'S'"])
        arguments = [self.workspace_name(), self.named("savepoint_name", name)]
        if self.chance(0.2):
            arguments = self.one([[f"savepoint_name => {name}", f"workspace => {arguments[0]}"], [f"savepoint_name => {name}"],
                                  [*arguments, "description => 'words'"], [*arguments, "NULL"]])
        return self.call("CreateSavepoint", arguments, ["5", "description => 5", "workspace => 'LIVE'"])

    def goto_workspace(self):
        return self.call("GotoWorkspace", [self.named("workspace", self.workspace_name())], ["workspace => 'LIVE'", "5"])

    def goto_savepoint(self):
        session = self.one(list(self.reference.sessions.values()) or [Session("ANN")])
        names = [printed(name).decode() for name in self.reference.workspaces[session.workspace].savepoints]
        name = self.one([*names, "'LATEST'", "NULL", ""]) if self.chance(0.5) else self.one(["'LATEST'", ""])
        if self.is_bad(0.08):
            name = self.one(["'NOPE'", "'latest'", "5", "'S'", "'ICP-9'"])
        return self.call("GotoSavepoint", [self.named("savepoint_name", name)] if name else [], ["savepoint_name => 'S'", "TRUE"])

    def rollback(self):
        """To a savepoint, mostly of a workspace that has one, and most of the time one behind which there is something."""
        found = [(workspace, name) for workspace, its in self.reference.workspaces.items() for name in its.savepoints]
        undoing = {pair: self.likely(*pair) + 5 * (pair[0] != b"LIVE") for pair in found if self.undoes(*pair)}
        if not found or self.is_bad(0.06):
            workspace = self.workspace_name()
            name = self.one(["'LATEST'", "'LATEST'", "'latest'", "'NOPE'", "'ICP-9'", "''", "NULL", "5", "'S'", "'R'", f"'{LONG_NAME}'", "'\u00e9'"])
        else:
            workspace, name = (printed(text).decode() for text in (self.weighted(undoing) if undoing and self.chance(0.85) else self.one(found)))
        arguments = [workspace, self.named("savepoint_name", name)]
        if self.chance(0.06):
            arguments = self.one([[f"savepoint_name => {name}", f"workspace => {workspace}"], [f"savepoint_name => {name}"], [workspace]])
        return self.call("RollbackToSP", arguments, ["5", "workspace => 'LIVE'", "savepoint_name => 'LATEST'", "description => 'x'"])

    def later(self, workspace, name):
        """The savepoints of a workspace behind one of them."""
        points = self.reference.workspaces[workspace].savepoints
        return [other for other, it in points.items() if it.place > points[name].place]

    def undoes(self, workspace, name):
        its = self.reference.workspaces[workspace]
        point = its.savepoints[name]
        return (self.later(workspace, name) or len(its.log) > point.log_length or its.settled != point.settled
                or any(lock.place >= point.place for lock in its.locks))

    def likely(self, workspace, name):
        """How likely a rollback is tried: most likely one that neither a session, a child nor a rebase bars, and least one that a child bars."""
        its, later = self.reference.workspaces[workspace], self.later(workspace, name)
        point = its.savepoints[name]
        if any(session.workspace == workspace and session.savepoint in later for session in self.reference.sessions.values()):
            return 10
        children = [child for child in self.reference.workspaces.values() if child.parent == its.number]
        if any(child.birth_place > point.place for child in children):
            return 1
        bars = any(max(self.reference.positions(child)) > point.log_length for child in children)
        return 4 if its.rebases > point.rebases or bars else 10

    def remove(self):
        """A workspace that nothing keeps, or one that has children or sessions."""
        spaces, sessions = self.reference.workspaces, self.reference.sessions.values()
        parents = {its.parent for its in spaces.values()}
        likely = {name: 1 if any(session.workspace == name for session in sessions) else 4 if its.number in parents else 3
                  for name, its in spaces.items() if its.parent is not None}
        name = printed(self.weighted(likely)).decode() if likely and not self.is_bad(0.1) else self.workspace_name()
        return self.call("RemoveWorkspace", [self.named("workspace", name)], ["workspace => 'LIVE'", "5", "'W' , 'V'", "savepoint_name => 'S'"])

    def clash(self):
        """A change of a key that was changed in the workspace above or in one below since they last met."""
        spaces, found = self.reference.workspaces, []
        for session, its in self.reference.sessions.items():
            here = spaces[its.workspace]
            entries = [entry for child in spaces.values() if child.parent == here.number for entry in child.own]
            if here.parent is not None:
                entries += self.reference.parent_of(here).log[here.log_from:]
            if its.savepoint is None and its.date is None and entries:
                found.append((session, self.one(entries)))
        if not found:
            return self.update()
        session, entry = self.one(found)
        column, names = self.key_of(entry.table), self.namer([(entry.table, self.shown_of(entry.table))])
        where = f" WHERE {column.name} = {self.time(entry.key) if column.kind == 'time' else printed(entry.key).decode()}"
        others = [other for other in self.columns_of(entry.table) if other is not column]
        if not others or self.chance(0.3):
            return self.said(f"DELETE FROM {entry.table}{where}", session)
        other = self.one(others)
        return self.said(f"UPDATE {entry.table} SET {other.name} = {self.expression(other.kind, names)}{where}", session)

    def key_of(self, name):
        table = self.reference.tables[name]
        return table.columns[table.key]

    def child(self, of_own, of_pending, of_none):
        """A workspace below another, by what there is to merge and to bring, or one that is in conflict with its parent."""
        likely = {}
        for name, its in self.reference.workspaces.items():
            if its.parent is None:
                continue
            parent = self.reference.parent_of(its)
            pending = parent.log[its.log_from:]
            weight = of_own * bool(its.own) + of_pending * bool(pending) or of_none
            if its.own and pending and self.is_torn(name):
                weight = 8
            is_open = any(session.resolve == name for session in self.reference.sessions.values())
            likely[name] = weight * (0.2 if is_open else 1)
        return printed(self.weighted(likely)).decode() if likely and not self.is_bad(0.05) else self.workspace_name()

    def merge(self):
        if len(self.reference.workspaces) == 1 and not self.is_bad(0.05):
            return self.create_workspace()
        arguments = [self.named("workspace", self.child(8, 2, 1))]
        if self.chance(0.4):
            arguments.append(self.one([
                "TRUE", "FALSE", "create_savepoint => TRUE", "TRUE , TRUE", "FALSE , TRUE", "remove_workspace => TRUE", "remove_workspace => TRUE",
                "NULL , TRUE", "'' , NULL", "create_savepoint => TRUE , remove_workspace => TRUE",
                "remove_workspace => TRUE , create_savepoint => FALSE"]))
        return self.call("MergeWorkspace", arguments, ["'x'", "5", "create_savepoint => 5", "remove_workspace => 'TRUE'", "TRUE",
                                                       "workspace => 'LIVE'"])

    def refresh(self):
        if len(self.reference.workspaces) == 1 and not self.is_bad(0.05):
            return self.create_workspace()
        return self.call("RefreshWorkspace", [self.named("workspace", self.child(1, 8, 1))], ["workspace => 'LIVE'", "5", "'W' , 'V'", "TRUE"])

    def freeze(self):
        """Of a workspace in some mode, most likely of one that is not frozen."""
        likely = {name: 1 if self.reference.frozen(name) or its.parent is None else 4 for name, its in self.reference.workspaces.items()}
        name = printed(self.weighted(likely)).decode() if not self.is_bad(0.05) else self.workspace_name()
        mode = self.one(["'NO_ACCESS'", "'READ_ONLY'", "'1WRITER'", "'1WRITER'", "'1WRITER_SESSION'", "'1WRITER_SESSION'", "'WM_ONLY'", "'WM_ONLY'",
                         "'read_only'", "'1writer'", "'1Writer_Session'", "NULL", "''"])
        writer = self.one(["'ANN'", "'BEN'", "'KIM'", "'ben'", "'Ann'", "NULL", "''", "'no one'"])
        if self.is_bad(0.05):
            mode = self.one(["'FROZEN'", "' READ_ONLY'", "5", "TRUE", "'NONE'", "'1WRITERS'", "'E'"])
        if self.is_bad(0.05):
            writer = self.one([f"'{LONG_NAME}'", "'\u00e9'", "5", "FALSE", "SYSDATE"])
        arguments = [self.named("workspace", name), mode, writer][:self.weighted({1: 1, 2: 6, 3: 8 if "WRITER'" in mode.upper() else 2})]
        if self.chance(0.15):
            parameters = zip(["workspace", "freezemode", "freezewriter"], [name, mode, writer])
            arguments = [f"{parameter} => {argument}" for parameter, argument in parameters]
            self.random.shuffle(arguments)
            arguments = arguments if self.chance(0.6) else arguments[1:]
        return self.call("FreezeWorkspace", arguments, ["'E'", "workspace => 'LIVE'", "freezemode => 'WM_ONLY'", "freezewriter => 'ANN'", "TRUE"])

    def unfreeze(self):
        """Of a workspace, most likely of one that is frozen."""
        frozen = [name for name in self.reference.workspaces if self.reference.frozen(name)]
        name = printed(self.one(frozen)).decode() if frozen and not self.is_bad(0.15) else self.workspace_name()
        return self.call("UnfreezeWorkspace", [self.named("workspace", name)], ["workspace => 'LIVE'", "5", "'READ_ONLY'", "'W' , 'V'"])

    def set_locking(self):
        """Of a session, most likely one that stands where it may change rows."""
        if self.chance(0.3):
            return self.call("SetLockingOFF", [], ["'E'", "lockmode => 'E'", "NULL"])
        mode = self.one(["'E'", "'S'", "'WE'", "'VE'", "'VE'", "'e'", "'We'"])
        if self.is_bad(0.05):
            mode = self.one(["'X'", "NULL", "''", "5", "' E'", "'ES'", "TRUE"])
        return self.call("SetLockingON", [self.named("lockmode", mode)], ["'S'", "lockmode => 'E'", "5"])

    def lock_rows(self, workspace=None, session=None):
        """Rows of some keys of a table, most likely of one that has rows in the workspace."""
        workspace = workspace if workspace in self.reference.workspaces else self.one(list(self.reference.workspaces))
        held = self.reference.workspaces[workspace].content
        name = self.one(list(held)) if held and not self.is_bad(0.05) else self.table_name()
        arguments = [printed(workspace).decode() if not self.is_bad(0.04) else self.workspace_name(), f"'{self.one([name, name, name.lower()])}'",
                     self.quoted_clause(name, list(held.get(name, []))), self.one(["'E'", "'S'", "'S'", "'WE'", "'WE'", "'VE'", "'ve'", "NULL"])]
        if self.is_bad(0.04):
            arguments[3] = self.one(["'X'", "5", "TRUE", "' E'", "'NONE'"])
        arguments = self.by_name(["workspace", "table_name", "where_clause", "lock_mode"], arguments[:self.weighted({4: 9, 3: 1, 2: 1})])
        bad = ["5", "NULL", "''", "'E'", "'ID = 1'", "lock_mode => 'S'", "where_clause => NULL", "'BUD_LOCK'"]
        return self.call("LockRows", arguments, bad, session)

    def unlock_rows(self):
        """Rows of some keys of a table, most likely of one on which there are locks."""
        locks = [(workspace, lock) for workspace, its in self.reference.workspaces.items() for lock in its.locks]
        workspace, lock = self.one(locks) if locks else (b"LIVE", None)
        name = lock.table if lock and not self.is_bad(0.05) else self.table_name()
        keys = [other.key for _, other in locks if other.table == name]
        arguments = [printed(workspace).decode() if not self.is_bad(0.04) else self.workspace_name(), f"'{self.one([name, name, name.lower()])}'",
                     self.quoted_clause(name, keys)][:self.weighted({3: 5, 2: 1})]
        users = [session for session, its in self.reference.sessions.items() if lock and its.user == lock.user]
        return self.call("UnlockRows", self.by_name(["workspace", "table_name", "where_clause"], arguments),
                         ["5", "NULL", "'E'", "lock_mode => 'S'", "where_clause => NULL"], self.one(users) if users and self.chance(0.8) else None)

    def by_name(self, parameters, arguments):
        """Now and then the arguments by their names, in some order, and one may be missing."""
        if not self.chance(0.08):
            return arguments
        named = [f"{parameter} => {argument}" for parameter, argument in zip(parameters, arguments)]
        self.random.shuffle(named)
        return named if self.chance(0.7) else named[1:]

    def set_conflict(self):
        return self.call("SetConflictWorkspace", [self.named("workspace", self.workspace_name())], ["workspace => 'LIVE'", "5", "'W' , 'V'"])

    def goto_date(self, session=None):
        """To a date near a moment that occurs in the workspace where a session stands, at times to one before its birth."""
        session = session or self.session()
        its = self.reference.workspaces[self.reference.sessions[session].workspace] if session in self.reference.sessions else None
        moments = {self.reference.moment, *([] if its is None else [
            its.born, *(entry.moment for entry in its.log), *(point.moment for point in its.savepoints.values())])}
        moment = self.one(sorted(moments)) + self.weighted({0: 8, -1: 4, 1: 2, 86_400: 1, -86_400: 1})
        date = self.time(Instant(min(max(moment, 0), END)))
        if self.chance(0.1):
            date = self.one(["SYSDATE", "DBMS_WM . UNTIL_CHANGED", "DATE '0001-01-01'", "DATE '2020-01-01'", "TIMESTAMP '9999-12-31 23:59:59'"])
        if self.is_bad(0.05):
            date = self.one(["5", "NULL", "''", "TRUE", "'2020-01-01'", "DATE '2021-02-29'", self.period(), ""])
        return self.call("GotoDate", [self.named("in_date", date)] if date else [], ["SYSDATE", "in_date => SYSDATE", "savepoint_name => 'S'"], session)

    def point(self, name):
        """A workspace and a savepoint of it, or what is newest there."""
        points = list(self.reference.workspaces[name].savepoints)
        return printed(name).decode(), printed(self.one(points)).decode() if points and self.chance(0.45) else "'LATEST'"

    def set_difference(self, session=None):
        """Two points of workspaces, most likely of two."""
        names = list(self.reference.workspaces)
        first, second = self.random.sample(names, 2) if len(names) > 1 and self.chance(0.8) else [self.one(names)] * 2
        arguments = [*self.point(first), *self.point(second)]
        if arguments[1::2] == ["'LATEST'", "'LATEST'"] and self.chance(0.7):
            del arguments[1::2]
        if self.is_bad(0.08):
            at = self.random.randrange(len(arguments))
            arguments = self.one([
                [], arguments[:1], arguments[:3], [*arguments[:1], "NULL", "5"], [*arguments, "'S'"], ["workspace1 => 'LIVE'", *arguments[1:]],
                *[[*arguments[:at], one, *arguments[at + 1:]] for one in ["'NOPE'", "NULL", "''", "5", "FALSE", "SYSDATE", "'live'", "'latest'", "'S'"]]])
        return self.call("SetDiffVersions", arguments, ["'LIVE'", "'S'", "'LATEST'", "5", "savepoint1 => 'S'"], session)

    def set_valid_time(self):
        # Mostly a period that ends, so that it lies within rows.
        start, till = self.random.sample(ENDS if self.chance(0.3) else ENDS[1:-3], 2)
        if self.instant_of(start) > self.instant_of(till) and not self.is_bad(0.05):
            start, till = till, start
        arguments = self.weighted({(self.named("validFrom", start), self.named("validTill", till)): 10, (start,): 1, (): 1,
                                   (f"validTill => {till}", f"validFrom => {start}"): 1, (start, "NULL"): 1})
        if self.is_bad(0.05):
            arguments = self.one([("NULL",), ("NULL", till), (f"validTill => {till}",), ("''", "5"), (start, "5"), ("validTill => 'x'",),
                                  ("SYSDATE", "SYSDATE"), (self.period(),), ("validFrom => TRUE",), ("validTill => NULL",)])
        return self.call("SetValidTime", list(arguments), ["SYSDATE", "validFrom => SYSDATE", "validTill => 5", "valid => 1"])

    # Resolves

    def resolve(self):
        """A line of a resolve, most likely of a session that has one open: it decides, commits or gives up."""
        sessions = self.reference.sessions
        having = [name for name, its in sessions.items() if its.resolve]
        if not having or self.chance(0.12):
            if not any(self.is_torn(name) for name in self.reference.workspaces) and self.chance(0.85):
                return self.clash()
            return self.call("BeginResolve", [self.named("workspace", self.child(0.3, 0.3, 0.3))], ["workspace => 'LIVE'", "5", "'W' , 'V'"])
        session = self.one(having if self.chance(0.95) else sessions)
        its = sessions[session]
        workspace = printed(its.resolve or b"W").decode() if not self.is_bad(0.04) else self.workspace_name()
        likely = {self.decide: 12 if self.is_torn(its.resolve) else 1, self.commit: 8 if its.decisions else 1, self.give_up: 0.7}
        return self.weighted(likely)(session, workspace)

    def is_torn(self, name):
        """Whether a workspace is in conflict with the one above."""
        its = self.reference.workspaces.get(name)
        return its is not None and its.parent is not None and self.reference.first_conflict(its) is not None

    def commit(self, session, workspace):
        return self.call("CommitResolve", [self.named("workspace", workspace)], ["workspace => 'LIVE'", "5", "TRUE"], session)

    def give_up(self, session, workspace):
        return self.call("RollbackResolve", [self.named("workspace", workspace)], ["workspace => 'LIVE'", "5", "NULL"], session)

    def decide(self, session, workspace):
        """A decision on some keys of a table, most likely on one that is in conflict."""
        resolved, keys = self.reference.workspaces[self.reference.sessions[session].resolve or b"LIVE"], {}
        for table in self.reference.tables if resolved.parent is not None else []:
            for key, _, _ in self.reference.conflicts(resolved, table):
                keys.setdefault(table, []).append(key)
        name = self.one(keys) if keys and not self.is_bad(0.05) else self.table_name()
        clause = self.quoted_clause(name, keys.get(name, []))
        keep = self.one(["'PARENT'", "'PARENT'", "'CHILD'", "'CHILD'", "'BASE'", "'BASE'", "'parent'", "'Child'", "'base'"])
        if self.is_bad():
            keep = self.one(["'LIVE'", "NULL", "''", "5", "TRUE", "'PARENTS'", "' CHILD'"])
        arguments = [workspace, f"'{self.one([name, name, name.lower()])}'", clause, self.named("keep", keep)]
        if self.chance(0.08):
            named = [f"{parameter} => {argument}" for parameter, argument in zip(["workspace", "table_name", "where_clause", "keep"],
                                                                               [*arguments[:3], keep])]
            self.random.shuffle(named)
            arguments = named if self.chance(0.7) else named[1:]
        bad = ["5", "NULL", "''", "'ID = 1'", "keep => 'CHILD'", "where_clause => NULL", "table_name => 'BUD'", "'BUD_CONF'"]
        return self.call("ResolveConflicts", arguments, bad, session)

    def quoted_clause(self, name, keys):
        clause = self.clause(name, keys)
        return clause if clause in ("NULL", "''", "5") else "'" + clause.replace("'", "''") + "'"

    def clause(self, name, keys):
        """A condition over the key of a table, most likely one that is true of some of the keys."""
        table = self.reference.tables.get(name)
        if table is None or table.key is None:
            return self.one(["ID = 1", "NULL", "''"])
        key = table.columns[table.key]

        def constant():
            if not keys or self.chance(0.1):
                return self.value(key.kind)
            one = self.one(keys)
            return self.time(one) if key.kind == "time" else printed(one).decode()
        column = self.one([key.name, key.name, key.name, f"{name} . {key.name}"])
        if self.is_bad(0.03):
            others = [other.name for other in table.columns]
            return self.one([
                f"{self.one(others)} IS NULL", "WM_VALID IS NULL", f"{name} . WM_VALID . VALIDFROM > SYSDATE", "NOPE = 1", f"Z . {key.name} IS NULL",
                f"{column} = 1", f"{column} = 'a'", f"{column} > SYSDATE OR NOPE . X = 1", f"{column} = {self.period()}", "1 = 'a'", "5", "", " ",
                f"{column} IN ( 1 , 'a' )", f"{column} BETWEEN 1 AND SYSDATE", f"WM_MEETS ( WM_VALID , {self.period()} ) = 1", f"{column} =",
                f"{column} IS NULL AND WM_PERIOD ( SYSDATE , SYSDATE ) IS NULL", f"{column} = 9223372036854775808", f"{column} + 1 = 2"])
        return self.weighted({
            f"{column} = {constant()}": 8, "NULL": 2, "''": 2, f"{column} IN ( {constant()} , {constant()} )": 2,
            f"{column} {self.one(['<>', '>=', '<', '!='])} {constant()}": 2, f"NOT ( {column} = {constant()} )": 1,
            f"{column} BETWEEN {constant()} AND {constant()} OR {column} IS NULL": 1,
            f"WM_LESSTHAN ( {self.period()} , {self.period()} ) = 1 OR {column} IS NOT NULL": 0.5})
