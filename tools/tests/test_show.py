"""tools/show: what it reads in a file is what the program answers, whatever the file holds."""
import random
import re
import shutil
from itertools import combinations

from around import WithFolder, made, run, store_of_examples, tool
from random_stores import Writer
from overview import FREEZES, LOCKS
from shown import shown
from storefile.store import LIVE, opened
from storefile.values import printed

SEEDS, LINES = 16, 90


def text(name):
    return "'" + name.replace("'", "''") + "'"


def questions(found):
    """Lines that ask for all rows of each workspace and of each savepoint, and for what its views have; and what the file says to each."""
    lines = [("CONNECT Z ZOE", ["OK"]), ("Z: EXECUTE DBMS_WM.SetValidTime(DATE '0001-01-01')", ["OK"]), *locks(found), *differences(found)]
    for space in found.spaces.values():
        is_closed = FREEZES[space.freeze] == "NO_ACCESS"
        lines.append((f"Z: EXECUTE DBMS_WM.GotoWorkspace({text(space.name)})", [barred(space) if is_closed else "OK"]))
        if is_closed:
            continue
        lines += [*selections(found, found.newest[space.number]), *views(found, space)]
        for point in found.savepoints_of(space):
            lines.append((f"Z: EXECUTE DBMS_WM.GotoSavepoint({text(point.name)})", ["OK"]))
            lines += selections(found, point.version)
    return lines


def barred(space):
    """What is answered to a line that the freeze of a workspace bars."""
    return f"WM-040 frozen {text(space.name)} {FREEZES[space.freeze]}"


def selections(found, version):
    for table in (table for table in found.tables.values() if table.is_versioned):
        rows = found.rows_seen(version, table)
        shown = ["|".join([*map(printed, row.values), *([str(row.period)] if table.is_valid else [])]) for row in rows]
        yield f"Z: SELECT * FROM {table.name}", [*shown, f"ROWS {len(rows)}"]


def locks(found):
    """Lines that ask for the locks of each table; and what the file says to each."""
    for table in (table for table in found.tables.values() if table.is_versioned):
        rows = ["|".join([printed(lock.cells.key), *([str(lock.cells.period)] if table.is_valid else []), printed(found.spaces[lock.space].name),
                          printed(LOCKS[lock.mode]), printed(lock.user)]) for lock in found.locks if lock.cells.table == table.number]
        yield f"Z: SELECT * FROM {table.name}_LOCK", [*rows, f"ROWS {len(rows)}"]


def views(found, space):
    """Lines that ask for the conflicts and the histories of a workspace; and what the file says to each."""
    for table in (table for table in found.tables.values() if table.is_versioned):
        rows = [row for conflict in found.conflicts(space) if conflict.table is table for row in sides(found, space, conflict)]
        yield f"Z: SELECT * FROM {table.name}_CONF", [*rows, f"ROWS {len(rows)}"]
        rows = list(changes(found, space, table))
        yield f"Z: SELECT * FROM {table.name}_HIST", [*rows, f"ROWS {len(rows)}"] if table.has_history else [f"WM-018 no history {table.name}"]


def differences(found):
    """Lines that compare what is newest in workspaces, and savepoints of them, each with the one before; and what the file says to each."""
    points = [found.point(space.name) for space in found.spaces.values()]
    points += [found.point(f"{found.spaces[point.space].name}, {point.name}") for point in found.savepoints]
    for first, second in zip(points, points[1:]):
        names = ", ".join(text(part) for point in (first, second) for part in point.name.split(", "))
        yield f"Z: EXECUTE DBMS_WM.SetDiffVersions({names})", ["OK"]
        told = found.differences(first, second)
        for table in (table for table in found.tables.values() if table.is_versioned):
            rows = [row for one in told if one.table is table for row in compared(one, first, second)]
            yield f"Z: SELECT * FROM {table.name}_DIFF", [*rows, f"ROWS {len(rows)}"]


def compared(one, first, second):
    """The three rows of a difference."""
    for name, row in [("DiffBase", one.base), (first.name, one.parent), (second.name, one.child)]:
        code = {(True, True): "NC" if row and one.base and row.stamp == one.base.stamp else "U", (True, False): "D", (False, True): "I",
                (False, False): "NE"}[one.base is not None, row is not None]
        yield answered(one.table, one.key, one.period, row and row.values, [], [name, code])


def sides(found, space, conflict):
    """The three rows of a conflict."""
    for name, row in [("BASE", conflict.base), (found.spaces[space.parent].name, conflict.parent), (space.name, conflict.child)]:
        mark = "NO" if row else "YES" if conflict.base and name != "BASE" else "NE"
        yield answered(conflict.table, conflict.key, conflict.period, row and row.values, [name], [mark])


def changes(found, space, table):
    """The rows of a history. Each is there until the first later one that shares a moment of its key."""
    entries = [entry for entry in found.history_of(space) if entry.cells.table == table.number]
    for place, entry in enumerate(entries):
        behind = [later.moment for later in entries[place + 1:]
                  if later.cells.key == entry.cells.key and later.cells.period.overlap(entry.cells.period)]
        marks = [space.name, entry.user, "-IUD"[entry.kind], entry.moment, behind[0] if behind else None]
        yield answered(table, entry.cells.key, entry.cells.period, None if entry.is_gone else found.rows[entry.stamp], [], marks)


def answered(table, key, period, values, before, behind):
    """A row of a view as it is answered. Where no row stands the key is shown alone."""
    alone = [key if table.has_in_key(column) else None for column in table.columns]
    return "|".join([*map(printed, [*before, *(values or alone)]), *([str(period)] if table.is_valid else []), *map(printed, behind)])


def cells_in_conflict(found, space):
    """What both have touched, by key. Of a workspace that was never refreshed, merged or resolved this is all that is in
    conflict; of others it may be more, for touches stay of what was brought, and what was settled is in none."""
    inside = {}
    for ours in found.touches_of(space):
        for theirs in found.pending(space):
            shared = ours.cells.period.overlap(theirs.period)
            if ours.cells[:2] == theirs[:2] and shared:
                inside.setdefault(ours.cells[:2], []).append(shared)
    return inside


def asked_conflict(found, space):
    """What the program is to answer to a refresh by somebody who is no writer: that it is barred, or the first conflict, if there is one."""
    if space.freeze and FREEZES[space.freeze] != "WM_ONLY":
        return barred(space)
    conflict = next(iter(found.conflicts(space)), None)
    if conflict is None:
        return "OK"
    period = f" {conflict.period}" if conflict.table.is_valid else ""
    return f"WM-051 conflict {conflict.table.name} {printed(conflict.key)}{period}"


def lies_within(inner, outer):
    """Whether longest periods by key lie within others."""
    return all(any(begin <= first and last <= till for begin, till in outer.get(key, []))
               for key, periods in inner.items() for first, last in periods)


def by_key(cells):
    """The longest periods of each key that some cells have."""
    inside = {}
    for part in cells:
        inside.setdefault(part[:2], []).append(part.period)
    return {key: covered(periods) for key, periods in inside.items()}


def reaches(parts):
    """The greatest position of the parts over each cell, by key, in longest periods."""
    inside = {}
    for part in parts:
        inside.setdefault(part.cells[:2], []).append((part.cells.period, part.position))
    return {key: stretches(held) for key, held in inside.items()}


def stretches(held):
    ends, found = sorted({end for period, _ in held for end in period}), []
    for begin, till in zip(ends, ends[1:]):
        greatest = max((position for period, position in held if period.begin <= begin and till <= period.till), default=None)
        if found and found[-1][1:] == (begin, greatest):
            found[-1] = (found[-1][0], till, greatest)
        elif greatest is not None:
            found.append((begin, till, greatest))
    return found


def covered(periods):
    """The longest periods that some periods cover together."""
    found = []
    for begin, till in sorted(periods):
        if found and begin <= found[-1][1]:
            found[-1] = (found[-1][0], max(found[-1][1], till))
        else:
            found.append((begin, till))
    return found


class Contents(WithFolder):
    def compare(self, store):
        found = opened(store)
        copy = store.with_suffix(".copy")
        shutil.copyfile(store, copy)
        asked = questions(found)
        done = run(copy, "0001-01-01", "".join(line + "\n" for line, _ in asked).encode())
        said = iter(done.stdout.decode().splitlines())
        for line, wanted in asked:
            self.assertEqual([next(said, None) for _ in wanted], wanted, line)
        return found

    def test_examples(self):
        found = self.compare(store_of_examples(self.store))
        self.assertEqual([space.name for space in found.spaces.values()],
                         ["LIVE", "Plan", "Parks 2025", "Roads 2025", "North plan", "Roads draft", "Parks draft"])

    def test_random_stores(self):
        for seed in range(SEEDS):
            with self.subTest(seed=seed):
                self.store.unlink(missing_ok=True)
                done = run(made(self.store), "2024-01-01", Writer(seed).script(LINES))
                self.assertEqual(done.returncode, 0)
                found = self.compare(self.store)
                self.histories(found)
                self.touches(found)
                self.turns(found)
                self.conflicts(found)
                self.marks(found)
                self.refreshes(found)

    def test_undone(self):
        """What a rollback leaves is shown nowhere, and a removed workspace neither."""
        lines = ["CREATE TABLE T (ID NUMBER PRIMARY KEY)", "EXECUTE DBMS_WM.EnableVersioning('T', 'VIEW_WO_OVERWRITE')",
                 "EXECUTE DBMS_WM.CreateSavepoint('LIVE', 'S')", "INSERT INTO T VALUES (1)", "EXECUTE DBMS_WM.CreateWorkspace('W')",
                 "EXECUTE DBMS_WM.CreateWorkspace('V')", "EXECUTE DBMS_WM.RemoveWorkspace('W')"]
        undone = [*lines, "EXECUTE DBMS_WM.RemoveWorkspace('V')", "EXECUTE DBMS_WM.RollbackToSP('LIVE', 'S')"]
        for played, numbers, points, keys in ((lines, [LIVE, 2], 3, {1}), (undone, [LIVE], 1, set())):
            self.store.unlink(missing_ok=True)
            script = "CONNECT A ANN\n" + "".join(f"A: {line}\n" for line in played)
            done = run(made(self.store), "2024-01-01", script.encode())
            self.assertNotIn(b"WM-", done.stdout)
            found = self.compare(self.store)
            self.assertEqual((list(found.spaces), len(found.savepoints)), (numbers, points))
            self.assertEqual(set(found.last_stamps(found.tables[0])), keys)
            text, page = shown(self.store, found, 20, 40)
            self.assertEqual("nobody anything" in text, not keys)
            self.assertEqual("There are no rows yet." in page, not keys)

    def test_merged(self):
        """What was merged is not told as a workspace's own any more, and what its parent changed since is told anew."""
        lines = ["CREATE TABLE T (ID NUMBER PRIMARY KEY)", "EXECUTE DBMS_WM.EnableVersioning('T')", "EXECUTE DBMS_WM.CreateWorkspace('W')",
                 "EXECUTE DBMS_WM.GotoWorkspace('W')", "INSERT INTO T VALUES (1)", "DELETE FROM T", "INSERT INTO T VALUES (2)",
                 "EXECUTE DBMS_WM.MergeWorkspace('W', TRUE)", "EXECUTE DBMS_WM.GotoWorkspace('LIVE')", "INSERT INTO T VALUES (3)"]
        for count, told in ((7, "changes of its own on 2 keys, 0 new changes"), (8, "nothing of its own, 0 new changes"),
                            (10, "nothing of its own, 1 new change")):
            self.store.unlink(missing_ok=True)
            script = "CONNECT A ANN\n" + "".join(f"A: {line}\n" for line in lines[:count])
            self.assertNotIn(b"WM-", run(made(self.store), "2024-01-01", script.encode()).stdout)
            said = tool("show", self.store).stdout
            self.assertIn(f"W: made 2024-01-01 00:00:00, {told} in LIVE, no conflict", said)
        self.assertIn("'ICP-2' 2024-01-01 00:00:00 (made for a workspace or a merge)", said)

    def test_settled(self):
        """What a resolve has settled is no conflict, until the parent changes it again; a merge forgets it."""
        lines = ["CREATE TABLE T (ID NUMBER PRIMARY KEY, N NUMBER)", "EXECUTE DBMS_WM.EnableVersioning('T', validTime => TRUE)",
                 "EXECUTE DBMS_WM.SetValidTime(DATE '2020-01-01', DATE '2022-01-01')", "INSERT INTO T VALUES (1, 0)",
                 "INSERT INTO T VALUES (2, 0)", "EXECUTE DBMS_WM.CreateWorkspace('W')", "UPDATE T SET N = 1",
                 "EXECUTE DBMS_WM.GotoWorkspace('W')", "UPDATE T SET N = 2", "EXECUTE DBMS_WM.BeginResolve('W')",
                 "EXECUTE DBMS_WM.ResolveConflicts('W', 'T', 'ID = 1', 'CHILD')", "EXECUTE DBMS_WM.CommitResolve('W')",
                 "EXECUTE DBMS_WM.GotoWorkspace('LIVE')", "EXECUTE DBMS_WM.SetValidTime(DATE '2020-01-01', DATE '2021-01-01')",
                 "UPDATE T SET N = 3 WHERE ID = 1", "EXECUTE DBMS_WM.BeginResolve('W')",
                 "EXECUTE DBMS_WM.ResolveConflicts('W', 'T', '', 'PARENT')", "EXECUTE DBMS_WM.CommitResolve('W')",
                 "EXECUTE DBMS_WM.MergeWorkspace('W')"]
        years = {2020: "[2020-01-01 00:00:00, 2021-01-01 00:00:00)", 2021: "[2021-01-01 00:00:00, 2022-01-01 00:00:00)",
                 "both": "[2020-01-01 00:00:00, 2022-01-01 00:00:00)"}
        for count, facts, settled in ((11, "2 conflicts", []), (12, "1 conflict, 1 key settled", [f"T 1 {years['both']}"]),
                                      (15, "2 conflicts, 1 key settled", [f"T 1 {years[2021]}"]),
                                      (18, "no conflict, 2 keys settled", [f"T 1 {years['both']}", f"T 2 {years['both']}"]),
                                      (19, "no conflict", [])):
            self.store.unlink(missing_ok=True)
            script = "CONNECT A ANN\n" + "".join(f"A: {line}\n" for line in lines[:count])
            self.assertNotIn(b"WM-", run(made(self.store), "2024-01-01", script.encode()).stdout)
            text, page = shown(self.store, opened(self.store), 20, 40)
            self.assertIn(f" in LIVE, {facts}\n", text)
            self.assertEqual([line[2:] for line in text.splitlines() if line.startswith("  W and LIVE: ") and line[14:] in settled],
                             [f"W and LIVE: {cell}" for cell in settled])
            self.assertEqual("is settled, until" in text, bool(settled))
            self.assertEqual("<h3>Settled</h3>" in page, bool(settled))
            self.assertEqual([cell for cell in settled if f"</span> {cell}</li>" not in page], [])

    def test_frozen(self):
        """How a workspace is frozen is told, and of one writer who he is; what a session froze for itself is told nowhere."""
        self.assertNotIn(b"WM-", run(made(self.store), "2024-01-01", b"CONNECT A ANN\nA: EXECUTE DBMS_WM.CreateWorkspace('W')\n").stdout)
        for words, told in ((", '1WRITER_SESSION'", None), ("", "NO_ACCESS"), (", 'READ_ONLY', 'BEN'", "READ_ONLY"),
                            (", '1WRITER', 'ben'", "1WRITER for BEN"), (", '1WRITER'", "1WRITER for ANN"), (", 'WM_ONLY'", "WM_ONLY")):
            lines = ["CONNECT A ANN", "A: EXECUTE DBMS_WM.UnfreezeWorkspace('W')", f"A: EXECUTE DBMS_WM.FreezeWorkspace('W'{words})"]
            self.assertTrue(run(self.store, "2024-01-01", "".join(line + "\n" for line in lines).encode()).stdout.endswith(b"OK\n"))
            said, page = shown(self.store, opened(self.store), 20, 40)
            self.assertTrue(said.split("  └─ W: ")[1].split("\n")[0].endswith(f", frozen {told}" if told else ", no conflict"))
            drawn = [f"<title>frozen {told}</title>{told.split()[0]}</text>"] if told else []
            self.assertEqual(re.findall("<title>frozen .*?</text>", page), drawn)

    def test_locked(self):
        """What is locked is told, over its period where the table has valid time."""
        lines = ["CREATE TABLE T (ID NUMBER PRIMARY KEY)", "EXECUTE DBMS_WM.EnableVersioning('T', validTime => TRUE)",
                 "CREATE TABLE U (NAME VARCHAR2(9) PRIMARY KEY)", "EXECUTE DBMS_WM.EnableVersioning('U')", "INSERT INTO T VALUES (1)",
                 "INSERT INTO U VALUES ('<a>')", "EXECUTE DBMS_WM.CreateWorkspace('W')", "EXECUTE DBMS_WM.LockRows('W', 'U', NULL, 'WE')",
                 "EXECUTE DBMS_WM.LockRows('LIVE', 'T')"]
        script = "CONNECT A ANN\n" + "".join(f"A: {line}\n" for line in lines)
        self.assertNotIn(b"WM-", run(made(self.store), "2024-01-01", script.encode()).stdout)
        said, page = shown(self.store, opened(self.store), 20, 40)
        self.assertIn("\nWhat is locked\n  LIVE: T 1 [2024-01-01 00:00:00, UNTIL_CHANGED), E by ANN\n  W: U '<a>', WE by ANN\n", said)
        self.assertIn("<h3>Locked</h3>", page)
        self.assertIn("</span> U &#x27;&lt;a&gt;&#x27;, WE by ANN</li>", page)
        run(self.store, "2024-01-01", b"CONNECT A ANN\nA: EXECUTE DBMS_WM.UnlockRows('LIVE', 'T')\nA: EXECUTE DBMS_WM.UnlockRows('W', 'U')\n")
        said, page = shown(self.store, opened(self.store), 20, 40)
        self.assertEqual(("What is locked" in said, "<h3>Locked</h3>" in page), (False, False))

    def test_differences_and_days(self):
        """In what two points differ is told where they are asked for; a row is drawn from the day on which it was written."""
        lines = ["CREATE TABLE T (ID NUMBER PRIMARY KEY, X NUMBER)", "EXECUTE DBMS_WM.EnableVersioning('T', 'VIEW_WO_OVERWRITE')",
                 "INSERT INTO T VALUES (1, 10)", "EXECUTE DBMS_WM.CreateWorkspace('W')", "EXECUTE DBMS_WM.CreateSavepoint('LIVE', 'S')"]
        script = "CONNECT A ANN\n" + "".join(f"A: {line}\n" for line in lines)
        self.assertNotIn(b"WM-", run(made(self.store), "2024-01-01", script.encode()).stdout)
        script = "CONNECT A ANN\nA: UPDATE T SET X = 11\nA: EXECUTE DBMS_WM.GotoWorkspace('W')\nA: DELETE FROM T\n"
        self.assertNotIn(b"WM-", run(self.store, "2024-02-01", script.encode()).stdout)
        found = self.compare(self.store)
        said, page = shown(self.store, found, 20, 40, ["LIVE", "W"])
        self.assertTrue(said.endswith("\nWhat differs between 'LIVE, LATEST' and 'W, LATEST'\n  T 1\n      in common     1|10\n"
                                      "      LIVE, LATEST  1|11\n      W, LATEST     no row"))
        self.assertIn("<h2>Differences</h2>", page)
        self.assertIn("10\n[2024-01-01 00:00:00, 2024-02-01 00:00:00)</title>", page)
        self.assertIn("11\n[2024-02-01 00:00:00, UNTIL_CHANGED)</title>", page)
        said, page = shown(self.store, found, 20, 40, ["LIVE, S", "W, LATEST"])
        self.assertTrue(said.endswith("\n      LIVE, S    1|10\n      W, LATEST  no row"))
        said, page = shown(self.store, found, 20, 40, ["W", "W"])
        self.assertTrue(said.endswith("'W, LATEST' and 'W, LATEST'\n  nothing"))
        self.assertNotIn("<h2>Differences</h2>", shown(self.store, found, 20, 40)[1])
        done = tool("show", self.store, "--diff", "LIVE", "Q")
        self.assertEqual((done.returncode, done.stderr), (1, "show: there is no workspace or savepoint Q\n"))

    def histories(self, found):
        """Each entry of a log has a stamp that was given, and a position in it: of a table with history each is kept, and of
        another none. What was brought by a refresh or a merge has the stamp that it had."""
        self.assertTrue(all(0 < entry.stamp < found.counters.next_stamp for entry in found.history))
        self.assertTrue(all(found.tables[entry.cells.table].has_history for entry in found.history))
        for space in found.spaces.values():
            positions = [entry.position for entry in found.history_of(space)]
            self.assertEqual(positions, sorted(set(positions) & set(range(space.log_length))))

    def touches(self, found):
        """In tables with history touches reach as far as its entries do, also at each savepoint; in each table they are over
        what is the workspace's own, and none of one place is over another."""
        for space in found.spaces.values():
            touches = found.touches_of(space)
            self.reach(found, touches, found.history_of(space))
            for point in found.savepoints_of(space):
                self.reach(found, [touch for touch in touches if touch.place < point.place],
                           [entry for entry in found.history_of(space) if entry.position < point.log_length])
            if space.number != LIVE:
                self.own(space, by_key(found.own_cells(space)), by_key(touch.cells for touch in touches))
            for one, other in combinations(touches, 2):
                if (one.place, *one.cells[:2]) == (other.place, *other.cells[:2]):
                    self.assertIsNone(one.cells.period.overlap(other.cells.period))

    def own(self, space, own, touched):
        """Until it is refreshed or merged all that a workspace touched is its own."""
        if space.rebases:
            self.assertTrue(lies_within(own, touched))
        else:
            self.assertEqual(own, touched)

    def reach(self, found, touches, entries):
        self.assertEqual(reaches(touch for touch in touches if found.tables[touch.cells.table].has_history), reaches(entries))

    def turns(self, found):
        """Each workspace but LIVE has a turn for its birth and one for each rebase, and the last one says how far it has seen its
        parent."""
        numbers = [(space.number, rebase) for space in found.spaces.values() if space.number != LIVE
                   for rebase in range(space.rebases + 1)]
        self.assertEqual([turn[:2] for turn in found.turns], numbers)
        last = {turn.space: turn.log_length for turn in found.turns}
        self.assertEqual(last, {space.number: space.parent_log_length for space in found.spaces.values() if space.number != LIVE})
        for one, other in zip(found.turns, found.turns[1:]):
            self.assertTrue(one.space != other.space or (one.log_length, one.rebases) <= (other.log_length, other.rebases))

    def conflicts(self, found):
        for space in found.spaces.values():
            if space.number == LIVE:
                continue
            told = {}
            for conflict in found.conflicts(space):
                told.setdefault((conflict.table.number, conflict.key), []).append(tuple(conflict.period))
            told = {cell: covered(periods) for cell, periods in told.items()}
            wanted = {cell: covered(periods) for cell, periods in cells_in_conflict(found, space).items()}
            if space.rebases or found.marks_of(space):
                self.assertTrue(lies_within(told, wanted))
            else:
                self.assertEqual(told, wanted)

    def marks(self, found):
        """What was settled is the workspace's own, and changed in the parent, which has not gone back behind it. None of one place
        is over another."""
        for space in found.spaces.values():
            marks = found.marks_of(space)
            self.assertTrue(all(space.parent_log_length < mark.position <= found.spaces[space.parent].log_length for mark in marks))
            inside = by_key(mark.cells for mark in marks)
            self.assertTrue(lies_within(inside, by_key(found.own_cells(space))))
            self.assertTrue(lies_within(inside, by_key(found.pending(space))))
            for one, other in combinations(marks, 2):
                if (one.place, *one.cells[:2]) == (other.place, *other.cells[:2]):
                    self.assertIsNone(one.cells.period.overlap(other.cells.period))

    def refreshes(self, found):
        """The program tells the first conflict of each workspace, or refreshes it. Children are asked before their parents, whose
        logs a refresh makes longer."""
        spaces = [space for number, space in sorted(found.spaces.items(), reverse=True) if number != LIVE]
        lines = ["CONNECT Z ZOE", *(f"Z: EXECUTE DBMS_WM.RefreshWorkspace({text(space.name)})" for space in spaces)]
        done = run(self.store, "0001-01-01", "".join(line + "\n" for line in lines).encode())
        self.assertEqual(done.stdout.decode().splitlines(), ["OK", *(asked_conflict(found, space) for space in spaces)])
        after = opened(self.store)
        for space in spaces:
            if asked_conflict(found, space) == "OK":
                self.assertEqual(after.spaces[space.number].parent_log_length, found.spaces[space.parent].log_length)
