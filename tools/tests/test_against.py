"""The second reading of the language by itself: it answers what the cases say, and its copies and its logs say the same."""
import sys
import unittest
from copy import deepcopy

from around import TOP

FOLDER = str(TOP / "tools" / "against")
SEEDS, LINES = range(1, 41), 60
# Its modules have names that others have too, so they are found first while these are read.
sys.path.insert(0, FOLDER)
from lists import copied, joined, put
from reference import Reference, ended
from scripts import Writer
from values import END, TIMESTAMP_FORMS, instant
sys.path.remove(FOLDER)

from play_cases import fits, read_case
from storefile.records import decoded

CHANGES, COUNTERS = {"cut", "poke", "set", "add"}, ["is", "1", "1"]
# Some lines of the random scripts are a deep tree.
sys.setrecursionlimit(100_000)


def begun(reference, now):
    reference.begin(instant(now.encode(), TIMESTAMP_FORMS))


def counted(digits):
    """The counters that a case tells by the bytes of their record, without the next version."""
    record = decoded(bytes.fromhex("".join(digits)))
    return record.next_stamp, record.last_moment, record.limit, record.work


def difference(path):
    """The first line of a case that the reading answers otherwise, up to where the case changes the file by hand."""
    reference, kept = None, {}
    for step in read_case(path):
        if isinstance(step, list):
            if step[0] in CHANGES:
                return None
            if step[:3] == COUNTERS and (found := counted(step[3:])) != reference.counters():
                return f"{path}: the counters are {reference.counters()}, and {found} are wanted"
            if step[0] == "save":
                kept[step[1]] = deepcopy(reference)
            elif step[0] == "load":
                reference = deepcopy(kept[step[1]])
            continue
        if step.status or step.words[:2] not in (["init", "--limit"], ["run", "--now"]):
            return None
        if step.words[0] == "init":
            reference = Reference(int(step.words[2]))
            continue
        begun(reference, step.words[2])
        wanted = iter(step.output)
        for line in step.input.removesuffix(b"\n").split(b"\n") if step.input else []:
            for said in reference.answer(ended(line)).split(b"\n")[:-1]:
                want = next(wanted, None)
                if want is None or not fits(want, said):
                    return f"{path}: {line[:200]!r} is answered {said!r}, and {want} is wanted"
        if next(wanted, None) is not None:
            return f"{path}: there is less than is wanted"
    return None


def alike(held):
    """What two lists have in common that hold the same at each moment: the entries, joined, without when and by whom."""
    return {(table, key): [(entry.period, entry.row, entry.stamp, entry.kind) for entry in joined(entries)]
            for table, keys in held.items() for key, entries in keys.items()}


def lengths_of(workspace):
    """What stood in a workspace at each length of its log, by what it was born with and that log alone."""
    content = copied(workspace.first)
    lengths = [alike(content)]
    for entry in workspace.log:
        put(content, entry)
        lengths.append(alike(content))
    return lengths


def marks_of(settled):
    return [mark for keys in settled.values() for marks in keys.values() for mark in marks]


class Reading(unittest.TestCase):
    def test_cases(self):
        for path in sorted((TOP / "cases").rglob("*.case")):
            with self.subTest(case=path.name):
                self.assertIsNone(difference(path))

    def test_copies_and_logs(self):
        """Behind each line of random scripts what stands in a workspace is what it was born with and its log; so it is at savepoints."""
        for seed in SEEDS:
            writer = Writer(seed)
            runs, reference = writer.script(LINES), Reference(writer.limit)
            for now, lines in runs:
                begun(reference, now)
                for line in lines:
                    reference.answer(ended(line))
                    with self.subTest(seed=seed, line=line[:200]):
                        self.look(reference)

    def look(self, reference):
        by_number = {workspace.number: workspace for workspace in reference.workspaces.values()}
        self.assertEqual(len(by_number), len(reference.workspaces))
        for workspace in by_number.values():
            lengths = lengths_of(workspace)
            self.assertEqual(lengths[-1], alike(workspace.content))
            for point in workspace.savepoints.values():
                self.assertEqual(lengths[point.log_length], alike(point.content))
                self.assertLessEqual(point.place, workspace.place)
                self.assertLessEqual(point.rebases, workspace.rebases)
            places = sorted((point.place, point.log_length) for point in workspace.savepoints.values())
            self.assertEqual(places, sorted(places, key=lambda place: (place[1], place[0])))
            if workspace.parent is not None:
                self.assertIn(workspace.birth_place, [point.place for point in by_number[workspace.parent].savepoints.values()])
                self.assertEqual(workspace.log_from, workspace.turns[-1][0])
                # What a workspace saw of its parent is what stood in it at that length of its log.
                self.assertEqual(lengths_of(by_number[workspace.parent])[workspace.log_from], alike(workspace.base))
            self.look_at_marks(workspace, by_number.get(workspace.parent))
        self.look_at_resolves(reference)
        self.look_at_freezes(reference)
        self.look_at_locks(reference)
        self.look_at_points(reference, by_number)
        for session in reference.sessions.values():
            workspace = reference.workspaces[session.workspace]
            self.assertIn(session.savepoint, [None, *workspace.savepoints])
            self.assertIn(None, (session.savepoint, session.date))
            if session.date is not None:
                self.assertGreaterEqual(session.date, workspace.born)

    def look_at_points(self, reference, by_number):
        """What a workspace has in common with its parent is what it last saw of it. At the end of time all that is newest counts."""
        for name, workspace in reference.workspaces.items():
            for table in reference.tables.values():
                dated = alike(reference.dated(workspace, table, END)) if table.has_history else {}
                for key, rows in dated.items():
                    if key[0] == table.name:
                        self.assertEqual(rows, alike(workspace.content).get(key))
            if workspace.parent is not None:
                points = [reference.point(one, b"LATEST") for one in (name, reference.above(workspace))]
                wanted = (workspace.parent, *workspace.turns[-1])
                for first, second in (points, points[::-1]):
                    common = reference.common(first, second)
                    self.assertEqual((common.workspace, common.log_length, common.rebases), wanted)
                self.assertEqual(alike(reference.content_at(common)), alike(workspace.base))

    def look_at_marks(self, workspace, parent):
        """Marks lie on what is the workspace's own, and speak of the parent's log as it is. Those of a savepoint are still there, or later ones."""
        marks = marks_of(workspace.settled)
        for mark in marks:
            self.assertEqual(mark.period.beside([entry.period for entry in workspace.own if (entry.table, entry.key) == (mark.table, mark.key)]), [])
            self.assertTrue(workspace.log_from < mark.position <= len(parent.log))
        for point in workspace.savepoints.values():
            for kept in marks_of(point.settled) if point.rebases == workspace.rebases else []:
                mine = [mark for mark in marks if (mark.table, mark.key) == (kept.table, kept.key) and mark.position >= kept.position]
                self.assertEqual(kept.period.beside([mark.period for mark in mine]), [])

    def look_at_freezes(self, reference):
        """What a session froze for itself is there, and is frozen in no other way. LIVE is in none of the modes that it does not take."""
        held = [name for session in reference.sessions.values() for name in session.freezes]
        self.assertEqual(len(held), len(set(held)))
        for name in held:
            self.assertIsNone(reference.workspaces[name].freeze)
        self.assertIn(reference.frozen(b"LIVE"), (None, b"READ_ONLY", b"1WRITER"))
        for name, workspace in reference.workspaces.items():
            if workspace.freeze == b"NO_ACCESS":
                self.assertNotIn(name, [session.workspace for session in reference.sessions.values()])

    def look_at_locks(self, reference):
        """No two locks of one user in one mode lie over each other in a workspace."""
        for workspace in reference.workspaces.values():
            for place, one in enumerate(workspace.locks):
                self.assertLessEqual(one.place, workspace.place)
                for other in workspace.locks[:place]:
                    if (one.table, one.key, one.mode, one.user) == (other.table, other.key, other.mode, other.user):
                        self.assertFalse(one.period.overlaps(other.period))

    def look_at_resolves(self, reference):
        """One session alone has a resolve of a workspace open. What it decided is in conflict until it commits, and later than what was settled."""
        names = [session.resolve for session in reference.sessions.values() if session.resolve]
        self.assertEqual(len(names), len(set(names)))
        for session in reference.sessions.values():
            workspace, decisions = reference.workspaces.get(session.resolve), session.decisions
            self.assertEqual((workspace is None, decisions if workspace is None else []), (session.resolve is None, []))
            for place, one in enumerate(decisions):
                self.assertLessEqual(one.position, len(reference.parent_of(workspace).log))
                torn = [period for key, period, _ in reference.conflicts(workspace, one.table) if key == one.key]
                self.assertEqual(one.period.beside(torn), [])
                for mark in marks_of(workspace.settled) + decisions[:place]:
                    if (mark.table, mark.key) == (one.table, one.key) and mark.period.overlaps(one.period):
                        self.assertLess(mark.position, one.position)
                        self.assertNotIn(mark, decisions)
