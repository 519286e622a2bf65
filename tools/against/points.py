"""What stood in a workspace on a date, and in what two points of workspaces differ."""
from dataclasses import dataclass, replace

from lists import apart, over
from refusals import refuse
from values import printed

LATEST = b"LATEST"
ARGUMENTS = {2: ["WORKSPACE1", "WORKSPACE2"], 4: ["WORKSPACE1", "SAVEPOINT1", "WORKSPACE2", "SAVEPOINT2"]}


@dataclass(frozen=True)
class Point:
    """A workspace, by its number, when its log was so long and it had been rebased so often."""
    workspace: int
    log_length: int
    rebases: int


class Points:
    """The part of the reference that reads on dates and compares points."""

    def goto_date(self, session, tree, given):
        self.test_arguments(tree, ["IN_DATE"], IN_DATE="time")
        born = self.workspaces[session.workspace].born
        if given["IN_DATE"] < born:
            refuse("WM-032 date before", printed(session.workspace), printed(born))
        session.savepoint, session.date = None, given["IN_DATE"]
        return [], "OK"

    def dated(self, workspace, table, date):
        """What of a table stood in a workspace on a date. Without a history that is what stood at the first savepoint from the date on."""
        if table.has_history:
            return over(workspace.first, [entry for entry in workspace.log if entry.moment <= date])
        points = [point for point in workspace.savepoints.values() if point.moment >= date]
        return min(points, key=lambda point: point.place).content if points else workspace.content

    def set_diff_versions(self, session, tree, given):
        count = len(tree.given)
        if count not in ARGUMENTS:
            refuse("WM-014 count", 4 if count == 3 else 2)
        named = replace(tree, given=dict(zip(ARGUMENTS[count], tree.given.values())))
        self.test_arguments(named, ARGUMENTS[count], **dict.fromkeys(ARGUMENTS[count], "text"))
        given = {parameter: constant.value for parameter, constant in named.given.items()}
        points = [(given[f"WORKSPACE{place}"], given.get(f"SAVEPOINT{place}", LATEST)) for place in (1, 2)]
        for name, _ in points:
            self.workspace(name)
        self.test_points(points)
        session.difference = points
        return [], "OK"

    def test_points(self, points):
        """Refuses the first savepoint that is not there. Their workspaces are."""
        for name, savepoint in points:
            if savepoint != LATEST and savepoint not in self.workspaces[name].savepoints:
                refuse("WM-022 no savepoint", printed(savepoint))

    def point(self, name, savepoint):
        workspace = self.workspaces[name]
        if savepoint == LATEST:
            return Point(workspace.number, len(workspace.log), workspace.rebases)
        kept = workspace.savepoints[savepoint]
        return Point(workspace.number, kept.log_length, kept.rebases)

    def by_number(self, number):
        return next(workspace for workspace in self.workspaces.values() if workspace.number == number)

    def climbed(self, point):
        """A point, and those that lie above it: each time what of the parent was there for it at its last rebase, or at its birth."""
        path = [point]
        while (workspace := self.by_number(path[-1].workspace)).parent is not None:
            path.append(Point(workspace.parent, *workspace.turns[path[-1].rebases]))
        return path

    def common(self, first, second):
        """What two points have in common: of the two that lie above them in the nearest workspace that is above both, the earlier one."""
        second_path = {point.workspace: point for point in self.climbed(second)}
        mine = next(point for point in self.climbed(first) if point.workspace in second_path)
        return min(mine, second_path[mine.workspace], key=lambda point: (point.log_length, point.rebases))

    def content_at(self, point):
        workspace = self.by_number(point.workspace)
        return over(workspace.first, workspace.log[:point.log_length])

    def differing(self, session, table):
        """Of each difference three rows: what the two points have in common, and what stands at each."""
        if session.difference is None:
            return
        first, second = (self.point(*given) for given in session.difference)
        contents = [self.content_at(point) for point in (self.common(first, second), first, second)]
        names = [b"DiffBase", *(b", ".join(given) for given in session.difference)]
        for key, period, entries in apart(contents, table.name):
            stamps = [entry and entry.stamp for entry in entries]
            for name, entry, stamp in zip(names, entries, stamps):
                row = table.keyed(key, entry and entry.row)
                yield (*row, *[period] * table.has_periods, name, code_of(stamps[0], stamp))


def code_of(base, stamp):
    """What became of the row that two points have in common."""
    if base is None or stamp is None:
        return b"NE" if base is stamp else b"I" if base is None else b"D"
    return b"NC" if stamp == base else b"U"
