"""What a store holds, as text."""
from textwrap import wrap

from storefile.store import LIVE
from storefile.values import printed

WORDS = {1: "inserted", 2: "updated", 3: "deleted"}
TYPES = {1: "NUMBER", 2: "VARCHAR2({})", 3: "DATE"}
FREEZES = ["", "NO_ACCESS", "READ_ONLY", "1WRITER", "WM_ONLY"]
ONE_WRITER = 3
LOCKS = ["", "E", "S", "WE", "VE"]


def counted(number, word):
    return f"{number:,} {word}" + ("" if number == 1 else "s")


def described(column, table):
    """A column as CREATE TABLE declares it. DATE and TIMESTAMP are one kind in the file."""
    is_key = table.has_in_key(column)
    marks = " PRIMARY KEY" * is_key + " NOT NULL" * (column.is_needed and not is_key)
    return f"{column.name} {TYPES[column.kind].format(column.size)}{marks}"


def state_of(table):
    if not table.is_versioned:
        return "takes no rows yet: EnableVersioning is due"
    return ", ".join(["with valid time"] * table.is_valid + ["its history is kept"] * table.has_history) or "version-enabled"


def last_change(store):
    """The moment of the last change, or None. A load may make its changes at the beginning of time."""
    return store.counters.last_moment if store.counters.next_stamp > 1 or store.tables else None


def head(path, store):
    counters, taken, moment = store.counters, store.counters.next_stamp - 1, last_change(store)
    repaired = " (the last change is still in the journal; the next run puts it in place)" if store.pages.is_repaired else ""
    return [f"{path}: {store.pages.count} pages{repaired}",
            f"last change: {'nothing yet' if moment is None else moment}",
            f"changes: {taken:,} taken, {counters.limit - taken:,} left of {counters.limit:,}"]


def tables(store):
    lines = ["", "Tables"]
    for table in store.tables.values():
        rows = len(store.rows_of(store.spaces[LIVE], table))
        columns = ", ".join(described(column, table) for column in table.columns)
        lines += [f"  {table.name}: {state_of(table)}; {counted(rows, 'row')} in LIVE",
                  *wrap(columns, 100, initial_indent=" " * 6, subsequent_indent=" " * 6, break_long_words=False)]
    return lines if store.tables else lines + ["  none"]


def changed_keys(store, space):
    return {(cells.table, cells.key) for cells in store.own_cells(space)}


def own_told(store, space):
    """What is still a workspace's own: what was merged from it is not."""
    keys = changed_keys(store, space)
    return f"changes of its own on {counted(len(keys), 'key')}" if keys else "nothing of its own"


def frozen_told(space):
    """How a workspace is frozen, and for whom. What a session froze for itself is in no file."""
    return f"frozen {FREEZES[space.freeze]}" + (f" for {space.writer}" if space.freeze == ONE_WRITER else "")


def facts(store, space):
    """What a workspace's line says behind its name."""
    found = [counted(space.log_length, "change")]
    if space.number != LIVE:
        conflicts, settled = store.conflicts(space), store.settled(space)
        found = [f"made {space.born}", own_told(store, space),
                 f"{counted(store.changes_since(space), 'new change')} in {store.spaces[space.parent].name}",
                 counted(len(conflicts), "conflict") if conflicts else "no conflict",
                 *([f"{counted(len(settled), 'key')} settled"] if settled else [])]
    return found + ([frozen_told(space)] if space.freeze else [])


def branch(store, space, indent=""):
    """A workspace, its savepoints and its children, as a tree."""
    below = [("savepoint", point) for point in store.savepoints_of(space)]
    below += [("workspace", child) for child in store.children(space)]
    lines = []
    for place, (kind, item) in enumerate(below):
        is_last = place == len(below) - 1
        mark, further = ("└─ ", "   ") if is_last else ("├─ ", "│  ")
        if kind == "savepoint":
            made = " (made for a workspace or a merge)" if item.is_implicit else ""
            lines.append(f"{indent}{mark}{printed(item.name)} {item.moment}{made}")
        else:
            lines.append(f"{indent}{mark}{item.name}: {', '.join(facts(store, item))}")
            lines += branch(store, item, indent + further)
    return lines


def workspaces(store):
    live = store.spaces[LIVE]
    head = f"  LIVE: {', '.join(facts(store, live))}"
    return ["", "Workspaces, and their savepoints in quotes", head, *branch(store, live, "  ")]


def entry_line(store, entry):
    table = store.tables[entry.cells.table]
    period = f" {entry.cells.period}" if table.is_valid else ""
    row = "" if entry.is_gone else "  " + "|".join(map(printed, store.rows[entry.stamp]))
    return [str(entry.moment), entry.user, store.spaces[entry.space].name,
            f"{WORDS[entry.kind]} {table.name} {printed(entry.cells.key)}{period}{row}"]


def fitted(rows):
    """Rows of texts with all columns but the last aligned."""
    widths = [max(map(len, column)) for column in list(zip(*rows))[:-1]]
    return ["  " + "  ".join([*(text.ljust(width) for text, width in zip(row, widths)), row[-1]]) for row in rows]


def in_time(store):
    """The entries of all logs that are kept, the older ones first."""
    return sorted(store.history, key=lambda entry: (entry.moment, entry.stamp, entry.space, entry.position))


def log(store, most):
    entries = in_time(store)
    told = f", the last {most} of {len(entries)}" if len(entries) > most else ""
    shown = entries[len(entries) - most:] if len(entries) > most else entries
    lines = fitted([entry_line(store, entry) for entry in shown]) if shown else ["  nobody anything"]
    return ["", f"Who changed what in tables with history{told}", *lines]


def side_line(name, row):
    if row is None:
        return [name, "no row"]
    return [name, "|".join(map(printed, row.values))]


def conflicts(store):
    lines = ["", "What a merge would find in conflict"]
    for space in store.spaces.values():
        parent = store.spaces[space.parent]
        for found in store.conflicts(space):
            period = f" {found.period}" if found.table.is_valid else ""
            lines.append(f"  {space.name} and {parent.name}: {found.table.name} {printed(found.key)}{period}")
            sides = [side_line("before", found.base), side_line(parent.name, found.parent), side_line(space.name, found.child)]
            lines += ["    " + line for line in fitted(sides)]
    return lines if len(lines) > 2 else lines + ["  nothing"]


def differences(store, points):
    """In what two points differ, where two are asked for."""
    if not points:
        return []
    first, second = points
    lines = ["", f"What differs between {printed(first.name)} and {printed(second.name)}"]
    for found in store.differences(first, second):
        period = f" {found.period}" if found.table.is_valid else ""
        lines.append(f"  {found.table.name} {printed(found.key)}{period}")
        sides = [side_line("in common", found.base), side_line(first.name, found.parent), side_line(second.name, found.child)]
        lines += ["    " + line for line in fitted(sides)]
    return lines if len(lines) > 2 else lines + ["  nothing"]


def settled_told(store, space):
    """The keys whose conflict was settled, each with its periods where the table has valid time."""
    return [f"{table.name} {printed(key)}" + "".join(f" {period}" for period in periods if table.is_valid)
            for table, key, periods in store.settled(space)]


def settled(store):
    """What resolves have settled, where there is any."""
    told = [f"  {space.name} and {store.spaces[space.parent].name}: {text}" for space in store.spaces.values() for text in settled_told(store, space)]
    return ["", "What was in conflict and is settled, until the parent changes it again", *told] if told else []


def locked_told(store, lock):
    """What is locked, in which mode and by whom."""
    table = store.tables[lock.cells.table]
    period = f" {lock.cells.period}" if table.is_valid else ""
    return f"{table.name} {printed(lock.cells.key)}{period}, {LOCKS[lock.mode]} by {lock.user}"


def locked(store):
    """The locks of all workspaces, where there is any."""
    told = [f"  {store.spaces[lock.space].name}: {locked_told(store, lock)}" for lock in store.locks]
    return ["", "What is locked", *told] if told else []


def overview(path, store, most, points=()):
    return [*head(path, store), *tables(store), *workspaces(store), *locked(store), *log(store, most), *conflicts(store), *settled(store),
            *differences(store, points)]
