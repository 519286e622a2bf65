"""Lists of entries: what they hold at each moment of a key, what of them a merge and a refresh replay, where two are in conflict, and what is
decided about that.

What a list holds is a dictionary of tables and keys with the last entry at each moment: entries cut to where they are last, in order of
time, those that are gone among them."""
from dataclasses import dataclass, replace

from values import Instant, Period


@dataclass(frozen=True)
class Entry:
    """What a change wrote over a period: a row, or None where it is gone."""
    table: str
    key: object
    period: Period
    row: tuple | None
    stamp: int
    kind: str  # I, U or D
    moment: Instant
    user: str


@dataclass(frozen=True)
class Mark:
    """Over a period of a key all that stands in the parent's log before a position is settled."""
    table: str
    key: object
    period: Period
    position: int


@dataclass(frozen=True)
class Lock:
    """Over a period of a key a user holds what a mode says."""
    table: str
    key: object
    period: Period
    mode: bytes
    user: str
    place: int  # the last one of the workspace when it was set


@dataclass(frozen=True)
class Decision:
    """What becomes of a conflict over a period of a key, as of a position of the parent's log; the entries that are copied for it."""
    table: str
    key: object
    period: Period
    copies: list
    position: int

    def beside(self, other):
        """What is left of it behind a later one."""
        if (self.table, self.key) != (other.table, other.key) or not self.period.overlaps(other.period):
            return [self]
        return [replace(self, period=part, copies=within(self.copies, part)) for part in self.period.outside(other.period)]


def copied(held):
    return {table: dict(keys) for table, keys in held.items()}


def entries_of(held, table, key):
    return held.get(table, {}).get(key, [])


def beside(entries, periods):
    """What of the entries lies outside all the periods."""
    return [entry if part == entry.period else replace(entry, period=part) for entry in entries for part in entry.period.beside(periods)]


def put(held, entry):
    """Lays an entry over what is held."""
    left = beside(entries_of(held, entry.table, entry.key), [entry.period])
    held.setdefault(entry.table, {})[entry.key] = sorted([*left, entry], key=lambda one: one.period)


def over(held, entries):
    """What is held with the entries behind it."""
    held = copied(held)
    for entry in entries:
        put(held, entry)
    return held


def joined(entries):
    """Neighbours of one stamp become one."""
    pieces = []
    for entry in entries:
        last = pieces[-1] if pieces else None
        if last and last.stamp == entry.stamp and last.period.till == entry.period.start:
            pieces[-1] = replace(last, period=Period(last.period.start, entry.period.till))
        else:
            pieces.append(entry)
    return pieces


def rows_of(entries):
    """The rows that the entries of a key hold, each a period and its values."""
    return [(entry.period, entry.row) for entry in joined(entries) if entry.row is not None]


def rows_by_key(held, table):
    return {key: rows for key, entries in held.get(table, {}).items() if (rows := rows_of(entries))}


def net(entries, tables):
    """What a list comes to: each entry where it is last, by table, key and time, neighbours of one stamp joined."""
    held = over({}, entries)
    return [entry for table in tables for key in sorted(held.get(table, {})) for entry in joined(held[table][key])]


def outside(entries, others):
    """What of the entries lies where the others touch nothing."""
    touched = over({}, others)
    return [part for entry in entries for part in beside([entry], [other.period for other in entries_of(touched, entry.table, entry.key)])]


def entry_at(entries, moment):
    return next((entry for entry in entries if entry.period.start <= moment < entry.period.till), None)


def stamp_at(entries, moment):
    """The stamp of the row at a moment, or None where there is none."""
    entry = entry_at(entries, moment)
    return entry.stamp if entry and entry.row is not None else None


def within(entries, period):
    """What of the entries lies in a period."""
    return [replace(entry, period=entry.period.shared(period)) for entry in entries if entry.period.overlaps(period)]


def clash(own, news, settled, moment):
    """Whether of one key both sides have a change at a moment: the workspace, and its parent's log at a position that is not settled."""
    mark = entry_at(settled, moment)
    unsettled = [entry for position, entry in news if mark is None or position >= mark.position]
    return entry_at(own, moment) is not None and entry_at(unsettled, moment) is not None


def stretches(lists, contents, is_wanted):
    """Of one key, in order of time: the longest periods at each moment of which something is wanted, and each content has one row or none.
    The lists are those at whose ends it may change."""
    ends = sorted({end for entries in [*lists, *contents] for entry in entries for end in entry.period})
    found, stamps = [], None  # of the moments that come before
    for start, till in zip(ends, ends[1:]):
        here = [stamp_at(entries, start) for entries in contents]
        if not is_wanted(start, here):
            here = None
        if here is not None:
            begun = found.pop().start if here == stamps else start
            found.append(Period(begun, till))
        stamps = here
    return found


def conflicts(own, news, settled, contents, table):
    """The stretches of a table that both sides changed, by key and time: the key, the period, and the row that each content has, or None.
    'news' has entries of the parent's log with their positions."""
    for key in sorted({entry.key for entry in own if entry.table == table}):
        mine = [entry for entry in own if (entry.table, entry.key) == (table, key)]
        theirs = [(position, entry) for position, entry in news if (entry.table, entry.key) == (table, key)]
        held = [entries_of(content, table, key) for content in contents]
        marks = entries_of(settled, table, key)
        for period in stretches([mine, [entry for _, entry in theirs], marks], held, lambda moment, _: clash(mine, theirs, marks, moment)):
            there = [entry_at(entries, period.start) for entries in held]
            yield key, period, [entry.row if entry else None for entry in there]


def apart(contents, table):
    """The stretches of a table on which one of two contents differs from the first of the three, by key and time: the key, the period, and the
    entry of the row that each has, or None."""
    for key in sorted({key for content in contents for key in content.get(table, {})}):
        held = [entries_of(content, table, key) for content in contents]
        for period in stretches([], held, lambda _, stamps: len(set(stamps)) > 1):
            there = [entry_at(entries, period.start) for entries in held]
            yield key, period, [entry if entry and entry.row is not None else None for entry in there]
