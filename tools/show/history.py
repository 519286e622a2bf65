"""The history of a table over the days: for each key a lane, with a bar for each row from when it was written until it was replaced."""
from collections import defaultdict
from html import escape

from axis import Axis
from colours import colour_of, colours_of_rows
from storefile.store import Shown
from storefile.values import UNTIL_CHANGED, Instant, Period, in_order, printed
from svg import element, name_label, picture
from timeline import BAR, LANE, NAMES, TOP, WIDTH, bar, days_below, text_of


def rows_over_days(store, space, table):
    """Of each key the rows that stood in a workspace, each with the period in which it did. What a date reads is the bars that it meets."""
    entries = defaultdict(list)
    for entry in store.history_of(space):
        if entry.cells.table == table.number:
            entries[entry.cells.key].append(entry)
    found = {}
    for key, mine in entries.items():
        ends = [*(entry.moment for entry in mine[1:]), Instant(UNTIL_CHANGED)]
        found[key] = [Shown(key, Period(entry.moment, end), entry.stamp, store.rows[entry.stamp])
                      for entry, end in zip(mine, ends) if not entry.is_gone and entry.moment < end]
    return found


def days_picture(table, rows_by_key):
    rows = [row for rows in rows_by_key.values() for row in rows]
    axis, bottom = Axis([row.period for row in rows], NAMES, WIDTH - 12), TOP + LANE * len(rows_by_key)
    parts = [element("line", x1=axis.place(at), x2=axis.place(at), y1=TOP, y2=bottom, class_="grid") for at, _ in axis.ticks()]
    for place, (key, held) in enumerate(rows_by_key.items()):
        level, colours = TOP + LANE * place + 6, colours_of_rows(row.stamp for row in held)
        parts.append(name_label(8, level + BAR / 2 + 4, printed(key).removesuffix(" 00:00:00"), NAMES - 20))
        parts += [bar(axis, row, level, text_of(row, table), colours[row.stamp]) for row in held]
    return picture(WIDTH, bottom + 26, *parts, *days_below(axis, bottom), class_="timeline")


def history_card(store, space, table, most):
    rows = rows_over_days(store, space, table)
    last = sorted((key for key in rows if rows[key]), key=lambda key: max(row.stamp for row in rows[key]), reverse=True)[:most]
    if not last:
        return ""
    told = f"<p>{most} keys of {len(rows)}, those that were written last</p>" if len(rows) > most else ""
    mark = f'<span class="space" style="background:{colour_of(space)}">{escape(space.name)}</span>'
    drawn = days_picture(table, {key: rows[key] for key in sorted(last, key=in_order)})
    return f'<div class="card"><h3>{escape(table.name)} {mark}</h3>{told}{drawn}</div>'


def history_section(store, most):
    """What the section says, and a card for each such table and each workspace in which it was changed. With valid time a row has a period of its
    own, and two times make no one line."""
    tables = [table for table in store.tables.values() if table.has_history and not table.is_valid]
    cards = [card for table in tables for space in store.spaces.values() if (card := history_card(store, space, table, most))]
    if not cards:
        return ["There is no table with history and without valid time that was changed."]
    return ["Of tables with history and without valid time: each row from the day on which it was written until the next one of its key was, by "
            "workspace. A session that goes to a date by GotoDate reads what the line of that date crosses, and what the workspace "
            "was born with where nothing of its key had been written before.", *cards]
