"""The rows of each table, key by key: over time, or side by side where rows hold for all of time."""
from collections import defaultdict
from html import escape

from conflicts import value_text
from overview import changed_keys
from storefile.store import LIVE
from storefile.values import in_order, printed
from timeline import timeline


def by_key(rows):
    found = defaultdict(list)
    for row in rows:
        found[row.key].append(row)
    return found


def last_changed(store, table):
    """The keys of a table, the last changed ones first."""
    found = store.last_stamps(table)
    return sorted(found, key=found.get, reverse=True)


def key_card(store, table, key, rows_by_space, found):
    ours = [(space, conflict) for space, conflict in found if conflict.table is table and conflict.key == key]
    heading = f"<h3>{escape(table.key_name())} {escape(printed(key))}</h3>"
    return f'<div class="key">{heading}{timeline(store, table, key, rows_by_space, ours)}</div>'


def row_text(rows, table):
    """The values beside the key, or that there is no row."""
    if not rows:
        return '<span class="null">no row</span>'
    return " | ".join(value_text(value) for place, value in enumerate(rows[0].values) if place not in table.key_columns) or "·"


def comparison(store, table, keys, rows_by_space):
    """A line for each key, with a column for each workspace. Marked is what it changed; pale is what the parent has
    otherwise now."""
    spaces = list(store.spaces.values())
    own = {space.number: changed_keys(store, space) if space.number != LIVE else set() for space in spaces}
    heads = "".join(f"<th>{escape(space.name)}</th>" for space in spaces)
    lines = []
    for key in sorted(keys, key=in_order):
        cells = []
        for space in spaces:
            rows, parents = (rows_by_space[number].get(key, []) for number in (space.number, space.parent))
            mark = "changed" if (table.number, key) in own[space.number] else "older" if rows != parents else ""
            cells.append(f'<td class="{mark}">{row_text(rows, table)}</td>')
        lines.append(f"<tr><td><b>{escape(printed(key))}</b></td>{''.join(cells)}</tr>")
    return f"<table><thead><tr><th>{escape(table.key_name())}</th>{heads}</tr></thead><tbody>{''.join(lines)}</tbody></table>"


def table_card(store, table, found, most):
    rows_by_space = {space.number: by_key(store.rows_of(space, table)) for space in store.spaces.values()}
    keys = last_changed(store, table)
    told = f'<p>the {most} keys of {len(keys)} that were changed last</p>' if len(keys) > most else ""
    names = ", ".join(column.name for column in table.columns if not table.has_in_key(column))
    if table.is_valid:
        inside = "".join(key_card(store, table, key, rows_by_space, found) for key in sorted(keys[:most], key=in_order))
    else:
        inside = comparison(store, table, keys[:most], rows_by_space)
    return f'<div class="card"><h3>{escape(table.name)} <span class="when">{escape(names)}</span></h3>{told}{inside}</div>'


def keys_section(store, found, most):
    """What the section says, and a card for each table that has rows."""
    tables = [table for table in store.tables.values() if store.last_stamps(table)]
    if not tables:
        return ["There are no rows yet."]
    told = ("Of a table with valid time, each key over time: a bar is a row and the period for which it holds. The bars of one "
            "change have one colour; there are eight, so behind eight changes of a key they repeat. Workspaces that hold the same share a lane; hatched is what is in conflict. "
            "Of other tables, each key in each workspace; marked is what is its own, and pale is what its parent "
            "has otherwise by now.")
    return [told, *(table_card(store, table, found, most) for table in tables)]
