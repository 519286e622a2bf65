"""The page: what a store holds, with pictures."""
from html import escape

from called import named
from colours import colour_of
from conflicts import conflicts_section, differences_section
from graph import Graph
from history import history_section
from keys import keys_section
from look import shell
from overview import TYPES, WORDS, changed_keys, counted, in_time, last_change, locked_told, state_of
from storefile.store import LIVE
from storefile.values import printed

MOST_ENTRIES, MOST_LOCKS = 500, 200
SECTIONS = {"workspaces": "Workspaces", "tables": "Tables", "conflicts": "Conflicts", "differences": "Differences", "keys": "Rows",
            "history": "Rows over the days", "log": "Who changed what"}


def section(name, text, *inside):
    return f'<section id="{name}">\n<h2>{SECTIONS[name]}</h2>\n<p>{text}</p>\n' + "\n".join(inside) + "\n</section>"


def card(*inside):
    return '<div class="card">' + "".join(inside) + "</div>"


def space_mark(space):
    return f'<span class="space" style="background:{colour_of(space)}">{escape(space.name)}</span>'


def fact(number, text, marked="", below=""):
    return f'<div class="card fact"><b class="{marked}">{number}</b><span>{text}</span>{below}</div>'


def facts(store, conflicts):
    counters, taken = store.counters, store.counters.next_stamp - 1
    meter = f'<div class="meter"><i style="width:{100 * taken / counters.limit:.2f}%"></i></div>'
    told = "conflict that a merge would find" if conflicts == 1 else "conflicts that a merge would find"
    return ('<div class="facts">'
            + fact(len(store.spaces), "workspaces, LIVE counted" if len(store.spaces) > 1 else "workspace")
            + fact(len(store.tables), "tables" if len(store.tables) != 1 else "table")
            + fact(f"{taken:,}", f"changes taken, {counters.limit - taken:,} left", below=meter)
            + fact(conflicts, told, "alarm" if conflicts else "good") + "</div>")


def header(name, store, conflicts, sections):
    moment = last_change(store)
    told = "Nothing has been changed yet" if moment is None else f"Last change {moment} UTC"
    if store.pages.is_repaired:
        told += "; the last change is still in the journal, and the next run puts it in place"
    links = "".join(f'<a href="#{place}">{text}</a>' for place, text in SECTIONS.items() if place in sections)
    size = f"{counted(store.pages.count, 'page')} of 4,096 bytes"
    return f"<header><h1>{escape(name)}</h1><p>{told}. {size}.</p>{facts(store, conflicts)}<nav>{links}</nav></header>"


def column_mark(column, table):
    is_key = table.has_in_key(column)
    mark = " <i>key</i>" if is_key else " <i>not null</i>" if column.is_needed else ""
    return f"<span><b>{escape(column.name)}</b> {TYPES[column.kind].format(column.size)}{mark}</span>"


def table_row(store, table):
    columns = "".join(column_mark(column, table) for column in table.columns)
    cells = []
    for space in store.spaces.values():
        rows = len(store.rows_of(space, table))
        own = changed_keys(store, space) if space.number != LIVE else ()
        changed = sum(number == table.number for number, _ in own)
        told = f"{rows:,}" + (f" <small>({changed} changed)</small>" if changed else "")
        cells.append(f'<td class="number{" changed" if changed else ""}">{told}</td>')
    return (f"<tr><td><b>{escape(table.name)}</b><br><small class='when'>{state_of(table)}</small></td>"
            f'<td class="columns">{columns}</td>{"".join(cells)}</tr>')


def tables_section(store):
    heads = "".join(f'<th class="number">{escape(space.name)}</th>' for space in store.spaces.values())
    rows = "".join(table_row(store, table) for table in store.tables.values())
    told = "How many rows each workspace sees. Marked is what it changed itself and did not merge, by keys." if rows else "No table has been made yet."
    head = f"<thead><tr><th>Table</th><th>Columns</th>{heads}</tr></thead>"
    return section("tables", told, card(f"<table>{head}<tbody>{rows}</tbody></table>") if rows else "")


def workspaces_section(store):
    told = ("A lane for each workspace, from where it was born. A number in a lane is how many changes were made there or "
            "were brought there by a refresh or a merge; a diamond is a savepoint, and a ring is one that was made for a workspace or "
            "a merge. What is newest stands to the right, and above it how the workspace is frozen, if it is.")
    return section("workspaces", told, card(Graph(store).picture()), *locked_card(store))


def locked_card(store):
    """What is locked, in a list, where anything is."""
    items = "".join(f"<li>{space_mark(store.spaces[lock.space])} {escape(locked_told(store, lock))}</li>" for lock in store.locks[:MOST_LOCKS])
    more = f"<p>The first {MOST_LOCKS} of {len(store.locks)} are here.</p>" if len(store.locks) > MOST_LOCKS else ""
    return [card(f'<h3>Locked</h3><ul class="listed">{items}</ul>{more}')] if items else []


def value_mark(value):
    return '<span class="null">NULL</span>' if value is None else escape(value if isinstance(value, str) else printed(value))


def log_row(store, entry):
    table, space = store.tables[entry.cells.table], store.spaces[entry.space]
    values = "" if entry.is_gone else " | ".join(map(value_mark, store.rows[entry.stamp]))
    period = f'<br><small class="when">{entry.cells.period}</small>' if table.is_valid else ""
    who = f'<span class="who">{escape(entry.user)}</span>'
    what = f"<b>{escape(table.name)}</b> {escape(printed(entry.cells.key))}{period}"
    return (f'<tr><td class="when">{entry.moment}</td><td>{who}</td><td>{space_mark(space)}</td>'
            f'<td class="{WORDS[entry.kind]}">{WORDS[entry.kind]}</td><td>{what}</td><td>{values}</td></tr>')


def log_section(store):
    entries = in_time(store)[::-1]
    rows = "".join(log_row(store, entry) for entry in entries[:MOST_ENTRIES])
    told = (f"{counted(len(entries), 'change')} in tables with history, the newest first. What a merge or a refresh brought "
            "stands under who asked for it.")
    if len(entries) > MOST_ENTRIES:
        told += f" The last {MOST_ENTRIES} are here; {named('tools/show')} STORE --log N lists more."
    box = '<input hidden data-finds="#log tbody tr" placeholder="find a user, a table, a value ..">'
    heads = "".join(f"<th>{text}</th>" for text in ("When", "Who", "Where", "What", "Table and key", "The row then"))
    inside = [box, card(f"<table><thead><tr>{heads}</tr></thead><tbody>{rows}</tbody></table>")] if rows else []
    return section("log", told, *inside)


def page(name, store, most_keys, points=()):
    found = [(space, conflict) for space in store.spaces.values() for conflict in store.conflicts(space)]
    parts = {"workspaces": workspaces_section(store), "tables": tables_section(store),
             "conflicts": section("conflicts", *conflicts_section(store, found)),
             **({"differences": section("differences", *differences_section(store, points))} if points else {}),
             "keys": section("keys", *keys_section(store, found, most_keys)),
             "history": section("history", *history_section(store, most_keys)), "log": log_section(store)}
    return shell(escape(name), "\n".join([header(name, store, len(found), parts), *parts.values()]))
