"""What a merge would find in conflict, side by side: as it was, in the parent, and in the workspace. And so in what two points differ."""
from html import escape

from colours import colour_of
from overview import settled_told
from storefile.values import printed

MOST = 200


def value_text(value):
    return '<span class="null">NULL</span>' if value is None else escape(value if isinstance(value, str) else printed(value))


def side(name, colour, row, base, table):
    """One of the three: its row, with the values marked that are not as they were."""
    head = f'<span class="space" style="background:{colour}">{escape(name)}</span>'
    if row is None:
        return f'<div class="side">{head}<p class="{"changed" if base else ""}" style="margin-top:8px">no row</p></div>'
    cells = []
    for place, (column, value) in enumerate(zip(table.columns, row.values)):
        is_changed = row is not base and (base is None or base.values[place] != value)
        cells.append(f'<dt>{escape(column.name)}</dt><dd{" class=changed" if is_changed else ""}>{value_text(value)}</dd>')
    return f'<div class="side">{head}<dl>{"".join(cells)}</dl></div>'


def three_sides(found, base, first, second):
    """The card of a key: of each side its name and its colour, and its row."""
    period = f' <span class="when">{found.period}</span>' if found.table.is_valid else ""
    rows = zip((base, first, second), (found.base, found.parent, found.child))
    sides = [side(name, colour, row, found.base, found.table) for (name, colour), row in rows]
    heading = f"<h3>{escape(found.table.name)} {escape(printed(found.key))}{period}</h3>"
    return f'<div class="card conflict">{heading}<div class="sides">{"".join(sides)}</div></div>'


def conflict_card(store, space, found):
    parent = store.spaces[space.parent]
    return three_sides(found, ("before", "var(--soft)"), (parent.name, colour_of(parent)), (space.name, colour_of(space)))


def settled_card(store):
    """What was settled, in a list, where there is any."""
    told = [(space, text) for space in store.spaces.values() for text in settled_told(store, space)]
    if not told:
        return []
    items = "".join(f'<li><span class="space" style="background:{colour_of(space)}">{escape(space.name)}</span> {escape(text)}</li>'
                    for space, text in told[:MOST])
    more = f"<p>The first {MOST} of {len(told)} are here.</p>" if len(told) > MOST else ""
    return ['<div class="card"><h3>Settled</h3><p>It was in conflict, and is settled until the parent changes it again.</p>'
            f'<ul class="listed">{items}</ul>{more}</div>']


def conflicts_section(store, found):
    """What the section says, and its cards."""
    settled = settled_card(store)
    if not found:
        none = "None: what a workspace and its parent have both changed since they last met is settled."
        return [none if settled else "None: no workspace and its parent have changed the same key since they last met.", *settled]
    told = ("What a workspace and its parent both changed since they last met, as the one was made of the other, refreshed or merged: "
            "as it was then, and as each of them has it now. Marked is what is no more as it was. It counts also where both wrote the "
            "same.")
    if len(found) > MOST:
        told += f" The first {MOST} of {len(found)} are here."
    return [told, *(conflict_card(store, space, conflict) for space, conflict in found[:MOST]), *settled]


def differences_section(store, points):
    """What the section says, and its cards."""
    first, second = points
    found, common = store.differences(first, second), store.common(first, second)
    if not found:
        return [f"None: {escape(first.name)} and {escape(second.name)} have the same rows."]
    told = (f"What {escape(first.name)} and {escape(second.name)} have in common, which is {escape(store.spaces[common.space].name)} behind "
            f"{common.log_length:,} changes, and beside it each of them. Marked is what is not as it was; a row that was written anew counts as "
            "another, also where its values are the same.")
    if len(found) > MOST:
        told += f" The first {MOST} of {len(found)} are here."
    sides = [("in common", "var(--soft)"), *((point.name, colour_of(store.spaces[point.space])) for point in points)]
    return [told, *(three_sides(difference, *sides) for difference in found[:MOST])]
