"""The picture of a key: its rows over time, with a lane for each group of workspaces that hold the same."""
from axis import Axis
from colours import colours_of_rows
from storefile.values import UNTIL_CHANGED, printed
from svg import element, label, name_label, picture, shortened, title

NAMES, WIDTH, LANE, BAR, TOP = 232, 1040, 40, 28, 10


def text_of(row, table):
    """The row's values beside its key."""
    return " · ".join(value if isinstance(value, str) else printed(value).removesuffix(" 00:00:00")
                      for place, value in enumerate(row.values) if place not in table.key_columns)


def lanes(store, table, key, rows_by_space):
    """The rows of a key, each list with the workspaces that hold it."""
    found = []
    for space in store.spaces.values():
        rows = rows_by_space[space.number].get(key, [])
        same = next((lane for lane in found if lane[1] == rows), None)
        if same:
            same[0].append(space.name)
        else:
            found.append(([space.name], rows))
    return found


def bar(axis, row, level, text, colour):
    begin, till = axis.place(row.period.begin), axis.place(row.period.till)
    has_begin, has_end = row.period.begin > 0, row.period.till < UNTIL_CHANGED
    left, right, middle = begin + (0 if has_begin else 9), till - (0 if has_end else 9), level + BAR / 2
    shape = f"M{left:.1f} {level} H{right:.1f}"
    shape += f" V{level + BAR}" if has_end else f" L{till:.1f} {middle:.1f} L{right:.1f} {level + BAR}"
    shape += f" H{left:.1f} " + ("Z" if has_begin else f"L{begin:.1f} {middle:.1f} Z")
    told = title(f"{text}\n{row.period}")
    inside = element("svg", label(8, BAR / 2 + 4, shortened(text, right - left - 14), class_="value"), x=left, y=level,
                     width=max(right - left, 0.0), height=BAR)
    return element("g", told, element("path", d=shape, class_="bar", style=f"fill:{colour}"), inside)


def hatched(axis, conflict, level):
    begin, till = axis.place(conflict.period.begin), axis.place(conflict.period.till)
    return element("rect", title(f"in conflict {conflict.period}"), x=begin, y=level + BAR - 5, width=max(till - begin, 2.0),
                   height=9, class_="hatched", rx=3)


def days_below(axis, bottom):
    return [label(axis.place(at), bottom + 16, text, class_="day", text_anchor="middle")
            for at, text in axis.ticks() if axis.place(at) < WIDTH - 40]


def timeline(store, table, key, rows_by_space, conflicts):
    """The picture. Where a workspace and its parent are in conflict, the workspace's lane is hatched."""
    shown = lanes(store, table, key, rows_by_space)
    rows = [row for _, rows in shown for row in rows]
    axis = Axis([row.period for row in rows], NAMES, WIDTH - 12)
    colours = colours_of_rows(row.stamp for row in rows)
    bottom = TOP + LANE * len(shown)
    parts = [element("line", x1=axis.place(at), x2=axis.place(at), y1=TOP, y2=bottom, class_="grid") for at, _ in axis.ticks()]
    for place, (names, held) in enumerate(shown):
        level = TOP + LANE * place + 6
        text = ", ".join(names)
        parts.append(name_label(8, level + BAR / 2 + 4, text, NAMES - 20))
        parts += [bar(axis, row, level, text_of(row, table), colours[row.stamp]) for row in held]
        parts += [hatched(axis, conflict, level) for space, conflict in conflicts if space.name in names]
        if not held:
            parts.append(label(NAMES + 8, level + BAR / 2 + 4, "no row", class_="small"))
    return picture(WIDTH, bottom + 26, *parts, *days_below(axis, bottom), class_="timeline")
