"""The picture of the tree: a lane for each workspace, with its savepoints and changes, and a line from where it was born."""
from colours import colour_of
from overview import FREEZES, frozen_told
from storefile.store import LIVE
from svg import VALUE, element, label, name_label, picture, title, width_of

NAMES, TOP, LANE, GAP, LEAST, WIDTH = 232, 44, 62, 26, 54, 1040


def in_order(store, number=LIVE):
    """All workspaces, each before its children."""
    space = store.spaces[number]
    return [space, *(found for child in store.children(space) for found in in_order(store, child.number))]


def births(store):
    """The savepoint that was made for each workspace but LIVE. Of several at one place, in order of their making; one of a workspace that
    was removed since, or of a merge, may be among them."""
    found = {}
    for space in store.spaces.values():
        points = [point for point in store.savepoints_of(space) if point.is_implicit]
        for child in sorted(store.children(space), key=lambda child: (child.born, child.number)):
            fitting = [point for point in points if point.place == child.birth_place]
            if fitting:
                found[child.number] = fitting[0]
                points.remove(fitting[0])
    return found


class Graph:
    """Where everything stands. Each savepoint has a column of its own, in the order in which they were made."""

    def __init__(self, store):
        self.store = store
        self.spaces = in_order(store)
        self.births = births(store)
        self.level = {space.number: TOP + LANE * place + LANE // 2 for place, space in enumerate(self.spaces)}
        self.points = sorted(store.savepoints, key=lambda point: point.making)
        widths = [max(LEAST, width_of(self.name(point), VALUE) + GAP) for point in self.points]
        spare = max(0.0, WIDTH - NAMES - LEAST - sum(widths)) / (len(widths) + 1)
        self.column, right = {}, float(NAMES)
        for point, width in zip(self.points, widths):
            self.column[point.making] = right + (width + spare) / 2
            right += width + spare
        self.end = right + LEAST + spare
        self.nodes = {space.number: self.nodes_of(space) for space in self.spaces}

    def name(self, point):
        return "" if point.is_implicit else point.name

    def nodes_of(self, space):
        """The savepoints that a lane shows: of those at one place the first."""
        found = {}
        for point in self.store.savepoints_of(space):
            found.setdefault(point.place, point)
        return sorted(found.values(), key=lambda point: self.column[point.making])

    def begin(self, space):
        born = self.births.get(space.number)
        return self.column[born.making] if born else float(NAMES)

    def picture(self):
        parts = [self.days(), *map(self.birth, self.spaces), *map(self.lane, self.spaces)]
        return picture(self.end + 40, TOP + LANE * len(self.spaces) + 8, *parts, class_="graph")

    def days(self):
        """The day of each column, where it is another than that of the one before."""
        parts, last, free = [], None, 0.0
        for point in self.points:
            day, x = str(point.moment)[:10], self.column[point.making]
            if day != last and x - 40 > free:
                parts.append(label(x, 18, day, class_="day", text_anchor="middle"))
                parts.append(element("line", x1=x, x2=x, y1=26, y2=TOP + LANE * len(self.spaces), class_="grid"))
                last, free = day, x + 40
        return "".join(parts)

    def birth(self, space):
        """The line from the parent's lane down to that of the workspace."""
        born = self.births.get(space.number)
        if born is None:
            return ""
        home = next(point for point in self.nodes[space.parent] if point.place == born.place)
        x, y, till, level = self.column[home.making], self.level[space.parent], self.begin(space), self.level[space.number]
        bend = min(22.0, (level - y) / 2)
        across = max(till + bend, x + bend)
        path = f"M{x:.1f} {y} V{level - bend:.1f} Q{x:.1f} {level} {x + bend:.1f} {level} H{across:.1f}"
        drawn = element("path", d=path, class_="birth", style=f"stroke:{colour_of(space)}")
        return element("path", d=path, class_="halo") + drawn

    def lane(self, space):
        level, begin = self.level[space.number], self.begin(space)
        colour = colour_of(space)
        left = begin + 22 * (space.number != LIVE)
        parts = [element("line", x1=left, x2=self.end, y1=level, y2=level, class_="lane", style=f"stroke:{colour}")]
        parts += [self.head(space, level, colour), self.changes(space, level, begin, colour)]
        parts += [self.node(point, level, colour) for point in self.nodes[space.number]]
        parts.append(element("circle", title("what is newest"), cx=self.end, cy=level, r=6, class_="newest",
                             style=f"fill:{colour}"))
        if space.freeze:
            parts.append(element("text", title(frozen_told(space)), FREEZES[space.freeze], x=self.end + 36, y=level - 15, class_="small frozen",
                                 text_anchor="end"))
        return element("g", *parts)

    def head(self, space, level, colour):
        """The workspace's name, and what is to be said of it in few words."""
        store = self.store
        conflicts = len(store.conflicts(space))
        words = f"{space.log_length} changes" if space.log_length != 1 else "1 change"
        told = [label(16, level + 16, words, class_="small")]
        if conflicts:
            told.append(label(16 + width_of(words, VALUE) + 12, level + 16, f"{conflicts} in conflict", class_="small alarm"))
        mark = element("rect", x=4, y=level - 13, width=4, height=32, rx=2, style=f"fill:{colour}")
        return mark + name_label(16, level, space.name, NAMES - 30) + "".join(told)

    def node(self, point, level, colour):
        x = self.column[point.making]
        if point.is_implicit:
            told = title(f"{point.name}, {point.moment}: made for a workspace or a merge")
            return element("circle", told, cx=x, cy=level, r=4.5, class_="implicit", style=f"stroke:{colour}")
        mark = element("path", title(f"{point.name}, {point.moment}"), d=f"M{x - 7:.1f} {level} l7 -7 l7 7 l-7 7 z",
                       class_="savepoint", style=f"fill:{colour}")
        return mark + label(x, level - 15, point.name, class_="small", text_anchor="middle")

    def changes(self, space, level, begin, colour):
        """Between two savepoints, how many changes were made."""
        nodes = self.nodes[space.number]
        places = [begin + 22 * (space.number != LIVE), *(self.column[point.making] for point in nodes), self.end]
        lengths = [0, *(point.log_length for point in nodes), space.log_length]
        entries = self.store.history_of(space)
        parts = []
        for left, right, first, till in zip(places, places[1:], lengths, lengths[1:]):
            if first < till:
                kept = [entry for entry in entries if first <= entry.position < till]
                parts.append(pill((left + right) / 2, level, till - first, kept, colour))
        return "".join(parts)


def pill(x, level, count, kept, colour):
    """How many changes, and who made those of which the history is kept."""
    text = str(count)
    width = 14 + 7 * len(text)
    told = f"{text} change{'s' * (count != 1)}"
    if kept:
        users = ", ".join(sorted({entry.user for entry in kept}))
        told += f", in tables with history by {users}, {kept[0].moment} to {kept[-1].moment}"
    frame = element("rect", x=x - width / 2, y=level - 10, width=width, height=20, rx=10, class_="pill",
                    style=f"stroke:{colour}")
    return element("g", title(told), frame, label(x, level + 4, text, class_="count", text_anchor="middle"))
