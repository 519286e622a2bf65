"""The pages that a store's file holds, and the slots in them."""

SIZE = 4096
MADE, FORMAT, OPEN_GATE = 0x5A, 1, 0x47


class NotAStore(Exception):
    """The file does not begin as a store does."""


class Damaged(Exception):
    """A test of opening that failed, as the program names it."""

    def __init__(self, page, kind):
        super().__init__(f"damaged page {page} {kind}")


def number(data, at, size):
    return int.from_bytes(data[at:at + size], "big")


class Pages:
    """The pages of a file's bytes, with the images of an open journal over them."""

    def __init__(self, data):
        if not data or data[0] != MADE:
            raise NotAStore
        if len(data) < SIZE:
            raise Damaged(0, "short")
        if data[1] != FORMAT:
            raise Damaged(0, "format")
        self.data = data
        self.is_repaired = data[8] == OPEN_GATE
        self.images = self.journal() if self.is_repaired else {}
        self.count = number(self.page(1), 0, 8)
        if self.count < 3:
            raise Damaged(1, "root")

    def journal(self):
        """The images of an open journal, by page. The file itself stays as it is."""
        start, count = number(self.data, 16, 8), number(self.data, 24, 8)
        directory = start * SIZE
        first = start + -(-count * 8 // SIZE)
        if start < 2 or count == 0 or (first + count) * SIZE > len(self.data):
            raise Damaged(0, "journal")
        names = [number(self.data, directory + 8 * place, 8) for place in range(count)]
        if any(name == 0 or name >= start for name in names) or len(set(names)) < count:
            raise Damaged(0, "journal")
        return {name: self.data[(first + place) * SIZE:(first + place + 1) * SIZE] for place, name in enumerate(names)}

    def page(self, place):
        found = self.images.get(place, self.data[place * SIZE:(place + 1) * SIZE])
        if len(found) < SIZE:
            raise Damaged(place, "short")
        return found

    def slots(self):
        """Each slot as (page, id, bytes), in the order of the pages."""
        found, seen = [], set()
        for place in range(2, self.count):
            page = self.page(place)
            inside, at = [], 2
            for _ in range(number(page, 0, 2)):
                end = at + 10 + number(page, at + 8, 2)
                if at + 10 > SIZE or end > SIZE:
                    raise Damaged(place, "slots")
                inside.append((place, number(page, at, 8), bytes(page[at + 10:end])))
                at = end
            for _, name, _ in inside:
                if name in seen:
                    raise Damaged(place, "twice")
                seen.add(name)
            found += inside
        return found
