"""Colours. LIVE has the page's own; the others are told apart by their numbers."""
from storefile.store import LIVE

WORKSPACES = ["#2f6fed", "#d9720b", "#0f9d6a", "#8a4be0", "#d43a7d", "#0b93ad", "#7a9a13", "#c2412d"]
# Rows of one key are told apart by these, in the order in which they were written.
ROWS = ["#9cc4ff", "#ffd08a", "#9be3c0", "#d3b8ff", "#ffb3cf", "#8fdde9", "#d5e58a", "#f5b5a8"]


def colour_of(space):
    return "var(--live)" if space.number == LIVE else WORKSPACES[(space.number - 1) % len(WORKSPACES)]


def colours_of_rows(stamps):
    """A colour for each row, by its stamp."""
    return {stamp: ROWS[place % len(ROWS)] for place, stamp in enumerate(sorted(set(stamps)))}
