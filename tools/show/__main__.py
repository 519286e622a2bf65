#!/usr/bin/env python3
"""python3 tools/show STORE [--log N] [--diff POINT POINT] [--html FILE [--keys N]]

Shows what a store holds: its tables, the tree of its workspaces and savepoints, what is frozen and what is locked,
how many changes it still takes, who changed what and when in tables with history (what a merge brings, under who
merged), and what a merge would find in conflict. The file is read as docs/FORMAT.md says, and never written; no run is
needed.

    --log N      so many of the last changes (20)
    --diff P Q   in what two points differ, side by side: each a workspace, or a savepoint as 'workspace, savepoint'
    --html FILE  writes a page with pictures instead, for a browser; over what is there, unless that is a store
    --keys N     so many keys of a table are drawn on the page, the last changed ones (40)
    --version    says of which day this tool is

The status is 0, or 1 where the file is no store or is damaged, a point is not there, or no page can be written. Damage is named as the
program names it; not all that its `check` tests is looked at, so a damaged store may be shown.
"""
import argparse
import signal
import sys
from pathlib import Path

sys.path.insert(1, str(Path(__file__).resolve().parents[1]))

from called import named, see_to_python, tell_of_itself

see_to_python()

from shown import NoPoint, shown
from storefile.pages import MADE, Damaged, NotAStore
from storefile.store import opened


def count(text):
    """How many of something."""
    if not text.isdecimal():
        raise ValueError(text)
    return int(text)


def asked():
    tell_of_itself("show", __doc__)
    if len(sys.argv) == 1:
        print(named(__doc__.strip()))
        sys.exit(2)
    parser = argparse.ArgumentParser(prog="show", usage=named(__doc__.split("\n")[0]), add_help=False)
    parser.add_argument("store", type=Path)
    parser.add_argument("--log", type=count, default=20)
    parser.add_argument("--keys", type=count, default=40)
    parser.add_argument("--diff", nargs=2)
    parser.add_argument("--html", type=Path)
    return parser.parse_args()


def begins_as_a_store(path):
    """Whether a file there has the first byte of a store. The one that is shown has it, by whatever name."""
    if not path.is_file():
        return False
    with path.open("rb") as file:
        return file.read(1) == bytes([MADE])


def write_page(path, page):
    """Writes the page. The status, or why there is none."""
    try:
        if begins_as_a_store(path):
            return f"show: {path} is a store or begins as one, and is not written over"
        path.write_text(page, encoding="utf-8")
    except OSError as error:
        return f"show: {path}: {error.strerror}"
    return 0


def main():
    words = asked()
    try:
        text, page = shown(words.store, opened(words.store), words.log, words.keys, words.diff)
    except NoPoint as lost:
        return f"show: there is no workspace or savepoint {lost}"
    except NotAStore:
        return f"show: {words.store} is no store"
    except Damaged as damage:
        return f"show: {damage}"
    except OSError as error:
        return f"show: {words.store}: {error.strerror}"
    if words.html is not None:
        return write_page(words.html, page)
    print(text)
    return 0


if __name__ == "__main__":
    # Who reads only the beginning of what is written ends this quietly.
    signal.signal(signal.SIGPIPE, signal.SIG_DFL)
    # Where the locale has no letter for something, a question mark stands for it.
    sys.stdout.reconfigure(errors="replace")
    sys.exit(main())
