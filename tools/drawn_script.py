#!/usr/bin/env python3
"""python3 tools/drawn_script.py SEED LINES > SCRIPT

Writes the script that `wm STORE load --seed SEED --lines LINES` plays: the eight opening lines, and then LINES drawn ones. It was
written from the rules in docs/MODEL.md alone and shares nothing with the program; the tests compare the two.
"""
import signal
import sys

OPENING = [
    "CONNECT A ANN",
    "CONNECT B BEN",
    "A: CREATE TABLE G (ID NUMBER PRIMARY KEY, X NUMBER)",
    "A: EXECUTE DBMS_WM.EnableVersioning('G', 'NONE', FALSE, TRUE)",
    "A: EXECUTE DBMS_WM.CreateWorkspace('W')",
    "B: EXECUTE DBMS_WM.GotoWorkspace('W')",
    "A: EXECUTE DBMS_WM.SetValidTime(DATE '2020-01-01', DATE '2021-01-01')",
    "B: EXECUTE DBMS_WM.SetValidTime(DATE '2020-07-01', DATE '2021-07-01')",
]


class Draws:
    """Numbers that are drawn from a seed, one after another."""

    def __init__(self, seed):
        self.state = seed

    def below(self, bound):
        self.state = (self.state * 6364136223846793005 + 1442695040888963407) % 2**64
        return (self.state >> 33) % bound


def drawn(draws):
    """One line."""
    side, form, half, value = [draws.below(bound) for bound in (2, 8, 500, 1_000_000)]
    key = 2 * half + side
    call = "MergeWorkspace" if half % 2 else "RefreshWorkspace"
    insert, update = f"INSERT INTO G VALUES ({key}, {value})", f"UPDATE G SET X = {value} WHERE ID = {key}"
    statements = [insert] * 3 + [update] * 2 + [f"DELETE FROM G WHERE ID = {key}", f"EXECUTE DBMS_WM.{call}('W')", "SELECT COUNT(*) FROM G"]
    return f"{'AB'[side]}: {statements[form]}"


def script(seed, lines):
    """The lines of a script, one after another."""
    yield from OPENING
    draws = Draws(seed)
    for _ in range(lines):
        yield drawn(draws)


def main():
    if len(sys.argv) != 3 or not all(word.isdecimal() for word in sys.argv[1:]):
        return __doc__.split("\n")[0]
    for line in script(*map(int, sys.argv[1:])):
        print(line)
    return 0


if __name__ == "__main__":
    # Who reads only the beginning of what is written ends this quietly.
    signal.signal(signal.SIGPIPE, signal.SIG_DFL)
    sys.exit(main())
