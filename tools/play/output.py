"""What a person is shown: lines with their answers, or rows for a spreadsheet, and on standard error how far it is."""
import os
import sys
import time

from columns import is_query, names_of_columns
from lines import caret, is_refusal, readable
from rows import table, write_csv

INDENT = " " * 5


def names_of(line, catalog):
    return names_of_columns(readable(line), catalog.columns()) if is_query(readable(line)) else None


class Transcript:
    """Each line with its number, and its answer below it. What is added to an answer is marked by a star."""

    def __init__(self, catalog, echoes=True, hints=None):
        self.catalog, self.echoes, self.hints = catalog, echoes, hints
        self.has_colours = sys.stdout.isatty() and "NO_COLOR" not in os.environ

    def marked(self, text, is_wrong):
        """On a terminal what is refused is told in red."""
        return f"\x1b[31m{text}\x1b[0m" if is_wrong and self.has_colours else text

    def show(self, number, line, answer):
        if self.echoes:
            print(f"{number:>3}  {readable(line)}".rstrip())
        mark = caret(line, answer)
        if mark is not None:
            print(INDENT + self.marked(mark, True))
        texts = [readable(text) for text in answer]
        if answer and answer[-1].startswith(b"ROWS "):
            texts = [*table(names_of(line, self.catalog), texts[:-1]), texts[-1]]
        for text in texts:
            print(INDENT + self.marked(text, is_refusal(answer)))
        hint = self.hints.hint(line, answer) if self.hints else None
        if hint is not None:
            print(f"{INDENT}* {hint}")
        sys.stdout.flush()


class Sheet:
    """The rows of each query for a spreadsheet, with an empty line between two queries. Refusals go to standard error."""

    def __init__(self, catalog):
        self.catalog, self.is_first = catalog, True

    def show(self, number, line, answer):
        if is_refusal(answer):
            print(f"line {number}: {readable(line)}\n  {readable(answer[-1])}", file=sys.stderr)
        if not answer or not answer[-1].startswith(b"ROWS "):
            return
        if not self.is_first:
            print()
        self.is_first = False
        write_csv(names_of(line, self.catalog), [readable(row) for row in answer[:-1]], sys.stdout)
        sys.stdout.flush()


class Progress:
    """How far a long play is: on a terminal a line that is written over, else a line from time to time."""

    def __init__(self, total, is_shown):
        self.total, self.is_shown = total, is_shown
        self.begun = self.told = time.monotonic()
        self.on_terminal = sys.stderr.isatty()
        self.is_open = False

    def tell(self, done, refused):
        now = time.monotonic()
        if not self.is_shown or now - self.told < (0.5 if self.on_terminal else 5):
            return
        self.told, self.is_open = now, self.on_terminal
        text = f"{done} of {self.total} lines, {refused} refused, {now - self.begun:.0f} s"
        print(text, end="\r" if self.on_terminal else "\n", file=sys.stderr, flush=True)

    def close(self):
        """Clears the line that is written over."""
        if self.is_open:
            print("\x1b[K", end="", file=sys.stderr, flush=True)
