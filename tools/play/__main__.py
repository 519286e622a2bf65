#!/usr/bin/env python3
"""python3 tools/play STORE [SCRIPT] [--new [--limit N]] [--now T] [--stop] [--csv] [--quiet] [--program WM]

Plays a script through the built program, and shows each line with its answer below it. Without SCRIPT the lines come
from standard input; at a terminal each is asked for. The last line, on standard error, counts accepted and refused ones.
Behind four answers that mislead stands a hint, which begins with a star and is no word of the program's.

    --new         makes the store first. What is at STORE already is never touched
    --limit N     how many changes the new store takes (1048576, which is the most)
    --now T       when the run begins, in UTC: '2024-06-01' or '2024-06-01 17:30:00'. Without it, by the clock
    --stop        ends at the first refused line; the lines behind it are not played
    --csv         gives the rows of the queries alone, for a spreadsheet
    --quiet       says nothing on standard error but what went wrong, and adds no hints to answers
    --program WM  the program. Without it $WM, the one built here or installed beside, wm on the path, or the one that
                  'make try' leaves, of which nothing is proved
    --version     says of which day this tool is

The status is 0 where each line was accepted, 1 where one was refused, 2 where nothing could be played, and else the
program's own.
"""
import argparse
import os
import re
import sys
from datetime import datetime, timezone
from pathlib import Path

sys.path.insert(1, str(Path(__file__).resolve().parents[1]))

from called import named, see_to_python, tell_of_itself

see_to_python()

from alone import InUse, hold
from catalog import Catalog
from hints import Hints
from lines import is_refusal, is_silent, script_lines
from output import Progress, Sheet, Transcript
from program import UNPROVED, Ended, NoProgram, Program, found_program, make_store
from storefile.pages import MADE, Damaged, NotAStore
from storefile.use import has_a_run

GREATEST_LIMIT = 1_048_576
MOMENT = re.compile(r"\d{4}-\d\d-\d\d([ T]\d\d:\d\d:\d\d)?", re.ASCII)
REASONS = {"wm: disk fault": "the store could not be read or written, or another run has it open"}


class Refused(Exception):
    """Why nothing is played."""


def limit(text):
    """What --limit gives."""
    if not text.isdecimal() or not 1 <= int(text) <= GREATEST_LIMIT:
        raise Refused(f"--limit is a number from 1 to {GREATEST_LIMIT}")
    return int(text)


def moment(text):
    """What --now gives."""
    try:
        if MOMENT.fullmatch(text):
            datetime.fromisoformat(text)
            return text
    except ValueError:
        pass  # the calendar has no such day or time
    raise Refused("--now is a day, '2024-06-01', or a day and a time, '2024-06-01 17:30:00'")


def asked():
    tell_of_itself("play", __doc__)
    if len(sys.argv) == 1:
        print(named(__doc__.strip()))
        sys.exit(2)
    parser = argparse.ArgumentParser(prog="play", usage=named(__doc__.split("\n")[0]), add_help=False)
    parser.add_argument("store", type=Path)
    parser.add_argument("script", type=Path, nargs="?")
    for name in ("new", "stop", "csv", "quiet"):
        parser.add_argument(f"--{name}", action="store_true")
    parser.add_argument("--limit", type=limit, default=GREATEST_LIMIT)
    parser.add_argument("--now", type=moment)
    parser.add_argument("--program")
    return parser.parse_intermixed_args()


def clock():
    return datetime.now(timezone.utc).strftime("%Y-%m-%d %H:%M:%S")


def explained(complaint, status):
    reason = REASONS.get(complaint)
    return (complaint or f"wm: ended with status {status}") + (f" ({reason})" if reason else "")


def see_to_store(words, program):
    """Makes the store where one is asked for, and sees that there is one."""
    if words.new:
        if words.store.exists():
            raise Refused(f"there is something at {words.store} already; --new makes a store where nothing is")
        status, complaint = make_store(program, words.store, words.limit)
        if status != 0:
            words.store.unlink(missing_ok=True)
            raise Refused(f"no store was made: {explained(complaint, status)}")
    elif not words.store.exists():
        raise Refused(f"there is nothing at {words.store}; --new makes a store there")
    elif not words.store.is_file():
        raise Refused(f"{words.store} is no file")
    with words.store.open("rb") as file:
        if file.read(1) != bytes([MADE]):
            raise Refused(f"{words.store} is no store")
        if has_a_run(file):
            raise Refused(f"another run has {words.store} open")


def warn_of_moment(words, catalog):
    """A store never goes back in time: tells where the run begins later than was asked for, and where it is about to go ahead."""
    try:
        last = str(catalog.last_moment())
    except (Damaged, NotAStore, ValueError):
        return
    begins = str(datetime.fromisoformat(words.now))
    if last > begins:
        print(f"play: the store's last change is of {last}, so the run begins then", file=sys.stderr)
    if begins > clock():
        print(f"play: {words.now} is later than the clock; once a line changes something, the store stays there", file=sys.stderr)


class Play:
    """A script on its way through the program."""

    def __init__(self, words, program, out):
        self.words, self.out = words, out
        self.program = Program(program, words.store, words.now)
        self.accepted = self.refused = 0
        self.number = 0
        self.unanswered = None

    def take(self, line, catalog):
        """Plays one line. Whether the next one may be played."""
        self.number += 1
        try:
            answer = self.program.answer(line)
        except Ended:
            self.unanswered = self.number
            return False
        if is_refusal(answer):
            self.refused += 1
        elif not is_silent(line):
            self.accepted += 1
            catalog.forget(line)
        self.out.show(self.number, line, answer)
        return not (self.words.stop and is_refusal(answer))

    def end(self):
        """The status, behind all lines."""
        status, complaint = self.program.end()
        if self.unanswered is not None:
            print(f"play: line {self.unanswered} was not answered: {explained(complaint, status)}", file=sys.stderr)
        elif complaint:
            print(f"play: {explained(complaint, status)}", file=sys.stderr)
        return status or (1 if self.refused else 0)


def play_script(play, lines, catalog, is_told):
    progress = Progress(len(lines), is_told and not sys.stdout.isatty())
    for line in lines:
        if not play.take(line, catalog):
            break
        progress.tell(play.number, play.refused)
    progress.close()
    left = len(lines) - play.number
    if is_told:
        unanswered = ", 1 not answered" if play.unanswered else ""
        stopped = f"; stopped at line {play.number}, {left} not played" if left else ""
        print(f"play: {play.accepted} accepted, {play.refused} refused{unanswered}{stopped}", file=sys.stderr)


def play_at_terminal(play, catalog):
    """Asks for lines until there are no more."""
    import readline  # noqa: F401  gives `input` its editing and its history
    print(f"{play.words.store}, on {play.words.now}: one statement on each line, and Ctrl-D at the end", file=sys.stderr)
    while True:
        try:
            line = input("wm>  ")
        except EOFError:
            print()
            return
        except KeyboardInterrupt:
            print()
            continue
        if not play.take(line.encode("utf-8", "surrogateescape"), catalog):
            return


def main():
    words = asked()
    try:
        program = found_program(words.program)
        data = None if words.script is None else words.script.read_bytes()
        see_to_store(words, program)
        held = hold(words.store)
    except NoProgram as why:
        raise Refused(why) from None
    except InUse:
        raise Refused(f"another play has {words.store} open") from None
    except OSError as error:
        raise Refused(f"{error.filename}: {error.strerror}") from None
    if program == [UNPROVED] and not words.quiet:
        print("play: the program is the one that 'make try' compiled; nothing of it is proved", file=sys.stderr)
    catalog = Catalog(words.store)
    at_terminal = data is None and sys.stdin.isatty()
    words.now = words.now or clock()
    warn_of_moment(words, catalog)
    hints = None if words.quiet else Hints(catalog)
    out = Sheet(catalog) if words.csv else Transcript(catalog, not at_terminal, hints)
    play = Play(words, program, out)
    if at_terminal:
        play_at_terminal(play, catalog)
    else:
        play_script(play, script_lines(sys.stdin.buffer.read() if data is None else data), catalog, not words.quiet)
    status = play.end()
    held.close()
    return status


if __name__ == "__main__":
    try:
        sys.exit(main())
    except Refused as why:
        print(f"play: {why}", file=sys.stderr)
        sys.exit(2)
    except (BrokenPipeError, KeyboardInterrupt):
        # Nobody reads any more, or the user has had enough. The program ends with its input, behind an answered line.
        os.dup2(os.open(os.devnull, os.O_WRONLY), sys.stdout.fileno())
        sys.exit(1)
