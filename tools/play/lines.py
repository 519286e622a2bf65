"""Lines of a script and of its answers: which lines get none, where an answer ends, and where in a line a refusal points."""
import re

LONGEST = 16_384
LAST_OF_ANSWER = re.compile(rb"OK|DONE \d+|ROWS \d+|WM-\d{3} .*", re.DOTALL)
REFUSAL = re.compile(rb"WM-\d{3} ")
PLACED = re.compile(rb"WM-(?:003 syntax|065 literal) (\d+)")
BYTE_ORDER_MARK = b"\xef\xbb\xbf"


def script_lines(data):
    """The lines of a script, each without its end. A mark that some editors put at the beginning is dropped."""
    lines = data.removeprefix(BYTE_ORDER_MARK).split(b"\n")
    if lines[-1] == b"":
        lines.pop()
    return [line.removesuffix(b"\r") for line in lines]


def is_silent(line):
    """Whether the line is answered by nothing: blanks alone, or a remark."""
    said = line.lstrip(b" \t")
    return len(line) <= LONGEST and (not said or said.startswith(b"--"))


def ends_answer(line):
    """Whether this is the last line of an answer. A row of a query never looks like one."""
    return LAST_OF_ANSWER.fullmatch(line) is not None


def is_refusal(answer):
    return bool(answer) and REFUSAL.match(answer[-1]) is not None


def readable(data):
    return data.decode("utf-8", "replace")


def caret(line, answer):
    """A line with a caret below the column that a refusal tells, or None. Tabs stay, so that both lines are shifted alike."""
    told = PLACED.fullmatch(answer[-1]) if answer else None
    if told is None:
        return None
    before = readable(line[:int(told[1]) - 1])
    return "".join("\t" if char == "\t" else " " for char in before) + "^"
