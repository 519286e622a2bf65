"""Rows of an answer: their values, and how they are laid out for a person or a spreadsheet."""
import csv
import re

VALUE = re.compile(r"'(?:[^']|'')*'|\[[^)]*\)|[^|]*")
NUMBER = re.compile(r"-?\d+")
PERIOD = re.compile(r"\[(.*), (.*)\)")
MIDNIGHT = " 00:00:00"
# Texts that could be taken for something else keep their quotes.
UNCLEAR = re.compile(r"NULL|UNTIL_CHANGED|\s.*|.*\s|.*[|].*|-?\d+|\d{4}-\d\d-\d\d.*|\[.*\)", re.DOTALL)


def values(row):
    """The values of a row, each as it is printed."""
    found, at = [], 0
    while True:
        value = VALUE.match(row, at)
        found.append(value[0])
        at = value.end() + 1
        if at > len(row):
            return found


def plain(value):
    """A text without its quotes; any other value as it is."""
    return value[1:-1].replace("''", "'") if value.startswith("'") else value


def shown(value):
    """A value as a table shows it."""
    return value if UNCLEAR.fullmatch(plain(value)) else plain(value)


def without_midnight(column):
    """The times of a column as days, where each of them is one."""
    times = [value for value in column if re.match(r"[\[\d]", value) and not NUMBER.fullmatch(value)]
    parts = [part for value in times for part in re.findall(r"\d{4}-\d\d-\d\d \d\d:\d\d:\d\d", value)]
    if not all(part.endswith(MIDNIGHT) for part in parts):
        return column
    return [value if value.startswith("'") else value.replace(MIDNIGHT, "") for value in column]


def table(names, rows):
    """The lines of a table with its columns aligned, numbers to the right."""
    parts = [values(row) for row in rows]
    if not parts:
        return []
    columns = [without_midnight(column) for column in zip(*parts)]
    is_number = [all(NUMBER.fullmatch(value) or value == "NULL" for value in column) for column in columns]
    columns = [[shown(value) for value in column] for column in columns]
    heads = names if names and len(names) == len(columns) else [""] * len(columns)
    widths = [max(map(len, [head, *column])) for head, column in zip(heads, columns)]
    lines = []
    if any(heads):
        lines.append(" | ".join(head.ljust(width) for head, width in zip(heads, widths)).rstrip())
        lines.append("-+-".join("-" * width for width in widths))
    for row in zip(*columns):
        fitted = [value.rjust(width) if number else value.ljust(width) for value, width, number in zip(row, widths, is_number)]
        lines.append(" | ".join(fitted).rstrip())
    return lines


def write_csv(names, rows, out):
    """Writes the rows for a spreadsheet: texts without quotes, NULL as nothing, a period as two columns."""
    columns = [without_midnight(column) for column in zip(*map(values, rows))]
    parts = list(zip(*columns))
    is_period = [all(PERIOD.fullmatch(value) for value in column) for column in columns]
    writer = csv.writer(out, lineterminator="\n")
    if names and (not parts or len(names) == len(is_period)):
        periods = is_period or [name.endswith("WM_VALID") for name in names]
        writer.writerow([head for name, two in zip(names, periods)
                         for head in ([f"{name}.VALIDFROM", f"{name}.VALIDTILL"] if two else [name])])
    for row in parts:
        writer.writerow([cell for value, two in zip(row, is_period) for cell in cells(value, two)])


def cells(value, is_period):
    if is_period:
        return list(PERIOD.fullmatch(value).groups())
    return ["" if value == "NULL" else plain(value)]
