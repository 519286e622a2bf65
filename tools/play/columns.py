"""The names of the columns that a query answers."""
import re

SELECT = re.compile(r"\s*[A-Za-z][\w$#]*\s*:\s*SELECT(?![\w$#])\s*(?:DISTINCT(?![\w$#]))?", re.IGNORECASE)
TOKEN = re.compile(r"\s*('(?:[^']|'')*'|[A-Za-z][\w$#]*|\d+|.)", re.DOTALL)
ENDS_SOURCES = {"WHERE", "GROUP", "ORDER", ";"}
OF_A_TABLE = re.compile(r"(?!WM_VALID\.)[A-Z][\w$#]*\.([A-Z][\w$#]*(?:\.VALID(?:FROM|TILL))?)")


def is_query(line):
    return SELECT.match(line) is not None


def tokens(text):
    """Each token as (text, where it begins, where it ends)."""
    return [(found[1], found.start(1), found.end()) for found in TOKEN.finditer(text) if found[1].strip()]


def parted(text, ends):
    """What stands between the commas outside brackets, up to a word of some; and the text behind that word."""
    parts, begin, depth = [], 0, 0
    for token, at, till in tokens(text):
        depth += (token == "(") - (token == ")")
        if depth == 0 and (token == "," or token.upper() in ends):
            parts.append(text[begin:at].strip())
            begin = till
            if token != ",":
                return parts, text[till:]
    return [*parts, text[begin:].strip()], ""


def in_capitals(text):
    """A name or an expression as it is read: in capitals outside texts, without blanks where none are needed."""
    pieces = re.split(r"('(?:[^']|'')*')", text)
    return "".join(piece if piece.startswith("'") else closed(piece).upper() for piece in pieces)


def closed(text):
    """The text with one blank in the place of many, and none around a dot."""
    return re.sub(r"\s*\.\s*", ".", re.sub(r"\s+", " ", text))


def item_name(item):
    """The name that AS gives to an item, else its text."""
    found = tokens(item)
    if len(found) > 2 and found[-2][0].upper() == "AS":
        return found[-1][0].upper()
    return in_capitals(item)


def sources(text):
    """The tables of a query, each with the name that stands for it."""
    found = []
    for part in parted(text, ENDS_SOURCES)[0]:
        for source in re.split(r"\b(?:INNER\s+)?JOIN\b", part, flags=re.IGNORECASE):
            words = re.split(r"\bON\b", source, flags=re.IGNORECASE)[0].upper().split()
            found.append((words[0], words[-1]))
    return found


def names_of_columns(line, columns_of):
    """The names of the columns that the query on the line answers, or None where they are not known. `columns_of` has
    those of each table."""
    items, rest = parted(line[SELECT.match(line).end():], {"FROM"})
    if items != ["*"]:
        return without_tables([item_name(item) for item in items])
    tables = sources(rest)
    if any(table not in columns_of for table, _ in tables):
        return None
    if len(tables) == 1:
        return list(columns_of[tables[0][0]])
    return without_tables([f"{alias}.{column}" for table, alias in tables for column in columns_of[table]])


def without_tables(names):
    """The names, without the name of a table before them where each is still another."""
    short = [OF_A_TABLE.fullmatch(name)[1] if OF_A_TABLE.fullmatch(name) else name for name in names]
    return [name if short.count(shorter) > 1 else shorter for name, shorter in zip(names, short)]
