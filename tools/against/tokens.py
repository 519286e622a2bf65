"""The tokens of a line."""
from dataclasses import dataclass

RESERVED = set("""
    CONNECT DISCONNECT AT CREATE TABLE PRIMARY KEY NOT NULL CONSTRAINT NUMBER INTEGER VARCHAR2 DATE TIMESTAMP INSERT INTO VALUES UPDATE
    SET WHERE DELETE FROM SELECT DISTINCT INNER JOIN ON GROUP BY ORDER AS COUNT SUM MIN MAX ASC DESC VALIDFROM VALIDTILL WM_VALID SYSDATE
    DBMS_WM UNTIL_CHANGED TO_DATE WMSYS WM_PERIOD OR AND IS IN BETWEEN EXECUTE EXEC TRUE FALSE""".split())
LONG_MARKS = [b"<>", b"!=", b"<=", b">=", b"=>"]
MARKS = b"(),.:;*+-=<>"
OPERATORS = {"WM_OVERLAPS", "WM_CONTAINS", "WM_MEETS", "WM_EQUALS", "WM_LESSTHAN", "WM_GREATERTHAN"}


@dataclass
class Token:
    kind: str  # word, number, text, mark, bad or end
    value: object
    column: int

    def is_id(self):
        return self.kind == "word" and self.value not in RESERVED


def is_letter(byte):
    return 65 <= byte <= 90 or 97 <= byte <= 122


def is_digit(byte):
    return 48 <= byte <= 57


def tokens_of(line):
    found, at = [], 0
    while at < len(line):
        till = at + 1
        if line[at] in b" \t":
            at = till
            continue
        kind, value = "bad", None
        if is_letter(line[at]):
            while till < len(line) and (is_letter(line[till]) or is_digit(line[till]) or line[till] in b"_$#"):
                till += 1
            kind, value = "word", line[at:till].decode().upper()
        elif is_digit(line[at]):
            while till < len(line) and is_digit(line[till]):
                till += 1
            kind, value = "number", int(line[at:till])
        elif line[at] == ord("'"):
            while till < len(line) and (line[till] != ord("'") or line[till:till + 2] == b"''"):
                till += 2 if line[till] == ord("'") else 1
            if till < len(line):
                kind, value = "text", line[at + 1:till].replace(b"''", b"'")
            till += 1
        elif line[at:at + 2] in LONG_MARKS:
            kind, value, till = "mark", line[at:at + 2].decode(), at + 2
        elif line[at] in MARKS:
            kind, value = "mark", chr(line[at])
        found.append(Token(kind, value, at + 1))
        at = till
    found.append(Token("end", None, len(line) + 1))
    return found
