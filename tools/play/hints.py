"""What an answer does not say and a newcomer wants to know: five traps that are no refusals, or that a refusal does not stop."""
import re

from lines import is_refusal, readable

ALL_TIME = "this row holds for all of time, from the year 1 on: SetValidTime or WM_PERIOD say from when"
NOT_SHOWN = "no such row holds in the session's period: SetValidTime sets the time of which you speak"
STANDS = "{} stands where it stood, and what it does next is done there"
OF_LIVE = "LIVE has no conflicts: SetConflictWorkspace names the workspace that has them"
NOTHING_COMPARED = "{} compares nothing yet: SetDiffVersions names two workspaces"
SAID = re.compile(r"\s*([A-Za-z][\w$#]*)\s*:\s*(.*)", re.DOTALL)
CONNECT = re.compile(r"\s*CONNECT\s+([A-Za-z][\w$#]*)\s", re.IGNORECASE)
CALL = re.compile(r"EXEC(?:UTE)?\s+DBMS_WM\s*\.\s*(\w+)\s*(?:\(\s*(.*?)\s*\))?\s*;?\s*", re.IGNORECASE | re.DOTALL)
# Arguments of SetValidTime. Others may mean it too; of those nothing is known.
ALL_OF_TIME = re.compile(r"(?:validFrom\s*=>\s*)?(?:DATE|TIMESTAMP)\s*'0001-01-01(?:[ T]00:00:00)?'"
                         r"(?:\s*,\s*(?:validTill\s*=>\s*)?(?:NULL|DBMS_WM\s*\.\s*UNTIL_CHANGED))?", re.IGNORECASE)
CHANGE = re.compile(r"(?:UPDATE|DELETE(?:\s+FROM)?)\s+([A-Za-z][\w$#]*)", re.IGNORECASE)
INSERT = re.compile(r"INSERT\s+INTO\s+([A-Za-z][\w$#]*)", re.IGNORECASE)
CONFLICTS = re.compile(r"SELECT\b.*\bFROM\b.*_CONF\b", re.IGNORECASE | re.DOTALL)
DIFFERENCES = re.compile(r"SELECT\b.*\bFROM\b.*_DIFF\b", re.IGNORECASE | re.DOTALL)
TEXT = re.compile(r"'(?:[^']|'')*'")
# A condition that says of a column what it is; and of others what it will, but for OR.
EQUALS = re.compile(r".*?\bWHERE\s+(?:[A-Za-z][\w$#]*\s*\.\s*)?([A-Za-z][\w$#]*)\s*=\s*(-?\d{1,18}|'(?:[^']|'')+')\s*(?:AND\b.*|;\s*)?",
                    re.IGNORECASE | re.DOTALL)


class Hints:
    """Follows the lines of a run, and knows which session has set a period, where each stands, at whose conflicts it looks, and which compare."""

    def __init__(self, catalog):
        self.catalog = catalog
        self.periods, self.standing, self.looking, self.comparing = {}, {}, {}, {}  # texts as the lines have them

    def hint(self, line, answer):
        """What is to be said behind the answer of a line, or None."""
        said = SAID.fullmatch(readable(line))
        if said is None:
            self.connected(readable(line))
            return None
        session, statement = said[1].upper(), said[2]
        call = CALL.fullmatch(statement)
        if call:
            return self.called(session, call[1].upper(), call[2], is_refusal(answer))
        return self.changed(session, statement, answer)

    def connected(self, line):
        """A session begins without a period."""
        found = CONNECT.match(line)
        if found:
            for held in (self.periods, self.standing, self.looking, self.comparing):
                held.pop(found[1].upper(), None)

    def called(self, session, procedure, arguments, is_refused):
        if procedure in ("GOTOWORKSPACE", "GOTOSAVEPOINT", "GOTODATE") and is_refused:
            return STANDS.format(session)
        name = TEXT.search(arguments or "")
        if procedure in ("GOTOWORKSPACE", "SETCONFLICTWORKSPACE") and name and not is_refused:
            (self.standing if procedure == "GOTOWORKSPACE" else self.looking)[session] = name[0]
        if procedure == "SETDIFFVERSIONS" and not is_refused:
            self.comparing[session] = arguments
        if procedure == "SETVALIDTIME" and not is_refused:
            self.periods[session] = arguments
        return None

    def changed(self, session, statement, answer):
        change, insert = CHANGE.match(statement), INSERT.match(statement)
        period = self.periods.get(session) or ""
        if change and answer == [b"DONE 0"] and not ALL_OF_TIME.fullmatch(period) and self.has_valid_time(change[1]):
            return NOT_SHOWN if self.may_be_there(change[1].upper(), statement) else None
        if answer == [b"ROWS 0"] and CONFLICTS.match(TEXT.sub("", statement)) and self.looks_at(session) == "'LIVE'":
            return OF_LIVE
        if answer == [b"ROWS 0"] and DIFFERENCES.match(TEXT.sub("", statement)) and session not in self.comparing:
            return NOTHING_COMPARED.format(session)
        names_period = re.search(r"\bWM_PERIOD\b", TEXT.sub("", statement), re.IGNORECASE)
        if insert and answer == [b"DONE 1"] and not period and not names_period and self.has_valid_time(insert[1]):
            return ALL_TIME
        return None

    def looks_at(self, session):
        """The workspace whose conflicts the session is shown."""
        return self.looking.get(session) or self.standing.get(session, "'LIVE'")

    def may_be_there(self, table, statement):
        """Whether at some time a row may hold of which the condition speaks. A key that no record has is none's."""
        found = EQUALS.fullmatch(statement)
        if not found or re.search(r"\bOR\b", TEXT.sub("", statement), re.IGNORECASE):
            return True
        key = found[2][1:-1].replace("''", "'") if found[2].startswith("'") else int(found[2])
        return self.catalog.may_have_key(table, found[1].upper(), key)

    def has_valid_time(self, table):
        return "WM_VALID" in self.catalog.columns().get(table.upper(), [])
