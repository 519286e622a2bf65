"""What the store's file says beside the answers: the columns of its tables and their views, its keys, and its last moment."""
import re

from storefile.pages import Pages
from storefile.records import decoded

MAKES_COLUMNS = re.compile(rb"[^:]*:\s*(CREATE\s+TABLE|EXEC(UTE)?\s+DBMS_WM\s*\.\s*EnableVersioning)\b", re.IGNORECASE)
COUNTERS, TABLE = 1, 2
NUMBER, TEXT = b"\1", b"\2"
OF_HISTORY = ["WM_WORKSPACE", "WM_USERNAME", "WM_OPTYPE", "WM_CREATETIME", "WM_RETIRETIME"]
OF_LOCKS = ["WM_WORKSPACE", "WM_LOCKMODE", "WM_USERNAME"]
OF_DIFFERENCES = ["WM_DIFFVER", "WM_CODE"]


def spelled(key):
    """A number or a text as a record has it."""
    if isinstance(key, int):
        return NUMBER + key.to_bytes(8, "big", signed=True)
    return TEXT + len(key.encode()).to_bytes(2, "big") + key.encode()


class Catalog:
    """The tables of a store. The file is read where they are asked for, and again where a line may have changed them."""

    def __init__(self, path):
        self.path, self.known = path, None

    def records(self, tag):
        return [decoded(data) for _, _, data in Pages(self.path.read_bytes()).slots() if data[0] == tag]

    def last_moment(self):
        [counters] = self.records(COUNTERS)
        return counters.last_moment

    def forget(self, line):
        """Called behind each accepted line."""
        if MAKES_COLUMNS.match(line):
            self.known = None

    def columns(self):
        """The names of the columns that `*` gives of each table and of its views, by their names."""
        if self.known is None:
            self.known = {}
            for table in self.records(TABLE):
                keys, period = [table.columns[place].name for place in table.key_columns], ["WM_VALID"] * table.is_valid
                columns = [column.name for column in table.columns] + period
                self.known |= {table.name: columns, f"{table.name}_CONF": ["WM_WORKSPACE", *columns, "WM_DELETED"],
                               f"{table.name}_DIFF": columns + OF_DIFFERENCES,
                               f"{table.name}_HIST": columns + OF_HISTORY, f"{table.name}_LOCK": keys + period + OF_LOCKS}
        return self.known

    def may_have_key(self, name, column, key):
        """Whether a record may speak of a key of a table, if the column is its key. Its bytes are looked for, so a chance
        may say yes, and none says no."""
        table = next(table for table in self.records(TABLE) if table.name == name)
        is_key = [table.columns[place].name for place in table.key_columns] == [column]
        return not is_key or table.number.to_bytes(2, "big") + spelled(key) in self.path.read_bytes()
