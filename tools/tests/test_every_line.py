"""The script whose calls fail in turn has each kind of line that GUIDE lists, and each does what it is for at least once."""
import re
import sys

from around import TOP, WithFolder, made

sys.path.insert(0, str(TOP / "tools" / "play"))

from every_line import NOW, SCRIPT
from lines import is_refusal
from program import Program, found_program

STATEMENT = re.compile(r"(?:\w+: )?(?:EXECUTE DBMS_WM\.)?(\w+)")


def guide():
    text = (TOP / "docs" / "GUIDE.md").read_text()
    return text[text.index("\n## Lines\n"):]


def kinds_of_guide():
    """The words of its list of lines, its calls, and the views."""
    lines = guide()[:guide().index("\n## Tables and values\n")]
    listed = {STATEMENT.match(line)[1] for line in re.findall(r"^- `([^`]+)`", lines, re.MULTILINE)}
    calls = guide()[guide().index("**Calls** take"):]
    called = set(re.findall(r"\b([A-Z]\w+)\(", "\n".join(re.findall(r"^    .*$", calls[:calls.index("\nThe hist is")], re.MULTILINE))))
    views = set(re.findall(r"^### .*: t(_[A-Z]+)$", guide(), re.MULTILINE))
    return listed, called, views


class EveryLine(WithFolder):
    def accepted(self):
        """The lines that are not refused."""
        run = Program(found_program(None), made(self.store), NOW)
        lines = [line for line in SCRIPT.strip().split("\n") if not is_refusal(run.answer(line.encode()))]
        self.assertEqual(run.end()[0], 0)
        return lines

    def test_it_has_each_kind(self):
        listed, called, views = kinds_of_guide()
        lines = self.accepted()
        self.assertEqual({STATEMENT.match(line)[1] for line in lines if line and not line.startswith("--")}, listed | called)
        for view in views:
            self.assertTrue(any(re.search(rf"FROM \w+{view}\b", line) for line in lines), view)
        self.assertTrue({"", "-- who is there"} <= set(lines))
