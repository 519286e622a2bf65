"""The editor modes know the words of the language and no others, and colour each token of the lines that the repository shows as what it is."""
import importlib.util
import json
import re
import shutil
import subprocess
import sys
import unittest

from around import TOP, WithFolder
from machine import SECONDS

MODES = TOP / "editors"


def second_reading():
    """The tokens of the language, as its second reading has them."""
    found = importlib.util.spec_from_file_location("language_tokens", TOP / "tools" / "against" / "tokens.py")
    module = importlib.util.module_from_spec(found)
    sys.modules[found.name] = module
    found.loader.exec_module(module)
    return module


LANGUAGE = second_reading()
# Lines that a mode which knows words by their edges alone would colour wrongly.
EDGES = ["A: SELECT T#1, MY$SET, SET_ON FROM ON1 WHERE A=1OR B=2AND C<>''", "A: INSERT INTO T VALUES ('a''b', 'it''s', '', '--', 'SET')",
         "A: SELECT 'a''b", "  at : SELECT 1 FROM T", "\t-- SELECT 'x", "A: EXEC dbms_wm . gotoworkspace ( 'W' ) ;",
         "A: SELECT * FROM T WHERE D < DBMS_WM . UNTIL_CHANGED AND WM_OVERLAPS ( WM_VALID , T.WM_VALID ) = 1"]


def words_of_the_language():
    """The reserved words and the operators."""
    return LANGUAGE.RESERVED | LANGUAGE.OPERATORS


def shown_lines():
    """The lines of all scripts, of what documents show, and of the cases of forms."""
    files = [*TOP.glob("examples/**/*.wm"), TOP / "README.md", *TOP.glob("docs/*.md"), TOP / "cases" / "lines" / "forms.case"]
    for path in files:
        text = path.read_text()
        if path.suffix == ".md":
            text = "\n".join(re.findall(r"^```wm\n(.*?)^```$", text, re.DOTALL | re.MULTILINE))
        if path.suffix == ".case":
            text = "\n".join(re.findall(r"^< (.*)$", text, re.MULTILINE))
        yield from text.splitlines()


class Grammar:
    """VS Code's grammar, read as an editor does: from where the last match ended the first match of all patterns, of equal ones the first."""

    def __init__(self):
        self.patterns = json.loads((MODES / "vscode" / "syntaxes" / "wm.tmLanguage.json").read_text())["patterns"]
        self.matches = [re.compile(pattern["match"]) for pattern in self.patterns]

    def scopes(self, line):
        """The scope of each character."""
        found, at = [""] * len(line), 0
        while at < len(line):
            tries = [(match, pattern) for match, pattern in zip((it.search(line, at) for it in self.matches), self.patterns) if match]
            if not tries:
                break
            match, pattern = min(tries, key=lambda it: it[0].start())
            groups = {0: pattern.get("name", "")} | {int(place): it["name"] for place, it in pattern.get("captures", {}).items()}
            for place, name in groups.items():
                found[match.start(place):match.end(place)] = [name] * len(match[place])
            at = match.end()
        return found


def wanted_scopes(line):
    """What each token of a line is to be shown as: its place, its end, and how the name of its scope begins."""
    if line.lstrip(" \t").startswith("--"):
        return [(0, len(line), "comment.")]
    tokens = LANGUAGE.tokens_of(line.encode())
    found = []
    for place, (token, after) in enumerate(zip(tokens, tokens[1:])):
        begin = token.column - 1
        till = begin + len(line[begin:after.column - 1].rstrip())
        before = [it.value for it in tokens[max(0, place - 2):place]]
        found.append((begin, till, wanted_scope(token, before, place, after.value, line[begin:till])))
    return found


def wanted_scope(token, before, place, after, text):
    if token.kind == "word" and place == 0 and after == ":":
        return "entity.name.tag."
    if token.kind == "word" and before == ["DBMS_WM", "."] and token.value != "UNTIL_CHANGED":
        return "support.function.call."
    if token.kind == "word":
        return COLOURS.get(token.value, "")
    if token.kind == "mark":
        return "punctuation." if place == 1 and text == ":" else "keyword.operator." if text not in "(),.:;" else ""
    return {"number": "constant.numeric.", "text": "string.", "bad": "invalid."}[token.kind]


COLOURS = {word: kind for kind, words in {
    "keyword.control.": "AT CONNECT DISCONNECT",
    "storage.type.": "DATE INTEGER NUMBER TIMESTAMP VARCHAR2",
    "constant.language.": "FALSE NULL SYSDATE TRUE UNTIL_CHANGED",
    "support.function.": "COUNT MAX MIN SUM TO_DATE WM_PERIOD " + " ".join(LANGUAGE.OPERATORS),
    "variable.language.": "DBMS_WM VALIDFROM VALIDTILL WMSYS WM_VALID",
}.items() for word in words.split()}
COLOURS |= {word: "keyword.other." for word in LANGUAGE.RESERVED - set(COLOURS)}

# What vim's mode calls them.
VIM = {"comment.": "wmRemark", "entity.name.tag.": "wmSession", "support.function.call.": "wmCall", "keyword.control.": "wmLine",
       "storage.type.": "wmType", "constant.language.": "wmConstant", "support.function.": "wmFunction", "variable.language.": "wmName",
       "keyword.other.": "wmWord", "constant.numeric.": "wmNumber", "string.": "wmText"}


class Modes(WithFolder):
    def test_code_colours(self):
        grammar, count = Grammar(), 0
        for line in [*shown_lines(), *EDGES]:
            scopes = grammar.scopes(line)
            for begin, till, wanted in wanted_scopes(line):
                count += 1
                shown = set(scopes[begin:till])
                self.assertTrue(len(shown) == 1 and next(iter(shown)).startswith(wanted) and (wanted or shown == {""}),
                                f"{line!r} from {begin} to {till} is {shown}, and {wanted!r} is wanted")
        self.assertGreater(count, 5000)

    def test_code(self):
        grammar = json.loads((MODES / "vscode" / "syntaxes" / "wm.tmLanguage.json").read_text())
        words = [word for pattern in grammar["patterns"] for group in re.findall(r"\(([A-Z0-9_|]+)\)", pattern["match"]) for word in group.split("|")]
        self.assertEqual(set(words), words_of_the_language())
        for name in ("package.json", "language-configuration.json"):
            json.loads((MODES / "vscode" / name).read_text())

    def test_vim_words(self):
        text = (MODES / "vim" / "syntax" / "wm.vim").read_text()
        words = [word for line in re.findall(r"^syntax keyword \w+ (.*)$", text, re.MULTILINE) for word in line.split()]
        words += re.search(r"^syntax match wmLine .*\\\((.*)\\\)", text, re.MULTILINE)[1].split("\\|")
        self.assertEqual(sorted(words), sorted(words_of_the_language()))

    @unittest.skipUnless(shutil.which("vim"), "there is no vim here")
    def test_vim(self):
        # Vim takes digits and the word behind them for one word.
        lines = [line for line in [*shown_lines(), *EDGES] if not re.search(r"\d[A-Z]", line)]
        wanted = [(row, column, VIM.get(scope, "")) for row, line in enumerate(lines, 1) for begin, till, scope in wanted_scopes(line)
                  if scope != "invalid." for column in (begin + 1, till)]
        script, found = self.folder / "s.wm", self.folder / "found"
        script.write_text("\n".join(lines) + "\n")
        asked = "".join(f"call add(g:found, synIDattr(synID({row}, {column}, 1), 'name'))\n" for row, column, _ in wanted)
        commands = self.folder / "asked.vim"
        commands.write_text(f"set runtimepath^={MODES / 'vim'}\nfiletype on\nsyntax on\nedit {script}\nlet g:found = []\n{asked}"
                            f"call writefile(g:found, '{found}')\nqall!\n")
        done = subprocess.run(["vim", "-u", "NONE", "-es", "-N", "-S", str(commands)], stdin=subprocess.DEVNULL, capture_output=True,
                              timeout=SECONDS)
        if not found.exists():
            self.skipTest(f"this vim has no syntax: {done.stdout[:60]!r}")
        shown = found.read_text().split("\n")[:-1]
        self.assertEqual([(lines[row - 1], column, name) for (row, column, _), name in zip(wanted, shown, strict=True)],
                         [(lines[row - 1], column, name) for row, column, name in wanted])
