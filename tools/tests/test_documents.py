"""What documents say of the crates is what crates.txt and their code say."""
import re
import unittest

from around import TOP

CRATES, DOCS = TOP / "crates", TOP / "docs"
DECLARED = r"\b(?:fn|struct|enum|trait|type|mod) {}\b"
PATH = re.compile(r"`((?:wm_\w+|bench|cases|docs|editors|examples|tools)/[\w./]*)`")


def used():
    """Each crate of crates.txt, which has them lowest first, with those of the program that it uses."""
    lines = [line.split(":") for line in (TOP / "crates.txt").read_text().splitlines() if not line.startswith("#")]
    return {name: {word for word in words.split() if word.startswith("wm")} for name, words in lines}


def with_all_below(names, uses):
    """Some crates with all that they stand on."""
    found = set(names)
    for name in reversed(uses):
        found |= uses[name] if name in found else set()
    return found


def quoted(text):
    return re.findall(r"`([\w:]+)`", text)


def items(document):
    """Each item about crates: these, and what it says of them."""
    for item in re.split(r"^- ", (DOCS / document).read_text(), flags=re.MULTILINE)[1:]:
        said = " ".join(item.split("\n\n")[0].split())
        head = re.match(r"((?:`wm\w*`\*?(?:, )?)+): ", said)
        if head:
            yield quoted(head[1]), said[head.end():]


class Documents(unittest.TestCase):
    def test_map_says_what_crates_stand_on(self):
        """Crates that they use, and all of these but what stands below the others. Those of tests say whom they try."""
        uses, listed = used(), []
        for crates, said in items("MAP.md"):
            listed += crates
            stands = set(quoted(said.partition("Stands on: ")[2]))
            needs = set().union(*(uses[crate] for crate in crates))
            wrong, missing = stands - needs, needs - with_all_below(stands, uses) - set(crates)
            if not crates[0].endswith("_tests"):
                self.assertEqual((wrong, missing), (set(), set()), crates)
        self.assertEqual(sorted(listed), sorted(uses))

    def test_what_carries_is_in_the_code(self):
        listed = []
        for crates, said in items("PROVED.md"):
            listed += crates
            code = "".join(path.read_text() for crate in crates for path in (CRATES / crate / "src").rglob("*.rt"))
            parts = [part for name in quoted(said.partition("Carried by: ")[2]) for part in name.split("::")]
            self.assertEqual([part for part in parts if not re.search(DECLARED.format(part), code)], [], crates)
        self.assertEqual(sorted(listed), sorted(name for name in used() if not name.endswith("_tests")))

    def test_promises_of_the_headline(self):
        """Each field of the records that say how commands end, record by record, but those that hold another record."""
        text = (CRATES / "wm_host" / "specs" / "Ends.antt").read_text()
        parts = re.split(r"^ *pub record (\w+) ", text, flags=re.MULTILINE)
        declared = re.compile(r"^ +pub (\w+) :", re.MULTILINE)
        fields = {name: set(declared.findall(part)) for name, part in zip(parts[1::2], parts[2::2])}
        headline = (DOCS / "PROVED.md").read_text().partition("\n## Crate by crate\n")[0]
        shared = set()
        for item in re.split(r"^- ", headline, flags=re.MULTILINE)[1:]:
            names = quoted(item.partition(":")[0])
            told = {name for line in re.findall(r"^  - ([^:]*):", item, re.MULTILINE) for name in quoted(line)}
            if names[0] not in fields:
                shared.update(names)
            elif told:
                own = fields.pop(names[0]) - {"statuses"}
                expected = own - {"keeps"} | (fields["KeepsSound"] if "keeps" in own else set())
                self.assertEqual(told - set(fields), expected, names[0])
        expected = set().union(*(fields[name] for name in ("StoreTells", "FaultsTell", "SourceTells", "Ends")))
        self.assertEqual(shared - set(fields), expected - {"command_ends", "store", "source_is", "faults"})

    def test_paths_are_there(self):
        for document in (TOP / "README.md", *DOCS.glob("*.md")):
            for path in PATH.findall(document.read_text()):
                self.assertTrue((TOP / path).exists() or (CRATES / path).exists(), f"{document.name} names {path}")
