"""tools/show beside a file: it never writes one that is a store, and says what is damaged as the program does."""
import random
import shlex
import shutil
import subprocess

from around import PROGRAM, WithFolder, made, run, store_of_examples, store_of_tutorial, tool
from shown import shown
from storefile.pages import SIZE, Damaged, NotAStore, Pages
from storefile.store import LIVE, opened

DAMAGES, ROWS, LOOKS = 150, 1000, 20
VERSION = 4  # the tag of its record


class Files(WithFolder):
    def test_file_is_never_written(self):
        store = store_of_examples(self.store)
        store.chmod(0o444)
        before, moment = store.read_bytes(), store.stat().st_mtime_ns
        self.assertEqual(tool("show", store).returncode, 0)
        self.assertEqual(tool("show", store, "--html", self.folder / "s.html").returncode, 0)
        self.assertEqual((store.read_bytes(), store.stat().st_mtime_ns), (before, moment))

    def test_page_is_written_over_no_store(self):
        store = store_of_examples(self.store)
        link, copy, older = self.folder / "link.html", self.folder / "copy.html", self.folder / "older.html"
        link.symlink_to(store)
        shutil.copyfile(store, copy)
        older.write_text("an older page")
        before = store.read_bytes()
        for path, why in ((store, "is a store"), (link, "is a store"), (copy, "is a store"),
                          (self.folder, "Is a directory"), (self.folder / "none" / "s.html", "No such file")):
            done = tool("show", store, "--html", path)
            self.assertEqual((done.returncode, done.stderr.count("\n")), (1, 1))
            self.assertIn(why, done.stderr)
        self.assertEqual((store.read_bytes(), copy.read_bytes(), link.is_symlink()), (before, before, True))
        self.assertEqual(tool("show", store, "--html", older).returncode, 0)
        self.assertTrue(older.read_text().startswith("<!doctype html>"))

    def test_counts_are_none_below_nothing(self):
        store = store_of_examples(self.store)
        self.assertIn("the last 0 of", tool("show", store, "--log", "0").stdout)
        for name in ("--log", "--keys"):
            done = tool("show", store, name, "-1")
            self.assertEqual((done.returncode, done.stdout, "invalid count value: '-1'" in done.stderr), (2, "", True))

    def test_open_journal(self):
        """A stop behind the second step of a change: the journal has the pages, and shows what the change made."""
        store = store_of_tutorial(self.store, "planner")
        before = store.read_bytes()
        run(store, "2024-06-02", b"CONNECT A ANN\nA: INSERT INTO PARCEL VALUES (9, 'pond', 0)\n")
        after = store.read_bytes()
        store.write_bytes(stopped(before, after))
        self.assertIn("9|'pond'|0", tool("show", store).stdout)
        self.assertEqual(store.read_bytes(), stopped(before, after))
        self.assertIn("still in the journal", tool("show", store).stdout)
        self.assertIn(b"9|'pond'|0", run(store, "2024-06-02", b"CONNECT A ANN\nA: SELECT * FROM PARCEL\n").stdout)

    def test_damage_is_named_as_the_program_names_it(self):
        whole = store_of_examples(self.store).read_bytes()
        chosen = random.Random(7)
        for _ in range(DAMAGES):
            self.store.write_bytes(damaged(whole, chosen))
            told = self.told()
            complaint = run(self.store, "2030-01-01", b"").stderr.decode().strip().removeprefix("wm: ")
            # Of the rules over all records the reader looks only at those that it relies on.
            if complaint != "damaged page 0 graph" or told:
                self.assertEqual(told, complaint)

    def test_version_that_does_not_stand_under_an_older_one(self):
        whole = store_of_examples(self.store).read_bytes()
        record = next(data for _, _, data in Pages(whole).slots() if data[0] == VERSION and data[13:] != bytes(8))
        for parent in (record[1:9], bytes(7) + b"\xff"):
            self.store.write_bytes(whole.replace(record, record[:13] + parent))
            self.assertEqual(self.told(), "damaged page 0 graph")
            self.assertIn(b"damaged page 0 graph", run(self.store, "2030-01-01", b"").stderr)

    def told(self):
        """What the reader says of the store, which it shows if nothing is wrong."""
        try:
            shown(self.store, opened(self.store), 20, 40)
        except NotAStore:
            return "not a store"
        except Damaged as damage:
            return str(damage)
        return ""

    def test_store_that_is_changed_meanwhile(self):
        """While a run inserts rows, each look shows a front of them."""
        made(self.store)
        begin = b"CONNECT A ANN\nA: CREATE TABLE T (ID NUMBER PRIMARY KEY)\nA: EXECUTE DBMS_WM.EnableVersioning('T')\n"
        inserts = [b"A: INSERT INTO T VALUES (%d)\n" % number for number in range(ROWS)]
        with subprocess.Popen([*shlex.split(PROGRAM), str(self.store), "run", "--now", "2024-01-01"], stdin=subprocess.PIPE,
                              stdout=subprocess.DEVNULL) as writer:
            writer.stdin.write(begin)
            for first in range(0, ROWS, ROWS // LOOKS):
                # A part fits in the pipe. So it is handed over at once, and the look falls while it is played.
                writer.stdin.write(b"".join(inserts[first:first + ROWS // LOOKS]))
                writer.stdin.flush()
                found = opened(self.store)
                for table in found.tables.values():
                    keys = [row.key for row in found.rows_of(found.spaces[LIVE], table)]
                    self.assertEqual(keys, list(range(len(keys))))
        self.assertEqual(writer.returncode, 0)
        self.assertEqual(opened(self.store).counters.next_stamp, ROWS + 1)

    def test_no_store(self):
        self.assertIn("No such file", tool("show", self.folder / "none").stderr)
        self.store.write_bytes(b"CONNECT A ANN\n")
        self.assertEqual(tool("show", self.store).returncode, 1)


def stopped(before, after):
    """The file as a stop leaves it when the gate is open: the old pages, and behind them a journal with the new ones."""
    places = [place for place in range(1, int.from_bytes(after[SIZE:SIZE + 8], "big"))
              if before[place * SIZE:(place + 1) * SIZE] != after[place * SIZE:(place + 1) * SIZE]]
    first = max(int.from_bytes(data[SIZE:SIZE + 8], "big") for data in (before, after))
    head = bytearray(before[:SIZE])
    head[8] = 0x47
    head[16:32] = first.to_bytes(8, "big") + len(places).to_bytes(8, "big")
    directory = b"".join(place.to_bytes(8, "big") for place in places).ljust(SIZE, b"\0")
    images = b"".join(after[place * SIZE:(place + 1) * SIZE] for place in places)
    return (bytes(head) + before[SIZE:first * SIZE]).ljust(first * SIZE, b"\0") + directory + images


def damaged(data, chosen):
    """The file with some of its bytes changed, or cut."""
    data = bytearray(data)
    if chosen.random() < 0.2:
        return bytes(data[:chosen.randrange(len(data))])
    for _ in range(chosen.randint(1, 3)):
        at = chosen.choice([chosen.randrange(32), SIZE + chosen.randrange(8), chosen.randrange(2 * SIZE, len(data))])
        data[at] = chosen.choice([0, 1, 0x47, 0xFF, chosen.randrange(256)])
    return bytes(data)
