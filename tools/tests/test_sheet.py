"""tools/sheet: what a sheet says is what the table then holds, and nothing is played of a sheet in which anything is wrong."""
import os

from around import PROGRAM, WithFolder, made, run, tool

PLAIN = (b"CONNECT A ANN\nA: CREATE TABLE COST (ID NUMBER PRIMARY KEY, WHAT VARCHAR2(9) NOT NULL, EUROS NUMBER, DUE DATE)\n"
         b"A: EXECUTE DBMS_WM.EnableVersioning('COST')\nA: INSERT INTO COST VALUES (1, 'Signs', 600, DATE '2024-10-31')\n"
         b"A: INSERT INTO COST VALUES (2, 'it''s; so', NULL, TIMESTAMP '2024-01-02 03:04:05')\nA: INSERT INTO COST VALUES (3, '007', 1250, NULL)\n"
         b"A: EXECUTE DBMS_WM.CreateWorkspace('Draft')\n")
VALID = (b"CONNECT A ANN\nA: CREATE TABLE OWNER (LOT VARCHAR2(9) PRIMARY KEY, NAME VARCHAR2(9))\n"
         b"A: EXECUTE DBMS_WM.EnableVersioning('OWNER', validTime => TRUE)\n"
         b"A: INSERT INTO OWNER VALUES ('a', 'Huber', WM_PERIOD(DATE '2010-01-01', DATE '2014-01-01'))\n"
         b"A: INSERT INTO OWNER VALUES ('a', 'Meier', WM_PERIOD(DATE '2014-01-01', DBMS_WM.UNTIL_CHANGED))\n"
         b"A: INSERT INTO OWNER VALUES ('b', 'Sommer')\n")
LOCAL = ("--decimal", ",", "--dates", "DD.MM.YYYY", "--places", "EUROS=2")
# A stand-in for openpyxl, which keeps the rows of a workbook as they are given.
WORKBOOKS = """import pickle
class Workbook:
    def __init__(self): self.rows = []; self.active = self
    def append(self, row): self.rows.append(row)
    def save(self, path): open(path, 'wb').write(pickle.dumps(self.rows))
    def iter_rows(self, values_only): return map(tuple, self.rows)
def load_workbook(path, data_only):
    book = Workbook(); book.rows = pickle.load(open(path, 'rb')); book.worksheets = [book]; return book
"""


class Sheets(WithFolder):
    def setUp(self):
        super().setUp()
        self.sheet = self.folder / "s.csv"
        self.environment = dict(os.environ)

    def store_of(self, script):
        self.assertEqual(run(made(self.store), "2024-06-01", script).returncode, 0)

    def call(self, *words):
        return tool("sheet", "--user", "BEN", "--now", "2024-06-02", "--program", PROGRAM, *words, env=self.environment, encoding="utf-8")

    def pull(self, what, *words):
        done = self.call("pull", self.store, what, *words)
        self.assertEqual((done.returncode, done.stderr), (0, ""))
        return done.stdout

    def push(self, text, *words, table="COST", encoding="utf-8"):
        self.sheet.write_bytes(text.encode(encoding))
        return self.call("push", self.store, table, self.sheet, *words)

    def wrong(self, text, *words, table="COST"):
        """What is said of a sheet of which nothing is played."""
        before = self.store.read_bytes()
        done = self.push(text, *words, table=table)
        self.assertEqual((done.returncode, self.store.read_bytes()), (1, before), done.stdout)
        return done.stderr.removeprefix(f"sheet: {self.sheet}: ").removesuffix("\n")


class Pulled(Sheets):
    def test_a_table(self):
        self.store_of(PLAIN)
        self.assertEqual(self.pull("cost"), "ID,WHAT,EUROS,DUE\n1,Signs,600,2024-10-31\n2,it's; so,,2024-01-02 03:04:05\n3,007,1250,\n")
        self.assertEqual(self.pull("COST", *LOCAL),
                         "ID;WHAT;EUROS;DUE\n1;Signs;6,00;31.10.2024\n2;\"it's; so\";;02.01.2024 03:04:05\n3;007;12,50;\n")

    def test_a_query(self):
        self.store_of(PLAIN)
        self.assertEqual(self.pull("SELECT EUROS * 2 AS TWICE, c.DUE FROM COST c WHERE ID < 3"), "TWICE,DUE\n1200,2024-10-31\n,2024-01-02 03:04:05\n")
        for what, why in (("DELETE FROM COST", "is neither the name of a table nor a SELECT"), ("SELECT NO FROM COST", "WM-012 no column NO"), ("NO", "has no table NO")):
            done = self.call("pull", self.store, what)
            self.assertEqual((done.returncode, done.stdout, why in done.stderr), (2 if what == "NO" else 1, "", True), done.stderr)

    def test_views(self):
        self.store_of(PLAIN.replace(b"'COST')", b"'COST', 'VIEW_WO_OVERWRITE')"))
        self.assertEqual(self.pull("cost_hist").splitlines()[:2], ["ID,WHAT,EUROS,DUE,WM_WORKSPACE,WM_USERNAME,WM_OPTYPE,WM_CREATETIME,WM_RETIRETIME",
                                                                   "1,Signs,600,2024-10-31,LIVE,ANN,I,2024-06-01,"])
        self.assertEqual(self.pull("COST_CONF", "--workspace", "Draft"), "WM_WORKSPACE,ID,WHAT,EUROS,DUE,WM_DELETED\n")

    def test_periods(self):
        self.store_of(VALID)
        self.assertEqual(self.pull("OWNER", "--dates", "MM/DD/YYYY"), "LOT,NAME,WM_VALID.VALIDFROM,WM_VALID.VALIDTILL\na,Huber,01/01/2010,01/01/2014\n"
                         "a,Meier,01/01/2014,UNTIL_CHANGED\nb,Sommer,01/01/0001,UNTIL_CHANGED\n")

    def test_a_file(self):
        self.store_of(PLAIN)
        self.assertEqual(self.pull("COST", self.sheet, "--separator", ";"), "")
        self.assertTrue(self.sheet.read_bytes().startswith(b"\xef\xbb\xbfID;WHAT;EUROS;DUE\r\n1;Signs;"))
        self.pull("COST", self.sheet, "--encoding", "cp1252")
        self.assertTrue(self.sheet.read_bytes().startswith(b"ID,WHAT"))
        before = self.store.read_bytes()
        self.assertIn("is not written over", self.call("pull", self.store, "COST", self.store).stderr)
        self.assertEqual(self.store.read_bytes(), before)


class Pushed(Sheets):
    def test_changes_are_shown_and_played(self):
        self.store_of(PLAIN)
        sheet = "ID;WHAT;EUROS;DUE\r\n1;Schilder;1.600,50;31.10.2024\r\n2;\"it's; so\";;02.01.2024 03:04:05\r\n-4;Bäume;;1.2.2025\r\n"
        wanted = ["1 UPDATE, 1 INSERT, 1 DELETE", "          DELETE COST 3: 3|'007'|1250|NULL",
                  "line 2    UPDATE COST 1: WHAT 'Signs' -> 'Schilder', EUROS 600 -> 160050", "line 4    INSERT COST -4: -4|'Bäume'|NULL|2025-02-01 00:00:00"]
        before = self.store.read_bytes()
        done = self.push(sheet, *LOCAL, "--workspace", "Draft", "--look", encoding="cp1252")
        self.assertEqual((done.returncode, done.stdout.splitlines(), self.store.read_bytes()), (0, wanted, before))
        done = self.push(sheet, *LOCAL, "--workspace", "Draft", encoding="cp1252")
        self.assertEqual(done.stdout.splitlines(), [*wanted, "All of it was played; RollbackToSP('Draft', 'sheet-1') takes it back."])
        self.assertEqual(self.pull("COST", "--workspace", "Draft"), "ID,WHAT,EUROS,DUE\n-4,Bäume,,2025-02-01\n1,Schilder,160050,2024-10-31\n2,it's; so,,2024-01-02 03:04:05\n")
        self.assertIn("\n3,007,1250,\n", self.pull("COST"))
        done = self.push(sheet, *LOCAL, "--workspace", "Draft", encoding="cp1252")
        self.assertEqual((done.returncode, done.stdout), (0, "0 UPDATE, 0 INSERT, 0 DELETE\n"))
        script = b"CONNECT A ANN\nA: EXECUTE DBMS_WM.RollbackToSP('Draft', 'sheet-1')\n"
        self.assertEqual(run(self.store, "2024-06-03", script).stdout, b"OK\nOK\n")
        self.assertEqual(self.pull("COST", "--workspace", "Draft"), self.pull("COST"))

    def test_rows_that_are_not_there_may_stay(self):
        self.store_of(PLAIN)
        done = self.push("WHAT,ID\nSigns,1\nTrees,9\n", "--keep")
        self.assertEqual(done.stdout.splitlines()[:2], ["0 UPDATE, 1 INSERT, 0 DELETE", "line 3    INSERT COST 9: 'Trees'|9"])
        self.assertEqual(self.pull("SELECT ID, EUROS FROM COST"), "ID,EUROS\n1,600\n2,\n3,1250\n9,\n")
        self.assertIn("'sheet-2'", self.push("ID,EUROS\n1,601\n", "--keep").stdout)

    def test_periods(self):
        self.store_of(VALID)
        rows = ["a,Huber,2010-01-01,2012-01-01", "a,Winter,2012-01-01,2014-01-01", "a,Maier,2014-01-01,", "b,,0001-01-01,UNTIL_CHANGED"]
        done = self.push("\n".join(["LOT,NAME,WM_VALID.VALIDFROM,WM_VALID.VALIDTILL", *rows]), table="OWNER")
        self.assertEqual((done.returncode, done.stdout.splitlines()[0]), (0, "2 UPDATE, 2 INSERT, 1 DELETE"), done.stderr)
        self.assertEqual(self.pull("OWNER").splitlines()[1:], [*rows[:2], rows[2] + "UNTIL_CHANGED", rows[3]])
        head = "LOT,NAME,VALIDFROM,VALIDTILL\n"
        for rows, why in [("a,x,2012-01-01,2012-01-01\n", "line 2, column VALIDFROM: the period does not begin before it ends"),
                          ("a,x,,\n", "line 2, column VALIDFROM: nothing stands there, and something is needed"),
                          ("a,x,2012-01-01,\na,y,2013-01-01,2014-01-01\n", "line 3, column LOT: 'a' stands, for some of the time, on line 2 too")]:
            self.assertEqual(self.wrong(head + rows, table="OWNER"), why)
        self.assertEqual(self.wrong("LOT,NAME\na,x\n", table="OWNER"), "line 1: there is no column WM_VALID.VALIDFROM, by which rows are found")

    def test_nothing_is_played_where_anything_is_wrong(self):
        self.store_of(PLAIN)
        for rows, why in [("9;x;12,505;", "line 3, column EUROS: '12,505' has more than 2 decimals"), ("9;x;1,250.00;", "line 3, column EUROS: '1,250.00' is no number with ',' before decimals"),
                          ("9;x;;10/31/2024", "line 3, column DUE: '10/31/2024' is no day or time, as DD.MM.YYYY"), ("9;x;;31.11.2024", "line 3, column DUE: '31.11.2024' is in no calendar"),
                          ("9;Büchereien;;", "line 3, column WHAT: 'Büchereien' has 11 bytes, and the column takes 9"), ("9;;;", "line 3, column WHAT: nothing stands there, and something is needed"),
                          (";x;;", "line 3, column ID: nothing stands there, and something is needed"), ("8;x;;", "line 3, column ID: 8 stands on line 2 too"), ("9;x", "line 3: 2 values, and the first line has 4 names")]:
            self.assertEqual(self.wrong(f"ID;WHAT;EUROS;DUE\n8;y;1,5;\n{rows}\n", *LOCAL), why)
        for head, why in [("ID,NO", "line 1: table COST has no column 'NO'"), ("ID,ID", "line 1: column ID stands there twice"), ("WHAT,EUROS", "line 1: there is no column ID, by which rows are found")]:
            self.assertEqual(self.wrong(f"{head}\n1,1\n"), why)
        self.assertEqual(self.wrong("ID,EUROS\n1,5\n7,1\n"), "line 3: the line would be refused: SHEET: INSERT INTO COST (ID, EUROS) VALUES (7, 1)\n  WM-061 NULL in WHAT")
        self.assertIn("WM-020 no workspace 'No'", self.wrong("ID,WHAT\n1,x\n", "--workspace", "No"))

    def test_words_that_are_wrong(self):
        self.store_of(PLAIN)
        for words, why in [(("--decimal", ";"), "--decimal is a comma or a point"), (("--dates", "TT.MM"), "--dates: 'TT.MM' is no form of days"), (("--places", "EUROS"), "--places is a column"),
                           (("--separator", ",", "--decimal", ","), "--separator is one character, and not the one before decimals")]:
            done = self.push("ID\n1\n", *words)
            self.assertEqual((done.returncode, done.stdout, why in done.stderr), (2, "", True), done.stderr)
        for now in ("yesterday", "2024-02-30", "2024-06-01 17:30"):
            self.assertIn("--now is a day", self.push("ID\n1\n", "--now", now).stderr)
        self.assertIn("push wants a sheet", self.call("push", self.store, "COST").stderr)
        self.assertIn("No such file", self.call("pull", self.folder / "none", "COST").stderr)


class Workbooks(Sheets):
    def test_what_lacks_is_told(self):
        self.store_of(PLAIN)
        (self.folder / "openpyxl.py").write_text("raise ImportError\n")
        self.environment["PYTHONPATH"] = str(self.folder)
        done = self.call("pull", self.store, "COST", self.folder / "s.xlsx")
        self.assertEqual((done.returncode, "wants Python's openpyxl, which is not installed" in done.stderr), (2, True))

    def test_values_of_a_workbook(self):
        self.store_of(PLAIN + b"A: INSERT INTO COST VALUES (9007199254740993, 'x', -5, DATE '1850-01-01')\n")
        (self.folder / "openpyxl.py").write_text(WORKBOOKS)
        self.environment["PYTHONPATH"] = str(self.folder)
        book = self.folder / "s.xlsx"
        self.pull("COST", book, *LOCAL)
        self.assertEqual(self.call("push", self.store, "COST", book, *LOCAL).stdout, "0 UPDATE, 0 INSERT, 0 DELETE\n")
        self.assertEqual(self.call("push", self.store, "COST", book, "--look").stderr, f"sheet: {book}: line 4, column EUROS: 12.5 is no whole number\n")
