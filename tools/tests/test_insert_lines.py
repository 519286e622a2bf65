"""tools/insert_lines.py: what a CSV file says is what the table then holds."""
from around import PROGRAM, WithFolder, made, run, tool

TABLES = (b"CONNECT A ANN\nA: CREATE TABLE LOT (NR NUMBER PRIMARY KEY, CODE VARCHAR2(9), MADE DATE)\n"
          b"A: EXECUTE DBMS_WM.EnableVersioning('LOT', validTime => TRUE)\nA: EXECUTE DBMS_WM.SetValidTime(DATE '0001-01-01')\n")


class InsertLines(WithFolder):
    def lines(self, text, *words, table="LOT", encoding="utf-8"):
        path = self.folder / "s.csv"
        path.write_bytes(text.encode(encoding))
        return tool("insert_lines.py", table, path, *words, encoding="utf-8")

    def refusal(self, text, *words):
        """Where and why no script is made of a file."""
        done = self.lines(text, *words)
        self.assertEqual((done.returncode, done.stdout), (1, ""))
        return done.stderr.removeprefix(f"insert_lines: {self.folder / 's.csv'}: ").strip()

    def held(self, script):
        """What the table holds when the lines were played."""
        done = run(made(self.store), "2024-06-01", TABLES + script.encode() + b"A: SELECT * FROM LOT\n")
        return done.stdout.decode().splitlines()[-3:]

    def test_values_and_periods(self):
        done = self.lines("\ufeffnr;code;made;since;till\n1;it's | so;2020-02-03 04:05:06;2020-01-01;\n-2;;;2020-01-01;2021-01-01 12:00:00\n",
                          "--session", "A", "--from", "since", "--till", "till", "--separator", ";")
        self.assertEqual(self.held(done.stdout), ["-2|NULL|NULL|[2020-01-01 00:00:00, 2021-01-01 12:00:00)",
                                                  "1|'it''s | so'|2020-02-03 04:05:06|[2020-01-01 00:00:00, UNTIL_CHANGED)", "ROWS 2"])

    def test_a_sheet_of_play_goes_back(self):
        """The rows that tools/play writes as CSV make the same rows again."""
        sheet = "NR,CODE,MADE,VALIDFROM,VALIDTILL\n1,007,2020-01-01,2019-01-01,2020-01-01\n2,x,UNTIL_CHANGED,2020-01-01,\n"
        script = self.lines(sheet, "--session", "A").stdout
        wanted = self.held(script)
        query = self.folder / "q.wm"
        query.write_bytes(b"CONNECT A ANN\nA: EXECUTE DBMS_WM.SetValidTime(DATE '0001-01-01')\nA: SELECT * FROM LOT\n")
        sheet = tool("play", self.store, query, "--now", "2024-06-01", "--csv", "--quiet", "--program", PROGRAM).stdout
        again = self.lines(sheet, "--session", "A", "--store", self.store).stdout
        self.store.unlink()
        self.assertEqual(self.held(again), wanted)

    def test_types_of_the_store(self):
        run(made(self.store), "2024-06-01", TABLES)
        self.assertIn("VALUES (1, '17')", self.lines("NR,CODE\n1,17\n", "--store", self.store).stdout)
        self.assertIn("VALUES (1, 17)", self.lines("NR,CODE\n1,17\n").stdout)
        self.assertIn("no column NOPE", self.lines("NR,NOPE\n1,17\n", "--store", self.store).stderr)

    def test_what_cannot_be_a_statement_is_told(self):
        for text, why in [("", "empty"), ("NR,CODE\n1\n", "line 2: 1 values"), ('NR,CODE\n1,"a\nb"\n', "several lines"), ("NR,A B\n1,2\n", "no name"),
                          ("NR,VALIDFROM\n1,soon\n", "no day or time"), ("NR,select\n1,2\n", "'SELECT' is no name")]:
            done = self.lines(text)
            self.assertEqual((done.returncode, done.stdout, why in done.stderr), (1, "", True), done.stderr)

    def test_what_no_file_is_asked_for_is_told(self):
        """Names that the language does not have, and files that are not there or are none of the kind."""
        none, other = self.folder / "none", self.folder / "s.csv"
        missing = f"{none}: No such file or directory"
        for table, words, why in [("bad name", [], "'bad name' is no name of a table"),
                                  ("date", [], "'date' is no name of a table"),
                                  ("LOT", ["--session", "A B"], "'A B' is no name of a session"),
                                  ("LOT", ["--user", "ON"], "'ON' is no name of a user"),
                                  ("LOT", ["--separator", "||"], "'||' is not one character"),
                                  ("LOT", ["--store", none], missing),
                                  ("LOT", ["--store", other], f"{other} is no store")]:
            done = self.lines("NR\n1\n", *words, table=table)
            self.assertEqual((done.returncode, done.stdout, done.stderr), (1, "", f"insert_lines: {why}\n"))
        self.assertEqual(tool("insert_lines.py", "LOT", none).stderr, f"insert_lines: {missing}\n")

    def test_what_looks_like_a_number_or_a_day_is_no_text_in_silence(self):
        advice = "--text NEXT takes the column as one of texts, and --store STORE the types of a table"
        for cell, why in [("12,50", "'12,50' is no whole number"), ("1.250,00", "'1.250,00' is no whole number"), ("12.5", "'12.5' is no whole number"),
                          ("31.10.2024", "'31.10.2024' is no day or time, as YYYY-MM-DD"), ("10/31/24", "'10/31/24' is no day or time, as YYYY-MM-DD"),
                          ("2024-10-32", "'2024-10-32' is in no calendar")]:
            self.assertEqual(self.refusal(f"NR;NEXT\n1;{cell}\n"), f"line 2, column NEXT: {why}. {advice}")
        self.assertIn("line 4, column CODE: 'x' is no whole number", self.refusal("NR,CODE\n1,7\n\n2,x\n"))
        self.assertIn("line 3, column MADE: 'soon' is no day or time", self.refusal("NR,MADE\n1,2024-01-01\n2,soon\n"))
        self.assertIn("(1, '12,50', '7')", self.lines("NR;A;B\n1;12,50;7\n", "--text", "A", "--text", "b").stdout)
        # What begins as no number does is a code, and so are all in its column.
        self.assertIn("(2, '10115')", self.lines("NR,CODE\n1,01067\n2,10115\n").stdout)

    def test_forms_that_are_told(self):
        words = ("--decimal", ",", "--dates", "DD.MM.YYYY")
        done = self.lines("NR;CODE;MADE;VALIDFROM\n1.250;a;31.10.2024 5:30;1.2.2024\n-3,00;b;2024-02-01;01.02.2024\n", *words)
        self.assertEqual([line.partition(" VALUES ")[2] for line in done.stdout.splitlines()],
                         ["(1250, 'a', TIMESTAMP '2024-10-31 05:30:00', WM_PERIOD(DATE '2024-02-01', DBMS_WM.UNTIL_CHANGED))",
                          "(-3, 'b', DATE '2024-02-01', WM_PERIOD(DATE '2024-02-01', DBMS_WM.UNTIL_CHANGED))"])
        self.assertIn("line 2, column NR: '12,50' is no whole number", self.refusal("NR;CODE\n12,50;a\n", *words))
        self.assertIn("'1,250.00' is no whole number with ',' before decimals", self.refusal("NR;CODE\n1,250.00;a\n", *words))
        for words, why in [(("--decimal", ";"), "';' is neither a comma nor a point"), (("--dates", "TT.MM.JJJJ"), "'TT.MM.JJJJ' is no form of days")]:
            self.assertIn(why, self.lines("NR\n1\n", *words).stderr)

    def test_columns_of_the_store_take_what_fits_them(self):
        run(made(self.store), "2024-06-01", TABLES)
        for line, why in [("12,50;a;", "column NR: '12,50' is no whole number"), ("1.250;a;", "column NR: '1.250' is no whole number"),
                          ("9223372036854775808;a;", "column NR: '9223372036854775808' is beyond numbers of 64 bits"),
                          (";a;", "column NR: nothing stands there, and the column is NOT NULL"),
                          ("1;Bücherei A;", "column CODE: 'Bücherei A' has 11 bytes, and the column takes 9"),
                          ("1;a;31.10.2024", "column MADE: '31.10.2024' is no day or time, as YYYY-MM-DD")]:
            self.assertEqual(self.refusal(f"NR;CODE;MADE\n2;b;\n{line}\n", "--store", self.store), f"line 3, {why}")
        self.assertIn("(1, '12,50', NULL)", self.lines("NR;CODE;MADE\n1;12,50;\n", "--store", self.store).stdout)

    def test_letters_and_separators_are_seen_or_told(self):
        wanted = "LOADER: INSERT INTO LOT (NR, CODE) VALUES (1, 'Bücher, €')\n"
        for encoding in ("utf-8", "utf-8-sig", "utf-16", "cp1252"):
            for text in ("NR;CODE\r\n1;Bücher, €\r\n", "NR\tCODE\n1\tBücher, €\n", 'NR,CODE\n1,"Bücher, €"\n', "sep=;\r\nNR;CODE\r\n1;Bücher, €\r\n;\r\n"):
                self.assertEqual(self.lines(text, encoding=encoding).stdout, wanted, (encoding, text))
        told = ("--separator", "|", "--encoding", "iso8859-15")
        self.assertEqual(self.lines("NR|CODE\n1|Bücher, €\n", *told, encoding="iso8859-15").stdout, wanted)
        self.assertIn("there is no encoding none", self.refusal("NR\n1\n", "--encoding", "none"))
        self.assertIn("line 2: no letters of ascii", self.refusal("NR\nü\n", "--encoding", "ascii"))
        self.assertIn("line 2: ", self.refusal('NR,CODE\n1,"a"b\n'))

    def test_ends_of_a_period_may_be_columns(self):
        done = self.lines("NR,VALIDFROM,SINCE\n1,2,2020-01-01\n", "--from", "since")
        self.assertIn("(NR, VALIDFROM, WM_VALID)", done.stdout)
