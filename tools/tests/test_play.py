"""tools/play: what a person is shown, and the mistakes that it keeps from being made."""
import fcntl
import os
import pty
import re
import select
import subprocess
import sys
from datetime import datetime, timezone

from around import PROGRAM, TOP, WithFolder, made, run, store_of_examples, tool
from machine import SECONDS

TABLE = b"CONNECT A ANN\nA: CREATE TABLE T (ID NUMBER PRIMARY KEY, NOTE VARCHAR2(20))\nA: EXECUTE DBMS_WM.EnableVersioning('T')\n"
REFUSED = b"CONNECT A ANN\nA: SELECT * FROM NOPE\nA: INSERT INTO T VALUES (7, NULL)\n"


class Played(WithFolder):
    def play(self, script, *words, **named):
        path = self.folder / "s.wm"
        path.write_bytes(script)
        return tool("play", self.store, path, "--now", "2024-06-01", "--program", PROGRAM, *words, **named)

    def lines(self, script, *words):
        return self.play(script, *words).stdout.splitlines()


class Lines(Played):
    def test_each_line_stands_with_its_number_and_its_answer(self):
        made(self.store)
        wanted = ["  3  A: EXECUTE DBMS_WM.EnableVersioning('T')", "     OK", "  4  -- all of it", "  5", "  6  A: SELECT * FROM T",
                  "     ROWS 0"]
        self.assertEqual(self.lines(TABLE + b"-- all of it\n\nA: SELECT * FROM T\n")[4:], wanted)

    def test_answers_are_those_of_the_program(self):
        """Played line by line or all at once: the same answers but for the look of rows, and the same store."""
        other = made(self.folder / "other.store")
        made(self.store)
        for script in sorted((TOP / "examples").glob("*.wm")):
            said = run(other, "2024-06-01", script.read_bytes()).stdout.decode().splitlines()
            ends = r"OK|DONE \d+|ROWS \d+|WM-\d{3} .*"
            self.assertEqual([line[5:] for line in self.lines(script.read_bytes()) if re.fullmatch(" {5}(" + ends + ")", line)],
                             [line for line in said if re.fullmatch(ends, line)])
            self.assertEqual(self.store.read_bytes(), other.read_bytes())

    def test_caret_stands_below_the_column(self):
        made(self.store)
        cases = [(b"A: SELEC", "SELEC"), (b"\tA: SELECT '\xc3\xa9' FRM T", "FRM"), (b"AT DATE '2024-02-30'", "'2024-02-30'"),
                 (b"A: INSERT INTO T VALUES (9223372036854775808)", "9223372036854775808")]
        for line, word in cases:
            shown, mark, _ = self.lines(line + b"\n")
            self.assertEqual(shown.expandtabs()[len(mark.expandtabs()) - 1:].split(" T")[0].rstrip(")"), word)

    def test_marks_and_ends_of_other_editors(self):
        made(self.store)
        self.assertEqual(self.play(b"\xef\xbb\xbf" + TABLE.replace(b"\n", b"\r\n")).returncode, 0)

    def test_rows_are_aligned_below_their_names(self):
        made(self.store)
        script = TABLE + b"A: INSERT INTO T VALUES (5, 'it''s | so')\nA: INSERT INTO T VALUES (40, NULL)\n"
        wanted = ["     TWICE | NOTE", "     ------+-------------", "        10 | 'it''s | so'", "        80 | NULL", "     ROWS 2"]
        self.assertEqual(self.lines(script + b"A: SELECT ID * 2 AS TWICE, t.NOTE FROM T t\n")[-5:], wanted)

    def test_star_has_the_names_of_the_tables(self):
        store_of_examples(self.store)
        for query in (b"A: SELECT * FROM boundary;", b"A:SELECT*FROM boundary", b"A:SELECT DISTINCT*FROM boundary"):
            said = self.lines(b"CONNECT A ANN\n" + query + b"\n")
            self.assertIn("     PARCEL | AREA | MARKS                   | WM_VALID", said)
        self.assertIn("     NR | NAME  | ID | TEAM | WHAT          | EUROS | DUE",
                      self.lines(b"CONNECT A ANN\nA: SELECT * FROM TEAM t INNER JOIN COST c ON t.NR = c.TEAM WHERE t.NR = 2\n"))

    def test_star_has_the_names_of_views(self):
        made(self.store)
        script = TABLE.replace(b"'T'", b"'T', 'VIEW_WO_OVERWRITE', FALSE, TRUE") + b"A: INSERT INTO T VALUES (1, 'a')\n"
        script += (b"A: EXECUTE DBMS_WM.CreateWorkspace('W')\nA: DELETE FROM T\nA: EXECUTE DBMS_WM.GotoWorkspace('W')\n"
                   b"A: UPDATE T SET NOTE = 'b'\nA: SELECT * FROM t_conf\nA: SELECT * FROM T_HIST\n"
                   b"A: EXECUTE DBMS_WM.LockRows('W', 'T')\nA: SELECT * FROM T_LOCK\n"
                   b"A: EXECUTE DBMS_WM.SetDiffVersions('LIVE', 'W')\nA: SELECT * FROM T_DIFF\n")
        said = self.lines(script, "--quiet")
        wanted = ["     WM_WORKSPACE | ID | NOTE | WM_VALID                    | WM_DELETED", "     LIVE         |  1 | NULL | [2024-06-01, UNTIL_CHANGED) | YES",
                  "     ID | NOTE | WM_VALID                    | WM_WORKSPACE | WM_USERNAME | WM_OPTYPE | WM_CREATETIME | WM_RETIRETIME",
                  "      1 | b    | [2024-06-01, UNTIL_CHANGED) | W            | ANN         | U         | 2024-06-01    |          NULL",
                  "     ID | WM_VALID                    | WM_WORKSPACE | WM_LOCKMODE | WM_USERNAME",
                  "      1 | [2024-06-01, UNTIL_CHANGED) | W            | E           | ANN",
                  "     ID | NOTE | WM_VALID                    | WM_DIFFVER   | WM_CODE",
                  "      1 | NULL | [2024-06-01, UNTIL_CHANGED) | LIVE, LATEST | D",
                  "      1 | b    | [2024-06-01, UNTIL_CHANGED) | W, LATEST    | U"]
        self.assertEqual([line for line in said if line in wanted], wanted)

    def test_sheet(self):
        store_of_examples(self.store)
        script = b"CONNECT A ANN\nA: SELECT * FROM OWNER\nA: SELECT WHAT, DUE FROM COST WHERE TEAM = 2\nA: SELECT * FROM NOPE\n"
        done = self.play(script, "--csv", "--quiet")
        self.assertEqual(done.stdout, "PARCEL,NAME,WM_VALID.VALIDFROM,WM_VALID.VALIDTILL\n17,Sommer,2021-03-15,UNTIL_CHANGED\n\n"
                         "WHAT,DUE\nTrees,2024-10-31\nBenches,\nMayor's party,2024-06-01\n")
        self.assertEqual(done.returncode, 1)
        self.assertTrue(done.stderr.endswith("\nline 4: A: SELECT * FROM NOPE\n  WM-010 no table NOPE\n"))


class Hinted(Played):
    def hints(self, script, *words):
        return [line[7:] for line in self.lines(script, *words) if line.startswith("     * ")]

    def test_answers_that_mislead(self):
        made(self.store)
        script = TABLE.replace(b"'T'", b"'T', validTime => TRUE")
        script += (b"A: INSERT INTO T VALUES (1, 'WM_PERIOD')\nA: EXECUTE DBMS_WM.SetValidTime(SYSDATE)\n"
                   b"A: INSERT INTO T VALUES (2, NULL)\nA: INSERT INTO T VALUES (2, NULL)\nA: EXEC DBMS_WM.SetValidTime ( ) ;\n"
                   b"A: INSERT INTO T VALUES (3, NULL, WM_PERIOD(DATE '2020-01-01', DATE '2021-01-01'))\nA: DELETE T WHERE ID = 3\n"
                   b"A: EXECUTE DBMS_WM.GotoWorkspace('nowhere')\nA: SELECT * FROM T\nA: DELETE FROM T\n")
        said = self.hints(script)
        self.assertEqual([text.split(":")[0].split(",")[0] for text in said],
                         ["this row holds for all of time", "no such row holds in the session's period", "A stands where it stood"])
        self.assertEqual(self.hints(b"CONNECT A ANN\nA: DELETE FROM T\n", "--quiet"), [])

    def test_all_of_time_shows_each_row(self):
        made(self.store)
        self.lines(TABLE.replace(b"'T'", b"'T', validTime => TRUE"))
        for period, count in ((b"DATE '0001-01-01'", 0), (b"TIMESTAMP '0001-01-01 00:00:00', DBMS_WM.UNTIL_CHANGED", 0),
                              (b" validfrom=>DATE'0001-01-01' , validTill => NULL ", 0),
                              (b"DATE '0001-01-01', SYSDATE", 1), (b"DATE '0001-01-02'", 1), (b"", 1)):
            script = b"CONNECT A ANN\nA: EXECUTE DBMS_WM.SetValidTime(" + period + b")\nA: DELETE FROM T\n"
            self.assertEqual(len(self.hints(script + b"CONNECT B BEN\nB: DELETE FROM T\n")), count + 1, period)

    def test_a_key_that_no_row_has_at_any_time(self):
        """Of it no period is told, for none would show it."""
        made(self.store)
        self.lines(TABLE.replace(b"'T'", b"'T', validTime => TRUE") + b"A: EXECUTE DBMS_WM.SetValidTime(DATE '2020-01-01', DATE '2021-01-01')\n"
                   b"A: INSERT INTO T VALUES (77, 'old')\n")
        for condition, count in ((b"ID = 77", 1), (b"ID = 78", 0), (b"T.ID=78 AND NOTE = 'a'", 0), (b"ID = 78 OR ID = 77", 1), (b"NOTE = 'new'", 1),
                                 (b"ID > 78", 1), (b"ID = 78;", 0)):
            self.assertEqual(len(self.hints(b"CONNECT A ANN\nA: DELETE FROM T WHERE " + condition + b"\n")), count, condition)

    def test_no_conflicts_of_live(self):
        made(self.store)
        script = TABLE + (b"A: EXECUTE DBMS_WM.CreateWorkspace('W')\nA: SELECT * FROM T_CONF\nA: SELECT * FROM T\nA: SELECT 'T_CONF' FROM T\n"
                          b"A: EXECUTE DBMS_WM.SetConflictWorkspace('W')\nA: SELECT * FROM T_CONF\nCONNECT B BEN\nB: SELECT ID FROM T_CONF C WHERE 1 = 1\n"
                          b"B: EXECUTE DBMS_WM.GotoWorkspace('W')\nB: SELECT * FROM T_CONF\nB: SELECT COUNT(*) FROM T_CONF\n")
        self.assertEqual([text.split(":")[0] for text in self.hints(script)], ["LIVE has no conflicts"] * 2)

    def test_nothing_compared(self):
        made(self.store)
        script = TABLE + (b"A: EXECUTE DBMS_WM.CreateWorkspace('W')\nA: SELECT * FROM T_DIFF\nA: SELECT 'T_DIFF' FROM T\n"
                          b"A: EXECUTE DBMS_WM.SetDiffVersions('LIVE', 'Q')\nA: SELECT ID FROM t_diff D\n"
                          b"A: EXECUTE DBMS_WM.SetDiffVersions('LIVE', 'W')\nA: SELECT * FROM T_DIFF\n")
        self.assertEqual([text.split(":")[0] for text in self.hints(script)], ["A compares nothing yet"] * 2)

    def test_tables_without_valid_time_have_none(self):
        made(self.store)
        self.assertEqual(self.hints(TABLE + b"A: INSERT INTO T VALUES (1, NULL)\nA: DELETE FROM T WHERE ID = 2\n"), [])


class Ends(Played):
    def test_status(self):
        made(self.store)
        self.assertEqual(self.play(TABLE).returncode, 0)
        self.assertEqual(self.play(REFUSED).returncode, 1)
        for now in ("yesterday", "2024-02-30", "2024-06-01 17:30"):
            done = self.play(TABLE, "--now", now)
            self.assertEqual((done.returncode, done.stderr.count("\n")), (2, 1))
            self.assertIn("--now is a day", done.stderr)

    def test_stop_at_the_first_refusal(self):
        made(self.store)
        self.play(TABLE)
        done = self.play(REFUSED, "--stop")
        self.assertEqual(done.returncode, 1)
        self.assertIn("stopped at line 2, 1 not played", done.stderr)
        self.assertEqual(run(self.store, "2024-06-01", b"CONNECT A ANN\nA: SELECT * FROM T\n").stdout, b"OK\nROWS 0\n")

    def test_program_that_ends_early(self):
        made(self.store)
        stub = self.folder / "stub.py"
        stub.write_text("import sys\nprint('OK', flush=True)\nsys.stdin.readline()\nsys.stderr.write('wm: out of memory\\n')\nsys.exit(10)\n")
        path = self.folder / "s.wm"
        path.write_bytes(TABLE)
        done = tool("play", self.store, path, "--program", f"{sys.executable} {stub}")
        self.assertEqual(done.returncode, 10)
        self.assertIn("1 accepted, 0 refused, 1 not answered; stopped at line 2, 1 not played", done.stderr)
        self.assertIn("line 2 was not answered: wm: out of memory", done.stderr)

    def test_damaged_store(self):
        data = made(self.store).read_bytes()
        self.store.write_bytes(data[:10000])
        done = self.play(TABLE)
        self.assertEqual((done.returncode, "wm: damaged page 2 short" in done.stderr), (7, True))


class Stores(Played):
    def test_no_store(self):
        done = self.play(TABLE)
        self.assertEqual((done.returncode, self.store.exists()), (2, False))
        self.store.write_bytes(TABLE)
        self.assertEqual((self.play(TABLE).returncode, self.store.read_bytes()), (2, TABLE))
        self.assertEqual(self.play(TABLE, "--new").returncode, 2)
        self.assertEqual(self.store.read_bytes(), TABLE)

    def test_new_store(self):
        for limit in ("0", "-1", "1048577"):
            done = self.play(TABLE, "--new", "--limit", limit)
            self.assertEqual((done.returncode, done.stderr), (2, "play: --limit is a number from 1 to 1048576\n"))
        self.assertFalse(self.store.exists())
        self.assertEqual(self.play(TABLE, "--new").returncode, 0)
        self.assertIn("1,048,576 left of 1,048,576", tool("show", self.store).stdout)

    def test_no_program(self):
        made(self.store)
        for program in (str(self.folder / "none"), str(self.store), "'"):
            done = self.play(TABLE, "--program", program)
            self.assertEqual((done.returncode, done.stderr), (2, f"play: there is no program {program}\n"))

    def test_two_plays_of_one_store_are_kept_apart(self):
        made(self.store)
        link = self.folder / "link.store"
        link.symlink_to(self.store)
        first = subprocess.Popen([sys.executable, str(TOP / "tools" / "play"), str(link), "--program", self.waiting()],
                                 stdin=subprocess.PIPE, stdout=subprocess.PIPE, stderr=subprocess.DEVNULL)
        self.addCleanup(first.kill)
        first.stdin.write(b"CONNECT A ANN\n")
        first.stdin.close()
        first.stdout.readline()
        first.stdout.readline()
        second = self.play(TABLE)
        self.assertEqual((second.returncode, "another play has" in second.stderr), (2, True))
        first.kill()
        first.wait()
        first.stdout.close()
        self.assertEqual(self.play(TABLE).returncode, 0)

    def test_a_run_beside_is_told(self):
        made(self.store)
        with self.store.open("rb") as file:
            fcntl.flock(file, fcntl.LOCK_EX)
            done = self.play(TABLE)
        self.assertEqual((done.returncode, "another run has" in done.stderr), (2, True))

    def waiting(self):
        """A program that answers one line and then waits until the test is over."""
        path, gate = self.folder / "waiting.py", self.folder / "gate"
        path.write_text(f"print('OK', flush=True)\nopen({str(gate)!r}).read()\n")
        os.mkfifo(gate)
        self.addCleanup(os.close, os.open(gate, os.O_RDWR))
        return f"{sys.executable} {path}"

    def test_moment_is_the_clocks(self):
        made(self.store)
        path = self.folder / "s.wm"
        path.write_bytes(TABLE + b"A: CREATE TABLE D (ID NUMBER PRIMARY KEY, DAY DATE)\nA: EXECUTE DBMS_WM.EnableVersioning('D')\n"
                         b"A: INSERT INTO D VALUES (1, SYSDATE)\n")
        before = datetime.now(timezone.utc).strftime("%Y-%m-%d %H:%M:%S")
        self.assertEqual(tool("play", self.store, path, "--program", PROGRAM).returncode, 0)
        after = datetime.now(timezone.utc).strftime("%Y-%m-%d %H:%M:%S")
        # The program is asked, since the tool shows midnight as a day alone.
        said = run(self.store, "0001-01-01", b"CONNECT A ANN\nA: SELECT DAY FROM D\n").stdout.decode().split("\n")
        self.assertTrue(before <= said[1] <= after, said)

    def test_wrong_years_are_told(self):
        made(self.store)
        self.assertIn("later than the clock", self.play(TABLE, "--now", "2942-06-01").stderr)
        self.assertIn("last change is of 2942-06-01", self.play(b"").stderr)
        self.assertNotIn("last change", self.play(b"", "--now", "2942-06-01").stderr)


class Terminal(Played):
    def test_lines_are_asked_for(self):
        made(self.store)
        said = self.typed(b"CONNECT A ANN\r", b"A: SELEC\r", b"\x04")
        self.assertIn("wm>  CONNECT A ANN\r\n     OK\r\nwm>  A: SELEC\r\n        ^\r\n     WM-003 syntax 4\r\nwm>", plain(said))

    def test_no_key_of_the_terminal_reaches_the_run(self):
        """It is the first process of a session of its own: Ctrl-C at the prompt drops the line that is typed, and no more."""
        made(self.store)
        path = self.folder / "alone.py"
        path.write_text("import os\nprint('DONE', int(os.getsid(0) == os.getpid()), flush=True)\n")
        (self.folder / "s.wm").write_bytes(b"CONNECT A ANN\n")
        self.assertIn("DONE 1", tool("play", self.store, self.folder / "s.wm", "--program", f"{sys.executable} {path}").stdout)

    def typed(self, *keys):
        """What a terminal shows where these keys are pressed, each once the prompt is there."""
        call = [sys.executable, str(TOP / "tools" / "play"), str(self.store), "--now", "2024-06-01", "--program", PROGRAM]
        try:
            child, terminal = pty.fork()
        except OSError as error:
            self.skipTest(f"there are no terminals here: {error}")
        if child == 0:
            # What a user has set for lines that are typed does not count.
            os.execvpe(sys.executable, call, {**os.environ, "INPUTRC": os.devnull})
        self.addCleanup(os.waitpid, child, 0)
        # This is done first: who is still at the terminal ends with it.
        self.addCleanup(os.close, terminal)
        said = b""
        for count, key in enumerate(keys, 1):
            while said.count(b"wm>") < count:
                more = shown_next(terminal)
                self.assertTrue(more, f"there is no prompt behind {said!r}")
                said += more
            os.write(terminal, key)
        while more := shown_next(terminal):
            said += more
        return said

    def test_progress(self):
        """A line from time to time where standard error is no terminal."""
        made(self.store)
        path = self.folder / "slow.py"
        path.write_text("import sys, time\nfor line in sys.stdin:\n    time.sleep(3)\n    print('OK', flush=True)\n")
        (self.folder / "s.wm").write_bytes(b"CONNECT A ANN\n" * 3)
        done = tool("play", self.store, self.folder / "s.wm", "--program", f"{sys.executable} {path}")
        self.assertRegex(done.stderr, r"[12] of 3 lines, 0 refused, \d+ s\n")


def shown_next(terminal):
    """What is shown next at a terminal, or nothing where it is left, or where nothing comes."""
    try:
        return os.read(terminal, 1000) if select.select([terminal], [], [], SECONDS)[0] else b""
    except OSError:
        return b""


def plain(said):
    """The text of a terminal without what moves its cursor."""
    return re.sub(r"\x1b\[[?0-9;]*[A-Za-z]", "", said.decode())
