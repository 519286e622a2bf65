"""How large a file grows: room that dropped records left is used again."""
from around import WithFolder, made, run
from storefile.pages import SIZE, Pages

ROUNDS, KEYS = 75, 20
# What a slot takes of a page besides the record's bytes.
HEAD = 10


def script():
    """3,000 lines that insert the rows of 20 keys and delete them again, in turn."""
    lines = ["CONNECT A ANN", "A: CREATE TABLE T (ID NUMBER PRIMARY KEY, V VARCHAR2(80))", "A: EXECUTE DBMS_WM.EnableVersioning('T')"]
    for turn in range(ROUNDS):
        lines += [f"A: INSERT INTO T VALUES ({key}, '{turn:080}')" for key in range(KEYS)]
        lines += [f"A: DELETE FROM T WHERE ID = {key}" for key in range(KEYS)]
    return "\n".join(lines).encode() + b"\n"


class Room(WithFolder):
    def test_the_pages_in_use_are_below_one_and_a_half_times_their_content(self):
        done = run(made(self.store), "2020-01-01", script())
        self.assertEqual((done.returncode, done.stdout), (0, b"OK\n" * 3 + b"DONE 1\n" * (2 * ROUNDS * KEYS)))
        pages = Pages(self.store.read_bytes())
        content = sum(HEAD + len(record) for _, _, record in pages.slots())
        self.assertLess(pages.count * SIZE, 1.5 * content)
