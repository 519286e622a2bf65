"""Words that are not in the grammar."""
import os

from room import ended, read

NONE = [
    [],
    ["init"],
    ["run"],
    ["help"],
    ["--help"],
    ["init", "--limit"],
    ["init", "--limit", "0"],
    ["init", "--limit", "1048577"],
    ["init", "--limit", "5", "--limit", "5"],
    ["--limit", "5", "init"],
    ["check", ""],
    ["check", "--"],
    ["check", "--now", "2024-06-01"],
    ["check", "check"],
    ["load", "--seed", "7"],
    ["load", "--lines", "7", "--lines", "7"],
    ["load", "--seed", "18446744073709551616", "--lines", "0"],
    ["load", "--seed", "7", "--lines", "1000001"],
    ["load", "--seed", "7", "--lines", "0", "--now", "2024-06-01"],
    ["run", "--now"],
    ["run", "--now", "2024-13-01"],
    ["run", "--now", "now"],
    ["run", "--now", "2024-06-01", "more"],
    ["run", "--now", "2024-06-01", "--now=2024-06-01"],
    ["run", "--now", "2024-06-01", "-"],
    ["run", "--now", b"2024-06-01\xff"],
    ["play", "--now", "2024-06-01"],
]


def none(kind, room):
    script = b"CONNECT A ANN\n"
    text = room.store(script)
    store = room.store()
    for words in NONE:
        path = room.absent()
        kind.expect(f"{words} over no file", room.play(path, words, script), ended(2))
        kind.expect(f"{words} makes a file", os.path.exists(path), False)
        kind.expect(f"{words} over a script", room.play(text, words), ended(2))
        kind.expect(f"{words} over a store", room.play(store, words, script), ended(2))
    kind.expect("the script is as it was", read(text) == script, True)
    kind.expect("the store is as it was", read(store) == room.ready, True)
    for word in "--help", "-h", "--version", "help", "init", "run", "check", "load":
        kind.expect(word, room.play(word, [], cwd=room.folder), ended(2))
        kind.expect(f"{word} makes a file", os.path.exists(room.path(word)), False)
    strange = os.fsencode(room.path("")) + b"\xff.store"
    kind.expect("a path that is not UTF-8", room.play(strange, ["init", "--limit", "5"]), ended(2))
    kind.expect("that path makes a file", os.path.exists(strange), False)
