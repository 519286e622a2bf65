"""Paths that lead to no store, and files and disks that cannot be written."""
import os
import resource
import signal
import subprocess

from room import CHECK, INIT, RUN, ended, inserting, read

NOBODY = 65534


def no_stores(kind, room):
    script = inserting([1])[0]
    folder = room.path("folder")
    os.mkdir(folder)
    text = room.store(script)
    for name, path in [
        ("a folder", folder),
        ("a device", "/dev/null"),
        ("a full device", "/dev/full"),
        ("a name that is too long", room.path("n" * 300)),
        ("a file in a file", f"{text}/s.store"),
        ("a file in no folder", room.path("none/s.store")),
        ("the empty path", ""),
    ]:
        kind.expect(f"run over {name}", room.play(path, RUN, script), ended(5))
        kind.expect(f"init of {name}", room.play(path, INIT), ended(5))
        kind.expect(f"check of {name}", room.play(path, CHECK), ended(5))
    kind.expect("the folder is empty", os.listdir(folder), [])
    kind.expect("a folder is made", os.path.exists(room.path("none")), False)
    dangling = room.absent()
    os.symlink(dangling + ".target", dangling)
    for name, path in ("no file", room.absent()), ("a link to no file", dangling), ("no file here", "s.store"):
        kind.expect(f"run over {name}", room.play(path, RUN, script, cwd=room.folder), ended(6))
        kind.expect(f"check of {name}", room.play(path, CHECK, cwd=room.folder), ended(6))
        path = room.path(path)
        kind.expect(f"{name} is made by a run or a check", os.path.exists(path), False)
        kind.expect(f"init of {name}", room.play(path, INIT), ended(0, b"OK\n"))
        kind.expect(f"the store of {name}", read(path) == room.fresh, True)
    for name, path in ("an empty file", room.store(b"")), ("a script", text):
        content = read(path)
        kind.expect(f"run over {name}", room.play(path, RUN, script), ended(6))
        kind.expect(f"check of {name}", room.play(path, CHECK), ended(6))
        kind.expect(f"{name} is as it was", read(path) == content, True)
        # init makes a store of any file that is none.
        kind.expect(f"init of {name}", room.play(path, INIT), ended(0, b"OK\n"))
        kind.expect(f"run over the store of {name}", room.play(path, RUN), ended(0))


def read_only(kind, room):
    path = room.store()
    os.chmod(path, 0o444)
    other = {"user": NOBODY, "group": NOBODY, "extra_groups": []} if os.getuid() == 0 else {}
    try:
        ran = room.play(path, RUN, inserting([1])[0], **other)
        made = room.play(path, INIT, **other)
        checked = room.play(path, CHECK, **other)
    except OSError as error:
        kind.remarks.append(f"skipped, for the program cannot be run as another user ({error})")
        return
    kind.expect("run", ran, ended(5))
    kind.expect("init", made, ended(5))
    kind.expect("check", checked, ended(5))
    kind.expect("the file is as it was", read(path) == room.ready, True)
    os.chmod(path, 0o644)
    kind.expect("the rows", room.rows(path), [])


def limited(kind, room):
    """The system lets the file grow by a little only, and says so, or ends the run by a signal."""
    script = inserting(range(900))[0]
    for name, takes_signal, wanted in ("refused", False, 5), ("killed", True, -signal.SIGXFSZ):
        path = room.store()
        size = len(room.ready) + 8192

        def limit():
            resource.setrlimit(resource.RLIMIT_FSIZE, (size, size))

        # Python ignores the signal, and so does what it starts, unless it restores it.
        more = {"preexec_fn": limit, "restore_signals": takes_signal}
        status, said, _ = room.play(path, RUN, script, **more)
        kind.expect(f"a run that is {name}", status, wanted)
        kind.expect(f"a run that is {name}: some answers came", said.count(b"\n") > 10, True)
        kind.expect_kept(f"a run that is {name}", room, path, said)


def full(kind, room):
    disk = room.path("disk")
    os.mkdir(disk)
    size = len(room.ready) + 16384
    mounted = subprocess.run(["mount", "-t", "tmpfs", "-o", f"size={size}", "none", disk], capture_output=True)
    if mounted.returncode != 0:
        kind.remarks.append("skipped, for no disk can be mounted here")
        return
    try:
        path = f"{disk}/s.store"
        with open(path, "wb") as file:
            file.write(room.ready)
        status, said, complaint = room.play(path, RUN, inserting(range(900))[0])
        kind.expect("run", (status, b"", complaint), ended(5))
        kind.expect("some answers came", said.count(b"\n") > 10, True)
        content = read(path)
        kind.expect("init where there is no room", room.play(f"{disk}/t.store", INIT), ended(5))
        os.remove(f"{disk}/t.store")
        kind.expect_kept("run", room, room.store(content), said)
    finally:
        subprocess.run(["umount", disk], check=True)
