"""What tests take from the machine that they run on. It may be slow, and no test depends on how fast it is."""
import os
import shlex
import subprocess
from pathlib import Path

# What has not ended after so many seconds hangs, also on a slow machine and on a slow disk.
SECONDS = 1800
MEMORY = "/dev/shm"


def folder_in_memory():
    """Where stores wait for no disk, or None where no such folder can be written: so the usual one is taken."""
    return MEMORY if os.access(MEMORY, os.W_OK | os.X_OK) else None


def built_shim(source, folder):
    """Builds a library that is loaded before the C library. As in a Makefile, $CC may have words behind the compiler."""
    shim = str(Path(folder) / "shim.so")
    subprocess.run([*shlex.split(os.environ.get("CC") or "cc"), "-shared", "-fPIC", "-O1", "-o", shim, str(source)], check=True)
    return shim
