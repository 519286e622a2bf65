"""Keeps two plays of one store apart."""
import os
import socket


class InUse(Exception):
    """Another play has the store."""


def hold(store):
    """A name that one process of this machine at a time can have, made of what the file is and not of how it is called.
    It is given up when the process ends, however that comes. Names of sockets that are no files are a thing of Linux."""
    found = os.stat(store)
    held = socket.socket(socket.AF_UNIX)
    try:
        held.bind(f"\0wm-play-{found.st_dev}-{found.st_ino}")
    except OSError:
        held.close()
        raise InUse from None
    return held
