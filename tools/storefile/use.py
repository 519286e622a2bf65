"""Whether a run has a store open."""
import fcntl


def has_a_run(file):
    """Whether a run holds the lock of an opened file, which is looked at for a moment only."""
    try:
        fcntl.flock(file, fcntl.LOCK_SH | fcntl.LOCK_NB)
        fcntl.flock(file, fcntl.LOCK_UN)
    except BlockingIOError:
        return True
    except OSError:
        pass
    return False
