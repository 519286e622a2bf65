"""Refusals, and which of several faults is told."""


class Refused(Exception):
    """A refusal with its text."""


def refuse(text, *values):
    raise Refused(" ".join([text, *(value.decode("utf-8", "surrogateescape") if isinstance(value, bytes) else str(value) for value in values)]))


def first_of(faults):
    """The thing of the fault whose token stands first; of two at one token the one that comes first in the list."""
    return min(faults, key=lambda fault: fault[0])[1]
