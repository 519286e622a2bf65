#!/usr/bin/env python3
"""How a tool was called: over which Python, by which name, and of which day it is. Called itself, it says the latter.

Every line of this file, and those of a tool before it calls `see_to_python`, are read by older Pythons too.
"""
import re
import subprocess
import sys
from pathlib import Path

LEAST = (3, 9)
HERE = Path(__file__).resolve().parent
# 'make install' writes it: what `day_and_commit` says. It is there where the tools are installed, and only there.
INSTALLED = HERE / "version"
NAMED = re.compile(r"(?:python3 )?tools/(play|show|sheet|insert)(?:_lines\.py)?\b(?!/)")


def see_to_python():
    """Ends here, with one line, where Python is too old for the tools."""
    if sys.version_info < LEAST:
        needed, found = (".".join(map(str, version)) for version in (LEAST, sys.version_info[:3]))
        sys.stderr.write("The tools need Python {} or later, and this is Python {}: {}\n".format(needed, found, sys.executable))
        sys.exit(2)


def installed_program():
    """The program that was installed with the tools, or None."""
    program = HERE.parents[1] / "bin" / "wm"
    return str(program) if INSTALLED.is_file() and program.is_file() else None


def named(text):
    """The text with the names that tools have where they are installed, if they are."""
    return NAMED.sub(r"wm-\1", text) if INSTALLED.is_file() else text


def git(*words):
    return subprocess.run(["git", *words], cwd=HERE, stdin=subprocess.DEVNULL, capture_output=True, text=True, check=True).stdout.strip()


def day_and_commit():
    """The last commit that changed the tools, with its day."""
    try:
        told = git("log", "-1", "--date=short", "--format=%cd %h", "--", ".")
        return (told or "of no commit") + (", changed since" if told and git("status", "--porcelain", "--", ".") else "")
    except (OSError, subprocess.CalledProcessError):
        return "of no commit"


def version(tool):
    """What --version says."""
    told = INSTALLED.read_text(encoding="utf-8").strip() if INSTALLED.is_file() else day_and_commit()
    return "wm-{} {}".format(tool, told)


def tell_of_itself(tool, text):
    """Ends where the words ask what the tool is for, or of which day it is."""
    if {"--help", "-h"} & set(sys.argv[1:]):
        print(named(text.strip()))
    elif "--version" in sys.argv[1:]:
        print(version(tool))
    else:
        return
    sys.exit(0)


if __name__ == "__main__":
    print(day_and_commit())
