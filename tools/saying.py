"""What the command says on standard error, and why it gives no answer."""

import os
import sys


class Trouble(Exception):
    """Something that keeps the question from being put; status 2."""


def say(sentence):
    show(["vilthomm: %s\n" % sentence])


def show(lines):
    """Lines on standard error; where it takes none they are left out."""
    if sys.stderr is None:
        return
    try:
        sys.stderr.writelines(lines)
        sys.stderr.flush()
    except OSError:
        give_up(sys.stderr)


def give_up(stream):
    """What was not written by now is not written at the end either."""
    os.dup2(os.open(os.devnull, os.O_WRONLY), stream.fileno())


def cause_of(error):
    """What the system says of an OSError, after the file it is about."""
    reason = error.strerror or str(error)
    return "%s: %s" % (error.filename, reason) if error.filename else reason
