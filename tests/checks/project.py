"""What the checks take from the project beside tests: its files, its tools and
its command."""

import functools
import importlib.util
import os
import sys
from importlib.machinery import SourceFileLoader

from checks.tally import TESTS

ROOT = os.path.dirname(TESTS)

sys.path.append(os.path.join(ROOT, "tools"))

import building  # noqa: E402,F401
import history  # noqa: E402,F401
import listed  # noqa: E402,F401
import plot  # noqa: E402,F401
import words  # noqa: E402,F401


def module_at(*path):
    """A module of the project that is neither one of tests nor a tool."""
    name = "project_" + os.path.splitext(path[-1])[0]
    spec = importlib.util.spec_from_loader(name, SourceFileLoader(
        name, os.path.join(ROOT, *path)))
    module = importlib.util.module_from_spec(spec)
    before = list(sys.path)
    spec.loader.exec_module(module)
    sys.path[:] = before        # the command puts its own tools in front
    return module


command = module_at("vilthomm")
example_boards = module_at("examples", "boards.py")


@functools.lru_cache(maxsize=None)
def built():
    """Whether the listing is built from what is here, as the command sees it.
    If not, it is built as the command does it, which is quick where the crates
    below it are built already, as after `make`; that is tried once."""
    if not command.is_built():
        try:
            command.build()
        except command.Trouble as trouble:
            print("  %s" % trouble)
    return command.is_built()


def stored(*path):
    """The bytes of a file of the project."""
    with open(os.path.join(ROOT, *path), "rb") as handle:
        return handle.read()


def page_of(*path):
    return stored(*path).decode("utf-8")
