"""The files stored for a program that runs cases: its containers, in a folder
`data`, and what it is to print, in `stdout`.

A container is a module of `containers`, with its `items()`, its TAIL, MOST,
which is more than its bytes, and `lines`, those of an item.  stdout has the
lines of all items, container by container, each with a line feed at its end.
Seeds are fixed, so the same bytes come out each time.
"""

import os
import sys
from functools import lru_cache

import enumerator as en
from containers.common import put_together, taken_apart


class Program:
    """A program.  `containers` has them by name, in the order of their
    lines."""

    def __init__(self, name, containers):
        self.name = name
        self.containers = containers

    @lru_cache(maxsize=None)
    def written(self, container):
        """The bytes of a container."""
        return put_together(container.items(), container.TAIL)

    @lru_cache(maxsize=None)
    def lines_of(self):
        """By the containers' names, the lines of each item, as read from the
        container's bytes."""
        return {name: [container.lines(*item) for item in taken_apart(
                           self.written(container), container.TAIL)]
                for name, container in self.containers.items()}

    @lru_cache(maxsize=None)
    def stored_files(self):
        """What is stored: the bytes of each file, by its name in the
        folder."""
        stored = {os.path.join("data", name): self.written(container)
                  for name, container in self.containers.items()}
        for name, container in self.containers.items():
            if len(self.written(container)) >= container.MOST:
                raise ValueError("%s has %d bytes" % (
                    name, len(self.written(container))))
        stored["stdout"] = "".join(
            line + "\n" for items in self.lines_of().values()
            for lines in items for line in lines).encode("ascii")
        return stored

    def write_files(self, folder):
        os.makedirs(os.path.join(folder, "data"), exist_ok=True)
        for name, wanted in self.stored_files().items():
            with open(os.path.join(folder, name), "wb") as handle:
                handle.write(wanted)

    def stale_files(self, folder):
        """A sentence for each stored file that is not what would be
        written."""
        found = []
        for name, wanted in self.stored_files().items():
            path = os.path.join(folder, name)
            stored = en.file_bytes(path)
            if stored is None:
                found.append("%s is missing" % path)
            elif stored != wanted:
                found.append("%s is stale" % path)
        return found

    def print_names(self):
        """Each line of stdout with its number, and with the first of an item
        the name of its case."""
        number = 0
        for name, items in self.lines_of().items():
            title = name.partition(".")[0]
            for item, lines in zip(self.containers[name].items(), items):
                for index, line in enumerate(lines):
                    number += 1
                    case = "" if index else "%s: %s" % (title, item.name)
                    print(("%4d  %-28s  %s" % (number, line, case)).rstrip())

    def main(self, arguments):
        """Writes into a folder, compares with one, or prints the names."""
        script = self.name + ".py"
        if len(arguments) == 2 and arguments[0] == "--stale":
            found = self.stale_files(arguments[1])
            for sentence in found:
                print(sentence)
            if found:
                print("to write anew: python3 tests/%s %s" % (
                    script, arguments[1]))
            return 1 if found else 0
        if arguments == ["--names"]:
            self.print_names()
            return 0
        if len(arguments) == 1 and not arguments[0].startswith("-"):
            self.write_files(arguments[0])
            return 0
        sys.stderr.write("use: %s DIR\n     %s --stale DIR\n"
                         "     %s --names\n" % (script, script, script))
        return 2
