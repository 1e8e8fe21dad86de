"""Rows of scripts: tests/scripts/*.rows, as tools/check/rows describes them."""
import glob
import os
import re
import shlex
import sys

sys.dont_write_bytecode = True
from rows import ROOT, File, bytes_of

REFUSED = "refused"


class Run:
    """A run of hidrun: its options, the lines that it reads, each with what it prints for it, and how it ends."""

    def __init__(self, row):
        self.place, self.name = row.place, f"{row.title}: {row.name or row.given}"
        self.words, self.lines, self.err, self.status, self.example = [], [], "", 0, None
        if row.given.startswith("as "):
            self.example = row.given[3:]
            self.is_read = not row.steps and not row.told
        elif row.question == REFUSED:
            self.words, self.err, self.status = ["hidrun"], "".join(f"line 1: {it}\n" for it in row.told), 1
            self.add(row)
            self.is_read = len(row.told) == 1 and not row.steps
        else:
            self.words = shlex.split(row.question)
            for step in row.steps or [row]:
                self.take(step)
            self.is_read = self.words[:1] == ["hidrun"] and bool(row.steps) != bool(row.given or row.told)

    def take(self, step):
        """A line that is read, or how the run ends."""
        if step.given == "stderr":
            self.err += "".join(f"{it}\n" for it in step.told)
        elif step.given == "status":
            self.status = int(step.told[0])
        else:
            self.add(step, step.told)

    def add(self, step, told=()):
        """A line that is read: with its line feed, unless it ends with a backslash alone."""
        given = step.file.filled(step.given)
        is_cut = re.search(r"(?<!\\)(\\\\)*\\$", given)
        line = bytes_of(given[:-1] if is_cut else given + "\\n")
        self.lines.append((line, "".join(printed(step.file, it) for it in told).encode()))

    def script(self, count=None):
        """The lines that it reads, or the first of them."""
        return b"".join(line for line, _ in self.lines[:count])

    def text(self, count=None):
        """What is printed for them on standard output."""
        return b"".join(text for _, text in self.lines[:count])


def printed(file, text):
    """A line that is printed, or one that is printed several times."""
    times = re.fullmatch(r"\{(.+); (\d+) times\}", text)
    return (file.filled(times[1]) + "\n") * int(times[2]) if times else file.filled(text) + "\n"


def runs_in(paths=None):
    """The runs of the rows of these files, or of all."""
    paths = paths or sorted(glob.glob(f"{ROOT}/tests/scripts/*.rows"))
    return [Run(row) for path in paths for row in File(os.path.abspath(path)).rows]
