"""Rows of command lines: tests/commands/*.rows, as tools/check/commands describes them."""
import glob
import os
import re
import shlex
import sys

sys.dont_write_bytecode = True
from rows import ROOT, File, bytes_of

STDIN = ("closed", "a folder", "in pieces", "cut off by a failure")
STDOUT = ("full", "closed")
STDERR = ("a terminal",)
COMMAND = "command"


class Command:
    """A command line, what stands around it, and what has to come of it."""

    def __init__(self, row):
        self.place, self.name = row.place, row.name
        self.program, *self.words = shlex.split(row.file.filled(row.given)) or [""]
        self.files, self.pipes, self.pieces = files_of(row.file), {}, []
        self.stdin, self.stdout, self.stderr = "open", "open", "open"
        self.printed, self.said, self.named, self.items, self.status = list(row.told), [], None, None, 0
        self.parts, self.others, self.variables = [], [], {}
        self.is_read = row.question == COMMAND and all([self.take(step) for step in row.steps])

    def __str__(self):
        return f"{self.place}: {self.name}"

    def given(self):
        """What stands on standard input."""
        return b"".join(self.pieces)

    def is_of_launcher(self):
        """Whether a launcher comes to the same: each word is UTF-8, and no variable is set."""
        texts = [it if isinstance(it, bytes) else it.encode() for it in self.words]
        return not self.variables and all(it.decode(errors="replace").encode() == it for it in texts)

    def is_plain(self):
        """Whether it takes nothing but words, bytes on standard input and files, and its whole text is known."""
        return self.stdin == self.stdout == self.stderr == "open" and self.items is None and not self.parts and not self.pipes and not self.variables

    def take(self, step):
        """Takes a step; whether there is such a one."""
        if step.text is not None:
            return self.put(step.given, bytes_of(step.text))
        key, told = step.given, step.told
        if key.startswith("stdin from ") and not told:
            data = self.files.get(key.removeprefix("stdin from "))
            self.pieces += [data] if data is not None else []
            return data is not None
        elif key.startswith("stdin is ") and not told:
            self.stdin = key.removeprefix("stdin is ")
            return self.stdin in STDIN
        elif key.startswith("stdout is ") and not told:
            self.stdout = key.removeprefix("stdout is ")
            return self.stdout in STDOUT
        elif key.startswith("stderr is ") and not told:
            self.stderr = key.removeprefix("stderr is ")
            return self.stderr in STDERR
        elif key == "items":
            self.items = "".join(told)
        else:
            return bool(told) and self.ask(key, told)
        return True

    def put(self, key, data):
        """Puts bytes in a file, a pipe, a variable, a word or on standard input; whether they go there."""
        times = re.fullmatch(r"stdin (\d+) times", key)
        if key.startswith("file "):
            self.files[key.removeprefix("file ")] = data
        elif key.startswith("pipe "):
            self.pipes.setdefault(key.removeprefix("pipe "), []).append(data)
        elif key.startswith("variable "):
            self.variables[key.removeprefix("variable ")] = data
        elif key == "word":
            self.words.append(data)
        elif key == "stdin" or times:
            self.pieces += [data] * (int(times[1]) if times else 1)
        else:
            return False
        return True

    def ask(self, key, told):
        """Asks for a text; whether there is such a one."""
        if key == "stdout":
            self.printed += told
        elif key == "stdout has":
            self.parts += told
        elif key == "stdout lacks":
            self.others += told
        elif key == "stderr":
            self.said += told
        elif key == "stderr has" and len(told) == 1:
            self.named = told[0]
        elif key == "status" and len(told) == 1:
            self.status = int(told[0])
        else:
            return False
        return True


def files_of(file):
    """The files that lie beside each program of a file of rows: its texts `file NAME`."""
    texts = file.texts | {name: "".join(f"{line}\n" for _, line in lines) for name, lines in file.lines.items()}
    return {name.removeprefix("file "): bytes_of(text) for name, text in texts.items() if name.startswith("file ")}


def fault_of(row, programs):
    """Why a row is none, or None."""
    if not row.is_read:
        return "a step that can't be read"
    if row.program not in programs:
        return f"it runs none of {', '.join(programs)}"
    if row.printed and (row.parts or row.others or row.items is not None) or row.said and row.named is not None:
        return "a whole text, and what has to stand in it"
    return None


def all_rows():
    """The rows of all files."""
    return [Command(row) for path in sorted(glob.glob(f"{ROOT}/tests/commands/*.rows")) for row in File(path).rows]
