"""Rows: tests as text, in the language of docs/TESTING.md, "Rows". What a row gives and expects, its reader knows."""
import os
import re
import sys

ROOT = os.path.abspath(f"{__file__}/../../..")
ESCAPES = {b"n": b"\n", b"r": b"\r", b"t": b"\t", b"s": b" ", b"\\": b"\\"}
INDENT = "  "


def bytes_of(text):
    """The bytes that a text with escapes stands for."""
    def escaped(found):
        return bytes([int(found[1], 16)]) if found[1] else ESCAPES[found[2]]

    return re.sub(rb"\\(?:x([0-9A-Fa-f]{2})|([nrts\\]))", escaped, text.encode())


def is_remark(text):
    """Whether a line says nothing."""
    return not text.strip() or f"{text.strip()} ".startswith("-- ")


def parted(text):
    """What stands before the first mark, the mark (`>`, `=` or none), and what stands after it."""
    found = re.search(r" ([>=])(?: |$)", " " + text)
    return (f" {text}"[:found.start()].strip(), found[1], f" {text}"[found.end():]) if found else (text.strip(), "", "")


def named(text):
    """The name in front of what is given, and that."""
    name, colon, given = text.partition(": ")
    if colon:
        return name.strip(), given.strip()
    return (text[:-1].strip(), "") if text.endswith(":") else ("", text)


def blocks_of(lines):
    """Each line that isn't indented, by its number and text, with the lines that are indented below it."""
    at = 0
    while at < len(lines):
        (number, text), below = lines[at], []
        at += 1
        while at < len(lines) and lines[at][1].startswith(INDENT):
            below.append((lines[at][0], lines[at][1][len(INDENT):]))
            at += 1
        yield number, text, below


class Step:
    """A row or a step: its name, what is given, the lines that are expected, or the text of a file or a stream."""

    def __init__(self, file, number, text, below):
        self.file, self.place = file, f"{os.path.relpath(file.path, ROOT)}:{number}"
        left, mark, right = parted(text)
        self.name, self.given = named(left)
        lines = [right] if right else [line for _, line in below]
        self.told = lines if mark == ">" else []
        self.text = None if mark != "=" else right if right or not below else "".join(f"{line}\n" for line in lines)
        if below and (right or not mark) and not self.has_steps():
            file.fail(below[0][0], "a line below one that has no room for it")

    def has_steps(self):
        """Whether steps may stand below it."""
        return False


class Row(Step):
    """A row, with the title of its table and what is asked there; and its steps."""

    def __init__(self, file, title, question, block):
        number, text, below = block
        self.title, self.question, self.steps = title, question, []
        self.is_open = not parted(text)[1]
        super().__init__(file, number, text, below)
        if self.is_open:
            self.steps = list(file.steps(below))

    def has_steps(self):
        return self.is_open


class File:
    """The rows of a file, and the texts that they name: a text, or the lines of one."""

    def __init__(self, path):
        self.path, self.rows, self.texts, self.lines = path, [], {}, {}
        title = question = None
        with open(path, encoding="utf-8") as file:
            lines = list(enumerate(file.read().split("\n"), 1))
        for number, text, below in blocks_of(lines):
            if below and (is_remark(text) or text.startswith("# ")):
                self.fail(below[0][0], "a step of no row")
            if text.startswith("# "):
                title, _, question = (it.strip() for it in text[2:].partition(":"))
            elif not is_remark(text) and title is None:
                self.take_name(number, text, below)
            elif not is_remark(text):
                self.rows.append(Row(self, title, question, (number, text, below)))

    def take_name(self, number, text, below):
        """A line in front of the first table."""
        name, mark, right = parted(text)
        if text.startswith("with "):
            other = File(os.path.join(os.path.dirname(self.path), text[5:]))
            self.texts.update(other.texts)
            self.lines.update(other.lines)
        elif mark != "=":
            self.fail(number, "no name of a text")
        elif below:
            self.lines[name] = below
        else:
            self.texts[name] = self.filled(right)

    def steps(self, lines):
        """The steps in these lines, and those that they name."""
        for number, text, below in blocks_of(lines):
            if text.startswith("{") and text[1:-1] in self.lines and not below:
                yield from self.steps(self.lines[text[1:-1]])
            elif not is_remark(text):
                yield Step(self, number, text, below)

    def filled(self, text):
        """A text with what its words in braces mean: a name, or a word several times."""
        def meant(found):
            words = found[1]
            times = re.fullmatch(r"(.+?)( x |\*)(\d+)", words)
            if times:
                return (" " if times[2] == " x " else "").join([times[1]] * int(times[3]))
            return self.texts[words] if words in self.texts else sys.exit(f"{self.path}: nothing is named {words}")

        return re.sub(r"\{([^{}]+)\}", meant, text)

    def fail(self, number, why):
        sys.exit(f"{os.path.relpath(self.path, ROOT)}:{number}: {why}")
