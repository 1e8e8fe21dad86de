"""The repository's crates and its wrong bodies, and copies of both in a folder of their own.

The gate tries those of must-fail/; the further ones of wrong-bodies/ are tried by `make refusals` alone.

Nothing here writes to the work tree: an edit is applied in a copy, which goes when the tool ends."""
import os
import re
import shutil
import signal
import sys
import tempfile

from kit import look_for_rt

ROOT = os.path.abspath(f"{__file__}/../../..")
SOURCES = ("src", "specs", "proofs")
GATED = ("must-fail",)
EDITS = (*GATED, "wrong-bodies")


def text_of(path):
    with open(path, encoding="utf-8") as file:
        return file.read()


def libraries():
    """The crates of crates.txt, each with what it stands on."""
    found = {}
    for line in text_of(f"{ROOT}/crates.txt").splitlines():
        name, colon, used = line.partition("#")[0].partition(":")
        if colon:
            found[name.split()[0]] = used.split()
    return found


def below(crate, known):
    """The crates of the repository under this one, each after those that it uses."""
    found = []
    for used in known[crate]:
        if used in known:
            found += [it for it in [*below(used, known), used] if it not in found]
    return found


def above(crate, known):
    """The crates of the repository that stand on this one, the nearest first."""
    return sorted((it for it in known if crate in below(it, known)), key=lambda it: len(below(it, known)))


class Edit:
    """A wrong body: texts of files, each in place of another that stands there once."""

    def __init__(self, crate, file):
        self.crate, self.name, self.pairs = crate, os.path.basename(file).removesuffix(".edit"), []
        path = old = ""
        for line in text_of(f"{ROOT}/crates/{crate}/{file}").splitlines():
            if line.startswith("file: "):
                path = line[len("file: "):].strip()
            elif line.startswith("old: "):
                old = line[len("old: "):]
            elif line.startswith("new:"):
                self.pairs.append((path, old, line[len("new:"):].removeprefix(" ")))

    def __str__(self):
        return f"{self.crate}/{self.name}"

    def texts(self, folder):
        """The texts of the files that it changes, by path; or None where it does not apply."""
        texts = {}
        for path, old, new in self.pairs:
            if path not in texts and os.path.isfile(f"{folder}/{path}"):
                texts[path] = text_of(f"{folder}/{path}")
            if texts.get(path, "").count(old) != 1:
                return None
            texts[path] = texts[path].replace(old, new)
        return texts or None

    def functions(self, folder):
        """The functions that it changes, by the prover's names."""
        found = []
        for path, old, _ in self.pairs:
            text = text_of(f"{folder}/{path}")
            function = function_at(path, text, text.count("\n", 0, max(text.find(old), 0)) + 1)
            if function and function not in found:
                found.append(function)
        return found


def edits_of(crate, folders=EDITS):
    top = f"{ROOT}/crates/{crate}"
    files = [f"{it}/{name}" for it in folders if os.path.isdir(f"{top}/{it}") for name in os.listdir(f"{top}/{it}")]
    return sorted((Edit(crate, it) for it in files if it.endswith(".edit")), key=lambda it: it.name)


def edits_named(words, known, folders=EDITS):
    """The edits that these words name, each a crate or CRATE/EDIT; all for no word."""
    found = []
    for word in words or known:
        crate, _, name = word.rstrip("/").removeprefix("crates/").partition("/")
        if crate not in known:
            sys.exit(f"no crate {crate} stands in crates.txt")
        name = os.path.basename(name).removesuffix(".edit")
        those = [it for it in edits_of(crate, folders) if name in ("", it.name)]
        if name and not those:
            sys.exit(f"{crate} has no wrong body {name}")
        found += those
    return found


FUNCTION = re.compile(r"( *)(?:pub(?:\([^)]*\))? )?(?:const )?(?:unsafe )?(?:extern \"C\" )?fn (\w+)")
OWNER = re.compile(r"(?:pub(?:\([^)]*\))? )?(impl|trait)\b(?:<[^>]*>)?\s*(.*)")


def owner_of(line):
    """The name that the prover gives an `impl` or a trait: the type's, and after it the trait's."""
    found = OWNER.match(line)
    if not found:
        return None
    trait, is_for, of = found[2].rstrip(" {").partition(" for ")
    words = [of, trait] if is_for else [trait]
    return "".join(re.sub(r"<.*|.*::(?=\w)|[ :{].*", "", it.lstrip("&")) for it in words)


def functions_in(path, text):
    """The functions of a source file: the prover's name of each (without the crate), its first line and its last."""
    module = re.sub(r"^src/(lib$|main$)?|\.rt$", "", path.removesuffix(".rt")).replace("/", "::")
    owner, name, first, indent = "", "", 0, ""
    for number, line in enumerate(text.splitlines(), 1):
        if line[:1] not in ("", " ", "}"):
            owner = owner_of(line) or owner
        head = FUNCTION.match(line)
        if head:
            indent, first = head[1], number
            name = "::".join(it for it in (module, owner if indent else "", head[2]) if it)
        if name and (line == f"{indent}}}" or head and line.endswith("}")):
            yield name, first, number
            name = ""
        if line == "}":
            owner = ""


def function_at(path, text, line):
    """The function of a source file in which a line stands; None between functions."""
    return next((name for name, first, last in functions_in(path, text) if first <= line <= last), None)


class Copy:
    """A copy of a crate and of those below it, for `rt`, in a folder that goes at the end."""

    def __init__(self, crate, known, kept=(), of_below=()):
        """kept: what goes with the crate besides its sources; of_below: what goes with those below it."""
        look_for_rt()
        self.crate, self.names = crate, [*below(crate, known), crate]
        self.room = tempfile.mkdtemp(prefix="rulohevian-")
        try:
            self.fill(known, kept, of_below)
        except BaseException:
            self.remove()
            raise

    def fill(self, known, kept, of_below):
        for name in self.names:
            parts = kept if name == self.crate else of_below
            for part in (*SOURCES, *parts):
                source = f"{ROOT}/crates/{name}/{part}"
                if os.path.isdir(source):
                    shutil.copytree(source, f"{self.folder(name)}/{part}")
        with open(f"{self.room}/crates.txt", "w", encoding="utf-8") as file:
            file.writelines(f"{it}: {' '.join(known[it])}\n" for it in self.names)
        shutil.copy(f"{ROOT}/HANDLES", self.room)

    def folder(self, name=None):
        return f"{self.room}/crates/{name or self.crate}"

    def write(self, texts, crate=None):
        """Writes these texts, and gives those that stood there."""
        was = {}
        for path, text in texts.items():
            was[path] = text_of(f"{self.folder(crate)}/{path}")
            with open(f"{self.folder(crate)}/{path}", "w", encoding="utf-8") as file:
                file.write(text)
        return was

    def remove(self):
        shutil.rmtree(self.room, ignore_errors=True)

    def __enter__(self):
        return self

    def __exit__(self, *_):
        self.remove()


def end_on_signals():
    """Has a signal end the tool as an error does, so that the copies go."""
    for it in (signal.SIGTERM, signal.SIGHUP, signal.SIGINT):
        signal.signal(it, lambda number, _: sys.exit(128 + number))
