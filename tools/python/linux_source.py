"""Linux's own HID core as a program in user space, and the report descriptors that stand in its source.

No line of Linux is in this repository: tree() finds its source in a given folder, or fetches Debian's package of it into
bin/linux; build() cuts the parsing and reading of reports out of it and compiles tools/c/linux_reads.c with that; and
descriptors() lists the devices of its drivers and of its tests. What is built is for measuring alone.
"""
import ast
import os
import pathlib
import re
import subprocess

import second_reader
from linux_guest import FOLDER, ROOT, Missing, need, ran

PACKAGE = "linux-source-6.12"
# what is unpacked of the source
PARTS = ["drivers/hid", "include/linux/hid.h", "include/uapi/linux/hid.h", "samples/hid", "tools/testing/selftests/hid"]
CORE = "drivers/hid/hid-core.c"
# Each part that is left out of the core begins with the comment above one function and ends at that of another: the life of a
# device, and requests to it.
LEFT_OUT = [("void hiddev_free(", "u8 *fetch_item("), ("int __hid_request(", "int hid_report_raw_event(")]
FIRST = ("static s32 snto32(", "struct hid_report *hid_register_report(")
ENDS = ("static int __hid_input_report(", "int hid_input_report(")
LEAST_BYTES = 12  # of a descriptor with an Input report


def tree(path=None):
    """The folder of Linux's source: `path`, or Debian's package, which is fetched and unpacked once."""
    if path:
        if not (pathlib.Path(path) / CORE).exists():
            raise Missing("%s has no %s, so it is no source of Linux" % (path, CORE))
        return pathlib.Path(path)
    found = FOLDER / PACKAGE
    if not (found / CORE).exists():
        fetch()
    return found


def fetch():
    need("apt-get", "apt, on Debian; or give a folder with Linux's source")
    need("dpkg-deb", "dpkg, on Debian")
    FOLDER.mkdir(parents=True, exist_ok=True)
    print("fetching %s into %s (some 150 MB)" % (PACKAGE, FOLDER.relative_to(ROOT)), flush=True)
    try:
        ran(["apt-get", "download", PACKAGE], cwd=FOLDER)
        for package in FOLDER.glob(PACKAGE + "_*.deb"):
            ran(["dpkg-deb", "-x", package, FOLDER / "package"])
            package.unlink()
        packed = FOLDER / "package/usr/src" / (PACKAGE + ".tar.xz")
        ran(["tar", "-xf", packed, "-C", FOLDER, *("%s/%s" % (PACKAGE, part) for part in PARTS)])
        packed.unlink()
    except Missing as missing:
        raise Missing("Linux's source isn't here, and can't be fetched: apt-get update, or give a folder with it. %s" % missing) from missing


def version(source):
    """The package's version, or the folder."""
    logs = sorted(FOLDER.glob("package/usr/share/doc/%s/changelog.Debian.gz" % PACKAGE)) if source == FOLDER / PACKAGE else []
    shown = subprocess.run(["zcat", *logs[:1]], capture_output=True, text=True, check=False).stdout if logs else ""
    return "%s %s" % (PACKAGE, re.search(r"\((.*?)\)", shown)[1]) if shown else str(source)


def place(text, *words):
    """Where the first of these words stands."""
    places = [text.index(word) for word in words if word in text]
    if not places:
        raise Missing("%s isn't as this tool knows it: it has no `%s`" % (CORE, words[0]))
    return min(places)


def above(text, *words):
    """Where the comment above a function begins."""
    return text.rindex("/*", 0, place(text, *words))


def core(source):
    """The parsing and reading of reports."""
    text = (source / CORE).read_text()
    text = text[above(text, *FIRST):place(text, *ENDS)]
    for first, end in LEFT_OUT:
        text = text[:above(text, first)] + text[(above(text, end) if "fetch_item" in end else place(text, end)):]
    return text


def build(source, folder):
    """The program linux_reads in a folder."""
    need(os.environ.get("CC", "cc"), "gcc")
    folder.mkdir(parents=True, exist_ok=True)
    text = core(source)
    (folder / "hid_core.c").write_text(text)
    (folder / "hid.h").write_text(re.sub(r"^#include <.*$", "", (source / "include/linux/hid.h").read_text(), flags=re.M))
    (folder / "uapi_hid.h").write_text((source / "include/uapi/linux/hid.h").read_text())
    (folder / "hid_ids.h").write_text((source / "drivers/hid/hid-ids.h").read_text())
    given = ["-DROOM_IS_GIVEN"] if re.search(r"int hid_report_raw_event\([^)]*size_t", text) else []
    ran([os.environ.get("CC", "cc"), "-O2", "-g", "-w", "-std=gnu11", "-fno-strict-aliasing", "-Werror=implicit-function-declaration", *given,
         "-I", ROOT / "tools/c", "-I", folder, ROOT / "tools/c/linux_reads.c", "-o", folder / "linux_reads"])
    return folder / "linux_reads"


def of_c(text):
    """Names and bytes of the arrays of numbers in a file of C; arrays with words in place of numbers are left out."""
    text = re.sub(r"/\*.*?\*/|//[^\n]*|^\s*#[^\n]*$", " ", text, flags=re.S | re.M)
    for name, body in re.findall(r"(\w+)\s*\[[^\]]*\]\s*=\s*\{([^{}]*)\}", text):
        words = body.replace(",", " ").split()
        if all(re.fullmatch(r"0[xX][0-9a-fA-F]{1,2}|\d{1,3}", word) for word in words):
            yield name, bytes(int(word, 0) & 0xFF for word in words)


def of_python(text):
    """Names of classes, and the lists of numbers and lines of hex in them."""
    for outer in ast.parse(text).body:
        name = getattr(outer, "name", None) or ast.unparse(outer)[:40].split(" ")[0]
        for inner in ast.walk(outer):
            if isinstance(inner, ast.List) and all(isinstance(it, ast.Constant) and isinstance(it.value, int) for it in inner.elts):
                yield name, bytes(it.value & 0xFF for it in inner.elts)
            elif isinstance(inner, ast.Constant) and isinstance(inner.value, str):
                if re.fullmatch(r"\s*([0-9a-fA-F]{2}\s+)+[0-9a-fA-F]{2}\s*", inner.value):
                    yield name, bytes.fromhex(inner.value)


def descriptors(source):
    """Names and descriptors of the source's drivers and tests, each descriptor once: those that a reader of real devices accepts, with
    data in an Input report."""
    files = [*(source / "drivers/hid").rglob("*.[ch]"), *(source / "samples/hid").glob("*.c"), *(source / "tools/testing/selftests/hid").rglob("*.py")]
    seen = set()
    for path in sorted(files):
        read = of_python if path.suffix == ".py" else of_c
        for name, data in read(path.read_text(errors="replace")):
            if len(data) < LEAST_BYTES or data in seen:
                continue
            try:
                layout = second_reader.Layout(data, second_reader.REAL)
            except second_reader.Refused:
                continue
            if any(item.kind == "input" and not item.is_padding for item in layout.items):
                seen.add(data)
                yield "%s %s" % (path.stem, name), data
