"""The bytes that a text may be meant to spell: a second reader, which takes each way that fits and chooses none."""
import re

from input_shapes import NAMES

WORDS = re.compile(r"[0-9A-Za-z_\\]+")
STRING = re.compile(r"""b?("(?:[^"\\\n]|\\.)*"|'(?:[^'\\\n]|\\.)*')""")
ESCAPES = re.compile(r"(?:\\\\?x[0-9a-fA-F]{2})+")
ITEM = re.compile(r"Item\(\w+\s*\): ([\w ]+), data=\s*(none|\[[^\]]*\])")


def without_comments(text):
    text = re.sub(r"/\*.*?\*/", " ", text, flags=re.S)
    return re.sub(r"(//|#(?!define|if|include)).*", "", text)


def run(digits):
    """The bytes of an even number of hex digits; None of others."""
    return bytes.fromhex(digits) if re.fullmatch(r"([0-9a-fA-F]{2})+", digits) else None


def number(word):
    """The bytes of one word: escapes, hex that is marked, or a decimal number; None of others."""
    if ESCAPES.fullmatch(word):
        return bytes.fromhex(re.sub(r"[\\x]", "", word))
    found = re.fullmatch(r"0[xX]0*([0-9a-fA-F]{1,2})(?:u8|u|U)?|(0?[0-9a-fA-F]{1,2})[hH]|(\d+)(?:u8|u|U)?", word)
    if not found:
        return None
    value = int(found[3]) if found[3] else int(found[1] or found[2], 16)
    return bytes([value]) if value < 256 else None


def joined(parts):
    """The bytes of parts; None if one has none."""
    parts = list(parts)
    return None if None in parts else b"".join(parts)


def of_words(text):
    """The bytes of all words of a text, as hex and as numbers."""
    words = WORDS.findall(text)
    return {joined(map(run, words)), joined(map(number, words))}


def of_strings(text):
    """The bytes of strings, alone and with those after them."""
    parts = []
    for string in STRING.findall(text):
        try:
            parts.append(eval("b" + string))  # pylint: disable=eval-used
        except (SyntaxError, ValueError):
            parts.append(None)
    return {joined(parts[k:n]) for k in range(len(parts)) for n in range(k + 1, len(parts) + 1)}


def row(line):
    """The bytes of a line of a dump: all words after the offset, and those whose characters follow them."""
    found = re.match(r"\s*(?:0x)?[0-9a-fA-F]+:?((?:[ \t]+[0-9a-fA-F]{2,})*)", line)
    if not found:
        return None
    words, rest = found[1].split(), line.rstrip().rstrip("|<").rstrip()
    ways = [it for it in (run("".join(words[:n])) for n in range(1, len(words) + 1)) if it]
    shown = [it for it in ways if rest.endswith("".join(chr(b) if 32 <= b < 127 else "." for b in it).strip())]
    return (ways or [b""])[-1], (shown or ways or [b""])[-1]


def of_dump(text):
    """The bytes of a dump."""
    rows = [row(line) for line in text.splitlines() if line.strip() not in ("", "*")]
    return set() if None in rows else {b"".join(way) for way in zip(*rows)}


def of_lsusb(text):
    """The bytes of items as lsusb prints them, below the last length."""
    prefixes = {name: prefix for prefix, name in NAMES.items()}
    found = b""
    for name, data in ITEM.findall(re.split(r"Report Descriptor: \(length is \d+\)", text)[-1]):
        data = bytes(int(it, 16) for it in re.findall(r"0x(\w\w)", data))
        found += bytes([prefixes.get(name, 0) | {0: 0, 1: 1, 2: 2, 4: 3}.get(len(data), 0)]) + data
    return {found}


def readings(text):
    """The bytes of each way to read a text."""
    found, text = {text.encode("latin-1")}, text.replace("\r", "")
    for told in (text, re.sub(r"^[>+|]", "", text, flags=re.M)):
        code = without_comments(told)
        found |= of_words(code) | of_dump(told) | of_strings(told) | of_lsusb(told)
        for inside in re.findall(r"[\[({<]([^\[\](){}<>]*)[\])}>]", code):
            found |= of_words(inside)
        for digits in re.findall(r"[0-9a-fA-F]{10,}", told):
            found.add(run(digits))
        for escapes in ESCAPES.findall(told):
            found.add(number(escapes))
        for part in re.findall(r"(?:R:\s*\d+|report_descriptor=)(.*)", told) + re.findall(r"DESCRIPTOR.*\n((?:.*\S.*\n?)*)", told):
            found |= of_words(part)
    return found - {None}
