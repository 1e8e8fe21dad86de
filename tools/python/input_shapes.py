"""Report descriptors in the shapes in which files and programs have them."""
import functools
import json
import shutil
import subprocess

TYPES = ("Main", "Global", "Local", "reserved")
# Prefixes without their size (HID 1.11, 6.2.2), as lsusb names them.
NAMES = {
    0x80: "Input", 0x90: "Output", 0xB0: "Feature", 0xA0: "Collection", 0xC0: "End Collection", 0x04: "Usage Page",
    0x14: "Logical Minimum", 0x24: "Logical Maximum", 0x34: "Physical Minimum", 0x44: "Physical Maximum", 0x54: "Unit Exponent",
    0x64: "Unit", 0x74: "Report Size", 0x84: "Report ID", 0x94: "Report Count", 0xA4: "Push", 0xB4: "Pop", 0x08: "Usage",
    0x18: "Usage Minimum", 0x28: "Usage Maximum", 0x38: "Designator Index", 0x48: "Designator Minimum",
    0x58: "Designator Maximum", 0x78: "String Index", 0x88: "String Minimum", 0x98: "String Maximum", 0xA8: "Delimiter",
}
# What tools of this machine write.
TOOLS = ("xxd", "xxd -u", "xxd -g1", "xxd -g4", "xxd -c8", "xxd -p", "xxd -p -c16", "xxd -i", "hexdump -C", "hexdump -Cv", "od -Ax -tx1",
         "od -Ad -tx1", "od -tx1", "od -Ax -tx1z", "od -An -tx1", "od -v -tx1")


def rows(data, count):
    """The bytes in rows."""
    return [data[k:k + count] for k in range(0, len(data), count)]


def items_of(data):
    """The items of a descriptor, each with its prefix; the last one may be cut off."""
    at = 0
    while at < len(data):
        size = 1 + (0, 1, 2, 4)[data[at] & 3]
        yield data[at:at + size]
        at += size


def numbers(data, form="0x%02x", separator=", "):
    return separator.join(form % it for it in data)


def quoted(text, mark):
    """The lines of a text with a mark in front of each."""
    return "".join(f"{mark}{line}\n" for line in text.splitlines())


def lsusb(data):
    """The items as `lsusb -v` prints them."""
    text = f"Bus 001 Device 002: ID 1209:0001\n         Report Descriptor: (length is {len(data)})\n"
    for item in items_of(data):
        kind, value = TYPES[item[0] >> 2 & 3], int.from_bytes(item[1:], "little", signed=len(item) == 5)
        text += f"            Item({kind:<6}): {NAMES[item[0] & 0xFC]}, data="
        text += f" [ {numbers(item[1:], '0x%02x ', '')}] {value}\n" if item[1:] else "none\n"
    return text + "      Endpoint Descriptor:\n        bLength                 7\n"


def dump(data, has_characters=True):
    """A dump as Wireshark copies it, with the characters or without."""
    text = ""
    for k, row in enumerate(rows(data, 16)):
        shown = "".join(chr(it) if 32 <= it < 127 else "." for it in row)
        text += f"{16 * k:04x}   {row.hex(' ')}" + (" " * (3 * (16 - len(row)) + 3) + shown) * has_characters + "\n"
    return text


def arrays(data):
    """Lists of programming languages, with words around them."""
    lines = [numbers(it) + "," for it in rows(data, 8)]
    array = "static const u8 d[] = {\n" + quoted("\n".join(lines), "\t") + "};\n"
    yield "an array", array
    yield "an array with comments", "/* don't */\nstatic const u8 d[%d] = {\n" % len(data) + "".join(
        f"\t{numbers(item, '0x%02X')},  // item 0x{item[0]:02x}, ({k})\n" for k, item in enumerate(items_of(data))) + "};\n"
    yield "an array in decimal", "d = { %s };" % numbers(data, "%d")
    yield "a list of Python", "d = [\n" + "".join(f"    {numbers(item)},  # item\n" for item in items_of(data)) + "]\n"
    yield "bytes of a list of Python", "bytes([%s])\n" % numbers(data, "%d")
    yield "a slice of Rust", "const D: &[u8] = &[\n" + "\n".join(lines) + "\n];\n"
    yield "JSON", json.dumps({"it's a mouse": list(data)}, indent=1)
    inside = quoted("\n".join(lines), "    ").rstrip().rstrip(",")
    yield "libinput record", f"# libinput record\nversion: 1\nlibinput:\ndevices:\n- node: /dev/input/event5\n  evdev:\n    id: [3, 1133, 49271, 273]\n  hid: [\n{inside}\n  ]\n"
    yield "an array of JavaScript", "const d = new Uint8Array([%s]);\n" % numbers(data)
    yield "a device tree", "hid_descr = [%s];\n" % data.hex(" ")
    yield "ioreg", '    "ReportDescriptor" = <%s>\n' % data.hex()
    yield "a quoted array", quoted(array, "> ")
    yield "an array in a patch", quoted(array, "+")


def records(data):
    """What programs print that read devices."""
    yield "hid-recorder", f"# x\nD: 0\nR: {len(data)} {data.hex(' ')}\nN: Caf\xe9\nI: 3 1234 5678\nE: 0.0 1 00\n"
    block = "".join(f" {it.hex(' ').upper()}\n" for it in rows(data, 16))
    yield "usbhid-dump", f"001:002:000:DESCRIPTOR         1700000000.123456\n{block}\n001:002:000:STREAM             1.2\n 01 02 03\n\n"
    # (it prints no number of another item)
    if all(it[0] & 0xFC in NAMES for it in items_of(data)):
        yield "lsusb -v", lsusb(data)
    yield "umockdev", f"P: /devices/x\nN: hidraw0\nE: SUBSYSTEM=hidraw\nA: bInterfaceNumber=00\nH: report_descriptor={data.hex().upper()}\n"
    yield "Wireshark", dump(data)
    yield "Wireshark without characters", dump(data, False)
    yield "a quoted dump", quoted(dump(data), "> ")


def spellings(data):
    """Hex and escapes."""
    yield "hex", data.hex(" ")
    yield "hex in capitals", data.hex(" ").upper() + "\n"
    yield "hex in rows, quoted", quoted("\n".join(it.hex(" ") for it in rows(data, 16)), "> ")
    yield "a run", data.hex()
    yield "colons", data.hex(":")
    yield "hyphens", data.hex("-").upper()
    yield "commas", numbers(data)
    yield "an assembler's bytes", ", ".join("0" * (it >= 0xA0) + "%02Xh" % it for it in data)
    yield "items with comments", "".join(f"{numbers(item)},  // x\n" for item in items_of(data))
    yield "escapes", numbers(data, "\\x%02x", "")
    yield "strings of C", "char d[] =\n%s;\n" % "\n".join('  "%s"' % numbers(it, "\\x%02x", "") for it in rows(data, 12))
    yield "bytes of Python", f"d = {data!r}\n"
    yield "bytes of Rust", 'b"%s"' % numbers(data, "\\x%02x", "")
    yield "echo", "echo -ne %s > functions/hid.usb0/report_desc\n" % numbers(data, "\\\\x%02x", "")


@functools.lru_cache
def tool_text(tool, data):
    """What a tool writes of bytes; none if it isn't there."""
    if not shutil.which(tool.split()[0]):
        return None
    return subprocess.run(tool.split(), input=data, capture_output=True, check=True).stdout


def shapes(data):
    """The texts of a descriptor, by their names."""
    found = {tool: tool_text(tool, data) for tool in TOOLS}
    for name, text in [*arrays(data), *records(data), *spellings(data)]:
        found[name] = text.encode("latin-1")
    return {name: text for name, text in found.items() if text is not None}
