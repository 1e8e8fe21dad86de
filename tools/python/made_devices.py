"""Report descriptors of devices as they are sold, made from a seed: touch screens of several fingers, touch pads, reports of
over 256 bytes that the vendor alone reads, and fields of over 32 bits.

of() gives their names and descriptors. They stay within what Linux reads by uhid (docs/COMPARISON.md), but for those AT_LIMITS.
"""
import random

EACH = 3  # devices of each kind
PAGE, USAGE, USAGES, USAGE_END, COLLECTION, END = 0x04, 0x08, 0x18, 0x28, 0xA0, 0xC0
LEAST, GREATEST, SIZE, COUNT, ID, INPUT, OUTPUT, FEATURE = 0x14, 0x24, 0x74, 0x94, 0x84, 0x80, 0x90, 0xB0
DESKTOP, BUTTONS, KEYS, DIGITIZER, VENDOR = 0x01, 0x09, 0x07, 0x0D, 0xFF00
TIP, IN_RANGE, CONFIDENCE, CONTACT, WIDTH, HEIGHT, PRESSURE, SCAN_TIME, CONTACTS, MOST_CONTACTS = 0x42, 0x32, 0x47, 0x51, 0x48, 0x49, 0x30, 0x56, 0x54, 0x55
DATA, ARRAY, CONSTANT = 2, 0, 3

# Counts of bytes that make Feature reports at the limits of this repository and of Linux: each report of one or more items.
LIMITS = {
    # uhid carries 4,096 bytes with the ID
    "made_feature_of_4096": [[4095]],
    "made_feature_of_4097": [[4096]],
    # the longest report, and longer ones
    "made_feature_of_16384": [[8192, 8191]],
    "made_feature_of_16385": [[8192, 8192]],
    "made_feature_of_20000": [[19999]],
    # over 4,096 elements
    "made_many_elements": [[3840]] * 15,
}
WIDEST = "made_field_of_257"  # bits, which Linux refuses
AT_LIMITS = [*LIMITS, WIDEST]


def short(prefix, number):
    """An item with its data, which is read as this number with a sign and without."""
    size = next(size for size in (1, 2, 4) if -1 << 8 * size - 1 <= number < 1 << 8 * size - 1) if prefix != PAGE else 1 + (number > 0xFF)
    return bytes([prefix | (1, 2, None, 3)[size - 1]]) + number.to_bytes(size, "little", signed=number < 0)


def items(*pairs):
    return b"".join(short(*pair) for pair in pairs)


def fields(usages, greatest, size, count=1, least=0, flags=DATA, kind=INPUT):
    """A main item of these usages of the page in force."""
    return items(*((USAGE, usage) for usage in usages), (LEAST, least), (GREATEST, greatest), (SIZE, size), (COUNT, count), (kind, flags))


def padding(bits):
    """Padding up to the next byte."""
    return items((SIZE, 1), (COUNT, -bits % 8), (INPUT, CONSTANT)) if bits % 8 else b""


def application(page, usage, *parts):
    return items((PAGE, page), (USAGE, usage), (COLLECTION, 1)) + b"".join(parts) + bytes([END])


def blob(report, size, kind=FEATURE, usage=0xC5):
    """A report of bytes that the vendor alone reads."""
    return items((PAGE, VENDOR), (ID, report)) + fields([usage], 0xFF, 8, size, kind=kind)


def mouse(report):
    """The mouse of a combined device."""
    return application(DESKTOP, 2, items((ID, report), (USAGE, 1), (COLLECTION, 0), (PAGE, BUTTONS), (USAGES, 1), (USAGE_END, 3)),
                       fields([], 1, 1, 3), padding(3), items((PAGE, DESKTOP)), fields([0x30, 0x31], 127, 8, 2, -127, DATA | 4), bytes([END]))


def finger(switches, extras, width):
    """A finger: its switches, its Contact ID, its place and perhaps more."""
    text = items((PAGE, DIGITIZER), (USAGE, 0x22), (COLLECTION, 2)) + fields(switches, 1, 1, len(switches)) + padding(len(switches))
    text += fields([CONTACT], 0x7F, 8) + items((PAGE, DESKTOP)) + b"".join(fields([axis], (1 << width) - 1, 16) for axis in (0x30, 0x31))
    return text + items((PAGE, DIGITIZER)) + b"".join(fields([extra], 0xFF, 8) for extra in extras) + bytes([END])


def touch(source, usage, parts):
    """A touch screen (0D:04) or touch pad (0D:05) as Windows asks for it: with the blob of 256 bytes in a Feature report."""
    fingers, width = source.randint(2, 10), source.randint(8, 15)
    switches = source.choice([[TIP], [TIP, IN_RANGE], [TIP, CONFIDENCE], [CONFIDENCE, TIP]])
    extras = source.choice([[], [WIDTH, HEIGHT], [PRESSURE], [WIDTH, HEIGHT, PRESSURE]])
    first = items((ID, 1)) + finger(switches, extras, width) * fingers
    times = fields([SCAN_TIME], 0xFFFF, 16) if source.random() < 0.7 else b""
    counts = fields([CONTACTS], fingers, 8) + parts + items((PAGE, DIGITIZER), (ID, 2)) + fields([MOST_CONTACTS], fingers, 8, kind=FEATURE)
    return application(DIGITIZER, usage, first, times, counts, blob(source.choice([3, 0x44]), 256))


def touch_screen(source):
    return touch(source, 4, b"") + (mouse(5) if source.random() < 0.5 else b"")


def touch_pad(source):
    button = items((PAGE, BUTTONS)) + fields([1], 1, 1) + padding(1)
    return mouse(5) + touch(source, 5, button)


def long_reports(source):
    """A mouse whose vendor has long reports, also Output ones."""
    kinds = [source.choice([FEATURE, FEATURE, OUTPUT]) for _ in range(source.randint(1, 4))]
    blobs = [blob(16 + place, source.choice([256, 257, 1023, 2559, source.randint(256, 4095)]), kind) for place, kind in enumerate(kinds)]
    return mouse(1) + application(VENDOR, 1, *blobs)


def long_input(source):
    """Buttons and an axis after some hundred bytes of an Input report."""
    before, after = source.choice([251, 256, source.randint(250, 600)]), source.randint(1, 100)
    return application(DESKTOP, 5, items((PAGE, VENDOR)), fields([1], 0xFF, 8, before), items((PAGE, BUTTONS), (USAGES, 1), (USAGE_END, 8)),
                       fields([], 1, 1, 8), items((PAGE, DESKTOP)), fields([0x30], 0x7FFF, 16), items((PAGE, VENDOR)), fields([2], 0xFF, 8, after))


def wide_fields(source):
    """Fields of over 32 bits, some of which Linux has a code for, between ones that are read."""
    narrow = [lambda: items((PAGE, DESKTOP)) + fields([0x32], 0x3FF, 16), lambda: items((PAGE, BUTTONS)) + fields([4], 1, 1) + padding(1)]
    wide = [lambda size: items((PAGE, VENDOR)) + fields([1], 0xFF, size, source.randint(1, 3)),
            lambda size: items((PAGE, DESKTOP)) + fields([0x30], 0x7FFF, size),
            lambda size: items((PAGE, DESKTOP)) + fields([0x31], 100, size, least=-100),
            lambda size: items((PAGE, DESKTOP)) + fields([0x38], 127, size, 1, -127, DATA | 4),
            lambda size: items((PAGE, BUTTONS)) + fields([1, 2], 1, size, 2),
            lambda size: items((PAGE, KEYS), (USAGES, 0), (USAGE_END, 0x65)) + fields([], 0x65, size, 2, flags=ARRAY)]
    chosen = [make(source.choice([33, 40, 64, 88, 96, 128, 255, 256])) for make in source.sample(wide, source.randint(2, 4))] + [make() for make in narrow]
    source.shuffle(chosen)
    return application(DESKTOP, source.choice([2, 4, 5]), items((ID, 7)) if source.random() < 0.5 else b"", *chosen)


def of(seed):
    """Names and descriptors of made devices."""
    for make in (touch_screen, touch_pad, long_reports, long_input, wide_fields):
        for place in range(EACH):
            name = "made_%s_%d" % (make.__name__, place)
            yield name, make(random.Random("%s %s" % (seed, name)))
    for name, reports in LIMITS.items():
        blobs = [blob(16 + place, size) for place, sizes in enumerate(reports) for size in sizes]
        yield name, mouse(1) + application(VENDOR, 1, *blobs)
    yield WIDEST, application(DESKTOP, 2, items((PAGE, VENDOR)), fields([1], 0xFF, 257), items((PAGE, DESKTOP)), fields([0x30], 127, 8))
