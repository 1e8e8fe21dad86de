"""Recordings on which programs are compared: given ones, and ones made from a seed. For each descriptor these have each kind of
report that readers may take differently.

recordings() gives names and texts, run_hidplay() and of_hidplay() give what hidplay prints for them. The descriptors are those of
the given recordings, those of OURS, each for something that no real one among them has, and those that made_devices.py makes.
"""
import collections
import pathlib
import random
import re
import subprocess

import made_devices
from linux_guest import Missing
from linux_sides import NULL, VARIABLE, Layout, usage_list

MOST = 48                 # elements of a report, and steps of a recording, that are taken at most; of a real device each one alone
OURS = {
    # a hat from 0 to 7 and one from 1 to 8, both without Null State, and buttons
    "made_hats": "05 01 09 05 a1 01 09 39 15 00 25 07 75 04 95 01 81 02 09 39 15 01 25 08 81 02 05 09 19 01 29 08 15 00 25 01 75 01 95 08 81 02 c0",
    "made_hat_from_one": "05 01 09 05 a1 01 09 39 15 01 25 08 75 04 95 01 81 02 05 09 19 01 29 04 15 00 25 01 75 01 95 04 81 02 c0",
    # a Usage Page after a Usage, for both
    "made_page_behind_usage": "05 01 09 02 a1 01 09 30 05 09 09 01 15 00 25 01 75 01 95 02 81 02 75 06 95 01 81 01 c0",
    # a range of 0..0, and one of 3..3
    "made_one_number": "05 01 09 02 a1 01 05 09 09 01 15 00 25 00 75 04 95 01 81 02 09 02 15 03 25 03 81 02 05 01 09 30 15 00 25 00 75 08 81 02 09 31 81 06 c0",
    # a keyboard of one bit a key, from 07:00 on
    "made_bitmap": "05 01 09 06 a1 01 05 07 19 00 29 67 15 00 25 01 75 01 95 68 81 02 c0",
    # an array whose number 0 is a key, one that lists a key twice, and one of over 12,288 usages
    "made_key_of_zero": "05 01 09 06 a1 01 05 07 19 04 29 23 15 00 25 1f 75 08 95 03 81 00 c0",
    "made_key_twice": "05 01 09 06 a1 01 05 07 09 04 09 05 09 04 09 31 09 32 15 01 25 05 75 08 95 03 81 00 c0",
    "made_long_list": "05 0c 09 01 a1 01 19 00 2a ff 3f 15 00 26 ff 3f 75 10 95 02 81 00 c0",
    # buttons of two bits, and keys from values
    "made_wide_buttons": "05 01 09 02 a1 01 05 09 19 01 29 04 15 00 25 03 75 02 95 04 81 02 15 ff 25 01 19 05 29 08 81 02 c0",
    # two of the same usage in one application, in two items and in one
    "made_usage_twice": "05 01 09 04 a1 01 09 30 09 31 09 30 15 81 25 7f 75 08 95 03 81 02 09 31 95 02 81 02 05 09 09 01 09 02 09 01 15 00 25 01 75 01 95 04 81 02 75 04 95 01 81 01 c0",
    # relative one-bit keys of a dial, and a dial
    "made_relative_keys": "05 0c 09 01 a1 01 09 e9 09 ea 09 e2 09 b5 15 00 25 01 75 01 95 04 81 06 95 04 81 01 05 01 09 37 15 81 25 7f 75 08 95 01 81 06 c0",
    # a D-pad of four bits
    "made_d_pad": "05 01 09 05 a1 01 09 90 09 91 09 93 09 92 15 00 25 01 75 01 95 04 81 02 05 09 19 01 29 04 81 02 c0",
    # axes with Null State, and one of 0 to 2^32 - 1
    "made_null_axes": "05 01 09 04 a1 01 09 30 09 31 15 01 25 64 75 08 95 02 81 42 05 09 09 01 15 01 25 03 75 02 95 01 81 42 75 06 81 01 c0",
    "made_large_numbers": "05 01 09 04 a1 01 09 30 15 00 27 ff ff ff ff 75 20 95 01 81 02 09 31 15 00 27 ff ff ff 7f 81 02 c0",
    # two fingers, and how many there are
    "made_fingers": "05 0d 09 04 a1 01 09 22 a1 02 09 42 15 00 25 01 75 01 95 01 81 02 95 07 81 01 09 51 25 0f 75 08 95 01 81 02 05 01 09 30 09 31 26 ff 0f 75 10 95 02 81 02 c0 "
    "05 0d 09 22 a1 02 09 42 15 00 25 01 75 01 95 01 81 02 95 07 81 01 09 51 25 0f 75 08 95 01 81 02 05 01 09 30 09 31 26 ff 0f 75 10 95 02 81 02 c0 05 0d 09 54 25 02 75 08 95 01 81 02 c0",
    # an array whose range ends before its usages do
    "made_short_range": "05 01 09 06 a1 01 05 07 19 00 29 65 15 00 25 10 75 08 95 03 81 00 c0",
    # a pen with Tip Switch, Barrel Switch, Eraser, Invert and In Range, and its place
    "made_pen": "05 0d 09 02 a1 01 09 20 a1 00 09 42 09 44 09 45 09 3c 09 32 15 00 25 01 75 01 95 05 81 02 95 03 81 01 05 01 09 30 09 31 26 ff 0f 75 10 95 02 81 02 05 0d 09 30 26 ff 00 75 08 95 01 81 02 c0 c0",
}


def inputs(layout, report):
    return [item for item in layout.items if (item.kind, item.id) == ("input", report) and not item.is_padding]


def bounds(item):
    return (-(1 << item.size - 1), (1 << item.size - 1) - 1) if item.least < 0 else (0, (1 << item.size) - 1)


def in_range(item):
    low, high = bounds(item)
    return max(low, item.least), min(high, item.greatest)


def outside(item):
    """Numbers just out of the range, and at the ends of what the field carries."""
    low, high = bounds(item)
    return [v for v in dict.fromkeys([item.least - 1, item.greatest + 1, low, high]) if low <= v <= high
            and not item.least <= v <= item.greatest]


def at_rest(item):
    """Null where there is null, nothing where an array has such a number, else 0 or the least number."""
    low, high = in_range(item)
    beyond = outside(item)
    if beyond and (item.flags & NULL or not item.flags & VARIABLE and item.least > 0):
        return beyond[0]
    return 0 if low <= 0 <= high else low


class Reports:
    """The Input reports of a layout, by their numbers."""

    def __init__(self, layout, random, is_real):
        self.layout, self.random, self.is_real = layout, random, is_real
        self.ids = [report for kind, report in layout.bits if kind == "input"]

    def bytes_of(self, report, numbers=()):
        """The bytes of a report at rest, but for these numbers of its elements."""
        value = 0
        for item in inputs(self.layout, report):
            for j in range(item.count):
                number = dict(numbers).get((item, j), at_rest(item))
                value |= (number & (1 << item.size) - 1) << item.at + j * item.size
        size = (self.layout.bits["input", report] + 7) // 8
        return bytes([report] * self.layout.has_ids) + value.to_bytes(size, "little")

    def some(self, things):
        things = list(things)
        return things if len(things) <= MOST else self.random.sample(things, MOST)

    def each(self, things):
        """All of a real device, else some."""
        return list(things) if self.is_real else self.some(things)

    def elements(self, report, is_array):
        return [(item, j) for item in inputs(self.layout, report) if bool(item.flags & VARIABLE) != is_array for j in range(item.count)]

    def keys(self, item):
        """The numbers of an array that name something."""
        low, high = in_range(item)
        return list(range(low, min(high, item.least + len(usage_list(item)) - 1) + 1))

    def key(self, item):
        return self.random.choice(self.keys(item) or [item.least])

    # Each of these gives the reports of one recording.

    def alone(self):
        for report in self.ids:
            for item, j in self.each(self.elements(report, False)):
                low, high = in_range(item)
                yield self.bytes_of(report, {(item, j): self.random.choice([v for v in (low, high) if v != at_rest(item)] or [low])})
                yield self.bytes_of(report)

    def keys_alone(self):
        for report in self.ids:
            for item in dict.fromkeys(item for item, _ in self.elements(report, True)):
                for key in self.each(self.keys(item)):
                    yield self.bytes_of(report, {(item, self.random.randrange(item.count)): key})
                    yield self.bytes_of(report)

    def extremes(self):
        for report in self.ids:
            for item, j in self.some(self.elements(report, False)):
                low, high = in_range(item)
                for number in (high, low, min(low + 1, high), max(high - 1, low)):
                    yield self.bytes_of(report, {(item, j): number})

    def out_of_range(self):
        for report in self.ids:
            for item, j in self.some(self.elements(report, False) + self.elements(report, True)):
                for number in outside(item):
                    yield self.bytes_of(report, {(item, j): in_range(item)[1]})
                    yield self.bytes_of(report, {(item, j): number})

    def null(self):
        for report in self.ids:
            for item, j in self.elements(report, False):
                low, high = in_range(item)
                for number in range(low, high + 1)[:MOST] if item.flags & NULL and outside(item) else ():
                    yield self.bytes_of(report, {(item, j): number})
                    yield self.bytes_of(report, {(item, j): self.random.choice(outside(item))})

    def small_steps(self):
        for report in self.ids:
            for item, j in self.some(self.elements(report, False))[:6]:
                low, high = in_range(item)
                at = self.random.randint(low, high)
                for step in (0, 1, 3, -2, 1, 7, -11, 40, -90, 2) if high - low > 1 else ():
                    at = min(max(at + step, low), high)
                    yield self.bytes_of(report, {(item, j): at})

    def chords(self):
        for report in self.ids:
            arrays, switches = self.elements(report, True), self.elements(report, False)
            for _ in range(MOST // 2):
                numbers = {one: self.key(one[0]) for one in arrays if self.random.random() < 0.5}
                numbers.update((one, self.random.randint(*in_range(one[0]))) for one in switches if self.random.random() < 0.3)
                yield self.bytes_of(report, numbers)
            yield self.bytes_of(report)

    def rollover(self):
        for report in self.ids:
            for item in dict.fromkeys(item for item, _ in self.elements(report, True)):
                usages, every = usage_list(item), range(item.count)
                error = item.least + usages.index(0x70001) if 0x70001 in usages else in_range(item)[1]
                for count in (1, 2, item.count):
                    yield self.bytes_of(report, {(item, j): self.key(item) for j in every[:count]})
                    yield self.bytes_of(report, {(item, j): error for j in every})
                    yield self.bytes_of(report, {(item, every[-1]): error, (item, 0): self.key(item)})
                yield self.bytes_of(report)

    def doubled(self):
        for report in self.ids:
            for item in dict.fromkeys(item for item, _ in self.elements(report, True) if item.count > 1):
                usages = usage_list(item)
                twins = [item.least + usages.index(usage) for usage in (0x70031, 0x70032) if usage in usages]
                for first, second in [(self.key(item), self.key(item)) for _ in range(6)] + [tuple(twins)] * (len(twins) == 2):
                    yield self.bytes_of(report, {(item, 0): first, (item, 1): first})
                    yield self.bytes_of(report, {(item, 1): first})
                    yield self.bytes_of(report, {(item, 0): second, (item, 1): first})
                    yield self.bytes_of(report, {(item, 0): first, (item, 1): second})
                    yield self.bytes_of(report, {(item, 0): second, (item, 1): second})
                    yield self.bytes_of(report)

    def mixed_ids(self):
        for _ in range(MOST if self.layout.has_ids else 0):
            body = self.random.randbytes(max((bits + 7) // 8 for (kind, _), bits in self.layout.bits.items() if kind == "input"))
            yield bytes([self.random.choice(self.ids * 3 + [0, self.random.randrange(256)])]) + body

    def lengths(self):
        for report in self.ids:
            whole = self.bytes_of(report, {one: in_range(one[0])[1] for one in self.elements(report, False)})
            for size in (len(whole) - 1, len(whole) // 2, 1, 0):
                yield self.bytes_of(report)
                yield whole[:size]
            yield whole + bytes(self.random.randrange(256) for _ in range(8))
            yield self.bytes_of(report) + b"\xFF"

    def repeated(self):
        for report in self.ids:
            for _ in range(4):
                numbers = {one: self.random.randint(*in_range(one[0])) for one in self.elements(report, False)}
                numbers.update((one, self.key(one[0])) for one in self.elements(report, True))
                yield from [self.bytes_of(report, numbers)] * 3

    def any_bits(self):
        for _ in range(MOST):
            report = self.random.choice(self.ids)
            size = (self.layout.bits["input", report] + 7) // 8
            yield bytes([report] * self.layout.has_ids) + self.random.randbytes(size)


SORTS = ["alone", "keys_alone", "extremes", "out_of_range", "null", "small_steps", "chords", "rollover", "doubled",
         "mixed_ids", "lengths", "repeated", "any_bits"]


def recording(descriptor, reports):
    lines = ["R: %d %s" % (len(descriptor), descriptor.hex(" "))]
    return lines + [("E: %d %d %s" % (i, len(report), report.hex(" "))).rstrip() for i, report in enumerate(reports)]


def made(seed, real):
    """Names and lines of recordings, of the descriptors of `real` by name, and of made ones."""
    ours = {name: bytes.fromhex(text) for name, text in OURS.items()}
    for name, descriptor in sorted({**real, **ours, **dict(made_devices.of(seed))}.items()):
        layout = Layout(descriptor)
        # (a device that Linux refuses takes five seconds in each recording)
        for sort in ["chords"] if name in made_devices.AT_LIMITS else SORTS:
            reports = list(getattr(Reports(layout, random.Random("%s %s %s" % (seed, name, sort)), name in real), sort)())
            if reports:
                yield "%s.%s" % (name, sort), recording(descriptor, reports)


def numbered(text):
    """A recording whose reports have the numbers of their lines as times."""
    lines = text.split("\n")
    for place, line in enumerate(lines):
        words = line.split(None, 2)
        if line.startswith("E:") and len(words) > 1 and not words[1].strip("0123456789."):
            lines[place] = " ".join([words[0], str(place + 1)] + words[2:])
    return "\n".join(lines)


def of_dump(text):
    """The lines of a recording that say what usbhid-dump's complete dumps say."""
    lines, interfaces, kind, data = [], [], "", []
    for line in text.split("\n"):
        head = re.match(r"(\d+:\d+:\d+):(DESCRIPTOR|STREAM) ", line)
        if head:
            interface, kind, data = head[1], head[2], []
            interfaces += [interface] * (interface not in interfaces)
        elif line.startswith(" ") and kind:
            data += line.split()
        elif not line and kind:
            words = [str(len(data)), *data]
            lines += ["D: %d" % interfaces.index(interface), " ".join(["R:"] + words if kind == "DESCRIPTOR" else ["E: 0"] + words)]
            kind = ""
    return lines


def text_of(path):
    """A recording as hid-recorder's lines: a binary descriptor and usbhid-dump's dumps are put into them."""
    try:
        data = path.read_bytes()
    except OSError as wrong:
        raise Missing("%s can't be read (%s)" % (path, wrong.strerror)) from wrong
    if data[:1] in (b"\x05", b"\x06"):
        return "# a binary descriptor\nN: a device\n" + "\n".join(recording(data, [])) + "\n"
    text = data.decode()
    return "\n".join(of_dump(text)) + "\n" if ":STREAM" in text else text


def recordings(paths, seed):
    """Names and texts of what is played."""
    real = {}
    for path in paths:
        text = text_of(path)
        descriptors = [line.split()[2:] for line in text.splitlines() if line.startswith("R:")]
        if "\nN:" in text and len(descriptors) == 1:
            real[path.stem] = bytes.fromhex("".join(descriptors[0]))
        yield "%s.hid" % path.stem, numbered(text)
    for name, lines in made(seed, real):
        yield "%s.hid" % name, numbered("\n".join(lines) + "\n")


def write(paths, seed, folder):
    """Puts what is played into a folder; the files."""
    for name, text in recordings(paths, seed):
        (folder / name).write_text(text)
    return sorted(folder.iterdir())


def run_hidplay(program, files, *options):
    """What hidplay prints of the files."""
    try:
        return subprocess.run([program, *options, *files], stdout=subprocess.PIPE, text=True, check=False).stdout
    except OSError as wrong:
        raise Missing("%s can't be run (%s): make hidplay" % (program, wrong.strerror)) from wrong


def of_hidplay(text, first):
    """What hidplay printed: (file, line, device) to events, (file, line) to the code of a refusal, and with --values
    (file, line, device) to the numbers of elements. The first file is `first`."""
    events, refusals, values, file = collections.defaultdict(list), {}, {}, first
    for line in text.splitlines():
        words = line.split(" ", 2)
        if words[0] == "file":
            file = pathlib.Path(line[5:]).name
        elif words[0] == "line":
            refusals[file, int(words[1].rstrip(":"))] = words[2].split(":")[0]
        elif words[0] == "value":
            last[tuple(map(int, words[1].split(".")))] = int(words[2].split()[0])
        elif words[2] == "report":
            last = values[file, int(words[0]), int(words[1])] = {}
        else:
            events[file, int(words[0]), int(words[1])].append(words[2])
    return events, refusals, values
