"""Input reports of a device, made from its layout: nothing changes, one control changes at a time, or all do."""
import random

import second_reader

AT_A_TIME = 8  # controls that change one at a time, and reports in which all do
WORKS = ("idle", "one control", "all controls")


def keys(item):
    """The numbers of an array that name a key: those of usage ID 0, and the errors of a keyboard (07:01 to 07:03), name none."""
    numbers, number = [], item.least
    for low, high in item.usages:
        places = range(max(low, low - low % 65536 + (4 if low >> 16 == 7 else 1)), high + 1)
        last = min(high, low + item.greatest - number)
        numbers.append(range(number + places.start - low, number + last - low + 1))
        number += high - low + 1
    return [some for some in numbers if some]


def names_none(item):
    """A number of an array that names no key, where its field has one."""
    is_key = lambda number: any(number in some for some in keys(item))
    signed = item.least < 0
    low, high = (-(1 << item.size - 1), (1 << item.size - 1) - 1) if signed else (0, (1 << item.size) - 1)
    return next((number for number in (0, item.least - 1, item.greatest + 1) if low <= number <= high and not is_key(number)), low)


def at_rest(item):
    """0, or the nearest number of the range; of an array a number that names no key."""
    return min(max(0, item.least), item.greatest) if item.flags & 2 else names_none(item)


def changed(item, source):
    """Another number than at rest."""
    if not item.flags & 2:
        some = keys(item)
        return source.choice(source.choice(some)) if some else names_none(item)
    while item.least < item.greatest:
        number = source.randint(item.least, min(item.greatest, item.least + (1 << item.size) - 1))
        if number != at_rest(item):
            return number
    return item.least


class InputReport:
    """An Input report of a layout: its data items, and the bytes of numbers."""

    def __init__(self, layout, report):
        self.id, self.has_ids = report, layout.has_ids
        self.bits = layout.bits["input", report]
        self.items = [item for item in layout.items if item.kind == "input" and item.id == report and not item.is_padding]
        self.elements = [(item, item.at + place * item.size) for item in self.items for place in range(item.count)]

    def usage(self):
        """That of the outermost collection, as 01:02."""
        return second_reader.shown(self.items[0].path[0][1]) if self.items[0].path else "-"

    def spelled(self, numbers):
        """The bytes of the numbers of all elements, in hex."""
        body = 0
        for (item, at), number in zip(self.elements, numbers):
            body |= (number & (1 << item.size) - 1) << at
        return (bytes([self.id] * self.has_ids) + body.to_bytes((self.bits + 7) // 8, "little")).hex()

    def made(self, source):
        """Reports in turn, each with the work that it is, or None where it isn't counted."""
        rest = [at_rest(item) for item, _ in self.elements]
        yield None, self.spelled(rest)
        yield "idle", self.spelled(rest)
        count = min(AT_A_TIME, len(rest))
        for place in range(count):
            place = place * len(rest) // count
            numbers = [*rest]
            numbers[place] = changed(self.elements[place][0], source)
            yield "one control", self.spelled(numbers)
            yield "one control", self.spelled(rest)
        before = rest
        for _ in range(AT_A_TIME):
            now = [changed(item, source) for item, _ in self.elements]
            # what has two numbers alone changes each time
            now = [at_rest(item) if number == old and item.flags & 6 == 2 else number for number, old, (item, _) in zip(now, before, self.elements)]
            yield "all controls", self.spelled(now)
            before = now


def on_a_bus(descriptor):
    """A descriptor with the Input reports of another one, which a virtual device of a bus may have: where it may not have all (a Feature
    report of 257 bytes), Output and Feature items are left out, with their usages."""
    try:
        second_reader.Layout(descriptor)
        return descriptor
    except second_reader.Refused:
        pass
    text, usages = b"", b""
    for at, prefix, data in second_reader.items(descriptor):
        item = descriptor[at:at + 1 + len(data)]
        if prefix & 0x0C == 0x08:
            usages += item
        elif prefix in (0x90, 0xB0):
            usages = b""
        else:
            text, usages = (text + usages + item, b"") if prefix & 0x0C == 0 else (text + item, usages)
    return text


def input_reports(descriptor):
    """The Input reports of a descriptor that have data."""
    layout = second_reader.Layout(descriptor, second_reader.REAL)
    ids = sorted({item.id for item in layout.items if item.kind == "input" and not item.is_padding})
    return [InputReport(layout, report) for report in ids]


def turn(descriptor, only=None):
    """One turn of the reports of a device, each with its place among the Input reports and its work; or of one report alone."""
    source = random.Random(descriptor)
    return [(report, work, text) for report in input_reports(descriptor) if only in (None, report.id) for work, text in report.made(source)]
