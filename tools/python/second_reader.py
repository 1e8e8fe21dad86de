"""A second reader of report descriptors, which shares nothing with the program: from HID 1.11, 5 and 6.2.2, and docs/.

It reads within limits (docs/FORMATS.md): BUS are those of scripts, REAL those of recordings, pictures and the C library. `told`
gives what the `layout` and `values` lines of a script print, up to the first line of a device.
"""
import collections

Limits = collections.namedtuple("Limits", "report_bytes elements width")
BUS = Limits(256, 4096, 32)
REAL = Limits(16384, 65536, 8 * 16384)
NUMBER = 32  # bits of the widest field that is read as a number
MOST_BYTES = 4096  # of a descriptor
KINDS = {0x80: "input", 0x90: "output", 0xB0: "feature"}
PAGE, MINIMUM, MAXIMUM, SIZE, ID, COUNT, PUSH, POP = 0x04, 0x14, 0x24, 0x74, 0x84, 0x94, 0xA4, 0xB4
USAGE, USAGE_MINIMUM, USAGE_MAXIMUM, DELIMITER, COLLECTION, END = 0x08, 0x18, 0x28, 0xA8, 0xA0, 0xC0


class Refused(Exception):
    """A line is refused, with these codes; of L15 `report` says which report has how many bytes."""

    def __init__(self, codes, report=""):
        super().__init__(codes)
        self.report = report


def number(data, signed=False):
    return int.from_bytes(data, "little", signed=signed)


def items(descriptor):
    """Each short item, as its place, its prefix and its data; long items do nothing (6.2.2.2, 6.2.2.3)."""
    at = 0
    while at < len(descriptor):
        rest = descriptor[at:]
        is_long = rest[0] == 0xFE
        size = 3 + (rest[1] if len(rest) > 1 else 0) if is_long else 1 + (0, 1, 2, 4)[rest[0] & 3]
        if len(rest) < size:
            raise Refused("L1 at %d" % at)
        if not is_long:
            yield at, rest[0] & 0xFC, rest[1:size]
        at += size


class Item:
    """An Input, Output or Feature item, with what is in force at it."""

    def __init__(self, kind, flags, state, usages, path):
        self.kind, self.flags, self.usages, self.path = kind, flags, usages, list(path)
        self.size, self.count, self.id = (number(state.get(k, b"")) for k in (SIZE, COUNT, ID))
        self.least = number(state.get(MINIMUM, b""), True)
        self.greatest = number(state.get(MAXIMUM, b""), self.least < 0)
        self.has_no_data = bool(flags & 1) or not self.count
        self.is_padding = self.has_no_data or not usages or self.size > NUMBER
        self.at = 0

    def refusal(self, paired, limits):
        """The first cause that stands of its usages, its size and its range (6.2.2.5 to 6.2.2.8)."""
        if self.has_no_data:
            return None
        if not paired:
            return "L13"
        if any(low >> 16 != high >> 16 or low > high for low, high in self.usages):
            return "L12"
        if not self.usages:
            return None
        if not 1 <= self.size <= limits.width:
            return "L11"
        if self.size > NUMBER:
            return None
        low, high = (-(1 << self.size - 1), (1 << self.size - 1) - 1) if self.least < 0 else (0, (1 << self.size) - 1)
        return "L10" if self.least > self.greatest or self.least > high or self.greatest < low else None

    def usage(self, place):
        for low, high in self.usages:
            if place <= high - low:
                return low + place
            place -= high - low + 1
        return None


class Layout:
    """What a descriptor lays out within these limits."""

    def __init__(self, descriptor, limits=BUS):
        self.items, self.bits, self.has_ids, self.limits, self.too_long = [], {}, False, limits, ""
        state, saved, local, path = {}, [], [], []
        if len(descriptor) > MOST_BYTES:
            raise Refused("L2 at %d" % MOST_BYTES)
        for at, prefix, data in items(descriptor):
            cause = self.take(prefix, data, state, saved, local, path)
            if cause:
                raise Refused("%s at %d" % (cause, at), self.too_long)
        if path:
            raise Refused("L7 at %d" % len(descriptor))
        if self.has_ids and any(not item.id for item in self.items):
            raise Refused("L9 at %d" % len(descriptor))

    def take(self, prefix, data, state, saved, local, path):
        """Takes one item, or gives the cause that refuses it (6.2.2.4 to 6.2.2.8)."""
        if prefix in (PAGE, MINIMUM, MAXIMUM, SIZE, COUNT, ID):
            state[prefix] = data
            self.has_ids = self.has_ids or prefix == ID
            return "L8" if prefix == ID and not 1 <= number(data) <= 255 else None
        if prefix == PUSH:
            saved.append(dict(state))
            return "L4" if len(saved) > 8 else None
        if prefix == POP:
            if not saved:
                return "L3"
            state.clear()
            state.update(saved.pop())
        elif prefix in (USAGE, USAGE_MINIMUM, USAGE_MAXIMUM):
            local.append((prefix, data))
        elif prefix == DELIMITER:
            return "L14"
        elif prefix in (COLLECTION, END) or prefix in KINDS:
            usages, paired = usages_of(local, (number(state.get(PAGE, b"")) & 0xFFFF) << 16)
            local.clear()
            if prefix in KINDS:
                return self.add(Item(KINDS[prefix], number(data), state, usages, path), paired)
            # (a range with its minimum over its maximum has no usage)
            first = next((low for low, high in usages if low & 0xFFFF <= high & 0xFFFF), None)
            return nest(path, prefix, number(data) & 0xFF, first)
        return None

    def add(self, item, paired):
        cause = item.refusal(paired, self.limits)
        item.at = self.bits.get((item.kind, item.id), 0)
        end = item.at + item.size * item.count
        if cause or not item.size * item.count:
            return cause
        size = (end + 7) // 8 + bool(item.id)
        if size > self.limits.report_bytes:
            self.too_long = "%s report %d has %d bytes, over %d" % (item.kind.capitalize(), item.id, size, self.limits.report_bytes)
            return "L15"
        self.bits[item.kind, item.id] = end
        self.items.append(item)
        elements = sum(one.count for one in self.items if not one.is_padding)
        ids = {one for _, one in self.bits if one}
        too_many = len(self.items) > 512 or elements > self.limits.elements or len(ids) > 64 or (not item.is_padding and len(item.usages) > 64)
        return "L16" if too_many else None

    def text(self):
        kinds = list(KINDS.values())
        for kind, report in sorted(self.bits, key=lambda key: (kinds.index(key[0]), key[1])):
            yield "report %s %d bytes %d" % (kind, report, (self.bits[kind, report] + 7) // 8 + self.has_ids)
        for place, item in enumerate(self.items):
            shape = "padding" if item.is_padding else ("array", "variable", "array", "relative")[item.flags >> 1 & 3]
            words = ["item %d %s %d at %d %dx%d %s" % (place, item.kind, item.id, item.at, item.size, item.count, shape)]
            if not item.is_padding:
                words += ["null"] * bool(item.flags & 0x40) + ["%d..%d" % (item.least, item.greatest)]
                words += [shown(low) + ("-" + shown(high)) * (low < high) for low, high in item.usages]
            if item.path:
                words += ["in"] + ["%d/%s" % (kind, shown(usage)) for kind, usage in item.path]
            yield " ".join(words)
        if not self.bits:
            yield "no reports"

    def values(self, report):
        if self.has_ids and not report:
            raise Refused("U8")
        named, body = (report[0], report[1:]) if self.has_ids else (0, report)
        if ("input", named) not in self.bits:
            raise Refused("U9")
        if len(body) * 8 < self.bits["input", named]:
            raise Refused("U8")
        for place, item in enumerate(self.items):
            if (item.kind, item.id) == ("input", named) and not item.is_padding:
                for element in range(item.count):
                    value = number(body) >> item.at + element * item.size & (1 << item.size) - 1
                    value -= (1 << item.size) * (item.least < 0 and value >> item.size - 1)
                    yield "value %d.%d %d %s" % (place, element, value, shown(self.named(item, element, value)))

    @staticmethod
    def named(item, element, value):
        """The usage of a variable element is that at its place, or the last one; of an array's, the one that its number names."""
        if item.flags & 2:
            count = sum(high - low + 1 for low, high in item.usages)
            return item.usage(min(element, count - 1))
        return item.usage(value - item.least) if item.least <= value <= item.greatest else None


def usages_of(local, page):
    """Each Usage at its place, and the k-th Usage Minimum with the k-th Usage Maximum at the later place (6.2.2.8)."""
    usages, ends = [], {USAGE_MINIMUM: [], USAGE_MAXIMUM: []}
    for prefix, data in local:
        usage = number(data) if len(data) == 4 else page | number(data)
        if prefix == USAGE:
            usages.append((usage, usage))
            continue
        ends[prefix].append(usage)
        place = len(ends[prefix])
        if place <= min(len(ends[USAGE_MINIMUM]), len(ends[USAGE_MAXIMUM])):
            usages.append((ends[USAGE_MINIMUM][place - 1], ends[USAGE_MAXIMUM][place - 1]))
    return usages, len(ends[USAGE_MINIMUM]) == len(ends[USAGE_MAXIMUM])


def nest(path, prefix, kind, first):
    """Opens a collection, or closes the last one (6.2.2.6)."""
    if prefix == END:
        if not path:
            return "L6"
        path.pop()
        return None
    path.append((kind, first))
    return "L5" if len(path) > 16 else None


def shown(usage):
    return "-" if usage is None else "%02X:%02X" % (usage >> 16, usage & 0xFFFF)


def bytes_of(words):
    try:
        if all(len(word) % 2 == 0 for word in words):
            return bytes.fromhex("".join(words))
    except ValueError:
        pass
    raise Refused("X3")


def told(script):
    """What a script prints, the line that is refused with its codes, if one is, and whether a line of a device cut it short."""
    text, layout = [], None
    for count, line in enumerate(script.split(b"\n"), 1):
        line = line[:-1] if line.endswith(b"\r") else line
        words = line.decode("latin-1").split()
        try:
            if len(line) > 1024:
                raise Refused("X2")
            if not words or words[0].startswith("#"):
                continue
            if words[0] not in ("layout", "values"):
                return text, "", True
            data = bytes_of(words[1:])
            if words[0] == "values" and layout is None:
                raise Refused("X9")
            try:
                layout = Layout(data) if words[0] == "layout" else layout
                text += layout.text() if words[0] == "layout" else list(layout.values(data))
            except Refused as refused:
                raise Refused("X4 %s" % refused)
        except Refused as refused:
            return text, "line %d: %s" % (count, refused), False
    return text, "", False
