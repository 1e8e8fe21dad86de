"""What a reader, a virtual device and a host of the C library do, by include/hidstack.h, docs/FORMATS.md and
docs/DECISIONS.md, and where these are silent by the definitions of specs/.

A call of a model takes the arguments of the C call and returns its status and what it writes, as bytes of C structs. Layouts,
parts of reports and changes are those of script_model; second_reader says which descriptors are accepted.
"""
import functools
import itertools
import struct

import script_model as script
import second_reader

(OK, REFUSED, BUSY, CLOSED, NO_ROOM, SHORT, UNKNOWN, NONE, MEMORY, RANGE, STALLED, FAILED, WRONG_KIND, NO_NULL, NO_DIRECTION, FULL) = range(16)
CHANGES = {"U2": WRONG_KIND, "U3": RANGE, "U4": NO_NULL, "U5": NO_DIRECTION, "U6": FULL, "U7": FULL}
KINDS = ["input", "output", "feature"]
BOOT = {1: script.K, 2: script.M}
UP, DOWN, VALUE, NULL, MOTION = range(5)
PIECE = 64  # in bytes, of a report of a virtual device
UNKNOWN_BYTES = 256  # awaited of a report that no device has


@functools.cache
def refusal_of(descriptor, limits):
    """The cause and the place for which a descriptor is refused, or None."""
    try:
        second_reader.Layout(descriptor, limits)
    except second_reader.Refused as refused:
        code, _, at = str(refused).split()
        return int(code[1:]), int(at)
    return None


@functools.cache
def layout_of(descriptor):
    layout = script.Layout(descriptor)
    layout.tame = all(item.padding or item.size <= 16 and item.count <= 300 and item.usage_count() <= 1000 for item in layout.items)
    layout.room = sum(item.count * (1 if item.variable else 2) for item in layout.items if item.kind == "input" and not item.padding)
    return layout


@functools.cache
def device_refusal(interval, boot, descriptor):
    """The cause and the place for which a virtual device is refused, or None."""
    if interval == 0 or boot > 2 or boot and descriptor != BOOT[boot]:
        return 20, 0
    refused = refusal_of(descriptor, second_reader.BUS)
    if refused:
        return refused
    items = [item for item in layout_of(descriptor).items if item.kind == "input" and not item.padding]
    if any(not item.variable and not has_empty(item) for item in items):
        return 18, 0
    if any(item.variable and item.relative and not item.encodable(0) for item in items):
        return 19, 0
    return None


def has_empty(item):
    """An array has a number that names no key."""
    low, high = item.extremes()
    if high - low + 1 < 1 << item.size:
        return True
    return any(item.kind_of(number - item.least) is None and item.usage(number - item.least) not in (0x70001, 0x70002, 0x70003)
               for number in range(low, min(high, low + 70000) + 1))


# ---- the structs of the header

def event(kind, item, index, usage, value):
    return struct.pack("<qQQHHI", value, item, index, usage >> 16, usage & 0xFFFF, kind)


def element(layout, item, index):
    """A struct hidstack_element_info, or None."""
    if item >= len(layout.items) or layout.items[item].padding or index >= layout.items[item].count:
        return None
    one, shown = layout.items[item], layout.read.items[item]
    bit = one.offset + 8 * layout.numbered + index * one.size
    usage = one.usage_of(index) if one.variable else 0
    return struct.pack("<qqQQQIIIHHHBBBBH", one.least, one.greatest, item, index, len(one.path), bit, one.size, one.usage_count(), usage >> 16,
                       usage & 0xFFFF, shown.flags & 0x1FF, KINDS.index(one.kind), one.id, one.least < 0, not one.variable, 0)


def found_element(layout, kind, usage, number):
    """The element of this number of those in reports of a kind that have a usage, or None."""
    found = (record for place, item in enumerate(layout.items) if KINDS.index(item.kind) == kind for index in range(item.count)
             if (record := element(layout, place, index)) and struct.unpack_from("<HH", record, 52) == (usage >> 16, usage & 0xFFFF))
    return next(itertools.islice(found, min(number, 2 ** 20), None), None)


def report_infos(layout):
    return [struct.pack("<QIBBH", layout.length(kind, report), layout.bits[kind, report], KINDS.index(kind), report, 0)
            for kind, report in sorted(layout.bits, key=lambda key: (KINDS.index(key[0]), key[1]))]


def blank(layout, kind, report, room):
    """The status, the bytes and the length of a report of zeros."""
    if kind > 2 or (KINDS[kind], report) not in layout.bits:
        return NONE, b"", 0
    length = layout.length(KINDS[kind], report)
    if room < length:
        return NO_ROOM, b"", length
    return OK, bytes([report]) * layout.numbered + bytes(length - layout.numbered), length


# ---- what a host reads (HID 1.11, 5.8 and 8)

class Reader:
    """A layout, and what was read of its reports."""

    def __init__(self, descriptor):
        self.layout = layout_of(descriptor)
        self.view = script.initial_view(self.layout)

    def fault(self, data):
        """8 or 9 of U8 or U9, or None."""
        layout = self.layout
        if layout.numbered and not data:
            return 8
        report = data[0] if layout.numbered else 0
        if ("input", report) not in layout.bits:
            return 9
        return 8 if len(data) < layout.length("input", report) else None

    def read(self, data):
        """The events of a report."""
        layout, before = self.layout, self.view
        report, body = (data[0], data[1:]) if layout.numbered else (0, data)
        bits, held, values, motion = int.from_bytes(body, "little"), set(before["held"]), dict(before["values"]), {}
        for place, item in layout.of(report):
            numbers = [item.value(bits >> item.offset + n * item.size & (1 << item.size) - 1) for n in range(item.count)]
            if not item.variable:
                named = [item.usage(number - item.least) if item.least <= number <= item.greatest else None for number in numbers]
                if 0x70001 not in named:
                    held = {key for key in held if key[0] != place}
                    held |= {(place, number - item.least) for number in numbers if item.least <= number <= item.greatest and item.kind_of(number - item.least) == "key"}
                continue
            for index, number in enumerate(numbers):
                kind, control, is_in = item.kind_of(index), (place, index), item.least <= number <= item.greatest
                if kind == "switch" and is_in:
                    held = held | {control} if number else held - {control}
                elif kind == "relative" and is_in:
                    motion[control] = number
                elif kind in ("value", "nullable") and (is_in or kind == "nullable"):
                    values[control] = number if is_in else None
        self.view = {"held": frozenset(held), "values": values}
        return self.changes(before, self.view, motion)

    def changes(self, before, after, motion):
        found = []
        for place, item in enumerate(self.layout.items):
            if item.kind != "input" or item.padding:
                continue
            if item.variable:
                for index in range(item.count):
                    control, kind, usage = (place, index), item.kind_of(index), item.usage_of(index)
                    if kind == "switch" and (control in before["held"]) != (control in after["held"]):
                        found.append(event(DOWN if control in after["held"] else UP, place, index, usage, int(control in after["held"])))
                    elif kind in ("value", "nullable") and before["values"][control] != after["values"][control]:
                        value = after["values"][control]
                        found.append(event(NULL, place, index, usage, 0) if value is None else event(VALUE, place, index, usage, value))
                    elif motion.get(control):
                        found.append(event(MOTION, place, index, usage, motion[control]))
            else:
                gone = sorted(key for key in before["held"] - after["held"] if key[0] == place)
                come = sorted(key for key in after["held"] - before["held"] if key[0] == place)
                found += [event(UP, *key, item.usage_of(key[1]), 0) for key in gone] + [event(DOWN, *key, item.usage_of(key[1]), 1) for key in come]
        return found

    def back(self):
        """The events that let go of all that is held."""
        before, self.view = self.view, script.initial_view(self.layout)
        return self.changes(before, self.view, {})

    def held(self, item, index):
        return int((item, index) in self.view["held"])

    def value(self, item, index):
        return self.view["values"].get((item, index))


# ---- a virtual device (USB 2.0, 9.4; HID 1.11, 7.1 and 7.2)

class Device:
    """A virtual device of this configuration: the snapshot, the round of its endpoint, and what its host set."""

    def __init__(self, vendor, product, interval, boot, descriptor):
        self.vendor, self.product, self.interval, self.boot, self.descriptor = vendor, product, interval, boot, descriptor
        self.layout = layout_of(descriptor)
        self.snapshot = script.blank_snapshot(self.layout)
        self.places = frozenset(self.layout.controls())
        self.reset()

    def reset(self):
        self.begin(False)
        self.idle, self.outputs, self.protocol = {}, {}, 1

    def begin(self, configured):
        self.configured, self.halted, self.rest, self.underway, self.fixed, self.again = configured, False, b"", None, {}, set()
        self.frames = {report: 0 for report in self.layout.inputs()}

    def frame(self):
        if self.configured:
            self.frames = {report: count + 1 for report, count in self.frames.items()}

    def halt(self, halted):
        """The endpoint is halted, or its halt ends: the report that is underway is due again, and its motion is dropped."""
        if self.configured:
            if self.underway is not None:
                self.again.add(self.underway)
            self.rest, self.underway, self.halted = b"", None, halted

    def find(self, usage, number):
        found = [(item, index) for item, index in self.layout.controls() if self.layout.items[item].usage_of(index) == usage]
        return found[number] if number < len(found) else None

    def change(self, item, index, what, number):
        if (item, index) not in self.places:
            return NONE
        try:
            self.snapshot = script.after_change(self.layout, self.snapshot, (item, index), what, number)
        except script.Refused as refused:
            return CHANGES[str(refused)]
        return OK

    def release_all(self):
        self.snapshot = {**self.snapshot, "held": frozenset()}

    # -- endpoint 1

    def is_due(self, report):
        layout, time = self.layout, self.idle.get(report, 0)
        return (report in self.again or time and self.frames[report] >= 4 * time
                or any(moved for control, moved in self.snapshot["motion"].items() if layout.items[control[0]].id == report)
                or script.still_part(layout, self.snapshot, report) != self.fixed.get(report, first_part(layout, report)))

    def open_next(self):
        report = next((report for report in self.layout.inputs() if self.is_due(report)), None)
        if report is not None:
            layout = self.layout
            part, motion = script.still_part(layout, self.snapshot, report), script.clamped(layout, self.snapshot, report)
            self.rest, self.underway = script.part_bytes(layout, report, part, motion), report
            self.snapshot = {**self.snapshot, "motion": {control: moved - motion.get(control, 0) for control, moved in self.snapshot["motion"].items()}}
            self.fixed[report], self.frames[report] = part, 0
            self.again.discard(report)

    def report(self, room):
        """The status, the bytes and the length of an interrupt transfer."""
        if not self.configured:
            return NONE, b"", 0
        if self.halted:
            return STALLED, b"", 0
        if self.underway is None:
            self.open_next()
        if self.underway is None:
            return NONE, b"", 0
        take = len(self.rest) if len(self.rest) <= room else room // PIECE * PIECE
        if not take:
            return NO_ROOM, b"", PIECE
        sent, self.rest = self.rest[:take], self.rest[take:]
        if not self.rest:
            self.underway = None
        return OK, sent, take

    # -- endpoint 0

    def output(self, kind, report, room):
        if kind not in (1, 2) or (KINDS[kind], report) not in self.layout.bits:
            return NONE, b"", 0
        stored = self.stored(KINDS[kind], report)
        return (NO_ROOM, b"", len(stored)) if room < len(stored) else (OK, stored, len(stored))

    def stored(self, kind, report):
        size = self.layout.length(kind, report) - self.layout.numbered
        return self.outputs.get((kind, report), bytes([report]) * self.layout.numbered + bytes(size))

    def configuration(self):
        subclass, protocol = (1, self.boot) if self.boot else (0, 0)
        return (bytes.fromhex("0902220001010080320904000001 03".replace(" ", "")) + bytes([subclass, protocol, 0]) + self.hid()
                + bytes([7, 5, 0x81, 3, 0x40, 0, self.interval]))

    def hid(self):
        return bytes.fromhex("092111010001 22".replace(" ", "")) + len(self.descriptor).to_bytes(2, "little")

    def control(self, kind, request, value, index, length, data, room):
        """The status, the answer and its length."""
        if kind >= 0x80 and room < length:
            return NO_ROOM, b"", length
        if kind < 0x80 and len(data) < length:
            return SHORT, b"", 0
        if kind >= 0x80:
            answer = self.answer(kind, request, value, index)
            return (STALLED, b"", 0) if answer is None else (OK, answer[:length], len(answer[:length]))
        return (OK, b"", 0) if self.write(kind, request, value, index, data[:length]) else (STALLED, b"", 0)

    def answer(self, kind, request, value, index):
        """What a read answers, or None."""
        if (kind, request, value) == (0x82, 0, 0):
            if index in (0, 0x80):
                return bytes(2)
            return bytes([self.halted, 0]) if index == 0x81 and self.configured else None
        if index:
            return None
        fixed = {
            (0x80, 0, 0): lambda: bytes(2),
            (0x81, 0, 0): lambda: bytes(2) if self.configured else None,
            (0x80, 6, 0x0100): lambda: b"\x12\x01\x00\x02\x00\x00\x00\x08" + struct.pack("<HH", self.vendor, self.product) + b"\x00\x01\x00\x00\x00\x01",
            (0x80, 6, 0x0200): self.configuration,
            (0x81, 6, 0x2100): self.hid,
            (0x81, 6, 0x2200): lambda: self.descriptor,
            (0x80, 8, 0): lambda: bytes([self.configured]),
            (0x81, 10, 0): lambda: bytes(1) if self.configured else None,
            (0xA1, 3, 0): lambda: bytes([self.protocol]) if self.boot else None,
        }
        if (kind, request, value) in fixed:
            return fixed[kind, request, value]()
        high, report, layout = value >> 8, value & 0xFF, self.layout
        if (kind, request) == (0xA1, 1) and 1 <= high <= 3 and (KINDS[high - 1], report) in layout.bits:
            if high == 1:
                return script.part_bytes(layout, report, script.still_part(layout, self.snapshot, report), {})
            return self.stored(KINDS[high - 1], report)
        if (kind, request, high) == (0xA1, 2, 0) and layout.inputs():
            report = report or layout.inputs()[0]
            return bytes([self.idle.get(report, 0)]) if report in layout.inputs() else None
        return None

    def write(self, kind, request, value, index, data):
        """Whether a write is taken, which takes effect then."""
        high, report, length = value >> 8, value & 0xFF, len(data)
        if (kind, request, value, index, length) == (0x00, 9, 1, 0, 0):
            self.begin(True)
        elif kind == 0x02 and request in (1, 3) and (value, index, length) == (0, 0x81, 0) and self.configured:
            self.halt(request == 3)
        elif (kind, request, index) == (0x21, 9, 0) and high in (2, 3) and (KINDS[high - 1], report) in self.layout.bits:
            if length != self.layout.length(KINDS[high - 1], report):
                return False
            self.outputs[KINDS[high - 1], report] = data
        elif (kind, request, index, length) == (0x21, 10, 0, 0) and (report == 0 or report in self.layout.inputs()):
            self.idle = {**self.idle, **{one: high for one in self.layout.inputs() if report in (0, one)}}
        elif (kind, request, index, length) == (0x21, 11, 0, 0) and value < 2 and self.boot and not self.configured:
            self.protocol = value
        else:
            return False
        return True


@functools.cache
def first_part(layout, report):
    return script.still_part(layout, script.blank_snapshot(layout), report)


# ---- the host of a real device (USB 2.0, 9.1 and 9.4; HID 1.11, 7.1 and 7.2)

class Interface:
    """What the descriptors of an interface say, how far its host has come with it, and what it reads."""

    def __init__(self, number, subclass, protocol, length, endpoint):
        self.number, self.subclass, self.protocol, self.length = number, subclass, protocol, length
        self.endpoint, self.packet, self.interval = endpoint or (0, 0, 0)
        self.state, self.code, self.reader, self.came = "waiting", ("", 0, 0), None, b""

    def refuse(self, letter, cause, at=0):
        self.state, self.code, self.reader = "refused", (letter, cause, at), None

    def is_open(self):
        return self.state in ("live", "halted", "stopped")

    def info(self):
        letter, cause, at = self.code
        layout = self.reader.layout if self.is_open() else None
        states = ["waiting", "live", "halted", "stopped", "boot", "refused"]
        return struct.pack("<QQQQIHBBBBBBBBH", at, layout.room if layout else 0, len(layout.bits) if layout else 0, len(layout.items) if layout else 0, cause,
                           self.packet, self.number, self.endpoint, self.interval, self.subclass, self.protocol, layout.numbered if layout else 0,
                           states.index(self.state), ord(letter) if letter else 0, 0)

    def taken(self, data):
        """What came of a transfer: the cause of a refusal with its detail, and the events."""
        total, packet = self.came + data, self.packet
        layout, is_full = self.reader.layout, bool(data) and len(data) % packet == 0
        report = (total[0] if total else None) if layout.numbered else 0
        length = layout.length("input", report) if ("input", report) in layout.bits else None
        self.came = b""
        if len(total) - (UNKNOWN_BYTES if length is None else length) >= packet:
            return (13, 0), []
        if length is not None and is_full and len(total) < length:
            self.came = total
            return (0, 0), []
        fault = self.reader.fault(total)
        return ((12, fault), []) if fault else ((0, 0), self.reader.read(total))


def le16(data, at):
    return data[at] | data[at + 1] << 8


def length_fault(data):
    """1, 2 or 7 of B1, B2 or B7 of the first nine bytes of a configuration, or 0."""
    if len(data) < 9 or data[0] < 9:
        return 1
    if data[1] != 2:
        return 2
    return 0 if 9 <= le16(data, 2) <= 4096 else 7


def interfaces_of(data):
    """The HID interfaces of a configuration that came, or the number of the code that refuses it."""
    fault = length_fault(data)
    if fault or le16(data, 2) != len(data):
        return fault or 7
    parts, at = [], 0
    while at < len(data):
        if data[at] < 2 or at + data[at] > len(data):
            return 11
        parts.append(data[at:at + data[at]])
        at += data[at]
    if data[5] == 0:
        return 12
    found, readable = [], []
    for place, part in enumerate(parts):
        if part[1] == 4 and len(part) >= 9 and part[5] == 3 and part[3] == 0:
            found.append(listed(part, own_of(parts[place + 1:]), readable))
    return found or 3


def own_of(parts):
    own = []
    for part in parts:
        if part[1] == 4:
            break
        own.append(part)
    return own


def listed(part, own, readable):
    hid = next((one for one in own if one[1] == 0x21 and len(one) >= 9), b"")
    length = next((le16(hid, at + 1) for at in range(6, len(hid) - 2, 3) if hid[at] == 0x22), 0)
    endpoint = next(((one[2] & 15, le16(one, 4) & 0x7FF, one[6] or 1) for one in own
                     if one[1] == 5 and len(one) >= 7 and one[2] & 0x80 and one[3] & 3 == 3 and one[2] & 15), None)
    interface = Interface(part[2], part[6], part[7], length, endpoint)
    if any(one.number == part[2] for one in readable):
        interface.refuse("B", 13)
    elif not length:
        interface.refuse("B", 4)
    elif not endpoint:
        interface.refuse("B", 5)
    elif not 1 <= endpoint[1] <= 1024:
        interface.refuse("B", 8)
    elif any(one.endpoint == endpoint[0] for one in readable):
        interface.refuse("B", 9)
    else:
        readable.append(interface)
    return interface


class Host:
    """The host of a device: what it waits for, and its interfaces."""

    def __init__(self):
        self.start()

    def start(self):
        self.state, self.vendor, self.product, self.interfaces, self.data = ("device",), 0, 0, [], b""

    def room(self):
        return sum(one.reader.layout.room for one in self.interfaces if one.is_open())

    def is_tame(self):
        return all(one.reader.layout.tame for one in self.interfaces if one.reader)

    def info(self):
        state = {"ready": 1, "refused": 2}.get(self.state[0], 0)
        return struct.pack("<QQIHH", len(self.interfaces), self.room(), state, self.vendor, self.product)

    def go_on(self):
        """The SET_IDLE of the first interface that waits, else the CLEAR_FEATURE of the first whose endpoint is halted."""
        for state, step in (("waiting", "idle"), ("halted", "clear")):
            place = next((place for place, one in enumerate(self.interfaces) if one.state == state), None)
            if place is not None:
                self.state = (step, place)
                return
        self.state = ("ready",)

    def todo(self):
        """The setup and the data of the transfer that is to be made, or None."""
        step, *more = self.state
        one = self.interfaces[more[0]] if step in ("idle", "report", "clear", "protocol") else None
        setups = {
            "device": lambda: (0x80, 6, 0x0100, 0, 18),
            "length": lambda: (0x80, 6, 0x0200, 0, 9),
            "configuration": lambda: (0x80, 6, 0x0200, 0, more[0]),
            "configure": lambda: (0, 9, more[0], 0, 0),
            "idle": lambda: (0x21, 10, 0, one.number, 0),
            "report": lambda: (0x81, 6, 0x2200, one.number, one.length),
            "clear": lambda: (2, 1, 0, 0x80 | one.endpoint, 0),
            "protocol": lambda: (0x21, 11, int(not more[1]), one.number, 0),
            "asked": lambda: more[0],
        }
        return (setups[step](), self.data if step == "asked" else b"") if step in setups else None

    # -- what came of a control transfer

    @staticmethod
    def moved(step, interface=0):
        return OK, struct.pack("<QIIII", interface, step, 0, 0, 0)

    @staticmethod
    def not_moved(cause, detail=0):
        return REFUSED, struct.pack("<QIIII", 0, 0, cause, detail, 0)

    def refuse(self, cause, detail=0):
        self.state = ("refused",)
        return self.not_moved(cause, detail)

    def done(self, outcome, data):
        """The status and the struct hidstack_moved."""
        if self.state[0] in ("ready", "refused"):
            return self.not_moved(1)
        failure = {OK: 0, STALLED: 8}.get(outcome, 9)
        return getattr(self, "done_" + self.state[0])(failure, data)

    def done_device(self, failure, data):
        if failure:
            return self.refuse(failure)
        if len(data) < 18 or data[1] != 1:
            return self.refuse(10, 1 if len(data) < 18 else 2)
        self.vendor, self.product, self.state = le16(data, 8), le16(data, 10), ("length",)
        return self.moved(0)

    def done_length(self, failure, data):
        if failure or length_fault(data):
            return self.refuse(failure) if failure else self.refuse(11, length_fault(data))
        self.state = ("configuration", le16(data, 2))
        return self.moved(0)

    def done_configuration(self, failure, data):
        found = [] if failure else interfaces_of(data)
        if failure or isinstance(found, int):
            return self.refuse(failure) if failure else self.refuse(11, found)
        self.interfaces, self.state = found, ("configure", data[5])
        return self.moved(0)

    def done_configure(self, failure, _):
        if failure:
            return self.refuse(failure)
        self.go_on()
        return self.moved(0)

    def done_idle(self, _failure, _data):
        self.state = ("report", self.state[1])
        return self.moved(0)

    def done_report(self, failure, data):
        place = self.state[1]
        one = self.interfaces[place]
        refused = None if failure or len(data) != one.length else refusal_of(data, second_reader.REAL)
        if failure or refused or len(data) != one.length:
            one.refuse(*(("H", failure) if failure else ("L", *refused) if refused else ("B", 6)))
            self.go_on()
            return self.moved(2, place)
        one.state, one.reader, one.came = "live", Reader(data), b""
        self.go_on()
        return self.moved(1, place)

    def done_clear(self, failure, _):
        place = self.state[1]
        self.interfaces[place].state = "stopped" if failure else "live"
        self.go_on()
        return self.moved(4 if failure else 3, place)

    def done_protocol(self, failure, _):
        _, place, boot, was_boot = self.state
        stays_boot = {0: boot, 8: was_boot, 9: True}[failure]
        self.interfaces[place].state = "boot" if stays_boot else "waiting"
        self.go_on()
        return self.not_moved(failure) if failure else self.moved(5)

    def done_asked(self, failure, _):
        self.data = b""
        self.go_on()
        return self.not_moved(failure) if failure else self.moved(5)

    # -- transfers and asks: the status, the struct hidstack_host_result, and the events

    @staticmethod
    def result(status, count=0, cause=0, detail=0, events=()):
        return status, struct.pack("<QII", count, cause, detail), list(events)

    def with_place(self, place, events):
        events = [one + struct.pack("<Q", place) for one in events]
        return self.result(OK, len(events), events=events)

    def report(self, place, outcome, data, room):
        if room < self.room():
            return self.result(NO_ROOM, self.room())
        if place >= len(self.interfaces):
            return self.result(REFUSED, cause=3)
        one = self.interfaces[place]
        if one.state != "live":
            return self.result(REFUSED, cause=14 if one.state == "boot" else 4)
        if outcome == STALLED:
            one.state, one.came = "halted", b""
            if self.state == ("ready",):
                self.go_on()
        if outcome != OK:
            return self.result(OK)
        (cause, detail), events = one.taken(data)
        return self.result(REFUSED, cause=cause, detail=detail) if cause else self.with_place(place, events)

    def ask(self, place, request, kind, report, time, data):
        if request not in (1, 9, 10) or request != 10 and kind > 2:
            return self.result(NONE)
        if place >= len(self.interfaces):
            return self.result(REFUSED, cause=3)
        one = self.interfaces[place]
        if not one.is_open():
            return self.result(REFUSED, cause=4)
        if self.state != ("ready",):
            return self.result(REFUSED, cause=5)
        layout, kind = one.reader.layout, 0 if request == 10 else kind
        size = layout.length(KINDS[kind], report) if (KINDS[kind], report) in layout.bits else None
        if size is None and not (request == 10 and report == 0):
            return self.result(REFUSED, cause=6)
        if request == 9 and len(data) > size:
            return self.result(REFUSED, cause=7)
        if request == 9 and report and data[:1] != bytes([report]):
            return self.result(REFUSED, cause=16)
        word, number = (kind + 1) << 8 | report, one.number
        self.data = data if request == 9 else b""
        self.state = ("asked", {1: (0xA1, 1, word, number, size), 9: (0x21, 9, word, number, len(data)), 10: (0x21, 10, time << 8 | report, number, 0)}[request])
        return self.result(OK)

    def protocol(self, place, protocol, room):
        if room < self.room():
            return self.result(NO_ROOM, self.room())
        if place >= len(self.interfaces):
            return self.result(REFUSED, cause=3)
        one = self.interfaces[place]
        if one.state not in ("live", "halted", "boot"):
            return self.result(REFUSED, cause=4)
        if self.state != ("ready",):
            return self.result(REFUSED, cause=5)
        if one.subclass != 1:
            return self.result(REFUSED, cause=15)
        events, was_boot = one.reader.back() if one.reader else [], one.state == "boot"
        one.state, one.reader, self.state = "boot", None, ("protocol", place, protocol == 0, was_boot)
        return self.with_place(place, events)

    def reset(self, room):
        if room < self.room():
            return self.result(NO_ROOM, self.room())
        events = [told + struct.pack("<Q", place) for place, one in enumerate(self.interfaces) if one.is_open() for told in one.reader.back()]
        self.start()
        return self.result(OK, len(events), events=events)
