"""An independent model of scripts with devices, written from the definitions and not from the program.

Rounds, toggles and events follow the definitions: no toggle and no view is kept at two ends. A device's rounds are one list from
a configuration to the next reset, cut at polls that were clean, halts and clears; transfers are two positions in one list of
pieces. Descriptors are taken as good ones; `layout` and `values` lines aren't modelled.
"""
import functools

import second_reader
from second_reader import Refused, number as le, shown as show

M = bytes.fromhex("05010902A1010901A1000509190129031500250195037501810295017505810105010930093115 81257F750895028106C0C0".replace(" ", ""))
K = bytes.fromhex("05010906A101050719E029E71500250175019508810295017508810195057501050819012905910295017503910195067508150025650507190029658100C0")


# ---- layouts: those of second_reader, with what a device and a host make of them

class Item:
    def __init__(self, read):
        self.kind, self.id, self.size, self.count = read.kind, read.id, read.size, read.count
        self.least, self.greatest, self.path, self.offset = read.least, read.greatest, read.path, read.at
        self.variable, self.relative, self.null = (bool(read.flags & bit) for bit in (2, 4, 0x40))
        self.padding, self.usages = read.is_padding, [] if read.is_padding else read.usages

    def value(self, pattern):
        return pattern - (1 << self.size) if self.least < 0 and pattern >> (self.size - 1) else pattern

    def encodable(self, v):
        lo, hi = (-(1 << self.size - 1), (1 << self.size - 1) - 1) if self.least < 0 else (0, (1 << self.size) - 1)
        return lo <= v <= hi and self.least <= v <= self.greatest

    def extremes(self):
        lo, hi = (-(1 << self.size - 1), (1 << self.size - 1) - 1) if self.least < 0 else (0, (1 << self.size) - 1)
        return max(lo, self.least), min(hi, self.greatest)

    @functools.cache
    def null_pattern(self):
        lo, hi = self.extremes()
        for p in range(1 << self.size):
            if not lo <= self.value(p) <= hi:
                return p
        return None

    @functools.cache
    def usage(self, i):
        """The i-th usage of the list written out."""
        for a, b in self.usages:
            n = b - a + 1
            if i < n:
                return a + i
            i -= n
        return None

    def usage_count(self):
        return sum(b - a + 1 for a, b in self.usages)

    @functools.cache
    def kind_of(self, j):
        """switch, relative, value, null-value of element j, or of index j of an array; None where it is no control."""
        if self.padding or self.kind != "input":
            return None
        if self.variable:
            if self.relative:
                return "relative"
            if (self.least, self.greatest) == (0, 1) and not self.null:
                return "switch"
            return "nullable" if self.null and self.null_pattern() is not None else "value"
        u = self.usage(j)
        if u is None or j > 65535 or not self.encodable(self.least + j) or u & 0xFFFF == 0 or u in (0x70001, 0x70002, 0x70003):
            return None
        return "key"

    def usage_of(self, j):
        return self.usage(min(j, self.usage_count() - 1)) if self.variable else self.usage(j)

    @functools.cache
    def places(self):
        if self.padding or self.kind != "input":
            return []
        if self.variable:
            return list(range(self.count))
        return [j for j in range(min(self.usage_count(), 65536)) if self.kind_of(j) == "key"]

    @functools.cache
    def rollover(self):
        for j in range(self.usage_count()):
            if self.usage(j) == 0x70001 and self.encodable(self.least + j):
                return self.least + j
        return None

    @functools.cache
    def empty(self):
        for p in range(1 << self.size):
            v = self.value(p)
            if not self.least <= v <= self.greatest:
                return p
            j = v - self.least
            if self.kind_of(j) is None and self.usage(j) not in (0x70001, 0x70002, 0x70003):
                return p
        return None


class Layout:
    def __init__(self, descriptor):
        self.read = second_reader.Layout(descriptor, second_reader.REAL)
        self.items, self.bits, self.numbered = [Item(it) for it in self.read.items], self.read.bits, self.read.has_ids

    def length(self, kind, id):
        return (self.bits[kind, id] + 7) // 8 + self.numbered

    @functools.cache
    def inputs(self):
        return sorted(id for kind, id in self.bits if kind == "input")

    @functools.cache
    def controls(self):
        return [(n, j) for n, i in enumerate(self.items) for j in i.places()]

    @functools.cache
    def of(self, r):
        return [(n, i) for n, i in enumerate(self.items) if i.kind == "input" and i.id == r and not i.padding]

    def find(self, usage):
        for n, j in self.controls():
            if self.items[n].usage_of(j) == usage:
                return n, j
        return None

    def text(self):
        return list(self.read.text())


# ---- snapshots and parts

def blank_value(i, j):
    if i.kind_of(j) == "nullable":
        return None
    return 0 if i.encodable(0) else i.extremes()[0]


def blank_snapshot(layout):
    values = {(n, j): blank_value(layout.items[n], j) for n, j in layout.controls() if layout.items[n].kind_of(j) in ("value", "nullable")}
    return {"held": frozenset(), "values": values, "motion": {}}


def after_change(layout, snapshot, control, op, n):
    """The snapshot after a change, or the first of U1 to U7 that applies."""
    item = layout.items[control[0]]
    kind = item.kind_of(control[1])
    want = {"press": ("switch", "key"), "release": ("switch", "key"), "set": ("value", "nullable"), "null": ("value", "nullable"), "move": ("relative",)}[op]
    if kind not in want:
        raise Refused("U2")
    s = {"held": snapshot["held"], "values": dict(snapshot["values"]), "motion": dict(snapshot["motion"])}
    if op == "press":
        if kind == "key" and control not in s["held"]:
            pressed = sum(c[0] == control[0] for c in s["held"])
            if pressed >= item.count and item.rollover() is None:
                raise Refused("U7")
        s["held"] |= {control}
    elif op == "release":
        s["held"] -= {control}
    elif op == "set":
        if not item.encodable(n):
            raise Refused("U3")
        s["values"][control] = n
    elif op == "null":
        if kind != "nullable":
            raise Refused("U4")
        s["values"][control] = None
    else:
        lo, hi = item.extremes()
        if n > 0 and hi <= 0 or n < 0 and lo >= 0:
            raise Refused("U5")
        total = s["motion"].get(control, 0) + n
        if not -2 ** 31 <= total < 2 ** 31:
            raise Refused("U6")
        s["motion"][control] = total
    return s


def still_part(layout, snapshot, r):
    """Held variable switches, values, and of each array its keys or None where it rolled over."""
    switches, values, arrays = set(), {}, {}
    for n, i in layout.of(r):
        if i.variable:
            for j in range(i.count):
                if (n, j) in snapshot["held"]:
                    switches.add((n, j))
                if (n, j) in snapshot["values"]:
                    values[n, j] = snapshot["values"][n, j]
        else:
            keys = frozenset(c for c in snapshot["held"] if c[0] == n)
            arrays[n] = None if len(keys) > i.count else keys
    return frozenset(switches), tuple(sorted(values.items())), tuple(sorted(arrays.items()))


def clamped(layout, snapshot, r):
    out = {}
    for n, i in layout.of(r):
        if i.variable and i.relative:
            lo, hi = i.extremes()
            for j in range(i.count):
                m = snapshot["motion"].get((n, j), 0)
                if m:
                    out[n, j] = max(lo, min(hi, m))
    return out


def part_bytes(layout, r, part, motion):
    switches, values, arrays = part[0], dict(part[1]), dict(part[2])
    n_bytes = layout.length("input", r)
    number = 0
    for n, i in layout.of(r):
        mask = (1 << i.size) - 1
        if i.variable:
            for j in range(i.count):
                kind = i.kind_of(j)
                if kind == "switch":
                    p = int((n, j) in switches)
                elif kind == "relative":
                    p = motion.get((n, j), 0) & mask
                else:
                    v = values[n, j]
                    p = i.null_pattern() if v is None else v & mask
                number |= p << i.offset + j * i.size
        else:
            keys = arrays[n]
            codes = [i.rollover() & mask] * i.count if keys is None else [i.least + c[1] & mask for c in sorted(keys)]
            codes += [i.empty()] * (i.count - len(codes))
            for j, p in enumerate(codes):
                number |= p << i.offset + j * i.size
    body = number.to_bytes(n_bytes - layout.numbered, "little")
    return bytes([r]) * layout.numbered + body


def initial_view(layout):
    return {"held": frozenset(), "values": blank_snapshot(layout)["values"]}


def view_after(view, layout, r, part):
    switches, values, arrays = part
    held = set(view["held"])
    for n, i in layout.of(r):
        if i.variable:
            held -= {(n, j) for j in range(i.count)}
    held |= switches
    for n, keys in arrays:
        if keys is not None:
            held = {c for c in held if c[0] != n} | set(keys)
    return {"held": frozenset(held), "values": {**view["values"], **dict(values)}}


def changes(layout, before, after, motion, word="motion"):
    out = []
    for n, i in enumerate(layout.items):
        if i.kind != "input" or i.padding:
            continue
        if i.variable:
            for j in range(i.count):
                c, u = (n, j), show(i.usage_of(j))
                kind = i.kind_of(j)
                if kind == "switch" and (c in before["held"]) != (c in after["held"]):
                    out.append("%s %s" % ("down" if c in after["held"] else "up", u))
                elif kind in ("value", "nullable") and before["values"][c] != after["values"][c]:
                    v = after["values"][c]
                    out.append("null %s" % u if v is None else "value %s %d" % (u, v))
                elif kind == "relative" and motion.get(c, 0):
                    out.append("%s %s %d" % (word, u, motion[c]))
        else:
            gone = sorted(c for c in before["held"] - after["held"] if c[0] == n)
            come = sorted(c for c in after["held"] - before["held"] if c[0] == n)
            out += ["up %s" % show(i.usage_of(c[1])) for c in gone] + ["down %s" % show(i.usage_of(c[1])) for c in come]
    return out


# ---- what befalls a device (USB 2.0, 8.5.4 and 8.6)

class Round:
    def __init__(self, report, part, motion):
        self.report, self.part, self.motion, self.fates, self.cut = report, part, motion, [], False

    def crossed(self):
        return any(f in ("clean", "ack") for f in self.fates)

    def closed(self):
        return "clean" in self.fates

    def open(self):
        return not self.closed() and not self.cut


class Life:
    """What befell a device since its attach: its snapshot, and the rounds since its configuration."""

    def __init__(self, layout, ready):
        self.layout, self.snapshot, self.idle = layout, blank_snapshot(layout), {}
        self.begin(False)
        if ready:
            self.begin(True)

    def begin(self, configured):
        """A configuration or a reset; idle times end with the latter alone."""
        self.configured, self.halted, self.rounds, self.fixed = configured, False, [], {}
        self.frames = {r: 0 for r in self.layout.inputs()} if configured else {}
        self.idle = self.idle if configured else {}
        self.again = set()  # reports whose last round was ended by a halt or a clear
        self.from_zero = 0  # the rounds before a clear, whose toggles no longer count

    def change(self, control, op, n):
        self.snapshot = after_change(self.layout, self.snapshot, control, op, n)

    def frame(self):
        self.frames = {r: n + 1 for r, n in self.frames.items()}

    def view(self, rounds):
        """The host's view after some rounds."""
        view = initial_view(self.layout)
        for r in rounds:
            if r.crossed():
                view = view_after(view, self.layout, r.report, r.part)
        return view

    def open_round(self):
        return self.rounds[-1] if self.rounds and self.rounds[-1].open() else None

    def lost(self):
        """The motion of an open round that hasn't crossed."""
        now = self.open_round()
        return now.motion if now and not now.crossed() else {}

    def reset(self, is_ready):
        """The device becomes unconfigured; the host gives back what it saw."""
        events = []
        if is_ready:
            events = changes(self.layout, self.view(self.rounds), initial_view(self.layout), self.lost(), "dropped")
        self.begin(False)
        return events

    def halt(self, halted):
        """The endpoint is halted, or its halt ends: both end the open round."""
        if not self.configured:
            return []
        now, view = self.open_round(), initial_view(self.layout)
        events = changes(self.layout, view, view, self.lost(), "dropped")
        if now:
            now.cut = True
            self.again.add(now.report)
        self.halted = halted
        if not halted:
            self.from_zero = len(self.rounds)
        return events

    def poll(self, fate):
        """The reply and the verdict of a poll, and the events."""
        if fate == "token":
            return "none", "silent", []
        if self.halted:
            return "STALL", "silent" if fate == "reply" else "stall", []
        if not self.open_round():
            self.open_next()
        now = self.open_round()
        if not now:
            return "NAK", "silent" if fate == "reply" else "nak", []
        one = sum(r.closed() for r in self.rounds[self.from_zero:]) % 2
        reply = "DATA%d %s" % (one, spelled(part_bytes(self.layout, now.report, now.part, now.motion)))
        had = now.crossed()
        now.fates.append(fate)
        if fate == "reply":
            return reply, "silent", []
        if had:
            return reply, "again", []
        before = self.view(self.rounds[:-1])
        return reply, "fresh", changes(self.layout, before, view_after(before, self.layout, now.report, now.part), now.motion)

    def open_next(self):
        """A round opens for the due report of the lowest ID."""
        due = [r for r in self.layout.inputs() if self.is_due(r)]
        if due:
            r, layout = due[0], self.layout
            part, motion = still_part(layout, self.snapshot, r), clamped(layout, self.snapshot, r)
            self.rounds.append(Round(r, part, motion))
            left = {c: m - motion.get(c, 0) for c, m in self.snapshot["motion"].items()}
            self.snapshot = {**self.snapshot, "motion": left}
            self.fixed[r], self.frames[r] = part, 0
            self.again.discard(r)

    def is_due(self, r):
        layout, t = self.layout, self.idle.get(r, 0)
        return (still_part(layout, self.snapshot, r) != self.fixed.get(r, still_part(layout, blank_snapshot(layout), r))
                or any(m for c, m in self.snapshot["motion"].items() if layout.items[c[0]].id == r)
                or t and self.frames[r] >= 4 * t
                or r in self.again)


def spelled(data):
    return " ".join("%02X" % b for b in data)


# ---- requests and transfers (USB 2.0, 8.5.3 and 9.4; HID 1.11, 7.2)

class Transfer:
    def __init__(self, request, setup, sends=b""):
        self.request, self.setup, self.sends = request, setup, sends
        self.host, self.device, self.lost, self.got, self.end = 0, None, 0, [], None
        self.answer, self.applied = None, False

    def reads(self):
        return bool(self.setup[0] & 0x80)


class Device:
    def __init__(self, start, boot, descriptor):
        self.boot, self.descriptor, self.layout = boot, descriptor, Layout(descriptor)
        self.life = Life(self.layout, start == "ready")
        self.host = "Ready" if start == "ready" else "Cold"
        self.transfer, self.clearing = None, False
        self.forget()

    def forget(self):
        self.protocol, self.outputs = 1, {}

    def configuration(self):
        sub = {"plain": "0000", "keyboard": "0101", "mouse": "0102"}[self.boot]
        return bytes.fromhex("09022200010100803209040000010300".replace("0300", "03") + sub + "00" + "09211101000122") + len(self.descriptor).to_bytes(2, "little") + bytes.fromhex("0705810340000A")

    def output(self, kind, r):
        return self.outputs.get((kind, r), bytes([r]) * self.layout.numbered + bytes(self.layout.length(kind, r) - self.layout.numbered))

    def decide(self, t):
        """The answer to a read, True for a write that is taken, None for a refusal."""
        setup = t.setup
        head, value, index, length = setup[:2], le(setup[2:4]), le(setup[4:6]), le(setup[6:8])
        life = self.life
        if head == b"\x80\x06" and value == 0x0100:
            return bytes.fromhex("1201000200000008FFFF0100000100000001")[:length]
        if head == b"\x80\x06" and value == 0x0200:
            return self.configuration()[:length]
        if head == b"\x81\x06" and value == 0x2200:
            return self.descriptor[:length]
        if head == b"\x80\x00":
            return bytes(2)
        if head == b"\x82\x00":
            return bytes([life.halted, 0]) if life.configured else None
        if head in (b"\x02\x01", b"\x02\x03"):
            return True if life.configured else None
        if head == b"\x80\x08":
            return bytes([life.configured])
        if head == b"\x00\x09":
            return True
        kind, r = ("", "input", "output", "feature")[value >> 8] if value >> 8 < 4 else "", value & 0xFF
        if head == b"\xA1\x01":
            if (kind, r) not in self.layout.bits:
                return None
            if kind == "input":
                return part_bytes(self.layout, r, still_part(self.layout, life.snapshot, r), {})[:length]
            return self.output(kind, r)[:length]
        if head == b"\x21\x09":
            return True if kind in ("output", "feature") and (kind, r) in self.layout.bits and length == self.layout.length(kind, r) else None
        if head == b"\xA1\x02":
            inputs = self.layout.inputs()
            if r == 0 and inputs and 0 not in inputs:
                r = inputs[0]
            return bytes([life.idle.get(r, 0)]) if r in inputs else None
        if head == b"\x21\x0A":
            return True if r == 0 or r in self.layout.inputs() else None
        if head == b"\xA1\x03":
            return bytes([self.protocol]) if self.boot != "plain" else None
        if head == b"\x21\x0B":
            return True if self.boot != "plain" and not life.configured and value < 2 else None
        raise AssertionError(setup)

    def apply(self, t):
        """A write takes effect; its events."""
        head, value = t.setup[:2], le(t.setup[2:4])
        if head == b"\x00\x09":
            self.life.begin(True)
        elif head in (b"\x02\x01", b"\x02\x03"):
            return self.life.halt(head[1] == 3)
        elif head == b"\x21\x09":
            self.outputs[("", "input", "output", "feature")[value >> 8], value & 0xFF] = t.sends
        elif head == b"\x21\x0A":
            r, time = value & 0xFF, value >> 8
            self.life.idle = {**self.life.idle, **{i: time for i in self.layout.inputs() if r in (0, i)}}
        else:
            self.protocol = value
        return []

    def pieces(self, t):
        """What the transfer consists of, by the last decision: SETUP, data, status."""
        if not t.reads():
            return ["setup"] + [t.sends[i:i + 8] for i in range(0, len(t.sends), 8)] + ["status"]
        answer = t.answer or b""
        data = [answer[i:i + 8] for i in range(0, len(answer), 8)]
        if len(answer) % 8 == 0 and len(answer) < le(t.setup[6:8]):
            data.append(b"")
        return ["setup"] + data + ["status"]

    def attempt(self, fate):
        """One try of the transfer that runs: 'running', 'done', or the cause that it failed with; and the events."""
        self.told = []
        return self.went(self.transfer, *self.tried(fate)), self.told

    def tried(self, fate):
        """Whether the host heard in a try, and the end that this makes."""
        t = self.transfer
        arrives, clean = fate != "token", fate == "clean"
        if t.host == 0:
            if arrives:
                t.answer, t.device, t.applied = self.decide(t), 1, False
            heard, over = clean, False
            if heard:
                t.host = 1
            return heard, None
        pieces = self.pieces(t)
        is_in = t.reads() if pieces[t.host] != "status" else not t.reads()
        heard = arrives and (fate in ("clean", "ack") if is_in else clean)
        if t.answer is None:  # refused: STALL in the data or status stage
            return heard, "failed C1" if heard else None
        if is_in and pieces[t.host] != "status":  # data of a read
            if arrives:
                sent = t.device
                assert sent in (t.host, t.host - 1) and sent >= 1
                if heard and sent == t.host:
                    t.got.append(pieces[sent])
                if clean:
                    t.device = sent + 1
                if heard and sent == t.host:
                    t.host += 1
            return heard, None
        if pieces[t.host] != "status":  # data of a write
            if arrives:
                t.device = max(t.device, t.host + 1)
            if heard:
                t.host += 1
            return heard, None
        if arrives and not t.reads() and not t.applied:
            t.applied = True
            self.told = self.apply(t)
        return heard, "done" if heard else None

    def went(self, t, heard, end):
        t.lost = 0 if heard else t.lost + 1
        if end is None and t.lost == 3:
            end = "failed C2"
        t.end = end
        if end == "done":
            step = {"config": "Described", "report": "Parsed", "configure": "Ready"}.get(t.request)
            self.host = step or self.host
            self.clearing = self.clearing and t.request != "clear"
        return end or "running"


# ---- the bus and the script

def hexes(words):
    return bytes.fromhex("".join(words))


def request_of(words, report_length):
    name, rest = words[0], words[1:]
    kinds = {"input": 1, "output": 2, "feature": 3}
    fixed = {"device": "8006000100001200", "config": "800600020000FF00", "configure": "0009010000000000", "status": "8000000000000200",
             "get-configuration": "8008000000000100", "get-protocol": "A103000000000100",
             "halt": "0203000081000000", "clear": "0201000081000000", "endpoint-status": "8200000081000200"}
    if name in fixed:
        return bytes.fromhex(fixed[name]), b""
    if name == "report":
        return bytes.fromhex("810600220000") + report_length.to_bytes(2, "little"), b""
    if name == "idle":
        return bytes([0x21, 0x0A, int(rest[0]), int(rest[1]), 0, 0, 0, 0]), b""
    if name == "get-idle":
        return bytes([0xA1, 2, int(rest[0]), 0, 0, 0, 1, 0]), b""
    if name == "protocol":
        return bytes([0x21, 0x0B, ("boot", "report").index(rest[0]), 0, 0, 0, 0, 0]), b""
    if name == "get-report":
        return bytes([0xA1, 1, int(rest[1]), kinds[rest[0]], 0, 0, 64, 0]), b""
    data = hexes(rest[2:])
    return bytes([0x21, 9, int(rest[1]), kinds[rest[0]], 0, 0, len(data), 0]), data


NEEDS = {"device": None, "status": None, "get-configuration": None, "config": ("Cold",), "report": ("Described",), "configure": ("Parsed",), "protocol": ("Parsed",),
         "halt": ("Ready",), "clear": ("Ready",), "endpoint-status": ("Ready",)}


class Bus:
    def __init__(self, trace=False, layout=False):
        self.devices, self.trace, self.layout = [], trace, layout

    def line(self, words):
        """Yields what each step of a line prints; a refusal ends it."""
        name = words[0]
        if name == "device":
            if len(self.devices) == 7:
                raise Refused("S7")
            descriptor = hexes(words[3:])
            if words[2] != "plain" and descriptor != {"keyboard": K, "mouse": M}[words[2]]:
                raise Refused("S5 V20")
            self.devices.append(Device(words[1], words[2], descriptor))
            yield self.devices[-1].layout.text() if self.layout else []
        elif name == "frame":
            for _ in range(int(words[1]) if words[1:] else 1):
                for d in self.devices:
                    d.life.frame()
                yield []
        else:
            dev = int(words[1])
            if dev > len(self.devices):
                raise Refused("S1")
            yield from self.own(dev, self.devices[dev - 1], name, words[2:])

    def own(self, dev, d, name, words):
        if name in ("press", "release", "null", "set", "move"):
            page, id = words[0].split(":")
            control = d.layout.find(int(page, 16) << 16 | int(id, 16))
            if control is None:
                raise Refused("S3 U1")
            n = int(words[1]) if words[1:] else None
            try:
                d.life.change(control, name, n)
            except Refused as why:
                raise Refused("S3 %s" % why)
            yield []
        elif name == "begin":
            if d.transfer and d.transfer.end is None:
                raise Refused("S4 C5")
            needs = NEEDS.get(words[0], ("Parsed", "Ready"))
            if needs and d.host not in needs:
                raise Refused("S2")
            d.transfer = Transfer(words[0], *request_of(words, len(d.descriptor)))
            d.clearing = d.clearing or words[0] == "clear"
            yield []
        elif name == "reset":
            events = d.life.reset(d.host == "Ready")
            d.forget()
            d.host, d.transfer, d.clearing = "Cold", None, False
            yield ["%d %s" % (dev, e) for e in events]
        elif name == "halt":
            yield ["%d %s" % (dev, e) for e in d.life.halt(True)]
        else:
            fate, count = (words + ["clean", "1"][len(words):])[:2] if len(words) < 2 else words
            for _ in range(int(count)):
                yield self.poll(dev, d, fate) if name == "poll" else self.control(dev, d, fate)

    def poll(self, dev, d, fate):
        if d.host != "Ready" or d.clearing:
            raise Refused("S2")
        reply, verdict, events = d.life.poll(fate)
        return ["%d poll %s %s" % (dev, reply, verdict)] * self.trace + ["%d %s" % (dev, e) for e in events]

    def control(self, dev, d, fate):
        if not d.transfer or d.transfer.end is not None:
            raise Refused("S4 C4")
        end, told = d.attempt(fate)
        events = ["%d %s" % (dev, e) for e in told]
        if end == "running":
            return ["%d control running" % dev] * self.trace + events
        if end == "done" and d.transfer.reads():
            return [" ".join(["%d control done" % dev] + [spelled(p) for p in d.transfer.got if p])] + events
        return ["%d control %s" % (dev, end)] + events


def play(script, trace=False, layout=False):
    """What a script prints line by line, and its fault line."""
    bus, out = Bus(trace, layout), []
    for count, line in enumerate(script.split("\n"), 1):
        words = line.split()
        if not words or words[0].startswith("#"):
            continue
        if words[0] in ("layout", "values"):
            raise NotImplementedError(words[0])
        try:
            for text in bus.line(words):
                out += [(count, t) for t in text]
        except Refused as why:
            return out, "line %d: X4 %s" % (count, why)
    return out, ""
