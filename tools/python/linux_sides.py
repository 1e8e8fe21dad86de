"""What the standard makes of a report, and which code Linux gives to each of its elements.

Here reads the layout of the second reader and keeps a view, as the definitions of this repository say; it shares nothing
with the programs. Said goes the other way: from events to the numbers that a report must have had. Map is the kernel's own
map of usages to codes, as tools/c/uhidplay.c printed it.
"""
import functools

import second_reader

VARIABLE, RELATIVE, NULL = 2, 4, 0x40
KEY, REL, ABS, POWER = 1, 2, 3, "power"
AXES = ["X", "Y", "Z", "Rx", "Ry", "Rz", "Throttle", "Rudder", "Wheel", "Gas", "Brake", None, None, None, None, None,
        "Hat0X", "Hat0Y", "Hat1X", "Hat1Y", "Hat2X", "Hat2Y", "Hat3X", "Hat 3Y", "Pressure", "Distance", "XTilt", "YTilt",
        "ToolWidth", None, None, None, "Volume", None, None, None, None, None, None, None, "Misc"]
MOTIONS = ["X", "Y", "Z", "Rx", "Ry", "Rz", "HWheel", "Dial", "Wheel", "Misc"]
MOST_USAGES = 12288
REPEATING = 0xFF01
WHEELS = {0x10038: 11, 0xC0238: 12}
SYSTEM_CONTROL, KEYBOARD, CONSUMER_CONTROL = 0x10080, 0x10006, 0xC0001


class Layout(second_reader.Layout):
    """The second reader's layout of a recording with every main item that has a usage, and without limits of size (L15, L16)."""

    def __init__(self, descriptor):
        self.fields, self.is_refused = [], False
        super().__init__(descriptor, second_reader.REAL)

    def add(self, item, paired):
        cause = super().add(item, paired)
        if cause == "L15":
            self.bits[item.kind, item.id] = item.at + item.size * item.count
            self.items.append(item)
        if cause in ("L15", "L16"):
            self.is_refused, cause = True, None
        if item.usages and cause is None:
            self.fields.append(item)
        return cause

    def numbers(self, item, report):
        """The numbers of an item's elements in the bytes of its report; of wider elements the low 32 bits, as Linux reads them."""
        size = min(item.size, second_reader.NUMBER)
        value, mask = second_reader.number(report[1:] if self.has_ids else report) >> item.at, (1 << size) - 1
        signed = 1 << size if item.least < 0 else 0
        elements = [value >> j * item.size & mask for j in range(item.count)]
        return [v - signed * (v >> size - 1) for v in elements] if size else elements


@functools.cache
def usage_list(item):
    return [usage for low, high in item.usages for usage in range(low, high + 1)]


@functools.cache
def spread(item):
    """The usage of each element of a variable item (6.2.2.8)."""
    usages = usage_list(item)[:item.count]
    return usages + usages[-1:] * (item.count - len(usages))


def carried(item):
    """The least and the greatest number that an element carries (5.8)."""
    return (-(1 << item.size - 1), (1 << item.size - 1) - 1) if item.least < 0 else (0, (1 << item.size) - 1)


class Here:
    """The view of a host."""

    def __init__(self, layout):
        self.layout, self.held = layout, {}

    @staticmethod
    def is_key(item, place, usage):
        low, high = carried(item)
        return (low <= item.least + place <= high and place < 65536 and usage & 0xFFFF
                and not 0x70001 <= usage <= 0x70003)

    def take(self, report):
        """The events of a report, as (item, place, word, usage, number), or the cause that refuses it."""
        layout, events = self.layout, []
        named = report[0] if layout.has_ids and report else 0
        if layout.has_ids and not report:
            return "U8"
        if ("input", named) not in layout.bits:
            return "U9"
        if (len(report) - layout.has_ids) * 8 < layout.bits["input", named]:
            return "U8"
        for place, item in enumerate(layout.items):
            if (item.kind, item.id) == ("input", named) and not item.is_padding:
                read = self.variable if item.flags & VARIABLE else self.array
                events += [(place, *event) for event in read(place, item, layout.numbers(item, report))]
        return events

    def back(self):
        """The events that lead back to the first view, as where a device is gone."""
        events = []
        for place, item in enumerate(self.layout.items):
            if item.kind == "input" and not item.is_padding:
                back = self.variable_back if item.flags & VARIABLE else self.array_back
                events += [(place, *event) for event in back(place, item)]
        self.held = {}
        return events

    def variable_back(self, place, item):
        is_switch = (item.least, item.greatest) == (0, 1) and not item.flags & NULL
        for j, (usage, first) in enumerate(zip(spread(item), self.first(item))):
            if self.held.get((place, j), first) != first:
                yield j, "up" if is_switch else "null" if first is None else "value", usage, first

    def array_back(self, place, item):
        usages = usage_list(item)
        for i in sorted(self.held.get(place, set())):
            yield i, "up", usages[i], 0

    @staticmethod
    def has_null(item):
        low, high = carried(item)
        return bool(item.flags & NULL and (low < item.least or high > item.greatest))

    @staticmethod
    def first(item):
        """What is held of each element at first: null, 0, or the least number."""
        low, high = carried(item)
        least = max(low, item.least)
        return [None if Here.has_null(item) else 0 if least <= 0 <= min(high, item.greatest) else least] * item.count

    def variable(self, place, item, numbers):
        has_null, first = self.has_null(item), self.first(item)
        is_switch = (item.least, item.greatest) == (0, 1) and not item.flags & NULL
        for j, (usage, v) in enumerate(zip(spread(item), numbers)):
            is_in = item.least <= v <= item.greatest
            if item.flags & RELATIVE:
                if v and is_in:
                    yield j, "motion", usage, v
                continue
            before = self.held.get((place, j), first[j])
            now = v if is_in else None if has_null else before
            self.held[place, j] = now
            if now != before:
                word = ("up", "down")[now] if is_switch else "null" if now is None else "value"
                yield j, word, usage, now

    def array(self, place, item, numbers):
        usages = usage_list(item)
        named = {v - item.least for v in numbers if item.least <= v <= item.greatest and v - item.least < len(usages)}
        if any(usages[i] == 0x70001 for i in named):
            return
        before = self.held.get(place, set())
        now = {i for i in named if self.is_key(item, i, usages[i])}
        self.held[place] = now
        for i in sorted(before - now):
            yield i, "up", usages[i], 0
        for i in sorted(now - before):
            yield i, "down", usages[i], 1


class Said:
    """The numbers of reports that the events of a view say, from one report to the next; `wrong` says where a report has others."""

    def __init__(self, layout):
        self.layout, self.held, self.wrong = layout, {}, ""

    def take(self, report, events):
        """The numbers of each item of a report. Where the events can't say any, a number is that of the report."""
        told, numbers, self.wrong = {}, {}, ""
        for place, j, word, _, number in events:
            told.setdefault(place, []).append((j, word, number))
        named = report[0] if self.layout.has_ids else 0
        for place, item in enumerate(self.layout.items):
            if (item.kind, item.id) == ("input", named) and not item.is_padding:
                read = self.variable if item.flags & VARIABLE else self.array
                numbers[item] = read(place, item, told.pop(place, []), self.layout.numbers(item, report))
        self.wrong = self.wrong or "events of an item that the report doesn't have" * bool(told)
        return numbers

    def variable(self, place, item, events, actual):
        held = self.held.setdefault(place, list(Here.first(item)))
        now = [0] * len(held) if item.flags & RELATIVE else held
        if len({j for j, _, _ in events}) < len(events):
            self.wrong = "two events of one element"
        for j, _, number in events:
            now[j] = number
        changed = {j for j, _, _ in events}
        for j, v in enumerate(actual):
            is_in = item.least <= v <= item.greatest
            if is_in and now[j] != v:
                self.wrong = "events say %s of element %d, and the report has %d" % (now[j], j, v)
            elif not is_in and j in changed and now[j] is not None:
                self.wrong = "an event of element %d, whose number is out of its range" % j
        return [v if n is None or not item.least <= v <= item.greatest else n for n, v in zip(now, actual)]

    def array(self, place, item, events, actual):
        held, usages = self.held.setdefault(place, set()), usage_list(item)
        for i, word, _ in events:
            (held.add if word == "down" else held.discard)(i)
        named = [v - item.least for v in actual if item.least <= v <= item.greatest and v - item.least < len(usages)]
        if any(usages[i] == 0x70001 for i in named):
            self.wrong = self.wrong or "events of a report with ErrorRollOver" * bool(events)
            return actual
        if {i for i in named if Here.is_key(item, i, usages[i])} == held:
            return actual
        self.wrong = "keys %s are reported, and the report has %s" % (sorted(held), sorted(set(named)))
        return actual


def texts(events):
    """The events as hidplay prints them."""
    for _, _, word, usage, number in events:
        yield "%s %s" % (word, second_reader.shown(usage)) + (" %d" % number if word in ("value", "motion") else "")


class Map:
    """Which code the kernel gives to each element of its fields, by the order of debugfs and of EVIOCGKEYCODE_V2."""

    def __init__(self, layout, told):
        keys = iter(told.keys)
        lines = told.map
        self.codes, self.usages, self.nodes, apps = {}, {}, {}, {}
        kinds = [item for item in layout.fields if item.kind == "input"], [item for item in layout.fields if item.kind == "output"]
        at = 0
        for item in [item for kind in kinds for group in by_report(kind) for item in group]:
            app = self.application(layout, item)
            for j in range(min(max(item.count, len(usage_list(item))), MOST_USAGES)):
                code = self.code(lines[at] if at < len(lines) else "- ---> Sync.Report", keys, item, j)
                at += 1
                self.codes[item, j] = code
                self.nodes[item] = app
                apps[app] = apps.get(app, False) or code not in (None, POWER) or self.repeats(item)
        self.fits = at == len(lines) and sum(apps.values()) == len(told.nodes)
        numbers = {app: i for i, app in enumerate(app for app, is_there in apps.items() if is_there)}
        self.nodes = {item: numbers.get(app) for item, app in self.nodes.items()}

    @staticmethod
    def repeats(item):
        """Of this vendor's page Linux makes a node that repeats keys, also if it has none of them."""
        return item.kind == "input" and not item.has_no_data and usage_list(item)[0] >> 16 == REPEATING

    @staticmethod
    def application(layout, item):
        """The application of an item's report is that of its first item; some share the keyboard's node."""
        first = next(one for one in layout.fields if (one.kind, one.id) == (item.kind, item.id))
        app = next((usage for kind, usage in reversed(first.path) if kind == 1), None)
        shares = app in (SYSTEM_CONTROL, CONSUMER_CONTROL)
        before = [usage for one in layout.fields[:layout.fields.index(first)] for kind, usage in one.path if kind == 1]
        return KEYBOARD if shares and KEYBOARD in before and app not in before[:before.index(KEYBOARD)] else app

    def code(self, line, keys, item, j):
        shown, line = line.split(" ---> ")
        kind, name = line.split(".", 1)
        if shown.startswith("GenericDesktop."):
            self.usages[item, j] = 0x10000 | usage_list(item)[min(j, len(usage_list(item)) - 1)] & 0xFFFF
        if kind in ("Key", "Sync"):
            usage, code = next(keys, (None, 0))
            self.usages[item, j] = usage
            return (KEY, code) if kind == "Key" else None
        if kind == "Relative":
            usages = spread(item) if item.flags & VARIABLE else usage_list(item)
            usage = usages[j] if j < len(usages) else None
            return REL, WHEELS.get(usage, 11) if name == "?" else MOTIONS.index(name)
        return (ABS, AXES.index(name)) if kind == "Absolute" and name in AXES else POWER if kind == "Power" else (kind, name)


def by_report(items):
    groups = {}
    for item in items:
        groups.setdefault(item.id, []).append(item)
    return groups.values()
