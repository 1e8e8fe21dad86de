"""What Linux makes of a report, by the rules of its hid-core.c, hid-input.c and input.c (6.1), one after another.

The rules use the kernel's own map of usages to codes. If a rule makes something else of an element's number than the standard
does, its name stands in `fired` beside the code: the class of the difference. In `apart` it stands as long as the kernel's state
of that code may differ from the one here. The result is compared with the kernel's events, so a rule that is wrong or missing
shows as a difference that isn't explained.
"""
from linux_sides import ABS, KEY, MOST_USAGES, NULL, POWER, REL, RELATIVE, VARIABLE, usage_list
from second_reader import NUMBER

BUFFERED, HAT, TOUCH, RUBBER = 0x100, 0x10039, 0x14A, 0x141
ERASER, INVERT, TIP, IN_RANGE = 0xD0045, 0xD003C, 0xD0042, 0xD0032
TOOLS = [ERASER, INVERT, TIP, IN_RANGE]
CONTACT = 0xD0051
EARLY = [ERASER, INVERT, TIP, 0xD0030, IN_RANGE]  # hid-input.c takes these first, Tip Pressure before In Range
PADS = {0x10090: 1, 0x10091: 5, 0x10092: 3, 0x10093: 7}
DIRECTIONS = [(0, 0), (0, -1), (1, -1), (1, 0), (1, 1), (0, 1), (-1, 1), (-1, 0), (-1, -1)]


SCAN = (4, 4)  # MSC_SCAN


def of_32_bits(number):
    """The number as the kernel holds it."""
    return (number + (1 << 31)) % (1 << 32) - (1 << 31)


def cut(number, divisor):
    """C's quotient, towards zero."""
    return abs(number) // divisor * (1 if number >= 0 else -1)


class There:
    """Linux, from one report to the next."""

    def __init__(self, layout, map, fuzz):
        self.layout, self.map, self.fuzz = layout, map, fuzz
        self.values, self.down, self.axes, self.wheels = {}, set(), {}, {}
        self.tool, self.is_active, self.multipliers, self.slots = {}, {}, {}, {}
        self.told, self.fired, self.apart = [], {}, {}

    def take(self, report, numbers=None):
        """The events of a report, as ((node, type, code), value), in order of each node; of `numbers` by item, if they are given."""
        self.told, self.fired = [], {}
        named = report[0] if self.layout.has_ids and report else 0
        fields = [item for item in self.layout.fields if (item.kind, item.id) == ("input", named)]
        ordered, new = [], {}
        for item in fields:
            new[item] = (numbers or {}).get(item) or self.layout.numbers(item, report)
            if item.flags & VARIABLE:
                ordered += [(self.priority(item, j), item, j) for j in range(item.count)]
            elif not self.rolls_over(item, new[item]):
                ordered.append(((self.slot(item), len(EARLY)), item, None))
        for _, item, j in sorted(ordered, key=lambda one: one[0]):
            if j is None:
                self.array(item, new[item])
            else:
                self.event(item, j, new[item][j])
        self.values.update((item, numbers) for item, numbers in new.items() if item.flags & VARIABLE)
        return sorted(self.told, key=lambda one: one[0][0])

    def usage(self, item, j):
        usages = usage_list(item)
        return self.map.usages.get((item, j)) or usages[min(j, len(usages) - 1)]

    def priority(self, item, j):
        usage = self.usage(item, j)
        return self.slot(item), EARLY.index(usage) if usage in EARLY else len(EARLY)

    def slot(self, item):
        """The place of the item's collection among those with a Contact ID, each of which is taken as a whole after all others."""
        if item.id not in self.slots:
            fields = [one for one in self.layout.fields if (one.kind, one.id) == ("input", item.id) and one.path]
            self.slots[item.id] = list(dict.fromkeys(id(one.path[-1]) for one in fields if CONTACT in usage_list(one)))
        slots = self.slots[item.id]
        return slots.index(id(item.path[-1])) if item.path and id(item.path[-1]) in slots else -1

    def rolls_over(self, item, numbers):
        usages = usage_list(item)
        return any(0 <= v - item.least < len(usages) and usages[v - item.least] == 0x70001 for v in numbers)

    def array(self, item, numbers):
        before, size = self.values.get(item, [0] * item.count), min(max(item.count, len(usage_list(item))), MOST_USAGES)

        def is_valid(v):
            return item.least <= v <= item.greatest and v - item.least < size
        for old, now in zip(before, numbers):
            if is_valid(old) and old not in numbers:
                self.event(item, old - item.least, 0)
            if is_valid(now) and now not in before:
                self.event(item, now - item.least, 1)
        if item.least <= 0:
            self.fire(item, -item.least, "number 0 is held at first")
        self.values[item] = numbers

    def fire(self, item, j, rule, code=None):
        code = code or self.map.codes[item, j]
        if code not in (None, POWER):
            where = (self.map.nodes[item], *code)
            self.fired.setdefault(where, []).append(rule)
            if not item.flags & RELATIVE:
                self.apart[where] = rule

    def event(self, item, j, value):
        code, usage, node = self.map.codes[item, j], self.usage(item, j), self.map.nodes[item]
        if code in (None, POWER) or code[0] not in (KEY, REL, ABS) or node is None:
            return
        if item.size > NUMBER:
            self.fire(item, j, "fields of over 32 bits")
        if usage in PADS or usage == HAT and item.least < item.greatest:
            self.hat(item, j, node, code[1], usage, value)
            return
        if item.flags & VARIABLE:
            value = self.ranged(item, j, value)
        elif code[0] == REL:
            self.fired.setdefault((node, *code), []).append("a key of an array is a motion")
        if value is None or usage in TOOLS and code[0] == KEY and not self.digitizer(item, node, usage, code, value):
            return
        if code[0] == REL and code[1] in (11, 12):
            self.wheel(item, j, node, code[1], value)
        elif code != (KEY, 0):
            self.tell(item, j, node, code, value)

    def ranged(self, item, j, value):
        """The number of a variable item's element as Linux goes on with it, or None, where it is dropped."""
        least, greatest, value = item.least, of_32_bits(item.greatest), of_32_bits(value)
        if least >= greatest:
            is_large = least < item.greatest
            self.fire(item, j, "numbers past 2^31 - 1 are negative" if is_large else "a range of one number or none counts as no range")
            return value
        if not least <= value <= greatest and item.flags & NULL:
            self.fire(item, j, "null keeps the last value")
            return None
        if not least <= value <= greatest:
            self.fire(item, j, "out of range is clamped")
        return min(max(value, least), greatest)

    def tell(self, item, j, node, code, value):
        """Adds a key, a motion or an axis; for a key that changes also its usage."""
        if code[0] == KEY and item.flags & VARIABLE and ((item.least, item.greatest) != (0, 1) or item.flags & NULL):
            self.fire(item, j, "a key of more numbers than two")
        is_kept = self.values.get(item, [0] * item.count)[j] if item.flags & VARIABLE and j < item.count else None
        if not item.flags & (RELATIVE | BUFFERED) and item.flags & VARIABLE and value == is_kept:
            return
        if code[0] == KEY and ((node, code[1]) not in self.down) == value:
            self.told.append(((node, *SCAN), of_32_bits(self.usage(item, j))))
        self.core(node, *code, value)
        if item.flags & RELATIVE and code[0] == KEY:
            self.fire(item, j, "relative keys are pulses")
            self.core(node, *code, 0)

    def hat(self, item, j, node, code, usage, value):
        direction = PADS.get(usage) or cut((value - item.least) * 8, item.greatest - item.least + 1) + 1
        for axis in (code, code + 1):
            if usage in PADS:
                self.fire(item, j, "a D-pad of four switches", (ABS, axis))
            elif not item.flags & NULL:
                self.fire(item, j, "a hat without Null State is centered out of its range", (ABS, axis))
        x, y = DIRECTIONS[direction if 0 <= direction <= 8 else 0]
        self.core(node, ABS, code, x)
        self.core(node, ABS, code + 1, y)

    def wheel(self, item, j, node, code, value):
        lines = self.wheels.get(item, 0) + cut(value * 120, self.multipliers.get((item, j), 1))
        self.wheels[item] = lines - cut(lines, 120) * 120
        self.core(node, REL, {11: 8, 12: 6}[code], cut(lines, 120))
        self.core(node, REL, code, cut(value * 120, self.multipliers.get((item, j), 1)))

    def digitizer(self, item, node, usage, code, value):
        """The tool of a report: one at a time. Whether the number goes on as a key."""
        report, rule = (item.kind, item.id), "one tool at a time"
        for each in (TOUCH, RUBBER, 0x140, code[1]):
            self.fired.setdefault((node, KEY, each), []).append(rule)
        self.is_active[report] = bool(self.is_active.get(report) or value) if usage != IN_RANGE or value else self.is_active.get(report)
        if usage == ERASER:
            if value:
                self.set_tool(report, node, RUBBER)
            return value or self.tool.get(report) == RUBBER
        if usage == INVERT:
            if value:
                self.set_tool(report, node, RUBBER)
            elif not self.is_active.get(report):
                self.release_tool(report, node, RUBBER)
            return False
        if usage == TIP:
            return self.tool.get(report) != RUBBER
        if self.is_active.get(report):
            self.tool[report] = self.tool.get(report) or code[1]
            self.set_tool(report, node, self.tool[report])
        else:
            self.release_tool(report, node, code[1])
        self.is_active[report] = False
        return False

    def release_tool(self, report, node, tool):
        if (node, tool) in self.down:
            self.core(node, KEY, TOUCH, 0)
            self.core(node, KEY, tool, 0)
            self.tool[report] = 0

    def set_tool(self, report, node, tool):
        if self.tool.get(report) != tool:
            self.release_tool(report, node, self.tool.get(report))
        self.core(node, KEY, tool, 1)
        self.tool[report] = tool

    def core(self, node, kind, code, value):
        """input.c: what changes nothing isn't reported, but 2, auto-repeat, always is; a joystick's axis is smoothed."""
        where = (node, kind, code)
        if kind == KEY:
            if value != 2 and ((node, code) in self.down) == bool(value):
                return
            if value != 2:
                (self.down.add if value else self.down.discard)((node, code))
        elif kind == ABS:
            old = self.axes.get(where, 0)
            value = self.smoothed(where, value, old)
            if value == old:
                return
            self.axes[where] = value
        elif not value:
            return
        self.told.append((where, value))

    def smoothed(self, where, value, old):
        fuzz = self.fuzz.get((where[0], where[2]), 0)
        near = abs(value - old)
        if not fuzz or near >= fuzz * 2:
            return value
        self.fired.setdefault(where, []).append("a joystick's axis is smoothed")
        self.apart[where] = "a joystick's axis is smoothed"
        if near < fuzz // 2:
            return old
        return cut(old * 3 + value, 4) if near < fuzz else cut(old + value, 2)
