"""The C library for Python, by ctypes. Its structs, numbers and calls are those that its header declares:

    c = Library()                                           # or Library("bin/lib/libhidstack.so", "include/hidstack.h")
    with Reader(c, descriptor) as mouse:                    # a device, a report at a time
        for event in mouse.feed(bytes([0x05, 0x7F, 0x81])):
            print(event.kind == c.DOWN, c.name(event.page, event.id), event.value)

`Host` and `Device` are the host of a real device and a virtual device, a transfer at a time. Each of the three is for `with`, or ends
with close(). Calls without a class here are `c.table`, `c.number` and so on, with the arguments of the header.
"""
import collections
import ctypes
import re

NUMBERS = {"uint8_t": ctypes.c_uint8, "uint16_t": ctypes.c_uint16, "uint32_t": ctypes.c_uint32, "uint64_t": ctypes.c_uint64,
           "int32_t": ctypes.c_int32, "int64_t": ctypes.c_int64, "size_t": ctypes.c_size_t}
Event = collections.namedtuple("Event", "kind page id value item index interface")


class Refused(Exception):
    """A call was refused: why, in words or as a status with its cause."""


class Library:
    """The calls of the header and its numbers, without the `hidstack_` before their names; `types` has its structs."""

    def __init__(self, library="libhidstack.so.1", header="/usr/include/hidstack.h"):
        with open(header, encoding="utf-8") as file:
            text = re.sub(r"/\*.*?\*/", "", file.read(), flags=re.S)
        self.types = dict(NUMBERS)
        for name, body in re.findall(r"^struct (\w+) \{(.*?)^\};", text, re.S | re.M):
            fields = [(field, self.type_of(words)) for words, field in re.findall(r"(\w[\w ]*?[ *]+)(\w+);", body)]
            self.types[f"struct {name}"] = type(name, (ctypes.Structure,), {"_fields_": fields})
        for name, number in re.findall(r"^ +HIDSTACK_(\w+) = (\w+)", text, re.M):
            setattr(self, name, int(number, 0))
        exports = ctypes.CDLL(library)
        for result, name, parameters in re.findall(r"^(uint32_t|void) hidstack_(\w+)\((.*)\);", text, re.M):
            call = getattr(exports, f"hidstack_{name}")
            call.restype = NUMBERS.get(result)
            call.argtypes = [self.type_of(re.sub(r"\w+$", "", it)) for it in parameters.split(", ")]
            setattr(self, name, call)

    def type_of(self, words):
        """The type of a field or of a parameter; bytes and what is the library's own are pointers to anything."""
        words = words.replace("const ", "").strip()
        if words in ("void *", "uint8_t *"):
            return ctypes.c_void_p
        return ctypes.POINTER(self.types[words[:-2]]) if words.endswith(" *") else self.types[words]

    def new(self, name, *values):
        return self.types[f"struct hidstack{name}"](*values)

    def text(self, call, *words):
        """What a call writes after these arguments: text or bytes; None but for OK."""
        room, length = ctypes.create_string_buffer(65535), ctypes.c_uint64()
        return room.raw[:length.value] if call(*words, room, len(room), length) == self.OK else None

    def name(self, page, usage):
        """The name of a usage, or None."""
        name = self.text(self.usage_name, page, usage)
        return name and name.decode()


class Handle:
    """What has a handle of the library, and closes it."""

    def __init__(self, library, close):
        self.c, self.end = library, close

    def close(self):
        self.end(self.handle)

    def __enter__(self):
        return self

    def __exit__(self, *_):
        self.close()


class Reader(Handle):
    """A device of which reports are read."""

    def __init__(self, c, descriptor):
        super().__init__(c, c.close)
        self.handle, self.opened, self.count = c.new(""), c.new("_opened"), ctypes.c_uint64()
        if c.open(descriptor, len(descriptor), self.handle, self.opened) != c.OK:
            why = self.opened.cause != 17 and c.text(c.refusal_text, descriptor, len(descriptor))
            raise Refused(why.decode()) if why else MemoryError()
        self.table = (c.types["struct hidstack_event"] * self.opened.room)()

    def events_of(self, status):
        if status != self.c.OK:
            raise Refused(status)
        return [Event(it.kind, it.page, it.id, it.value, it.item, it.index, 0) for it in self.table[:self.count.value]]

    def feed(self, report):
        """The events of a report."""
        return self.events_of(self.c.feed(self.handle, report, len(report), self.table, len(self.table), self.count))

    def release(self):
        """The events that let go of all that is held."""
        return self.events_of(self.c.release(self.handle, self.table, len(self.table), self.count))


class Device(Handle):
    """A virtual device: the device's end of a cable."""

    def __init__(self, c, descriptor, vendor, product, interval, boot=0):
        super().__init__(c, c.device_close)
        self.handle, opened = c.new("_device"), c.new("_device_opened")
        if c.device_open(c.new("_config", vendor, product, interval, boot), descriptor, len(descriptor), self.handle, opened) != c.OK:
            raise Refused(f"V{opened.cause} at {opened.at}")

    def change(self, call, page, usage, *value):
        """Changes the first control of this usage by one of c.device_press, .._release, .._set, .._null and .._move: the status."""
        item, index = ctypes.c_uint64(), ctypes.c_uint64()
        status = self.c.device_find(self.handle, page, usage, 0, item, index)
        return call(self.handle, item, index, *value) if status == self.c.OK else status

    def release_all(self):
        """Lets go of all that is pressed."""
        self.c.device_release_all(self.handle)

    def control(self, setup, data):
        """A control transfer: its outcome and what it answers."""
        room, answered = ctypes.create_string_buffer(65535), ctypes.c_uint64()
        outcome = self.c.device_control(self.handle, setup, data, len(data), room, len(room), answered)
        return outcome, room.raw[:answered.value] if outcome == self.c.OK else b""

    def report(self):
        """An interrupt transfer: its outcome, and the report that was due."""
        room, length = ctypes.create_string_buffer(256), ctypes.c_uint64()
        outcome = self.c.device_report(self.handle, room, len(room), length)
        return outcome, room.raw[:length.value] if outcome == self.c.OK else b""

    def output(self, kind, report_id):
        """An Output or Feature report as the host set it last; None where there is none."""
        return self.c.text(self.c.device_output, self.handle, kind, report_id)


class Host(Handle):
    """The host of a real device: the host's end of a cable."""

    def __init__(self, c):
        super().__init__(c, c.host_close)
        self.handle, self.result, self.info = c.new("_host"), c.new("_host_result"), c.new("_host_info")
        if c.host_open(self.handle) != c.OK:
            raise Refused("out of memory")

    def todo(self):
        """The setup of the control transfer that is to be made and what it sends; None where none is."""
        setup, room, length = self.c.new("_setup"), ctypes.create_string_buffer(16384), ctypes.c_uint64()
        return (setup, room.raw[:length.value]) if self.c.host_todo(self.handle, setup, room, len(room), length) == self.c.OK else None

    def done(self, outcome, answer):
        """What came of it: a status, and what it led to."""
        moved = self.c.new("_moved")
        return self.c.host_done(self.handle, outcome, answer, len(answer), moved), moved

    def events_of(self, call, *words):
        self.c.host_device(self.handle, self.info)
        table = (self.c.types["struct hidstack_host_event"] * self.info.room)()
        if call(self.handle, *words, table, len(table), self.result) != self.c.OK:
            return []
        return [Event(it.event.kind, it.event.page, it.event.id, it.event.value, it.event.item, it.event.index, it.interface)
                for it in table[:self.result.count]]

    def report(self, interface, outcome, report):
        """The events of what came of an interrupt transfer; `result` says why there are none."""
        return self.events_of(self.c.host_report, interface, outcome, report, len(report))

    def reset(self):
        """The device is gone: the events that let go of all that is held."""
        return self.events_of(self.c.host_reset)

    def ask(self, interface, request, kind, report_id, data=b""):
        """Asks an interface to take a report, or for one: the status."""
        ask = self.c.new("_ask", request, kind, report_id, 0, 0)
        return self.c.host_ask(self.handle, interface, ask, data, len(data), self.result)

    def interfaces(self):
        """What is known of each interface, in their order."""
        found = []
        while True:
            info = self.c.new("_interface_info")
            if self.c.host_interface(self.handle, len(found), info) != self.c.OK:
                return found
            found.append(info)

    def find(self, interface, kind, page, usage, number=0):
        """A data element of an interface by the kind of its report and its usage, and which of those that have them; None past the last."""
        element = self.c.new("_element_info")
        return element if self.c.host_find(self.handle, interface, kind, page, usage, number, element) == self.c.OK else None

    def blank(self, interface, kind, report_id):
        """A report of zeros, for c.put; None where there is no such report."""
        return self.c.text(self.c.host_blank, self.handle, interface, kind, report_id)
