"""A USB/IP server of made devices, for tests of a host: scene by scene, on one end of a socket pair.

It answers as Linux's usbip-host does with QEMU's devices and with gadgets, and is stricter: a submit that Linux would refuse, drop
or misread is a fault of the host, and ends the scene with an AssertionError.
"""
import collections
import socket
import struct

BUS_ID = b"1-1"
DEVID = (1 << 16) | 2
STALL, GONE, OVERFLOW, UNPLUGGED = -32, -108, -75, -84


def described(hid, report):
    """A HID interface as a configuration has it: number, endpoint, packet size, interval, subclass, protocol."""
    number, endpoint, size, interval, subclass, protocol = hid
    return (bytes([9, 4, number, 0, 1, 3, subclass, protocol, 0])
            + bytes([9, 0x21, 0x11, 1, 0, 1, 0x22, *struct.pack("<H", len(report))])
            + bytes([7, 5, 0x80 | endpoint, 3, *struct.pack("<H", size), interval]))


class Device:
    """Its descriptors, and how it answers. `reports` has of each endpoint what it answers in turn: (status, bytes)."""

    def __init__(self, interfaces, before=b"", after=b"", number=1):
        self.device = bytes.fromhex("12 01 00 02 00 00 00 08 27 06 01 00 00 00 01 04 0B 01")
        parts = before + b"".join(described(hid, report) for hid, report in interfaces) + after
        count = len(interfaces) + before.count(bytes([9, 4]))
        self.configuration = struct.pack("<BBHBBBBB", 9, 2, 9 + len(parts), count, number, 8, 0xA0, 50) + parts
        self.descriptors = {hid[0]: report for hid, report in interfaces}
        self.endpoints = {hid[1]: hid for hid, _ in interfaces}
        self.number = number
        self.configured = False
        self.refuses = {}     # the first bytes of a setup: the status that answers it, and bytes
        self.written = []     # what was written: setup and data


class Server:
    """The server's end of a connection."""

    def __init__(self, device, reports=None, one_by_one=False):
        self.near, self.far = socket.socketpair()
        self.near.settimeout(60)
        self.device = device
        self.reports = {endpoint: collections.deque(answers) for endpoint, answers in (reports or {}).items()}
        self.pending = {}     # the submits that wait for a report: endpoint to number
        self.numbers = {}     # those of all submits, in their order
        self.one_by_one = one_by_one

    def read(self, count):
        data = b""
        while len(data) < count:
            piece = self.near.recv(count - len(data))
            if not piece:
                raise EOFError
            data += piece
        return data

    def send(self, data):
        for piece in [data[i:i + 1] for i in range(len(data))] if self.one_by_one else [data]:
            self.near.sendall(piece)

    def answer(self, number, status=0, data=b"", length=None):
        words = (3, number, 0, 0, 0, status, len(data) if length is None else length, 0, 0xFFFFFFFF, 0)
        self.send(struct.pack(">IIIIIiiiIi", *words) + bytes(8) + data)

    def operation(self, status=0, version=0x0111, code=3):
        """Reads the request for the device, and answers with a status."""
        assert self.read(8) == bytes.fromhex("0111800300000000"), "OP_REQ_IMPORT"
        assert self.read(32) == BUS_ID + bytes(29), "the bus ID"
        self.send(struct.pack(">HHI", version, code, status))

    def describe(self):
        numbers = struct.pack(">IIIHHHBBBBBB", 1, 2, 2, 0x627, 1, 0, 0, 0, 0, 1, 1, len(self.device.endpoints))
        self.send(b"/sys/devices/made/1-1".ljust(256, b"\0") + BUS_ID.ljust(32, b"\0") + numbers)

    def attach(self):
        self.operation()
        self.describe()

    def step(self):
        """Takes one command: of a control transfer the answer is sent; a submit for a report waits."""
        header = self.read(48)
        command, number, devid, direction, endpoint, _, length, _, _, interval = struct.unpack(">IIIIIIIIII", header[:40])
        setup = header[40:]
        assert command == 1, f"command {command}"
        assert devid == DEVID, f"devid {devid:X}"
        assert number not in self.numbers, f"number {number} twice"
        self.numbers[number] = endpoint
        if endpoint:
            self.poll(number, direction, endpoint, length, interval)
            return None
        return self.control(number, direction, length, setup)

    def poll(self, number, direction, endpoint, length, interval):
        assert self.device.configured, "a report is asked for before SET_CONFIGURATION"
        assert endpoint in self.device.endpoints, f"endpoint {endpoint} isn't there"
        _, _, size, every, _, _ = self.device.endpoints[endpoint]
        assert (direction, length) == (1, size), f"direction {direction} and length {length} of packets of {size}"
        assert interval == max(every, 1), f"interval {interval}"
        assert endpoint not in self.pending, f"endpoint {endpoint} is asked twice"
        self.pending[endpoint] = number

    def control(self, number, direction, length, setup):
        asked = struct.unpack("<H", setup[6:8])[0]
        assert length == asked, f"length {length} of wLength {asked}"
        assert direction == (setup[0] >> 7 if asked else 0), f"direction {direction} of {setup.hex()}"
        data = b"" if direction else self.read(length)
        status, answer = self.answer_of(setup, data)
        if status is None:
            return setup
        self.answer(number, status, answer[:asked], length if not direction and not status else None)
        return setup

    def answer_of(self, setup, data):
        device = self.device
        for begin, refusal in device.refuses.items():
            if setup.startswith(begin):
                return refusal
        if setup[:4] == bytes.fromhex("80060001"):
            return 0, device.device
        if setup[:4] == bytes.fromhex("80060002"):
            return 0, device.configuration
        if setup[:2] == bytes.fromhex("0009"):
            assert setup[2] == device.number, f"SET_CONFIGURATION {setup[2]}"
            device.configured = True
            return 0, b""
        if setup[:4] == bytes.fromhex("81060022"):
            report = device.descriptors.get(setup[4])
            return (0, report) if report is not None and device.configured else (STALL, b"")
        if setup[0] in (0x21, 0x02) and device.configured:
            if setup[1] != 0x0A:
                device.written.append((setup.hex().upper(), data.hex().upper()))
            return 0, b""
        return STALL, b""

    def report(self):
        """Answers the next report of an endpoint whose submit waits. Whether one was answered."""
        for endpoint, number in list(self.pending.items()):
            if self.reports.get(endpoint):
                status, data = self.reports[endpoint].popleft()
                del self.pending[endpoint]
                self.answer(number, status, data)
                return True
        return False

    def step_on(self, answer):
        """Answers the next report of the first endpoint, and waits until one more is asked for."""
        endpoint = next(iter(self.reports))
        self.answer(self.pending.pop(endpoint), *answer)
        while endpoint not in self.pending:
            self.step()

    def is_done(self):
        """Whether all reports are answered, and each endpoint is asked for the next one."""
        return not any(self.reports.values()) and all(endpoint in self.pending for endpoint in self.reports)

    def serve(self):
        """Attaches the device and answers all reports, until each endpoint waits for one more."""
        self.attach()
        while not self.is_done():
            if not self.report():
                self.step()

    def close(self):
        self.near.close()
