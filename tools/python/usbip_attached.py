"""Devices of a real Linux, which Debian's usbipd exports and hidattach imports, and a device in the guest that hidplay reads at
hidraw: each scene says what is typed, pointed or written, and which events this has to cause.

QEMU's devices are typed and pointed at by its monitor (qemu_inputs.py). The gadget's reports are written by the guest.
"""
import contextlib
import os
import re
import subprocess
import time

from qemu_inputs import KEYS, MOTIONS, PLACES
from usbip_guest import PORT, Failed, folder, shown, until
from usbip_served import MOUSE, PATIENCE, WAIT

KBD, POINTER, TABLET, GADGET = "QEMU USB Keyboard", "QEMU USB Mouse", "QEMU USB Tablet", "gadget"
# A keyboard of a hundred keys at a time, with LEDs.
KEYBOARD_OF_100 = ("05 01 09 06 A1 01 05 08 19 01 29 05 15 00 25 01 75 01 95 05 91 02 75 03 95 01 91 01 05 07 19 00 29 FF 26 FF 00 75 08 95 64 "
                   "81 00 C0")
# Interface 0 is a serial port of the vendor's class, 1 a boot mouse, 2 the keyboard of 100 bytes. Their files are /dev/hidg0 and 1.
MAKE_GADGET = ("mkdir /sys/kernel/config/usb_gadget/g; cd /sys/kernel/config/usb_gadget/g; echo 0x1d6b > idVendor; echo 0x0104 > idProduct; "
               "mkdir strings/0x409 configs/c.1; echo gadget > strings/0x409/product; mkdir functions/gser.0; ln -s functions/gser.0 configs/c.1")
FUNCTION = ("cd /sys/kernel/config/usb_gadget/g; f=functions/hid.%s; mkdir $f; echo %d > $f/subclass; echo %d > $f/protocol; "
            "echo %d > $f/report_length; echo 1 > $f/no_out_endpoint; printf '%s' > $f/report_desc; ln -s $f configs/c.1")
ROLL_OVER = ("sendkey a-b-c-d-e-f-g", "down 07:04, down 07:05, down 07:06, down 07:07, down 07:08, down 07:09, up 07:09, up 07:08, up 07:07, "
             "up 07:06, up 07:05, up 07:04")
SILENCE = "2"  # seconds, after which an answer is too late
# Faults that are planted in what hidattach printed: an input, its events, and those that stand there instead. Some have no fault.
PLANTED = [("mouse_button 1", "down 09:01", None), ("mouse_button 0", "up 09:01", ""),
           ("mouse_move 10 -5", "motion 01:30 10, motion 01:31 -5", "motion 01:30 10, motion 01:31 -6"),
           ("mouse_button 2", "down 09:02", "down 09:02, down 09:02"), ("mouse_button 0", "up 09:02", "up 09:01"),
           ("mouse_move 7 0", "motion 01:30 7", None)]
# hidattach's status where usbip-host closes the connection, and words of its last line.
GIVEN_UP = 0, "closed"
# The places of the gadget's interfaces among those that hidattach reads.
MOUSE_PLACE, KEYBOARD_PLACE = 0, 1


def escaped(text):
    return "".join("\\x" + word for word in text.split())


def prepare(guest):
    """Makes the gadget, and lets Debian's usbipd export it and QEMU's devices; the bus ID of each."""
    guest.run(MAKE_GADGET)
    guest.run(FUNCTION % ("mouse", 1, 2, 3, escaped(MOUSE.removeprefix("mouse "))))
    guest.run(FUNCTION % ("keyboard", 0, 0, 100, escaped(KEYBOARD_OF_100)))
    guest.run("echo dummy_udc.0 > /sys/kernel/config/usb_gadget/g/UDC")
    until(lambda: {KBD, POINTER, TABLET, GADGET} <= set(guest.devices()), "gadget")
    devices = guest.devices()
    for name in (KBD, POINTER, TABLET, GADGET):
        guest.export(devices[name])
    listen(guest)
    return devices


def listen(guest):
    """Starts Debian's usbipd in the guest, anew where one is there."""
    guest.run("killall usbipd && sleep 1; usbipd -4 -D --tcp-port %d" % PORT)


class Printed:
    """A file in which a program prints events, as TIME DEVICE EVENT."""

    def __init__(self, read):
        self.read, self.taken = read, 0

    def expect(self, text, device=0, spoil=lambda have: have):
        """The next events are these of a device, and no more come. `spoil` plants a fault in those that came."""
        want = ["%d %s" % (device, event) for event in text.split(", ") if event]
        end = time.monotonic() + PATIENCE
        while len(self.events()) < len(want) and time.monotonic() < end:
            time.sleep(0.05)
        time.sleep(WAIT)
        have = self.events()
        self.taken += len(have)
        have = spoil(have)
        if have != want:
            raise Failed("it prints %s, and has to print %s" % (have, want))

    def events(self):
        return [line.split(" ", 1)[1] for line in self.read()[self.taken:] if " " in line]


class Attached(Printed):
    """HIDATTACH on a device of the guest; `with` ends it."""

    def __init__(self, bench, name, busid, *options):
        place = folder(bench.work, name)
        super().__init__(lambda: shown(place / "events"))
        self.leds, self.errors = place / "leds", place / "errors"
        words = " ".join(["'%s'" % bench.hidattach, *options, "--output", str(place / "events"), "--leds", str(self.leds), busid])
        run = place / "run"
        run.write_text("#!/bin/sh\nexec %s\n" % words)
        run.chmod(0o755)
        with open(self.errors, "w", encoding="utf8") as errors:
            self.process = subprocess.Popen(["socat", "TCP:127.0.0.1:%d,nodelay,nonblock" % bench.guest.port, "EXEC:%s,nofork" % run],
                                            stdin=subprocess.DEVNULL, stderr=errors)

    def wait_live(self, interfaces=1):
        until(lambda: sum(line.endswith(": live") for line in shown(self.errors)) >= interfaces or self.process.poll() is not None,
              "live interface: it prints %s" % shown(self.errors))

    def set_leds(self, text):
        with open(self.leds, "a", encoding="utf8") as leds:
            leds.write(text + "\n")

    def expect_end(self, status, code):
        """It ends with this status, and its last line has this code."""
        until(lambda: self.process.poll() is not None, "end of hidattach: it prints %s" % shown(self.errors), 30)
        last = (shown(self.errors) or [""])[-1]
        if self.process.returncode != status or not re.search(r"\b%s\b" % code, last):
            raise Failed("it ends with status %d and `%s`, and has to with %d and `%s`" % (self.process.returncode, last, status, code))

    def end(self):
        self.process.kill()
        self.process.wait()


@contextlib.contextmanager
def attached(bench, name, device, *options, interfaces=1):
    it = Attached(bench, name, bench.devices.get(device, device), *options)
    try:
        if interfaces:
            it.wait_live(interfaces)
        yield it
    finally:
        it.end()
        until(lambda: bench.guest.ran("cat /sys/bus/usb/devices/*/usbip_status | grep 2")[0], "end of the import")


def inputs(bench, it, table):
    """Does what a table of inputs says, line by line."""
    for line, events in table:
        bench.guest.qmp.do(line)
        it.expect(events)


def keyboard(bench):
    """Keys of QEMU's keyboard, also seven at once, and its LEDs, of which usbmon tells."""
    mon = "/sys/kernel/debug/usb/usbmon/0u"
    with attached(bench, "attached-keyboard", KBD) as it:
        inputs(bench, it, [*KEYS, ROLL_OVER])
        bench.guest.run("cat %s > /tmp/mon & echo $! > /tmp/mon.pid" % mon)
        it.set_leds("02")
        until(lambda: not bench.guest.ran("grep -q 's 21 09 0200 0000 0001 1 = 02' /tmp/mon")[0], "request for LEDs 02 in usbmon")
        bench.guest.run("kill $(cat /tmp/mon.pid)")
        inputs(bench, it, KEYS[:1])


def mouse(bench):
    """Motions and buttons of QEMU's mouse. At the end usbip-host gives the device up while a button is held, which is released."""
    with attached(bench, "attached-mouse", POINTER) as it:
        bench.guest.qmp.point_with("mouse")
        inputs(bench, it, [*MOTIONS, ("mouse_button 1", "down 09:01")])
        bench.guest.run("usbip unbind -b %s" % bench.devices[POINTER])
        it.expect("up 09:01")
        it.expect_end(*GIVEN_UP)
    bench.guest.qmp.do("mouse_button 0")
    bench.guest.export(bench.devices[POINTER])


def tablet(bench):
    """Places and buttons of QEMU's tablet."""
    with attached(bench, "attached-tablet", TABLET) as it:
        bench.guest.qmp.point_with("tablet")
        inputs(bench, it, PLACES)


def gadget(bench):
    """A composite gadget: reports of its mouse and of its keyboard of 100 bytes, and the keyboard's LEDs."""
    long = "printf '%s' > /tmp/report; dd if=/tmp/report of=/dev/hidg1 bs=100 count=1"
    with attached(bench, "attached-gadget", GADGET, interfaces=2) as it:
        for report, events in (("01 05 FB", "down 09:01, motion 01:30 5, motion 01:31 -5"), ("00 00 00", "up 09:01")):
            bench.guest.run("printf '%s' > /dev/hidg0" % escaped(report))
            it.expect(events, MOUSE_PLACE)
        for report, events in (("04" + 98 * " 00" + " 05", "down 07:04, down 07:05"), (100 * "00 ", "up 07:04, up 07:05")):
            bench.guest.run(long % escaped(report))
            it.expect(events, KEYBOARD_PLACE)
        for line, leds in (("15", "15"), ("interface %d 0A" % KEYBOARD_PLACE, "0A")):
            it.set_leds(line)
            set_by_host = "timeout 20 dd if=/dev/hidg1 bs=64 count=1 2> /dev/null | hexdump -e '/1 \"%02X\"'"
            if bench.guest.run(set_by_host) != leds:
                raise Failed("the gadget's LEDs aren't those of line %s" % line)


def refused(bench):
    """A device that somebody has, one that isn't there, and a guest that doesn't answer."""
    with attached(bench, "attached-first", KBD):
        it = Attached(bench, "attached-second", bench.devices[KBD])
        it.expect_end(1, "A2")
    with attached(bench, "attached-nothing", "9-9", interfaces=0) as it:
        it.expect_end(1, "A3")
    bench.guest.qmp.ask("stop")
    try:
        it = Attached(bench, "attached-silent", bench.devices[KBD], "--seconds", SILENCE)
        it.expect_end(1, "A9")
    finally:
        bench.guest.qmp.ask("cont")


def unplugged(bench):
    """QEMU's keyboard is unplugged while a key is held: it is released."""
    with attached(bench, "attached-unplugged", KBD) as it:
        bench.guest.qmp.hold("b")
        it.expect("down 07:05")
        bench.guest.qmp.ask("device_del", id="kbd")
        it.expect("up 07:05")
        it.expect_end(*GIVEN_UP)


def live(bench):
    """hidplay reads a keyboard of the guest at hidraw; it is unplugged while a key is held, which is released."""
    guest = bench.guest
    guest.qmp.ask("device_add", driver="usb-kbd", bus="x.0", id="live")
    until(lambda: not guest.ran("[ -c /dev/hidraw0 ]")[0], "/dev/hidraw0")
    guest.run("(%s /dev/hidraw0 > /tmp/played 2> /tmp/refused; echo status $? > /tmp/status) &" % os.path.basename(bench.hidplay))
    until(lambda: "hidraw0" in guest.run("ls -l /proc/[0-9]*/fd; true"), "reader of /dev/hidraw0")
    it = Printed(lambda: guest.run("cat /tmp/played").splitlines())
    inputs(bench, it, KEYS)
    guest.qmp.hold("b")
    it.expect("down 07:05")
    guest.qmp.ask("device_del", id="live")
    it.expect("up 07:05")
    ended = until(lambda: guest.ran("cat /tmp/status")[1], "end of hidplay")
    summary, count = guest.run("cat /tmp/refused"), sum(len(events.split(", ")) for _, events in KEYS) + 2
    if ended != "status 0\n" or not summary.endswith(", events %d, refused 0\n" % count):
        raise Failed("hidplay ends with %sand tells %s, which has to be %d events" % (ended, summary, count))


def planted(bench):
    """Whether the fault of each line of PLANTED is listed, of the mouse's events that hidattach printed."""
    with attached(bench, "planted-mouse", POINTER) as it:
        bench.guest.qmp.point_with("mouse")
        for line, events, spoiled in PLANTED:
            bench.guest.qmp.do(line)
            try:
                it.expect(events, spoil=lambda have, text=spoiled: have if text is None else ["0 " + event for event in text.split(", ") if event])
                yield line, spoiled, False
            except Failed:
                yield line, spoiled, True


SCENES = [keyboard, mouse, tablet, gadget, refused, unplugged]
