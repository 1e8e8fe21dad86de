"""Devices of a script, which hidserve or hidlab serves and a real Linux imports: each scene has its script and, written by hand, what evdev
has to tell of it.

A step of a script waits until its device is asked for a report; then the frames of BEGIN pass, in which the guest opens what the
kernel made of the device. The order of events in a report is that of Linux' hid-input.c and input-mt.c, 6.1.
"""
import contextlib
import subprocess
import time

from usbip_guest import HOST, Failed, Starved, folder, free_port, shown, until

KEYBOARD = ("keyboard 05 01 09 06 A1 01 05 07 19 E0 29 E7 15 00 25 01 75 01 95 08 81 02 95 01 75 08 81 01 95 05 75 01 05 08 19 01 29 05 91 02 "
            "95 01 75 03 91 01 95 06 75 08 15 00 25 65 05 07 19 00 29 65 81 00 C0")
MOUSE = ("mouse 05 01 09 02 A1 01 09 01 A1 00 05 09 19 01 29 03 15 00 25 01 95 03 75 01 81 02 95 01 75 05 81 01 05 01 09 30 09 31 15 81 "
         "25 7F 75 08 95 02 81 06 C0 C0")
# A touch screen of two fingers, each with Tip Switch, Contact ID, X and Y up to 4095; then Contact Count. Feature report 2 has
# Contact Count Maximum, and 3 has 255 bytes, 256 with its ID.
FINGER = "05 0D 09 22 A1 02 09 42 25 01 75 01 95 01 81 02 95 07 81 03 09 51 25 7F 75 08 95 01 81 02 05 01 26 FF 0F 75 10 09 30 09 31 95 02 81 02 C0 "
TOUCH = ("plain 05 0D 09 04 A1 01 85 01 15 00 " + 2 * FINGER + "05 0D 09 54 25 02 75 08 95 01 81 02 85 02 09 55 B1 02 "
         "06 00 FF 85 03 09 C4 26 FF 00 75 08 95 FF B1 02 C0")
# Report 1 is a mouse's, report 2 a keyboard's, with LEDs in Output report 2; Feature report 3 has four bytes of the vendor's.
NUMBERED = ("plain 05 01 09 02 A1 01 85 01 09 01 A1 00 05 09 19 01 29 03 15 00 25 01 95 03 75 01 81 02 95 01 75 05 81 01 05 01 09 30 09 31 15 81 "
            "25 7F 75 08 95 02 81 06 C0 C0 05 01 09 06 A1 01 85 02 95 06 75 08 15 00 25 65 05 07 19 00 29 65 81 00 95 05 75 01 05 08 19 01 29 05 "
            "91 02 95 01 75 03 91 01 C0 06 00 FF 09 01 A1 01 85 03 09 02 15 00 26 FF 00 75 08 95 04 B1 02 C0")
# A hundred keys at a time: reports of 100 bytes.
LONG = "plain 05 01 09 06 A1 01 05 07 19 00 29 FF 15 00 26 FF 00 75 08 95 64 81 00 C0"

# Keys by their usage, from 07:04 on (HUT 10), with Linux' codes (input-event-codes.h); 07:32 has the code of 07:31.
KEYS = ("A 30 B 48 C 46 D 32 E 18 F 33 G 34 H 35 I 23 J 36 K 37 L 38 M 50 N 49 O 24 P 25 Q 16 R 19 S 31 T 20 U 22 V 47 W 17 X 45 Y 21 Z 44 "
        "1 2 2 3 3 4 4 5 5 6 6 7 7 8 8 9 9 10 0 11 ENTER 28 ESC 1 BACKSPACE 14 TAB 15 SPACE 57 MINUS 12 EQUAL 13 LEFTBRACE 26 RIGHTBRACE 27 "
        "BACKSLASH 43 BACKSLASH 43 SEMICOLON 39 APOSTROPHE 40 GRAVE 41 COMMA 51 DOT 52 SLASH 53 CAPSLOCK 58 F1 59 F2 60 F3 61 F4 62 F5 63 "
        "F6 64 F7 65 F8 66 F9 67 F10 68 F11 87 F12 88").split()
USAGES = {0x04 + i: name for i, name in enumerate(KEYS[::2])}
NAMES = {(1, int(code)): "KEY_" + name for name, code in zip(KEYS[::2], KEYS[1::2])}
NAMES |= {(1, 42): "KEY_LEFTSHIFT", (1, 0x110): "BTN_LEFT", (1, 0x111): "BTN_RIGHT", (1, 0x112): "BTN_MIDDLE", (1, 0x14A): "BTN_TOUCH",
          (2, 0): "REL_X", (2, 1): "REL_Y", (3, 0): "ABS_X", (3, 1): "ABS_Y", (3, 0x2F): "SLOT", (3, 0x35): "MT_X", (3, 0x36): "MT_Y",
          (3, 0x39): "TRACKING_ID", (0, 3): "SYN_DROPPED"}
CAPS_LOCK, NUM_LOCK = 1, 0  # LED_CAPSL and LED_NUML
BEGIN = "frame 2000"
DROPPED = "SYN_DROPPED 0"
PATIENCE = 60  # seconds, in which an event has to come
WAIT = 0.4  # seconds, in which nothing more may come
# Faults that are planted in a script: a part of it, its events, and what the script says in place of that; the last part has no fault.
# Between them F12 is pressed, so that each part is known by its place.
PLANTED = [("press 1 07:06, release 1 07:06", "KEY_C 1, KEY_C 0", "press 1 07:06"),
           ("press 1 07:07, release 1 07:07", "KEY_D 1, KEY_D 0", "press 1 07:07, release 1 07:07, press 1 07:07, release 1 07:07"),
           ("press 1 07:08, press 1 07:09", "KEY_E 1, KEY_F 1", "press 1 07:09, press 1 07:08"),
           ("move 1 01:30 5", "REL_X 5", "move 1 01:30 6"),
           ("press 1 09:01, release 1 09:01", "BTN_LEFT 1, BTN_LEFT 0", "press 1 09:02, release 1 09:02"),
           ("press 1 07:0A, release 1 07:0A", "KEY_G 1, KEY_G 0", None)]
BETWEEN, BETWEEN_EVENTS = ["press 1 07:45", "release 1 07:45"], ["KEY_F12 1", "KEY_F12 0"]
# Events that Linux dropped: what the guest tells, in the lines of tools/c/usbguest.c, each time that a scene is played in which A and
# then B are pressed and released; and whether that has to be listed.
A_AND_B = "KEY_A 1, KEY_A 0, KEY_B 1, KEY_B 0"
FINE = "1 1 30 1 100, 1 1 30 0 200, 1 1 48 1 300, 1 1 48 0 400"
DROPS = [("no event is dropped", [FINE], False),
         ("events are dropped after `KEY_A 1`, and then none", ["1 1 30 1 100, 1 0 3 0 400", FINE], False),
         ("a release is lost and a press doubled before the drop, and then all is fine",
          2 * ["1 1 30 1 100, 1 1 30 1 200, 1 1 48 1 300, 1 0 3 0 400"] + [FINE], True),
         ("more comes than the script has, and is dropped", [FINE + ", 1 0 3 0 500", FINE], True),
         ("events are dropped each time", 3 * ["1 1 30 1 100, 1 0 3 0 400"], True),
         ("events of a device are dropped, and meanwhile comes one of another", ["1 1 30 1 100, 2 1 48 1 300, 1 0 3 0 400", FINE], False),
         ("one of another device comes too early, and then events are dropped", ["2 1 48 1 50, 1 1 30 1 100, 1 0 3 0 400", FINE], True)]


def told(lines):
    """The events of what the guest tells, as `KEY_A 1`, in the order of their times. Where Linux dropped some, those before them, and
    then DROPPED: of the node that has it, all before it are there, and of no other is one missing up to the last of these."""
    events = sorted((list(map(int, line.split())) for line in lines if line[0].isdigit()), key=lambda event: event[4])
    names = ["%s %d" % (NAMES.get((kind, code), "%d:%d" % (kind, code)), value) for _, kind, code, value, _ in events]
    whole = [max((n + 1 for n in range(at) if events[n][0] == events[at][0]), default=0)
             for at, name in enumerate(names) if name == DROPPED]
    return names[:min(whole)] + [DROPPED] if whole else names


def undropped(have):
    """The events before those that Linux dropped, and whether it dropped any."""
    is_dropped = have[-1:] == [DROPPED]
    return have[:-1] if is_dropped else have, is_dropped


def compare(have, want):
    """Events are as they have to be. Where Linux dropped some, those before them are, and not all came yet: then this is Starved."""
    known, is_dropped = undropped(have)
    if known != want[:len(known)] or (len(known) < len(want)) != is_dropped:
        at = next((n for n, pair in enumerate(zip(known, want)) if pair[0] != pair[1]), min(len(known), len(want)))
        raise Failed("event %d of %d: evdev tells %s, and the script says %s" % (at + 1, len(want), have[at:at + 8], want[at:at + 8]))
    if is_dropped:
        raise Starved("SYN_DROPPED after %d of %d events" % (len(known), len(want)))


class Served:
    """A device that is served, and imported by attach."""

    def __init__(self, bench, name, script, program=None):
        self.guest, self.place = bench.guest, folder(bench.work, name)
        self.script = self.place / "script"
        self.script.write_text(script)
        self.listens, self.began, self.taken, self.imports = free_port(), 0, 0, 0
        run = self.place / "run"
        run.write_text("#!/bin/sh\n%s '%s'\necho status $? >&2\n" % (program or "'%s'" % bench.hidserve, self.script))
        run.chmod(0o755)
        with open(self.place / "told", "w", encoding="utf8") as errors:
            self.server = subprocess.Popen(["socat", "TCP-LISTEN:%d,bind=127.0.0.1,reuseaddr,fork,nodelay,nonblock" % self.listens,
                                            "EXEC:%s,nofork" % run], stdin=subprocess.DEVNULL, stderr=errors)
        until(self.is_listening, "server")

    def is_listening(self):
        return any(" 0100007F:%04X 00000000:0000 0A " % self.listens in line for line in open("/proc/net/tcp", encoding="utf8"))

    def usbip(self, words):
        return self.guest.ran("usbip --tcp-port %d %s" % (self.listens, words))

    def attach(self, busid="1-1"):
        """Debian's usbip imports the device, and its input devices are opened."""
        self.began = self.taken = self.guest.place()
        self.imports += 1
        self.guest.run("usbip --tcp-port %d attach -r %s -b %s" % (self.listens, HOST, busid))
        until(self.node, "event node")
        return self

    def node(self):
        lines = self.guest.watched(self.began)
        return next(("/dev/input/event" + line.split()[1] for line in reversed(lines) if line.startswith("node ")), None)

    def wait_gone(self):
        """Until the event node is gone. The kernel lets go of what is held, which its readers may miss."""
        until(lambda: any(line.startswith("gone ") for line in self.guest.watched(self.taken)), "end of the event node")
        have = self.events()
        if have:
            compare(have, ["KEY_A 0"])

    def detach(self):
        """The guest detaches the device: hidserve ends with status 0, as after each import before."""
        self.guest.run("usbip detach -p 00")
        want = self.imports * ["status 0"]
        until(lambda: [line for line in self.lines() if line.startswith("status ")] == want,
              "end of hidserve with status 0: it tells %s" % self.lines())

    def expect(self, text):
        """The next events are these, and no more come."""
        want = [] if not text else text.split(", ") if isinstance(text, str) else text
        end = time.monotonic() + PATIENCE + len(want) / 20
        have = self.events()
        while len(have) < len(want) and DROPPED not in have and time.monotonic() < end:
            time.sleep(0.05)
            have = self.events()
        time.sleep(WAIT)
        lines, self.taken = self.guest.told_since(self.taken)
        compare(told(lines), want)

    def events(self):
        return told(self.guest.watched(self.taken))

    def events_of(self, count):
        """The events, once as many came, or some were dropped; else nothing."""
        have = self.events()
        return have if len(have) >= count or DROPPED in have else None

    def expect_lines(self, *want):
        """What hidserve tells is this, from its start on."""
        until(lambda: len(self.lines()) >= len(want), "line of hidserve: it tells %s" % self.lines())
        if self.lines() != list(want):
            raise Failed("hidserve tells %s, and it has to tell %s" % (self.lines(), list(want)))

    def lines(self):
        return shown(self.place / "told")

    def expect_printed(self, line, want, status=0):
        """What a line of the guest's shell prints."""
        have = self.guest.ran(line)
        if have != (status, want + "\n" * bool(want)):
            raise Failed("in the guest `%s` gives %s, and has to give %s" % (line, have, (status, want)))

    def hidraw(self, words, want="", status=0):
        self.expect_printed("cd /sys/bus/hid/devices; usbguest hidraw /dev/$(basename 0003:FFFF:*/hidraw/*) " + words, want, status)

    def usbfs(self, words, want="", status=0):
        find = "cd /sys/bus/usb/devices; d=$(dirname $(grep -l ffff */idVendor)); n=$(printf /dev/bus/usb/%03d/%03d $(cat $d/busnum $d/devnum)); "
        self.expect_printed(find + "usbguest usbfs $n " + words, want, status)

    def end(self):
        self.server.kill()
        self.server.wait()


@contextlib.contextmanager
def served(bench, name, script, program=None):
    """A device that is served, imported and watched until it is detached; its server ends by itself then, with status 0."""
    it = Served(bench, name, script, program)
    try:
        yield it.attach()
        it.detach()
    finally:
        for port in ("00", "01"):
            it.guest.ran("usbip detach -p " + port)
        it.end()


def device(text, *lines):
    """The script of a device, whose changes begin once it was asked for a report and opened."""
    usage = "09:01" if text.startswith("mouse") or text == NUMBERED else "0D:42" if text == TOUCH else "07:04"
    return "\n".join(["device ready " + text, "release 1 " + usage, BEGIN, *lines]) + "\n"


def steps(word, usages):
    return ["%s 1 07:%02X" % (word, usage) for usage in usages]


def listed(bench):
    """Debian's usbip lists what the script has, and is refused what it doesn't have."""
    it = Served(bench, "listed", "device ready %s\ndevice ready %s\n" % (KEYBOARD, MOUSE))
    try:
        status, text = it.usbip("list -r %s" % HOST)
        for want in ("1-1: ", "1-2: ", "(ffff:0001)", "(03/01/01)", "(03/01/02)"):
            if status or want not in text:
                raise Failed("`usbip list -r` has no %s: %s" % (want, text))
        status, text = it.usbip("attach -r %s -b 1-3" % HOST)
        if not status:
            raise Failed("`usbip attach -b 1-3` isn't refused: %s" % text)
    finally:
        it.end()


def keyboard(bench):
    """Keys, modifiers, and the seventh key, by which the keyboard rolls over: keys stay, and the modifier is released."""
    script = device(KEYBOARD, "press 1 07:E1", *steps("press", range(4, 6)), "release 1 07:05", *steps("press", range(5, 11)),
                    "release 1 07:E1", *steps("release", range(4, 11)))
    with served(bench, "keyboard", script) as it:
        it.expect("KEY_LEFTSHIFT 1, KEY_A 1, KEY_B 1, KEY_B 0, KEY_B 1, KEY_C 1, KEY_D 1, KEY_E 1, KEY_F 1, KEY_LEFTSHIFT 0, KEY_A 0, KEY_G 1, "
                  "KEY_B 0, KEY_C 0, KEY_D 0, KEY_E 0, KEY_F 0, KEY_G 0")


def leds(bench):
    """LEDs that evdev and hidraw set, and reports that hidraw reads while a key is held."""
    with served(bench, "leds", device(KEYBOARD, "press 1 07:04", "frame 5000", "release 1 07:04")) as it:
        it.expect("KEY_A 1")
        it.hidraw("input 0 9", "00 00 00 04 00 00 00 00 00")
        it.hidraw("feature 0 9", "feature: Broken pipe", 1)
        for led, value in ((CAPS_LOCK, 1), (NUM_LOCK, 1), (CAPS_LOCK, 0), (NUM_LOCK, 0)):
            it.expect_printed("usbguest led %s %d %d; sleep 0.2" % (it.node(), led, value), "")
        it.hidraw("output 00 1F")
        it.expect_lines(*["1 output 0 " + word for word in "00 02 03 01 00 1F".split()])
        it.expect("KEY_A 0")


def halted(bench):
    """The device halts its endpoint: Linux clears the halt, and no key is lost."""
    lines = ["press 1 07:04", "halt 1", "release 1 07:04", "press 1 07:05", "halt 1", "halt 1", "release 1 07:05"]
    with served(bench, "halted", device(KEYBOARD, *lines)) as it:
        it.expect("KEY_A 1, KEY_A 0, KEY_B 1, KEY_B 0")


def reset(bench):
    """USBDEVFS_RESET while a key is held: it stays held, and is released once. A device that resets itself tells nothing more until
    the host resets it."""
    script = device(KEYBOARD, "press 1 07:04", "frame 4000", "release 1 07:04", "press 1 07:05", "release 1 07:05", "reset 1",
                    "press 1 07:06", "release 1 07:06")
    with served(bench, "reset", script) as it:
        it.expect("KEY_A 1")
        it.usbfs("reset")
        it.expect("KEY_A 0, KEY_B 1, KEY_B 0")
        it.usbfs("reset")
        it.expect("KEY_C 1, KEY_C 0")


def unbound(bench):
    """usbhid is unbound while a key is held, and the endpoint halted. When usbhid is bound again, it clears the halt, and the device's
    next report has the key."""
    script = device(KEYBOARD, "press 1 07:04", "frame 8000", "press 1 07:05", "release 1 07:04", "release 1 07:05")
    with served(bench, "unbound", script) as it:
        it.expect("KEY_A 1")
        interface = it.guest.run("cd /sys/bus/usb/drivers/usbhid; grep -l ffff */../idVendor").split("/")[0]
        it.guest.run("echo %s > /sys/bus/usb/drivers/usbhid/unbind" % interface)
        it.wait_gone()
        it.usbfs("control 82 00 00 00 81 00 02 00", "00 00")
        it.usbfs("control 02 03 00 00 81 00 00 00")
        it.usbfs("control 82 00 00 00 81 00 02 00", "01 00")
        it.began = it.taken = it.guest.place()
        it.guest.run("echo %s > /sys/bus/usb/drivers/usbhid/bind" % interface)
        until(it.node, "event node")
        it.expect("KEY_A 1, KEY_B 1, KEY_A 0, KEY_B 0")


def detached(bench):
    """A device is detached while a key is held, and imported again: its script begins again."""
    with served(bench, "detached", device(KEYBOARD, "press 1 07:04", "frame 3000", "release 1 07:04")) as it:
        it.expect("KEY_A 1")
        it.detach()
        it.wait_gone()
        it.attach()
        it.expect("KEY_A 1, KEY_A 0")


def interrupted(bench):
    """A device is detached in the middle of a row of events, and imported again: the row begins again."""
    row, events = 1000 * ["press 1 07:04", "release 1 07:04"], 1000 * ["KEY_A 1", "KEY_A 0"]
    with served(bench, "interrupted", device(KEYBOARD, *row)) as it:
        for is_first in (True, False):
            until(lambda: it.events_of(20), "row of events")
            if is_first:
                it.detach()
            have = it.events()
            compare(have, events[:len(have)])
            if is_first:
                it.attach()


def both(bench):
    """Two devices of a script at once, each with its own connection, its own hidserve and its own events."""
    lines = ["device ready " + KEYBOARD, "device ready " + MOUSE, "release 1 07:04", "release 2 09:01", "frame 4000",
             "press 1 07:04", "press 2 09:01", "move 2 01:30 5", "release 1 07:04", "release 2 09:01"]
    with served(bench, "both", "\n".join(lines) + "\n") as it:
        status, text = it.usbip("attach -r %s -b 1-2" % HOST)
        it.imports += 1
        if status:
            raise Failed("`usbip attach -b 1-2` is refused: %s" % text)
        until(lambda: it.events_of(5), "event of both devices")
        time.sleep(WAIT)
        have, is_dropped = undropped(it.events())
        keys = [event for event in have if event.startswith("KEY_")]
        others = [event for event in have if event not in keys]
        for part, want in ((keys, ["KEY_A 1", "KEY_A 0"]), (others, ["BTN_LEFT 1", "REL_X 5", "BTN_LEFT 0"])):
            compare(part, want[:len(part)] if is_dropped else want)
        if is_dropped:
            raise Starved("SYN_DROPPED after %s" % have)
        it.guest.run("usbip detach -p 01")


def mouse(bench):
    """Buttons and motions, one of them over three reports."""
    script = device(MOUSE, "press 1 09:01", "move 1 01:30 5", "move 1 01:31 -5", "move 1 01:30 300", "frame 1000", "release 1 09:01",
                    "press 1 09:02", "press 1 09:03", "move 1 01:31 -127", "release 1 09:02", "release 1 09:03")
    with served(bench, "mouse", script) as it:
        it.expect("BTN_LEFT 1, REL_X 5, REL_Y -5, REL_X 127, REL_X 127, REL_X 46, BTN_LEFT 0, BTN_RIGHT 1, BTN_MIDDLE 1, REL_Y -127, "
                  "BTN_RIGHT 0, BTN_MIDDLE 0")


def touch(bench):
    """A finger on a touch screen, by Linux' own driver for these (hid-multitouch); Feature reports of up to 256 bytes."""
    script = device(TOUCH, "set 1 0D:54 1", "set 1 01:30 100", "set 1 01:31 4095", "press 1 0D:42", "set 1 01:30 101", "set 1 01:31 0",
                    "release 1 0D:42")
    with served(bench, "touch", script) as it:
        it.expect("TRACKING_ID 0, MT_X 100, MT_Y 4095, BTN_TOUCH 1, ABS_X 100, ABS_Y 4095, MT_X 101, ABS_X 101, MT_Y 0, ABS_Y 0, "
                  "TRACKING_ID -1, BTN_TOUCH 0")
        vendor = " ".join("%02X" % (n % 256) for n in range(255))
        it.hidraw("feature 3 256", "03" + 255 * " 00")
        it.hidraw("set-feature 03 " + vendor)
        it.hidraw("feature 3 256", "03 " + vendor)


def numbered(bench):
    """Numbered reports: a mouse's and a keyboard's, and those that hidraw reads and sets by their ID."""
    script = device(NUMBERED, "press 1 09:01", "move 1 01:30 5", "press 1 07:04", "release 1 09:01", "move 1 01:31 -5", "release 1 07:04")
    with served(bench, "numbered", script) as it:
        it.expect("BTN_LEFT 1, REL_X 5, KEY_A 1, BTN_LEFT 0, REL_Y -5, KEY_A 0")
        it.hidraw("feature 3 5", "03 00 00 00 00")
        it.hidraw("set-feature 03 01 02 03 04")
        it.hidraw("feature 3 64", "03 01 02 03 04")
        it.hidraw("input 1 64", "01 00 00 00")
        it.hidraw("input 2 64", "02 00 00 00 00 00 00")
        it.hidraw("input 9 64", "input: Broken pipe", 1)
        it.hidraw("output 02 01")
        until(lambda: "1 output 2 01" in it.lines(), "line 1 output 2 01")


def long(bench):
    """65 keys at once, in reports of 100 bytes, which cross in two packets."""
    usages = [usage for usage in USAGES if usage != 0x32]
    with served(bench, "long", device(LONG, *steps("press", usages), "frame 5000", *steps("release", usages))) as it:
        it.expect(["KEY_%s 1" % USAGES[usage] for usage in usages])
        it.hidraw("input 0 101", " ".join(["00"] + ["%02X" % usage for usage in usages] + ["00"] * (100 - len(usages))))
        it.expect(["KEY_%s 0" % USAGES[usage] for usage in usages])


def many(bench):
    """10,000 events in a row, or as many as are asked for: none is lost, doubled or left stuck."""
    usages = [4 + n * 7 % 26 for n in range(bench.events // 2)]
    lines = ["%s 1 07:%02X" % (word, usage) for usage in usages for word in ("press", "release")]
    with served(bench, "many", device(KEYBOARD, *lines)) as it:
        it.expect(["KEY_%s %d" % (USAGES[usage], value) for usage in usages for value in (1, 0)])


def parts_of(events):
    """Events in parts, between which F12 is pressed."""
    parts = [[]]
    for event in events:
        if event == BETWEEN_EVENTS[1]:
            parts.append([])
        elif event != BETWEEN_EVENTS[0]:
            parts[-1].append(event)
    return parts[:-1]


def planted(bench):
    """Whether the fault of each part of PLANTED is listed, in one script."""
    lines = [line for said, _, spoiled in PLANTED for line in [*(spoiled or said).split(", "), *BETWEEN]]
    with served(bench, "planted", device(NUMBERED, *lines)) as it:
        until(lambda: len(parts_of(it.events())) == len(PLANTED) or DROPPED in it.events(), "end of the script", PATIENCE)
        have, is_dropped = undropped(it.events())
        if is_dropped:
            raise Starved("SYN_DROPPED after %s" % have)
        parts = parts_of(have)
    for have, (said, want, spoiled) in zip(parts, PLANTED):
        try:
            compare(have, want.split(", "))
            yield said, spoiled, False
        except Failed:
            yield said, spoiled, True


def typed(bench):
    """A sentence that hidlab types, each key once, and an LED that it waits for."""
    lines = ['type 1 "Hello, Linux. Bookkeeper"', "expect 1 output 0 00", "click 1 Keyboard_Caps_Lock", "expect 1 output 0 02", "click 1 Keyboard_Return"]
    names = "H E L L O COMMA SPACE L I N U X DOT SPACE B O O K K E E P E R".split()
    with served(bench, "typed", device(KEYBOARD, *lines), "'%s' --usbip" % bench.hidlab) as it:
        keys = []
        for place, name in enumerate(names):
            shift = place in (0, 7, 14)
            keys += ["KEY_LEFTSHIFT 1"] * shift + ["KEY_%s 1" % name, "KEY_%s 0" % name] + ["KEY_LEFTSHIFT 0"] * shift
        it.expect([*keys, "KEY_CAPSLOCK 1", "KEY_CAPSLOCK 0"])
        it.expect_printed("usbguest led %s %d 1" % (it.node(), CAPS_LOCK), "")
        it.expect("KEY_ENTER 1, KEY_ENTER 0")


def unmet(bench):
    """An LED that Linux doesn't set: hidlab ends with status 4 after ten seconds, and its keyboard is unplugged."""
    it = Served(bench, "unmet", device(KEYBOARD, "click 1 07:04", "expect 1 output 0 1F", "click 1 07:05"), "'%s' --usbip" % bench.hidlab)
    try:
        it.attach()
        it.expect("KEY_A 1, KEY_A 0")
        it.wait_gone()
        it.expect_lines("%s:5: X13: expected: 1 output 0 1F, found: 1 output 0 00" % it.script, "status 4")
    finally:
        it.guest.ran("usbip detach -p 00")
        it.end()


SCENES = [listed, keyboard, typed, unmet, leds, halted, reset, unbound, detached, interrupted, both, mouse, touch, numbered, long, many]
