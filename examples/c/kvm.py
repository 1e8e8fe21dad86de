"""kvm.py [LIBRARY HEADER]: kvm.c in Python, a KVM switch: one keyboard for two machines. A Host reads the keyboard, and each machine sees
a boot keyboard, a Device. Scroll Lock goes to the other machine: what is held is let go first. The LEDs are those of the
machine in use.

So that the program runs anywhere, the keyboard is a virtual device too, and each machine is a host, which prints its events.
"""
import sys

from hidstack import Device, Host, Library

KEYS, LEDS, SCROLL_LOCK = 0x07, 0x08, 0x47  # pages of the HID Usage Tables, and the key that changes machines


def transfer(host, device):
    """Makes the control transfers that a host wants of a device: whether what it was asked for is done."""
    is_done, status = False, host.c.OK
    while status != host.c.MEMORY and (todo := host.todo()):
        status, moved = host.done(*device.control(*todo))
        is_done |= status == host.c.OK and moved.step == host.c.MOVE_ANSWERED
    return is_done


def poll_report(host, interface, device):
    """The events of the interrupt transfer that is due from a device to an interface, if one is."""
    outcome, report = device.report()
    return [] if outcome == device.c.NONE else host.report(interface, outcome, report)


class Kvm:
    def __init__(self, c):
        descriptor = c.text(c.boot_descriptor, c.BOOT_KEYBOARD)
        self.c, self.keyboard, self.active = c, Host(c), 0
        self.lit = 0  # the LEDs that the keyboard shows, LED 1 in the first bit
        self.asked = self.wanted = 0  # the LEDs of the report that is on its way to the keyboard, and which of them it lights
        self.machines = [Device(c, descriptor, 0x1209, 0x0001, 1, c.BOOT_KEYBOARD) for _ in range(2)]

    def change(self):
        """Lets go of all keys of the machine in use, and goes to the other."""
        self.machines[self.active].release_all()
        self.active = 1 - self.active

    def take(self, events):
        """Passes events to the machine in use. A key that a boot keyboard doesn't have goes nowhere."""
        calls = {self.c.DOWN: self.c.device_press, self.c.UP: self.c.device_release}
        for event in events:
            if (event.page, event.id) == (KEYS, SCROLL_LOCK):
                if event.kind == self.c.DOWN:
                    self.change()
            elif event.kind in calls:
                self.machines[self.active].change(calls[event.kind], event.page, event.id)

    def led(self, usage):
        """The place of the first interface that has this LED, and the element."""
        for interface, _ in enumerate(self.keyboard.interfaces()):
            if led := self.keyboard.find(interface, self.c.OUTPUT, LEDS, usage):
                return interface, led
        return None

    def ask_for_leds(self, interface, report_id, lit):
        """Asks an interface of the keyboard to take its report of this ID, with the LEDs of `lit`."""
        report = bytearray(self.keyboard.blank(interface, self.c.OUTPUT, report_id))
        room = (self.c.types["uint8_t"] * len(report)).from_buffer(report)
        self.asked, self.wanted = 0, lit
        for usage in range(1, 6):  # (a report may have them at other places than a boot keyboard's)
            found = self.led(usage)
            if found and (found[0], found[1].report) == (interface, report_id):
                self.c.put(found[1], room, len(report), lit >> usage - 1 & 1)
                self.asked |= 1 << usage - 1
        self.keyboard.ask(interface, self.c.SET_REPORT, self.c.OUTPUT, report_id, bytes(report))

    def pass_leds(self):
        """Asks the keyboard for the first LED that it doesn't show as the machine in use has it."""
        lit = self.machines[self.active].output(self.c.OUTPUT, 0)[0]  # its first bit is LED 1
        for usage in range(1, 6):
            found = self.led(usage) if (lit ^ self.lit) >> usage - 1 & 1 else None
            if found:
                return self.ask_for_leds(found[0], found[1].report, lit)
        return None

    def turn(self, keyboard):
        """What the keyboard has to say goes to the machine in use, and that one's LEDs to the keyboard."""
        if transfer(self.keyboard, keyboard):
            self.lit = self.lit & ~self.asked | self.wanted & self.asked
        for place, interface in enumerate(self.keyboard.interfaces()):
            if interface.state == self.c.INTERFACE_LIVE:
                self.take(poll_report(self.keyboard, place, keyboard))
        self.pass_leds()

    def unplug(self):
        """The keyboard is unplugged: what is held goes up, also in the machine."""
        self.take(self.keyboard.reset())
        self.lit = 0


# ---- That was the switch. From here on: what stands in for a desk, and what happens there ----

# a keyboard with Report IDs: modifiers, the keys up to F20, three LEDs after three bits of padding; two LEDs in a report of their own;
# and two volume keys
DESCRIPTOR = bytes.fromhex("05010906A1018501050719E029E7150025017501950881021904296F956C8102950481010508950391011901"
                           + "2903910295029101850319042905910295069101C0050C0901A101850209E909EA9502810295068101C0")


class Keyboard(Device):
    """A virtual keyboard whose cable loses the next report that is sent to it, where `loses` is true."""
    loses = False

    def control(self, setup, data):
        if self.loses and setup.request == self.c.SET_REPORT:
            self.loses = False
            return self.c.FAILED, b""
        return super().control(setup, data)


class Desk:
    def __init__(self, c):
        self.c, self.kvm, self.leds = c, Kvm(c), [0, 0]
        self.keyboard, self.machines = Keyboard(c, DESCRIPTOR, 0x1209, 0x0002, 10), [Host(c), Host(c)]

    def wait(self):
        """Some milliseconds pass: turns of the switch, and transfers of the machines, which print what comes to them."""
        for _ in range(5):
            self.kvm.turn(self.keyboard)
            for number, (host, device) in enumerate(zip(self.machines, self.kvm.machines), 1):
                transfer(host, device)
                for event in poll_report(host, 0, device):
                    print(f"  machine {number}: {self.c.name(event.page, event.id)} {'down' if event.kind == self.c.DOWN else 'up'}")
        reports = [self.keyboard.output(self.c.OUTPUT, report) for report in (1, 3)]
        if all(reports) and [report[1] for report in reports] != self.leds:
            self.leds = [report[1] for report in reports]
            print("  LEDs of the keyboard: {:02X} {:02X}".format(*self.leds))

    def finger(self, what, page, usage, call):
        print(what)
        self.keyboard.change(call, page, usage)
        self.wait()

    def light(self, what, machine, leds):
        """A machine lights LEDs of its keyboard: 1 Num Lock, 2 Caps Lock, 4 Scroll Lock, 16 Kana."""
        print(what)
        self.machines[machine].ask(0, self.c.SET_REPORT, self.c.OUTPUT, 0, bytes([leds]))
        self.wait()


def main(c):
    desk, down, up = Desk(c), c.device_press, c.device_release
    desk.wait()
    desk.finger("Shift goes down", KEYS, 0xE1, down)
    desk.finger("A goes down", KEYS, 0x04, down)
    desk.light("machine 1 lights Caps Lock", 0, 2)
    desk.finger("Scroll Lock goes down", KEYS, SCROLL_LOCK, down)
    desk.finger("Scroll Lock goes up", KEYS, SCROLL_LOCK, up)
    desk.finger("A goes up", KEYS, 0x04, up)
    desk.finger("B goes down", KEYS, 0x05, down)
    desk.finger("Volume Up goes down", 0x0C, 0xE9, down)
    desk.light("machine 2 lights Num Lock", 1, 1)
    desk.light("machine 1 lights Caps Lock and Scroll Lock", 0, 6)
    desk.finger("Scroll Lock goes down", KEYS, SCROLL_LOCK, down)
    desk.finger("C goes down", KEYS, 0x06, down)
    desk.keyboard.loses = True
    desk.light("machine 1 lights Num Lock and Kana, and a report to the keyboard is lost", 0, 17)
    print("the keyboard is unplugged")
    desk.keyboard.close()
    desk.kvm.unplug()
    desk.wait()
    for each in (desk.kvm.keyboard, *desk.kvm.machines, *desk.machines):
        each.close()


if __name__ == "__main__":
    main(Library(*sys.argv[1:]))
