"""The commands of docs/USBIP.md, as they stand there, carried out in the guest: a scripted keyboard is plugged in, and a real one is
read. `HOST` is the guest itself, `sudo` runs the words after it, and the modules are loaded before.
"""
import re
import time

import linux_guest
from usbip_attached import KBD
from usbip_guest import Failed, shown, until
from usbip_served import DROPPED, compare, told

PAGE = linux_guest.ROOT / "docs/USBIP.md"


def commands(title, count):
    """The commands of a section's first example: they stand after `$` or `#`."""
    section = re.search(r"^## %s\n(.*?)(?=^## |\Z)" % title, PAGE.read_text(), re.M | re.S)
    block = section and re.search(r"```text\n(.*?)```", section[1], re.S)
    found = [line[2:] for line in block[1].splitlines() if line[:2] in ("$ ", "# ")] if block else []
    if len(found) != count:
        raise Failed("%s has %d commands under `%s`, and not %d" % (PAGE.name, len(found), title, count))
    return found


def prepare(guest):
    """What a machine has on which the page is followed: sudo, modules for modprobe, a folder; and no usbipd yet."""
    guest.run("printf '#!/bin/sh\\nexec \"$@\"\\n' > /bin/sudo; chmod +x /bin/sudo")
    guest.run("mkdir -p /lib/modules; ln -sfn /modules /lib/modules/$(uname -r); depmod; true")
    guest.run("mkdir -p /tmp/page; killall usbipd; true")


def copy_script(guest, command):
    """Puts the script that a command names to its place in the guest."""
    path = re.search(r"\S+\.script", command.replace("'", " "))[0]
    guest.run("mkdir -p /tmp/page/$(dirname %s); rm -f /tmp/page/%s" % (path, path))
    for line in shown(linux_guest.ROOT / path):
        guest.run("echo '%s' >> /tmp/page/%s" % (line, path))


def plugged(bench):
    """A scripted keyboard, plugged in by the page's three commands, types `hi`."""
    guest, (serve, *attach) = bench.guest, commands("A scripted keyboard on your machine", 3)
    prepare(guest)
    copy_script(guest, serve)
    guest.run("cd /tmp/page; %s > /tmp/page/told 2>&1 & echo $! > /tmp/page/pid" % serve)
    until(lambda: not guest.ran("netstat -ltn | grep -q :3240")[0], "listener at port 3240")
    began = guest.place()
    for line in attach:
        guest.run(line)
    want = ["KEY_H 1", "KEY_H 0", "KEY_I 1", "KEY_I 0"]
    until(lambda: len(told(guest.watched(began))) >= len(want) or DROPPED in told(guest.watched(began)), "event of the script")
    have = told(guest.watched(began))
    guest.run("usbip detach --port 00; kill $(cat /tmp/page/pid)")
    compare(have, want)


def read(bench):
    """A real keyboard, read by the page's three commands; its LEDs are set by the third."""
    guest, (export, attach, leds) = bench.guest, commands("To read a real device", 3)
    prepare(guest)
    if KBD in guest.devices():
        guest.qmp.ask("device_del", id="kbd")
        until(lambda: KBD not in guest.devices(), "end of the keyboard")
    guest.qmp.ask("device_add", driver="usb-kbd", bus="u.0", port="1", id="page")
    until(lambda: guest.devices().get(KBD) == "1-1", "keyboard 1-1")
    time.sleep(1)
    guest.run(export)
    guest.run("cd /tmp/page; %s > told 2>&1 &" % attach.replace("HOST", "127.0.0.1"))
    until(lambda: ": live" in guest.run("cat /tmp/page/told"), "live interface")
    guest.qmp.do("sendkey a")
    until(lambda: re.search(r"down 07:04.*\n.* up 07:04", guest.run("cat /tmp/page/events")), "event of the key")
    guest.run("cat /sys/kernel/debug/usb/usbmon/0u > /tmp/page/mon & echo $! > /tmp/page/pid")
    guest.run("cd /tmp/page; " + leds)
    until(lambda: not guest.ran("grep -q 's 21 09 0200 0000 0001 1 = 02' /tmp/page/mon")[0], "request for LEDs 02 in usbmon")
    guest.run("kill $(cat /tmp/page/pid); killall hidattach usbipd; true")
    guest.qmp.ask("device_del", id="page")


SCENES = [plugged, read]
