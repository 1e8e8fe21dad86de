"""Debian's Linux in QEMU with both ends of USB/IP: its shell, its input events, its devices, and programs of this machine that
talk with it over QEMU's network.

The guest has QEMU's keyboard, mouse and tablet, and a gadget of three interfaces (make_gadget in GADGET). In it runs
tools/c/usbguest.c, which prints the events of the input devices.
"""
import pathlib
import re
import socket
import subprocess
import time

import linux_guest
from qemu_inputs import Qmp

MODULES = ["usb/common/usb-common", "usb/core/usbcore", "usb/host/uhci-hcd", "usb/host/xhci-hcd", "usb/host/xhci-pci", "usb/mon/usbmon",
           "hid/hid", "hid/usbhid/usbhid", "hid/hid-generic", "hid/hid-multitouch", "input/evdev", "usb/usbip/usbip-core",
           "usb/usbip/usbip-host", "usb/usbip/vhci-hcd", "net/ethernet/intel/e1000/e1000", "../fs/configfs/configfs",
           "usb/gadget/udc/udc-core", "usb/gadget/libcomposite", "usb/gadget/function/u_serial", "usb/gadget/function/usb_f_serial",
           "usb/gadget/function/usb_f_hid", "usb/gadget/udc/dummy_hcd"]
# The host's address in the guest, and the port of usbipd there.
HOST, PORT = "10.0.2.2", 3240
DEVICES = ["-device", "qemu-xhci,id=x", "-device", "usb-tablet,bus=x.0,id=tablet", "-device", "piix3-usb-uhci,id=u",
           "-device", "usb-mouse,bus=u.0,port=2,id=mouse", "-device", "usb-kbd,bus=u.0,port=1,id=kbd"]
# Lines are carried out as they come, one after another, each with what it prints and its status.
SHELL = """export PATH=/bin
/bin/busybox --install -s /bin
mkdir -p /tmp /run /var/run
mount -t proc p /proc
mount -t configfs c /sys/kernel/config
ip link set lo up
ip link set eth0 up
ip addr add 10.0.2.15/24 dev eth0
usbguest watch > /dev/ttyS1 &
stty -F /dev/ttyS2 raw -echo
exec 3<> /dev/ttyS2
echo ready >&3
while read -r line <&3; do
  (eval "$line") > /tmp/printed 2>&1 < /dev/null
  status=$?
  cat /tmp/printed >&3
  echo "ended $status" >&3
done"""


class Failed(Exception):
    """Something isn't as it has to be; the text says what."""


class Starved(Exception):
    """Linux dropped events before the guest's reader took them (SYN_DROPPED). Those that came before are as they have to be; of the
    others nothing is known."""


def free_port():
    with socket.socket() as taken:
        taken.bind(("127.0.0.1", 0))
        return taken.getsockname()[1]


def until(condition, what, seconds=60):
    """What the condition gives, once it gives something."""
    end = time.monotonic() + seconds
    while time.monotonic() < end:
        found = condition()
        if found:
            return found
        time.sleep(0.05)
    raise Failed("after %d seconds there is no %s" % (seconds, what))


class Guest:
    """A running guest; `with` ends it."""

    def __init__(self, work, programs):
        self.work, self.port, self.answers = work, free_port(), b""
        root = linux_guest.FOLDER / "root/usr/sbin"
        linux_guest.pack(work / "root", work / "initrd", MODULES, SHELL, player="usbguest",
                         programs=[root / "usbip", root / "usbipd", *programs])
        shell, monitor = work / "shell", work / "qmp"
        network = "user,id=n,hostfwd=tcp:127.0.0.1:%d-:%d" % (self.port, PORT)
        words = linux_guest.command(work, "-serial", "unix:%s,server=on,wait=off" % shell, "-qmp", "unix:%s,server=on,wait=off" % monitor,
                                    "-netdev", network, "-device", "e1000,netdev=n", *DEVICES)
        with open(work / "qemu", "w", encoding="utf8") as told:
            self.process = subprocess.Popen(words, stdin=subprocess.DEVNULL, stdout=told, stderr=told)
        try:
            until(lambda: shell.exists() and monitor.exists() or self.is_over(), "QEMU", 30)
            self.qmp = Qmp(monitor)
            self.shell = socket.socket(socket.AF_UNIX)
            self.shell.connect(str(shell))
            self.shell.settimeout(300)
            self.answer_up_to(b"ready\n")
        except BaseException:
            self.end()
            raise

    def __enter__(self):
        return self

    def __exit__(self, *_):
        self.end()

    def is_over(self):
        if self.process.poll() is not None:
            raise linux_guest.Missing("QEMU ended: %s" % (self.work / "qemu").read_text())

    def end(self):
        self.process.kill()
        self.process.wait()

    def answer_up_to(self, mark):
        """What the guest's shell wrote, up to a line."""
        while mark not in self.answers:
            try:
                came = self.shell.recv(65536)
            except TimeoutError:
                came = b""
            if not came:
                raise linux_guest.broke_off(self.work)
            self.answers += came.replace(b"\r", b"")
        text, self.answers = self.answers.split(mark, 1)
        return text.decode(errors="replace")

    def ran(self, line):
        """The status of a line of the shell, and what it printed."""
        self.shell.sendall(line.encode() + b"\n")
        text = self.answer_up_to(b"ended ")
        return int(self.answer_up_to(b"\n")), text

    def run(self, line):
        status, text = self.ran(line)
        if status:
            raise Failed("in the guest `%s` ends with status %d: %s" % (line, status, text.strip()))
        return text

    def told_since(self, since=0):
        """What was told of input devices from this place on, and the place after that, where the next events will stand."""
        data = (self.work / "told").read_bytes()[since:]
        end = data.rfind(b"\n") + 1
        return data[:end].decode().splitlines(), since + end

    def watched(self, since=0):
        return self.told_since(since)[0]

    def place(self):
        return self.told_since()[1]

    def devices(self):
        """The bus ID of each device by its product, hubs left out; the first of equal ones."""
        text = self.run("cd /sys/bus/usb/devices; for d in [0-9]*-*[0-9]; do [ -e $d/product ] && echo $d $(cat $d/product); done; true")
        found = [line.partition(" ") for line in text.splitlines()]
        return {product: busid for busid, _, product in reversed(found) if re.fullmatch("[-.0-9]+", busid) and not re.search("^$|[Hh]ub", product)}

    def export(self, busid):
        """usbipd exports the device from now on."""
        self.run("usbip bind -b %s" % busid)
        until(lambda: self.ran("cat /sys/bus/usb/devices/%s/usbip_status" % busid)[1].strip() == "1", "exported %s" % busid)


def shown(path):
    return path.read_text(errors="replace").splitlines() if path.exists() else []


def folder(base, name):
    """A folder of this name, which wasn't there."""
    place = pathlib.Path(base) / name
    place.mkdir()
    return place
