"""Debian's Linux in QEMU, and recordings played into it.

fetch() downloads Debian's kernel, busybox and other packages by `apt-get download` into a folder and unpacks them there: nothing
is installed. play() boots that kernel with tools/c/uhidplay.c as its only program, and gives what it prints. A missing program is
reported as Missing, with the package to install.
"""
import pathlib
import shutil
import subprocess
import tempfile

ROOT = pathlib.Path(__file__).resolve().parents[2]
FOLDER = ROOT / "bin" / "linux"
UHID = ["hid/hid", "hid/uhid", "hid/hid-generic", "input/evdev"]
USB = ["usb/common/usb-common", "usb/core/usbcore", "usb/host/xhci-hcd", "usb/host/xhci-pci", "hid/hid", "hid/usbhid/usbhid",
       "hid/hid-generic", "input/evdev"]

# What the guest does before its own program; %s is that program.
INIT = """#!/bin/busybox sh
/bin/busybox mount -t devtmpfs d /dev
/bin/busybox mount -t sysfs s /sys
/bin/busybox mount -t debugfs f /sys/kernel/debug
for module in %s; do /bin/busybox insmod /modules/$module.ko; done
/bin/busybox stty -F /dev/ttyS1 raw
%s
/bin/busybox poweroff -f
"""
PLAYS = "cd /played; /bin/uhidplay * > /dev/ttyS1 2> /dev/ttyS0"


class Missing(Exception):
    """Something isn't here; the text says what, and what to install."""


def need(program, package):
    if not shutil.which(program):
        raise Missing("%s isn't here: apt-get install %s" % (program, package))


def ran(words, **how):
    done = subprocess.run(words, stdout=subprocess.PIPE, stderr=subprocess.STDOUT, text=True, check=False, **how)
    if done.returncode:
        raise Missing("`%s` ended with status %d:\n%s" % (" ".join(map(str, words)), done.returncode, done.stdout[-1000:]))
    return done.stdout


def kernel_package():
    """The package on which linux-image-amd64 depends, as linux-image-6.1.0-56-amd64."""
    asked = subprocess.run(["apt-cache", "depends", "linux-image-amd64"], stdout=subprocess.PIPE, stderr=subprocess.DEVNULL,
                           text=True, check=False)
    names = [line.split()[1] for line in asked.stdout.splitlines() if "Depends: linux-image-" in line]
    if not names:
        raise Missing("apt-cache knows no linux-image-amd64: apt-get update, with Debian's main among the sources")
    return names[0]


def kernel():
    """The kernel's file and its folder of modules, once they were fetched."""
    images, modules = (sorted(FOLDER.glob("root/" + path)) for path in ("boot/vmlinuz-*", "lib/modules/*"))
    return (images[-1], modules[-1]) if images and modules else None


def fetch(*more):
    """Downloads and unpacks what isn't there yet: kernel, busybox and more packages."""
    need("qemu-system-x86_64", "qemu-system-x86")
    need("gcc", "gcc libc6-dev")
    packages = [name for name in ("busybox-static", *more) if not (FOLDER / "root/usr/share/doc" / name).exists()]
    if kernel() and not packages:
        return
    need("apt-get", "apt, on Debian")
    need("dpkg", "dpkg, on Debian")
    FOLDER.mkdir(parents=True, exist_ok=True)
    for package in packages if kernel() else [kernel_package(), *packages]:
        print("fetching %s into %s" % (package, FOLDER.relative_to(ROOT)), flush=True)
        ran(["apt-get", "download", package], cwd=FOLDER)
        for archive in FOLDER.glob(package + "_*.deb"):
            ran(["dpkg", "-x", archive, FOLDER / "root"])
            archive.unlink()


def version():
    """What the kernel says that it is, as 6.1.192-2 (6.1.0-56-amd64)."""
    image, modules = kernel()
    words = subprocess.run(["strings", "-n", "20", image], stdout=subprocess.PIPE, text=True, check=False).stdout if shutil.which("strings") else ""
    said = [line for line in words.splitlines() if line.startswith(modules.name)]
    return said[0] if said else modules.name


def copy_program(program, folder):
    """Copies a program into bin, and the libraries that it loads to their places."""
    shutil.copy(program, folder / "bin")
    for line in ran(["ldd", program]).splitlines():
        if "not found" in line:
            raise Missing("%s needs %s, which isn't here" % (program, line.split()[0]))
        path = next((word for word in line.split() if word.startswith("/")), None)
        if path:
            place = folder / path[1:]
            place.parent.mkdir(parents=True, exist_ok=True)
            shutil.copy(path, place)


def pack(folder, into, modules, does, files=(), player="uhidplay", programs=()):
    """An initial file system of init, busybox, modules, a program of tools/c, the recordings and other programs."""
    root, place = FOLDER / "root", kernel()[1]
    for name in ("bin", "dev", "proc", "sys", "modules", "played"):
        (folder / name).mkdir(parents=True)
    shutil.copy(root / "bin/busybox", folder / "bin")
    ran(["gcc", "-O2", "-static", "-o", folder / "bin" / player, ROOT / "tools/c" / (player + ".c")])
    for program in programs:
        copy_program(program, folder)
    for name in modules:
        shutil.copy(place / "kernel/drivers" / (name + ".ko"), folder / "modules")
    for file in files:
        shutil.copy(file, folder / "played")
    init = folder / "init"
    init.write_text(INIT % (" ".join(pathlib.Path(name).name for name in modules), does))
    init.chmod(0o755)
    names = "\n".join(str(path.relative_to(folder)) for path in sorted(folder.rglob("*")))
    with open(into, "wb") as archive:
        subprocess.run([root / "bin/busybox", "cpio", "-o", "-H", "newc"], input=names.encode(), cwd=folder, stdout=archive,
                       stderr=subprocess.DEVNULL, check=True)


def command(work, *options):
    """The words that run the guest whose initial file system is work/initrd; it writes work/console and work/told. Beside much
    other work its timer is late, and Linux isn't to check it."""
    return ["nice", "qemu-system-x86_64", "-accel", "tcg", "-cpu", "max", "-m", "512", "-display", "none", "-no-reboot", "-nic", "none",
            "-kernel", kernel()[0], "-initrd", work / "initrd", "-serial", "file:%s" % (work / "console"),
            "-serial", "file:%s" % (work / "told"), "-append", "console=ttyS0 quiet panic=-1 no_timer_check", *options]


def broke_off(work):
    console = work / "console"
    text = console.read_text(errors="replace")[-2000:] if console.exists() else ""
    return Missing("the guest broke off; the end of its console is\n%s" % text)


def play(files, seconds=3600):
    """What the guest prints of these recordings, in the order of their names."""
    with tempfile.TemporaryDirectory() as work:
        work = pathlib.Path(work)
        pack(work / "root", work / "initrd", UHID, PLAYS, files)
        subprocess.run(command(work), stdin=subprocess.DEVNULL, stdout=subprocess.DEVNULL, stderr=subprocess.DEVNULL,
                       timeout=seconds, check=True)
        text = (work / "told").read_text(errors="replace")
        if not text.endswith("end\n"):
            raise broke_off(work)
        return text
