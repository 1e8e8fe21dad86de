"""hidraw.py DESCRIPTOR [LIBRARY HEADER]: hidraw.c in Python. Each read of standard input gives a report, as those of /dev/hidraw0 do.
It ends as hidraw.c does.
"""
import contextlib
import errno
import os
import sys

from hidstack import Library, Reader, Refused

KINDS = ["up", "down", "value", "null", "motion", "dropped"]


def fail(what, why):
    print(f"hidraw: {what}: {why}", file=sys.stderr)
    sys.exit(2)


@contextlib.contextmanager
def reading_or_writing(what):
    try:
        yield
    except OSError as error:
        fail(what, error.strerror)


def show(c, events):
    for event in events:
        name = c.name(event.page, event.id)
        line = f"{KINDS[event.kind]} {event.page:02X}:{event.id:02X} {event.value}{' ' + name if name else ''}\n"
        with reading_or_writing("standard output"):
            os.write(1, line.encode())  # (sys.stdout would write again at the end what it couldn't write)


def next_report():
    """The bytes of the next report; none where the input ends or the device is unplugged."""
    with reading_or_writing("standard input"):
        try:
            return os.read(0, 16384)
        except OSError as error:
            if error.errno not in (errno.EIO, errno.ENODEV):
                raise
            return b""


def play(c, descriptor):
    status = 0
    with Reader(c, descriptor) as device:
        while report := next_report():
            try:
                show(c, device.feed(report))
            except Refused as why:
                text = "a report is too short" if why.args[0] == c.SHORT else "no report of the device"
                print(f"hidraw: {text}: {len(report)} bytes", file=sys.stderr)
                status = 1
        show(c, device.release())
    return status


def main():
    if len(sys.argv) not in (2, 4):
        print("usage: hidraw.py DESCRIPTOR [LIBRARY HEADER] < /dev/hidraw0", file=sys.stderr)
        sys.exit(2)
    with reading_or_writing(sys.argv[1]), open(sys.argv[1], "rb") as file:
        descriptor = file.read(4097)  # of more bytes any descriptor is refused (L2)
    try:
        sys.exit(play(Library(*sys.argv[2:]), descriptor))
    except Refused as why:
        sys.exit(f"refused: {why}")
    except MemoryError:
        fail("memory", "there is no more")


if __name__ == "__main__":
    main()
