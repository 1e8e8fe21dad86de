"""What is typed and pointed at QEMU's keyboard, mouse and tablet by its monitor, and the events that this has to cause."""
import json
import re
import socket

# The commands for the monitor, and the events that they have to cause. A place of the tablet, of 0 to 32767 each way, goes by QMP:
# the monitor for people has no command for it.
KEYS = [("sendkey a", "down 07:04, up 07:04"), ("sendkey shift-b", "down 07:E1, down 07:05, up 07:05, up 07:E1"),
        ("sendkey ctrl-alt-f2", "down 07:E0, down 07:E2, down 07:3B, up 07:3B, up 07:E2, up 07:E0"),
        ("sendkey ret", "down 07:28, up 07:28"), ("sendkey kp_5", "down 07:5D, up 07:5D"), ("sendkey up", "down 07:52, up 07:52")]
MOTIONS = [("mouse_move 10 -5", "motion 01:30 10, motion 01:31 -5"), ("mouse_button 1", "down 09:01"), ("mouse_button 0", "up 09:01"),
           ("mouse_button 4", "down 09:03"), ("mouse_move -300 0", "motion 01:30 -127, motion 01:30 -127, motion 01:30 -46"),
           ("mouse_button 0", "up 09:03"), ("mouse_move 0 0 1", "motion 01:38 1")]
PLACES = [("place 16384 8191", "value 01:30 16384, value 01:31 8191"), ("mouse_button 2", "down 09:02"),
          ("place 16384 32767", "value 01:31 32767"), ("mouse_button 0", "up 09:02"), ("place 0 0", "value 01:30 0, value 01:31 0")]


class Qmp:
    """QEMU's monitor for programs, which also takes lines of the monitor for people."""

    def __init__(self, path):
        self.socket = socket.socket(socket.AF_UNIX)
        self.socket.connect(str(path))
        self.answers = self.socket.makefile()
        self.answers.readline()  # its greeting
        self.ask("qmp_capabilities")

    def ask(self, command, **arguments):
        self.socket.sendall((json.dumps({"execute": command, "arguments": arguments}) + "\n").encode())
        while True:
            answer = json.loads(self.answers.readline())
            if "error" in answer:
                raise RuntimeError(answer["error"])
            if "return" in answer:
                return answer["return"]

    def do(self, line):
        """A line of the tables, or another one of the monitor for people; what it prints."""
        words = line.split()
        if words[0] == "place":
            return self.send([{"type": "abs", "data": {"axis": axis, "value": int(value)}} for axis, value in zip("xy", words[1:])])
        return self.ask("human-monitor-command", **{"command-line": line})

    def send(self, events):
        return self.ask("input-send-event", events=events)

    def hold(self, key):
        """Presses a key, which stays pressed."""
        self.send([{"type": "key", "data": {"down": True, "key": {"type": "qcode", "data": key}}}])

    def point_with(self, device):
        """The mouse or the tablet has what is pointed from now on."""
        mice = re.findall(r"Mouse #(\d+): QEMU HID (\w+)", self.do("info mice"))
        self.do("mouse_set %s" % next(number for number, name in mice if name.lower() == device))
