"""The rehearsal program: the modules of a tray and a channel in, the log of a station out. Its lines are those of docs/REHEARSAL.md."""
import re
from typing import NamedTuple

from model.frames import LONGEST_MESSAGE
from model.import_program import PASSED_OVER, form_of, log_lines
from model.lossy_channel import LossyChannel, WholeChannel
from model.rehearsed_ends import CLOSES, Device, Station
from model.script_line import hexadecimal

MODULE = b"([1-8]) ([0-9A-Fa-f]{8}) ((?:[0-9A-Fa-f]{2}){1,%d})" % LONGEST_MESSAGE
# A line that has none of these forms is "other".
FORMS = (("module", re.compile(MODULE)), ("channel", re.compile(b"channel ([0-9]+) ([0-9]+) ([0-9]+)"))) + PASSED_OVER
LONGEST_LINE = 2949
LARGEST_SEED = 4294967295
LARGEST_SHARE = 100
TURNS = 64000


class Module(NamedTuple):
    link_id: int
    message: bytes


class Tray:
    """What the lines gave so far: the modules by their sockets, and the channel."""

    def __init__(self):
        self.modules = {}
        self.channel = None

    def take(self, line):
        """Whether the line is accepted; one that is refused changes nothing."""
        form, parts = form_of(line, FORMS)
        if form in ("comment", "empty line"):
            return True
        if form == "other" or len(line) > LONGEST_LINE:
            return False
        return self.take_module(*parts) if form == "module" else self.take_channel(*map(int, parts))

    def take_module(self, digit, link_id_digits, message_digits):
        socket, link_id = int(digit), int(link_id_digits, 16)
        if socket in self.modules or link_id in [module.link_id for module in self.modules.values()]:
            return False
        self.modules[socket] = Module(link_id, bytes.fromhex(message_digits))
        return True

    def take_channel(self, seed, lost, repeated):
        if self.channel is not None or seed > LARGEST_SEED or max(lost, repeated) > LARGEST_SHARE:
            return False
        self.channel = LossyChannel(seed, lost, repeated)
        return True


class Rehearsal:
    """The two ends of each link of a tray, what is between them, and the lines of the log."""

    def __init__(self, modules, channel):
        self.sockets = sorted(modules)
        self.station = Station({socket: module.link_id for socket, module in modules.items()})
        self.devices = {socket: Device(socket, module.message) for socket, module in modules.items()}
        self.channel = channel
        self.log = []

    def run(self):
        """The lines from the first opening to the last Close."""
        for socket in self.sockets:
            self.station.open(socket)
            self.log.append("%d %08X" % (socket, self.station.link_ids[socket]))
        for _ in range(TURNS):
            if self.station.is_done():
                break
            self.turn(self.channel.turn())
        for _ in range(CLOSES):
            for socket in self.sockets:
                self.sent(socket, self.station.last_turn(socket))
        return self.log

    def turn(self, place):
        """Of the ends in their order: the station at socket 1, the device at socket 1, the station at socket 2 and so on."""
        socket = place // 2 + 1
        if socket not in self.devices:
            return
        if place % 2 == 0:
            self.sent(socket, self.station.turn(socket))
        else:
            self.heard(socket, self.devices[socket].turn())

    def sent(self, socket, frame):
        """A frame of the station, or None, on its way to the device at that socket."""
        if frame is not None:
            self.log.append(">" + hexadecimal(frame))
            for _ in range(self.channel.times()):
                self.devices[socket].hear(frame)

    def heard(self, socket, frame):
        """A frame of that device, or None, on its way to the station."""
        if frame is not None:
            for _ in range(self.channel.times()):
                self.log.append(hexadecimal(frame))
                self.station.hear(socket, frame)


def rehearsal_lines(text):
    """Each line written, with the number of the line read that it is for; the log's lines are for the last."""
    tray, lines = Tray(), log_lines(text)
    written = [(number, "# refused %d" % number) for number, line in enumerate(lines, 1) if not tray.take(line)]
    return written + [(len(lines), line) for line in Rehearsal(tray.modules, tray.channel or WholeChannel()).run()]


def rehearse(text):
    """All that is written for all that is read."""
    return "".join(line + "\n" for _, line in rehearsal_lines(text)).encode("ascii")
