"""Logs of trays for the import program: random ones, and the stored one."""
from model.generator.chance import Chance
from model.generator.capture import capture_and_log
from model.generator.example_tray import EMPTY, example_tray
from model.generator.tray_frames import TrayFrames
from model.generator.tray_lines import WRONG_LINES, comment, edge_lines, octet_lines, odd_line
from model.import_program import log_lines
from model.links import FREE
from model.station import SOCKETS

SEED = 108
RANDOM_LINES = 6000
# In the stored log the socket that is empty in the example is never opened.
STORED_SOCKETS = tuple(socket for socket in range(1, SOCKETS + 1) if socket != EMPTY)
# Link IDs of the last openings, which are in use nowhere else.
LAST_LINK_ID = 0x23AF58F0


class RandomTray(TrayFrames):
    def make(self, count):
        """So many lines more, or a few above."""
        end = len(self.lines) + count
        while len(self.lines) < end:
            if self.chance.happens(2):
                self.ending = self.chance.pick((b"", b"\r"))
            self.step()

    def step(self):
        self.chance.weighted((
            (220, self.open_socket), (150, self.ack), (80, self.close), (20, self.serve_again), (550, self.segment),
            (170, self.capabilities_again), (50, self.under_another_number), (240, self.station_message), (140, self.other_start),
            (190, self.acknowledgement), (120, self.control), (80, self.stray_continuation), (110, self.repeat), (120, self.damaged),
            (60, self.comment), (150, self.odd), (1, self.come_round)))()

    def comment(self):
        self.say(comment(self.chance) if self.chance.happens(60) else b"")

    def odd(self):
        self.say(odd_line(self.chance, self.lines[-1] if self.lines else b""))

    def end(self):
        """Two sockets that have their record are opened once more, so that they miss one at the end; the last is closed again.
        The last line has no newline, so that its carriage return is a part of it."""
        first, *_, last = sorted(self.program.stock)
        for socket in (first, last):
            record = self.program.records[socket - 1]
            if record.use != FREE:
                self.take(b">%08X000B00" % record.link_id)
            self.take(b"%d %08X" % (socket, LAST_LINK_ID + socket))
        self.take(b">%08X000B00" % (LAST_LINK_ID + last))
        self.take(b"%08X0007\r" % (LAST_LINK_ID + first))


def random_log(chance, count):
    """So many lines, or a few above; some of the sockets are never opened."""
    sockets = [socket for socket in range(1, SOCKETS + 1) if chance.happens(90)]
    tray = RandomTray(chance, sockets)
    tray.make(count)
    return b"\n".join(tray.lines) + chance.pick((b"", b"\n", b"\r", b"\r\n", b"\n\r", b"\n\n"))


def stored_log():
    """The example, the lines at the edges, then lines by chance."""
    tray = RandomTray(Chance(SEED), STORED_SOCKETS)
    for line in log_lines(capture_and_log(example_tray())[1]):
        tray.take(line)
    tray.take(b"# The example ends here. Now come lines with every octet in every place, lines of every length about 64 characters,")
    tray.take(b"# and then lines made by chance beside the program, of every kind that a log can have.")
    for line in octet_lines() + list(WRONG_LINES) + edge_lines():
        tray.take(line)
    tray.make(RANDOM_LINES)
    tray.come_round()
    tray.end()
    return b"\n".join(tray.lines)
