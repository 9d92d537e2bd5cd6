"""The example: a tray of seven modules, one of them silent, from its first opening to its last close; and a tray where all is well."""
from model.frames import cut
from model.generator.air import Air, Link
from model.generator.chance import Chance
from model.samples import SAMPLES

SEED = 17
# The modules' UUIDs differ in their last octet; the UUID and the Link ID of socket 1 are those of the published exchange.
UUID = bytes.fromhex(SAMPLES["device_uuid"])
PUBLISHED = int(SAMPLES["link_id"], 16)
CAPABILITIES = {1: bytes.fromhex("010100010000000000000000"), 2: bytes.fromhex("010200010100000000000000"),
                3: bytes.fromhex("010100010001000000000000"), 4: bytes.fromhex("010400010101040008020003"),
                5: bytes.fromhex("010100010000060010000000"), 6: bytes.fromhex("010300010000000000040001"),
                7: bytes.fromhex("010200010101000000000000"), 8: bytes.fromhex("010200010001080018000000")}
EMPTY, SILENT = 6, 7
# Where Capabilities have the static OOB type, and a frame its message, if that is one segment.
STATIC_TYPE, MESSAGE = 5, 9
# The reasons of a Close.
SUCCESS, TIMEOUT, FAILURE = b"\x00", b"\x01", b"\x02"
INVITE = b"\x00\x00"
# The published exchange from its Start on, and the milliseconds that a station waits for an Ack.
EXCHANGE = [step for step in SAMPLES["steps"][6:] if step["message"]]
OPENING_TIME = 60000


def uuid_of(socket):
    return UUID[:-1] + bytes([UUID[-1] + socket - 1])


def sockets_text(sockets):
    """The modules of a tray: each socket with the UUID of its module."""
    return "".join("%d %s\n" % (socket, uuid_of(socket).hex().upper()) for socket in sockets).encode("ascii")


class Tray:
    """The links of a tray, opened a tenth of a second one after the other."""

    def __init__(self, seed, sockets):
        self.chance = Chance(seed)
        self.sockets = sockets
        self.air = Air()

    def link(self, socket, time):
        """A link ready to be opened; its Link ID is made by chance, but for that of the published exchange."""
        link_id = PUBLISHED if socket == 1 else int.from_bytes(self.chance.octets(4), "big")
        return Link(self.air, self.chance, socket, link_id, time)

    def asked(self, socket, time=None):
        """A link that was opened, and whose module was asked for its capabilities."""
        link = self.link(socket, 100 * socket if time is None else time)
        link.open(uuid_of(socket))
        link.ask(0x00, INVITE)
        return link

    def answered(self, socket, time=None):
        link = self.asked(socket, time)
        link.answer(0x80, CAPABILITIES[socket])
        return link

    def serve(self, socket):
        """Open, ask, close; the published exchange goes on to its end."""
        link = self.answered(socket)
        if socket == 1:
            for step in EXCHANGE:
                exchange = link.ask if step["from"] == "provisioner" else link.answer
                exchange(int(step["number"], 16), bytes.fromhex(step["message"]))
        link.close(SUCCESS if socket == 1 else FAILURE)

    def serve_twice_answered(self, socket, second):
        """A module that sends a second Capabilities message."""
        link = self.answered(socket)
        link.wait(200)
        link.answer(0x81, second)
        link.close(FAILURE)

    def serve_closing(self, socket):
        """A module that closes its link after its answer, and is opened again."""
        link = self.answered(socket)
        link.hear_close(FAILURE)
        self.answered(socket, link.time + 300).close(FAILURE)

    def serve_damaged(self, socket):
        """A bit of the Capabilities message, in the number of elements, turned over on its way the first time."""
        link = self.asked(socket)
        damaged = bytearray(cut(link.link_id, 0x80, CAPABILITIES[socket])[0])
        damaged[MESSAGE + 1] ^= 0x04
        link.answer(0x80, CAPABILITIES[socket], bytes(damaged))
        link.close(FAILURE)

    def serve_silent(self, socket):
        link = self.link(socket, 100 * socket)
        link.open_in_vain(uuid_of(socket), OPENING_TIME)
        link.close(TIMEOUT)

    def hear_next_tray(self, time):
        """A frame of a link that is none of the tray's."""
        link_id = int.from_bytes(self.chance.octets(4), "big")
        self.air.heard(time, 0, cut(link_id, 0x80, CAPABILITIES[1])[0])


def example_tray():
    tray = Tray(SEED, [socket for socket in CAPABILITIES if socket != EMPTY])
    other_static = bytearray(CAPABILITIES[2])
    other_static[STATIC_TYPE] ^= 1
    tray.serve(1)
    tray.serve_twice_answered(2, bytes(other_static))
    tray.serve_closing(3)
    tray.serve_twice_answered(4, CAPABILITIES[4])
    tray.serve_damaged(5)
    tray.serve_silent(SILENT)
    tray.serve(8)
    tray.hear_next_tray(1000)
    return tray


def healthy_tray():
    """Eight modules that answer, and nothing else on the air."""
    tray = Tray(SEED, list(CAPABILITIES))
    for socket in CAPABILITIES:
        tray.serve(socket)
    return tray
