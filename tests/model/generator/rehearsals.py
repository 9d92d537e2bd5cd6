"""Trays for the rehearsal program: the stored ones, and random ones."""
from model.generator.chance import LONG_LENGTHS
from model.generator.line_input import mixed_case, plain_message
from model.generator.tray_lines import comment, spoiled
from model.rehearsal import LARGEST_SEED, LONGEST_LINE
from model.station import SOCKETS

# The Link ID of socket 1 is one above this.
LINK_IDS = 0x23AF5850
# Where the first number of the channel comes round, and the largest seed.
EDGE_SEEDS = (0, 1, 2147483645, 2147483646, 2147483647, LARGEST_SEED)


def capabilities(socket):
    """Accepted by the reader. But for the two types, the first digit of an octet says its place, and the second its socket."""
    octets = bytearray(16 * place + socket for place in range(12))
    octets[0] = 1
    octets[4:6] = bytes([socket & 1, socket >> 1 & 1])
    return bytes(octets)


def module_line(socket, message, link_id=None):
    return b"%d %08X %s" % (socket, LINK_IDS + socket if link_id is None else link_id, message.hex().upper().encode("ascii"))


def ended(lines):
    return b"".join(line + b"\n" for line in lines)


def stored_tray():
    """Eight modules, and no channel."""
    return ended([b"# A tray of eight modules: the socket, the Link ID, and the Capabilities message that the module answers.", b""]
                 + [module_line(socket, capabilities(socket)) for socket in range(1, SOCKETS + 1)])


def losses():
    """The same modules in another order, and a channel that loses and repeats; some digits are small letters."""
    modules = [module_line(socket, capabilities(socket)) for socket in (5, 2, 8, 1, 7, 3, 6, 4)]
    return ended([b"# A tray whose radio loses three frames in ten, and repeats three in ten of the others."] + modules[:3]
                 + [b"channel 7 30 30"] + [line.lower() for line in modules[3:]])


def messages():
    """Modules that answer with other messages than Capabilities, all but one; sockets 2 and 6 are empty."""
    given = {8: b"\x0A", 1: plain_message(65, 3), 3: plain_message(1469, 0x40), 4: capabilities(4)[:-1], 5: b"\x09\x02", 7: capabilities(7)}
    return ended([b"channel 67 35 25"] + [module_line(socket, message) for socket, message in given.items()])


# Socket 1 with Link ID 23AF5850 is given by the last of these, and by none before it.
MODULE_LINES = (
    b"# Lines of every kind. tests/test_rehearsal.py has the numbers of those that are refused.", b"", b" ", b" # no comment", b"#",
    b"0 23AF5850 08", b"9 23AF5850 08", b"A 23AF5850 08", b"01 23AF5850 08", b"1", b"1 23AF5850", b"1 23AF5850 ", b"1 23AF585 08",
    b"1 23AF58500 08", b"1 23AF585G 08", b"1 0x23AF58 08", b"1 23AF5850 0", b"1 23AF5850 000", b"1 23AF5850 0g", b"1 23AF5850 08 08",
    b"1 23AF5850 0808 ", b" 1 23AF5850 08", b"1  23AF5850 08", b"1 23AF5850  08", b"1\t23AF5850 08", b"1 23AF5850\t08", b"123AF5850 08",
    b"1 23AF585008", b"23AF58500007", b">23AF58500007", b"# refused 3", module_line(1, plain_message(1470, 1), LINK_IDS),
    module_line(1, plain_message(1470, 1), LINK_IDS)[:-1], b"1 23AF5850 08")
# Given before, and given only by a refused line; the longest line of a module, and one that is longer by a space.
GIVEN_LINES = (
    b"1 23AF5851 08", b"2 23AF5850 08", b"2 23af5850 08", b"1 23AF5850 08", b"2 23af5851 010200030000000000000000",
    module_line(7, plain_message(1469, 0x41), 0xDEADBEEF).lower() + b" ", module_line(7, plain_message(1469, 0x41), 0xDEADBEEF).lower() + b"\r")
CHANNEL_LINES = (
    b"channel", b"channel ", b"channel 7", b"channel 7 30", b"channel 7 30 ", b"channel 7 30 30 30", b"channel 7 30 30 ", b" channel 7 30 30",
    b"channel  7 30 30", b"channel 7  30 30", b"channel\t7 30 30", b"channel 7 30\t30", b"channel7 30 30", b"Channel 7 30 30",
    b"CHANNEL 7 30 30", b"channels 7 30 30", b"channel -7 30 30", b"channel +7 30 30", b"channel 7 30 3A", b"channel 0x7 30 30",
    b"channel 7 3.0 30", b"channel 7,30,30", b"channel 7 101 30", b"channel 7 30 101", b"channel 4294967296 30 30", b"channel 18446744073709551623 30 30",
    b"channel 7 4294967326 30", b"channel 7 30 18446744073709551646", b"channel " + b"7 30 30".rjust(LONGEST_LINE - 7, b"0"),
    b"channel " + b"4294967295 020 0100".rjust(LONGEST_LINE - 8, b"0"), b"channel 7 30 30", b"channel 4294967295 20 100")
# Carriage returns, long lines and other octets; the last line has no newline, so that its carriage return is a part of it.
OTHER_LINES = (
    b"3 0000000a 0902\r", b"\r", b"#\r", b"4 0000000B 08\r\r", b"\r\r", b"4\r0000000B 08", b"\r4 0000000B 08", b"#" + b" a long comment" * 250,
    b"#" * 5000 + b"\r", b"x" * LONGEST_LINE, b"5a" * 2500, b"5 0000000C " + b"0" * 4000 + b"\r", b"\x00", b"\xff", b"#\x00\xff\r\r",
    b"8 00000000 " + capabilities(8).hex().encode("ascii"), b"5 FFFFFFFF 00\r", b"6 0000000D 08\r")


def lines():
    """Lines of every kind, and every reason for which one is refused."""
    return b"\n".join(MODULE_LINES + GIVEN_LINES + CHANNEL_LINES + OTHER_LINES)


def stored_rehearsals():
    """The inputs under tests/rehearsals, by name."""
    return {"losses": losses(), "messages": messages(), "lines": lines()}


class RandomTray:
    """The lines of a tray, in any order, with lines among them that are refused or passed over."""

    def __init__(self, chance):
        self.chance = chance

    def link_id(self):
        """Now and then one that another module may have."""
        return self.chance.pick((0, LARGEST_SEED, LINK_IDS)) if self.chance.happens(10) else int.from_bytes(self.chance.octets(4), "big")

    def message(self):
        """Capabilities, or a message of any length."""
        if self.chance.happens(40):
            return capabilities(self.chance.between(1, 15))
        length = self.chance.weighted(((70, self.chance.message_length()), (20, self.chance.between(1, 1469)), (10, self.chance.pick(LONG_LENGTHS))))
        return self.chance.octets(length)

    def module(self, socket):
        front = b"%d %s " % (socket, mixed_case(self.chance, self.link_id().to_bytes(4, "big")))
        return front + mixed_case(self.chance, self.message())

    def share(self):
        """Mostly below a half, so that the messages come through."""
        return self.chance.weighted(((20, 0), (70, self.chance.below(50)), (8, self.chance.between(50, 100)), (2, 100)))

    def channel(self):
        seed = self.chance.pick(EDGE_SEEDS) if self.chance.happens(20) else self.chance.below(LARGEST_SEED)
        repeated = self.chance.pick((self.share(), self.chance.below(101)))
        return b"channel %s%d %d %d" % (b"0" * self.chance.pick((0, 0, 0, 1, 20)), seed, self.share(), repeated)

    def junk(self, line):
        """A line of the stored ones, a comment, a line once more, or the line with one character changed."""
        stored = MODULE_LINES + GIVEN_LINES + CHANNEL_LINES + OTHER_LINES
        return self.chance.weighted(((30, self.chance.pick(stored)), (15, comment(self.chance)), (10, b""), (15, line), (30, spoiled(self.chance, line))))

    def text(self):
        given = [self.module(socket) for socket in range(1, SOCKETS + 1) if self.chance.happens(80)]
        given += [self.channel() for _ in range(self.chance.pick((0, 1, 1, 1, 1, 2)))]
        junk = [self.junk(self.chance.pick(given)) for _ in range(self.chance.pick((0, 3, 12))) if given]
        ending = self.chance.pick((b"", b"\r"))
        return b"\n".join(line + ending for line in self.chance.shuffled(given + junk)) + self.chance.pick((b"", b"\n", b"\n", b"\n\n", b"\n\r"))


def random_tray(chance):
    """Up to eight modules, perhaps a channel, and perhaps lines that are refused."""
    return RandomTray(chance).text()
