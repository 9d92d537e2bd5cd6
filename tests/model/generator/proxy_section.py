"""Scripts for the proxy transfer."""
from model.frames import LONGEST_MESSAGE
from model.generator.chance import WRONG_LENGTHS
from model.generator.script import OUTPUT, RIGHT_BUFFER, labelled, operation
from model.proxy import FIRST, LAST, MIDDLE, WHOLE, pieces
from model.record_text import transfer_text

WRONG_BUFFERS = (0, 1, RIGHT_BUFFER - 1, RIGHT_BUFFER + 1, 0x0600)
POSITIONS = {"whole": WHOLE, "first": FIRST, "middle": MIDDLE, "last": LAST}
BAD_TRANSFERS = {
    "half transfer of 0 octets": lambda chance: (True, chance.below(4), 0),
    "half transfer of over 1,469 octets": lambda chance: (True, chance.below(4), chance.pick((1470, 1471, 0xFFFF))),
    "half transfer of type above 3": lambda chance: (True, chance.pick((4, 0x3F, 0xFF)), chance.between(1, LONGEST_MESSAGE)),
    "half transfer while disconnected": lambda chance: (False, chance.below(4), chance.between(1, LONGEST_MESSAGE)),
}
WRITE_WRONG = ("output too short", "size below 20", "size above 514", "type above 3", "past the last piece", "no message",
               "message too long")
COUNT_WRONG = ("size below 20", "size above 514", "no message", "message too long")

LABELS = ([labelled("XR", "23", label) for label in POSITIONS] + [labelled("XR", "25", label) for label in POSITIONS]
          + [labelled("XR", "24", label) for label in ("middle", "last")]
          + [labelled("XR", "21", label) for label in ("empty", "lone first octet")]
          + [labelled("XR", "T", label) for label in ("whole of 1,469", "last up to 1,469")]
          + [labelled("XR", "M", label) for label in ("first of 1,469", "middle up to 1,469")]
          + [labelled(name, "14", label) for name in ("XC", "XX", "XR") for label in BAD_TRANSFERS]
          + [labelled("XW", "11", label) for label in WRITE_WRONG] + [labelled("XN", "11", label) for label in COUNT_WRONG]
          + [labelled("XW", "W", label) for label in ("whole", "first", "middle", "last")])


class ProxySection:
    def __init__(self, script):
        self.script = script
        self.chance = script.chance
        self.coming = []

    def step(self):
        self.chance.weighted((
            (40, self.next_piece), (8, self.connection), (10, self.unexpected), (8, self.unlike), (6, self.beyond), (4, self.full),
            (6, self.no_data), (6, self.reserved), (4, self.any_piece), (8, self.order_of_buffer), (14, self.order_of_state),
            (14, self.order_of_piece), (14, self.write), (9, self.write_wrong), (8, self.count), (2, self.fill)))()

    # Lines.

    def read(self, piece, label=None, expected=None):
        return self.script.call(self.line(piece), label, expected)

    def line(self, piece, buffer=RIGHT_BUFFER):
        return operation("XR", (buffer, 4), piece)

    def set_line(self, connected, held=False, message_type=0, length=0):
        return operation("XS", (connected, 2), (held, 2), (message_type, 2), (length, 4))

    def piece(self, position, message_type, count):
        return bytes([position << 6 | message_type]) + self.chance.octets(count)

    def transfer(self):
        return self.script.program.transfer

    def hold(self, message_type=None, length=None):
        """A connected transfer with something held."""
        message_type = self.chance.below(4) if message_type is None else message_type
        length = self.chance.between(1, 60) if length is None else length
        self.script.say(self.set_line(True, True, message_type, length))
        return message_type

    # Reading.

    def next_piece(self):
        """The pieces of a message in order; a new one once they are all through, or were dropped."""
        transfer = self.transfer()
        if not transfer.connected:
            self.coming = []
            self.script.call("XC")
        if not self.coming or not transfer.held:
            size = self.chance.pick((20, 21, 33, 64, 514, self.chance.between(20, 100)))
            length = self.chance.pick((size - 1, size, 2 * size - 2, 2 * size - 1, self.chance.between(1, 120)))
            message = self.chance.octets(min(length, LONGEST_MESSAGE))
            self.coming = pieces(size, self.chance.below(4), message)
        answer = self.read(self.coming.pop(0))
        if answer.startswith("T") and self.chance.happens(30):
            self.script.say(operation("BD", (0, 4), (int(answer[3:], 16) + self.chance.below(9), 4)))

    def connection(self):
        self.coming = []
        self.script.call(self.chance.pick(("XC", "XC", "XX")))

    def unexpected(self):
        label = self.script.in_turn("unexpected", list(POSITIONS))
        position = POSITIONS[label]
        if position in (WHOLE, FIRST):
            message_type = self.hold()
        else:
            self.script.say(self.set_line(True))
            message_type = self.chance.below(4)
        self.read(self.piece(position, message_type, self.chance.between(1, 30)), label, "!23")

    def unlike(self):
        label = self.script.in_turn("unlike piece", ("middle", "last"))
        message_type = self.hold()
        other = (message_type + self.chance.between(1, 3)) % 4
        self.read(self.piece(POSITIONS[label], other, self.chance.between(1, 30)), label, "!24")

    def beyond(self):
        """One octet beyond 1,469, or many."""
        label = self.script.in_turn("beyond", list(POSITIONS))
        over = self.chance.pick((1, 1, 2, 100))
        if label in ("whole", "first"):
            self.script.say(self.set_line(True))
            self.read(self.piece(POSITIONS[label], self.chance.below(4), LONGEST_MESSAGE + over), label, "!25")
            return
        count = self.chance.pick((1, 2, self.chance.between(1, 80)))
        held = min(LONGEST_MESSAGE, LONGEST_MESSAGE - count + over)
        count = LONGEST_MESSAGE - held + over
        message_type = self.hold(length=held)
        self.read(self.piece(POSITIONS[label], message_type, count), label, "!25")

    def full(self):
        """Just 1,469 octets in all."""
        label = self.script.in_turn("full", ("whole of 1,469", "first of 1,469", "middle up to 1,469", "last up to 1,469"))
        position = POSITIONS[label.split()[0]]
        expected = "T" if position in (WHOLE, LAST) else "M"
        if position in (WHOLE, FIRST):
            self.script.say(self.set_line(True))
            self.read(self.piece(position, self.chance.below(4), LONGEST_MESSAGE), label, expected)
            return
        count = self.chance.between(1, 60)
        message_type = self.hold(length=LONGEST_MESSAGE - count)
        self.read(self.piece(position, message_type, count), label, expected)

    def no_data(self):
        if self.chance.happens(40):
            self.read(b"", "empty", "!21")
            return
        self.read(self.chance.octets(1), "lone first octet", "!21")

    def reserved(self):
        message_type = self.chance.pick((4, 0x3F, self.chance.between(4, 0x3F)))
        self.read(self.piece(self.chance.below(4), message_type, self.chance.between(1, 9)))

    def any_piece(self):
        self.read(self.chance.octets(self.chance.between(0, 40)))

    # The order of refusals.

    def some_piece(self):
        """A piece that means something to the transfer as it stands, more often than not."""
        transfer = self.transfer()
        position = self.chance.pick((MIDDLE, LAST)) if transfer.held else self.chance.pick((WHOLE, FIRST))
        position = self.chance.weighted(((70, position), (30, self.chance.below(4))))
        message_type = transfer.message_type if transfer.held else self.chance.below(4)
        message_type = self.chance.weighted(((60, message_type), (30, self.chance.below(4)), (10, self.chance.between(4, 0x3F))))
        count = self.chance.weighted(((84, self.chance.between(1, 40)), (10, 0), (6, LONGEST_MESSAGE + 1)))
        return self.piece(position, message_type, count)

    def some_state(self):
        """Disconnected, connected and empty, or holding something."""
        self.script.say(self.chance.pick((self.set_line(False), self.set_line(True), self.set_line(True),
                                          self.set_line(True, True, self.chance.below(4), self.chance.between(1, 1469)))))

    def order_of_buffer(self):
        self.some_state()
        piece = self.some_piece()
        self.script.order(self.line(piece, self.chance.pick(WRONG_BUFFERS)), self.line(piece))

    def order_of_state(self):
        self.some_state()
        label = self.script.in_turn("bad transfer", list(BAD_TRANSFERS))
        connected, message_type, length = BAD_TRANSFERS[label](self.chance)
        bad = self.set_line(connected, True, message_type, length)
        good = "XS" + transfer_text(self.transfer())
        line = self.script.in_turn(label, ("XC", "XX", "", ""))
        line = line or self.line(self.some_piece())
        self.script.say(bad)
        if line.startswith("XR") and self.chance.happens(25):
            self.script.order(self.line(self.some_piece(), self.chance.pick(WRONG_BUFFERS)), line)
        self.script.call(line, label, "!14")
        self.script.order(line, line, after=[good])

    def order_of_piece(self):
        self.chance.pick((self.order_of_connection, self.order_of_data, self.order_of_type, self.order_of_top_bits,
                          self.order_of_unlike))()

    def order_of_connection(self):
        self.script.say(self.set_line(True))
        piece = self.some_piece()
        if self.chance.happens(8):
            piece = self.piece(self.chance.pick((WHOLE, FIRST)), self.chance.below(4), LONGEST_MESSAGE + 1)
        self.script.order(self.line(piece), self.line(piece), [self.set_line(False)], [self.set_line(True)])

    def order_of_data(self):
        self.some_state()
        piece = self.some_piece() + b"\x00"
        if self.chance.happens(25):
            other = (self.hold() + self.chance.between(1, 3)) % 4
            piece = self.piece(self.chance.pick((MIDDLE, LAST)), other, 2)
        elif self.chance.happens(25):
            piece = self.piece(self.chance.below(4), self.chance.between(4, 0x3F), 2)
        self.script.order(self.line(piece[:1]), self.line(piece))

    def order_of_type(self):
        self.some_state()
        piece = self.some_piece()
        if self.chance.happens(25):
            other = (self.hold() + self.chance.between(1, 3)) % 4
            piece = self.piece(self.chance.pick((MIDDLE, LAST)), other, 2)
        reserved = bytes([piece[0] & 0xC0 | self.chance.between(4, 0x3F)]) + piece[1:]
        self.script.order(self.line(reserved), self.line(piece))

    def order_of_top_bits(self):
        """Too long at the wrong time, then at the right time; or of another type."""
        message_type = self.hold()
        if self.chance.happens(50):
            piece = self.piece(self.chance.pick((WHOLE, FIRST)), message_type, LONGEST_MESSAGE + 1)
            self.script.order(self.line(piece), self.line(piece), after=[self.set_line(True)])
            return
        again = self.set_line(True, True, message_type, 5)
        wrong = self.piece(self.chance.pick((WHOLE, FIRST)), (message_type + 1) % 4, 5)
        right = self.piece(self.chance.pick((MIDDLE, LAST)), (message_type + 1) % 4, 5)
        self.script.order(self.line(wrong), self.line(right), after=[again])

    def order_of_unlike(self):
        message_type = self.hold(length=LONGEST_MESSAGE - 3)
        again = self.set_line(True, True, message_type, LONGEST_MESSAGE - 3)
        wrong = self.piece(self.chance.pick((MIDDLE, LAST)), (message_type + 1) % 4, 4)
        right = bytes([wrong[0] & 0xC0 | message_type]) + wrong[1:]
        self.script.order(self.line(wrong), self.line(right), after=[again])

    # Writing.

    def size_and_length(self):
        size = self.chance.pick((20, 20, 21, 22, 33, 513, 514, self.chance.between(20, 80)))
        full = size - 1
        length = self.chance.pick((1, full - 1, full, full + 1, 2 * full - 1, 2 * full, 2 * full + 1, 3 * full))
        return size, min(length, LONGEST_MESSAGE)

    def write_line(self, lent, size, message_type, index, message):
        return operation("XW", (lent, 4), (size, 4), (message_type, 2), (index, 2), message)

    def write(self):
        size, length = self.size_and_length()
        length = LONGEST_MESSAGE if self.chance.happens(3) else length
        message = self.chance.octets(length)
        every = pieces(size, self.chance.below(4), message)
        index = self.chance.pick((0, len(every) - 1, self.chance.below(len(every))))
        piece = every[index]
        lent = self.chance.pick((len(piece), len(piece), OUTPUT, len(piece) + 1))
        label = list(POSITIONS)[piece[0] >> 6]
        self.script.call(self.write_line(lent, size, piece[0] & 3, index, message), label, "W")
        if self.chance.happens(30):
            self.script.say(operation("OD", (0, 4), (len(piece) + 4, 4)))

    def write_wrong(self):
        label = self.script.in_turn("XW", WRITE_WRONG)
        size, length = self.size_and_length()
        message_type, index, lent = self.chance.below(4), 0, OUTPUT
        if label == "output too short":
            lent = self.chance.pick((0, min(length + 1, size) - 1))
        elif label == "type above 3":
            message_type = self.chance.pick((4, 0x40, 0x80, 0xFF))
        elif label == "past the last piece":
            index = self.chance.pick((1 if length < size else -(-length // (size - 1)), 0xFF))
        else:
            size, length = self.wrong_size_or_length(label, size, length)
        if self.chance.happens(10):
            lent, index = self.chance.below(2), 0xFF
        self.script.call(self.write_line(lent, size, message_type, index, self.chance.octets(length)), label, "!11")

    def wrong_size_or_length(self, label, size, length):
        if label == "size below 20":
            return self.chance.pick((0, 1, 19)), length
        if label == "size above 514":
            return self.chance.pick((515, 516, 0xFFFF)), length
        return size, 0 if label == "no message" else self.chance.pick(WRONG_LENGTHS[1:])

    def count(self):
        size, length = self.size_and_length()
        length = self.chance.pick((length, LONGEST_MESSAGE, self.chance.between(1, LONGEST_MESSAGE)))
        label = None
        if self.chance.happens(40):
            label = self.script.in_turn("XN", COUNT_WRONG)
            size, length = self.wrong_size_or_length(label, size, length)
        self.script.call(operation("XN", (size, 4), (length, 4)), label, "!11")

    def fill(self):
        self.script.say(self.chance.pick(("BF%02X", "OF%02X")) % self.chance.octet())
