"""The other end of a link: the messages that it is sending, as frames still to come and frames sent."""
from model.frames import CONTINUATION, START, cut, frame_octets
from model.generator.bad_records import new_number


class Sending:
    """A message on its way: its frames shuffled, some twice; now and then with a wrong check octet or a frame missing."""

    def __init__(self, chance, side, record):
        number = new_number(chance, side, record.last_delivered)
        self.message = chance.octets(chance.message_length())
        self.frames = cut(record.link_id, number, self.message)
        if chance.happens(15):
            self.frames[0] = self.frames[0][:8] + bytes([chance.other_octet(self.frames[0][8])]) + self.frames[0][9:]
        self.coming = self.arranged(chance)
        self.sent = []

    def arranged(self, chance):
        """In order, or the Start first and the rest in any order; a few frames twice, for most messages."""
        rest = self.frames[1:]
        if chance.happens(60):
            rest = chance.shuffled(rest)
        for _ in range(chance.below(3)):
            rest.insert(chance.below(len(rest) + 1), chance.pick(self.frames))
        order = [self.frames[0]] + rest
        return chance.shuffled(order) if chance.happens(10) else order

    def next_frame(self):
        frame = self.coming.pop(0)
        self.sent.append(frame)
        return frame


def changed_start(frame, length=None, check=None, octets=None):
    """A Start with another L, check or segment 0, each still right as a frame."""
    length = int.from_bytes(frame[6:8], "big") if length is None else length
    check = frame[8] if check is None else check
    octets = frame[9:] if octets is None else octets
    last_segment = 0 if length <= 20 else (length - 20 + 22) // 23
    body = length.to_bytes(2, "big") + bytes([check]) + octets
    return frame_octets(int.from_bytes(frame[:4], "big"), frame[4], START, last_segment, body)


def continuation(record, index, octets, number=None):
    number = record.half.number if number is None else number
    return frame_octets(record.link_id, number, CONTINUATION, index, octets)
