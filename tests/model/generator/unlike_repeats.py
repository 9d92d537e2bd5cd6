"""Frames that refusal 7 meets: of the half-received number, but unlike what was received."""
from model.frames import (LONGEST_MESSAGE, START, frame_octets, last_segment_number, segment_frame, segment_length,
                          segment_place)
from model.generator.sending import changed_start, continuation


def changed(chance, octets):
    """The same number of octets, one of them another."""
    place = chance.below(len(octets))
    return octets[:place] + bytes([chance.other_octet(octets[place])]) + octets[place + 1:]


class HalfReceived:
    """A half-received message as it stands in record and area."""

    def __init__(self, chance, record, index, area):
        self.chance = chance
        self.record = record
        self.half = record.half
        base = index * LONGEST_MESSAGE
        self.message = bytes(area[base:base + self.half.length])
        self.last = last_segment_number(self.half.length)

    def start(self):
        """The Start as it came in: with the check octet of the record."""
        body = self.half.length.to_bytes(2, "big") + bytes([self.half.check]) + self.message[:20]
        return frame_octets(self.record.link_id, self.half.number, START, self.last, body)

    def received(self):
        return [index for index in range(1, self.last + 1) if self.half.marks >> index & 1]

    def missing(self):
        return [index for index in range(1, self.last + 1) if not self.half.marks >> index & 1]

    def segment(self, index):
        return segment_frame(self.record.link_id, self.half.number, index, self.message)

    def repeat(self):
        index = self.chance.pick([0] + self.received())
        return self.start() if index == 0 else self.segment(index)

    def other_length(self):
        """Another L of more than 20, so that segment 0 stays as it was."""
        length = self.chance.between(21, LONGEST_MESSAGE)
        if length == self.half.length:
            length = 21 if length != 21 else 22
        return changed_start(self.start(), length=length)

    def short_length(self):
        """An L of a single segment."""
        length = self.chance.between(1, 20)
        return changed_start(self.start(), length=length, octets=self.message[:length])

    def other_check(self):
        return changed_start(self.start(), check=self.chance.other_octet(self.half.check))

    def other_start(self):
        return changed_start(self.start(), octets=changed(self.chance, self.message[:20]))

    def other_continuation(self):
        received = self.received()
        if not received:
            return None
        frame = self.segment(self.chance.pick(received))
        return frame[:6] + changed(self.chance, frame[6:])

    def past_the_last(self):
        if self.last == 63:
            return None
        index = self.chance.pick((self.last + 1, 63))
        return continuation(self.record, index, self.chance.octets(self.chance.pick((1, 23))))

    def wrong_length(self, index, step):
        """A segment of a length that isn't its own; what comes first stays as in the area."""
        length = segment_length(index, self.half.length) + step
        if not 1 <= length <= 23:
            return None
        place = segment_place(index)
        octets = (self.message[place:place + length] + self.chance.octets(length))[:length]
        return continuation(self.record, index, octets)

    def too_short(self):
        index = self.chance.between(1, self.last)
        return self.wrong_length(index, -self.chance.between(1, segment_length(index, self.half.length)))

    def too_long(self):
        room = 23 - segment_length(self.last, self.half.length)
        return self.wrong_length(self.last, self.chance.between(1, room)) if room > 0 else None

    def of_twenty(self):
        """A full segment of 20 octets is wrong for a Continuation that isn't the last."""
        return self.wrong_length(1, -3) if self.last > 1 else None


UNLIKE = {
    "another L": HalfReceived.other_length,
    "another L of one segment": HalfReceived.short_length,
    "another check octet": HalfReceived.other_check,
    "other octets in the Start": HalfReceived.other_start,
    "other octets in a Continuation": HalfReceived.other_continuation,
    "segment above SegN": HalfReceived.past_the_last,
    "segment too short": HalfReceived.too_short,
    "last segment too long": HalfReceived.too_long,
    "middle segment of 20 octets": HalfReceived.of_twenty,
}
