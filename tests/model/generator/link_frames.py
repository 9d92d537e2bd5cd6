"""Frames that mean something to the links of one side as they stand, of every kind."""
from model.frames import (ACK, ACKNOWLEDGEMENT, CLOSE, CONTINUATION, CONTROL, OPEN, UUID_LENGTH, frame_octets,
                          segment_frame)
from model.generator.bad_records import LINK_IDS, own_number, taken_number
from model.generator.chance import EDGE_LENGTHS
from model.generator.sending import Sending
from model.generator.unlike_repeats import UNLIKE, HalfReceived
from model.links import OPENED, OPENING

OTHER_HALF = 0x80


class LinkFrames:
    """A section has its side, the storage of its area, and how often a control frame is an Open or an Ack."""
    side = None
    area = None
    open_weight, ack_weight = 0, 0

    def __init__(self, script):
        self.script = script
        self.chance = script.chance
        self.sending = {}
        self.delivered = []

    def records(self):
        """The link records as they stand."""
        raise NotImplementedError

    def with_use(self, *uses):
        return [index for index, record in enumerate(self.records()) if record.use in uses]

    def some_link_id(self):
        """Mostly one in use."""
        used = self.with_use(OPENING, OPENED)
        if used and self.chance.happens(85):
            return self.records()[self.chance.pick(used)].link_id
        return self.chance.pick(LINK_IDS)

    def next_segment(self):
        """The next frame of the message that the other end of some link is sending; None if no link is open."""
        opened = self.with_use(OPENED) or self.with_use(OPENING)
        if not opened:
            return None
        index = self.chance.pick(opened)
        record = self.records()[index]
        sending = self.sending.get(index)
        if sending is None or not sending.coming or sending.frames[0][:4] != record.link_id.to_bytes(4, "big"):
            sending = Sending(self.chance, self.side, record)
            self.sending[index] = sending
        return sending.next_frame()

    def control_frame(self):
        """The number octet is ignored on reading."""
        link_id = self.some_link_id()
        unknown = self.chance.pick((3, 4, 63, self.chance.between(3, 63)))
        opcode = self.chance.weighted(((self.ack_weight, ACK), (14, CLOSE), (self.open_weight, OPEN), (16, unknown)))
        count = {OPEN: UUID_LENGTH, ACK: 0, CLOSE: 1}.get(opcode, self.chance.below(24))
        number = self.control_number()
        return frame_octets(link_id, number, CONTROL, opcode, self.control_octets(opcode, count))

    def control_number(self):
        return 0 if self.chance.happens(50) else self.chance.octet()

    def control_octets(self, _opcode, count):
        return self.chance.octets(count)

    def acknowledgement_frame(self):
        link_id = self.some_link_id()
        numbers = [record.next_number for record in self.records() if record.link_id == link_id]
        right = numbers[0] if numbers else self.side.first
        other = self.side.first + (right + self.chance.pick((1, 127, self.chance.below(128)))) % 128
        number = self.chance.weighted(((60, right), (25, other), (10, right ^ OTHER_HALF), (5, self.chance.octet())))
        return frame_octets(link_id, number, ACKNOWLEDGEMENT, 0, b"")

    def half_received(self):
        """Some half-received message, or None."""
        halves = [index for index in self.with_use(OPENED) if self.records()[index].half is not None]
        if not halves:
            return None
        index = self.chance.pick(halves)
        return HalfReceived(self.chance, self.records()[index], index, self.script.program.storages[self.area])

    def again_frame(self):
        """A segment with a last delivered number, whatever it carries; or a frame of some message delivered before."""
        last = [record for record in self.records() if record.last_delivered is not None]
        if not last or self.delivered and self.chance.happens(20):
            return self.chance.pick(self.delivered) if self.delivered else self.control_frame()
        record = self.chance.pick(last)
        if self.chance.happens(40):
            message = self.chance.octets(self.chance.pick(EDGE_LENGTHS))
            return segment_frame(record.link_id, record.last_delivered, 0, message)
        octets = self.chance.octets(self.chance.between(1, 23))
        return frame_octets(record.link_id, record.last_delivered, CONTINUATION, self.chance.between(1, 63), octets)

    def other_half_segment(self):
        """A segment numbered as only this side does."""
        octets = self.chance.octets(self.chance.between(1, 23))
        number = own_number(self.chance, self.side)
        if self.chance.happens(50):
            return segment_frame(self.some_link_id(), number, 0, octets)
        return frame_octets(self.some_link_id(), number, CONTINUATION, self.chance.between(1, 63), octets)

    def stray_continuation(self):
        octets = self.chance.octets(self.chance.between(1, 23))
        link_id, number = self.some_link_id(), taken_number(self.chance, self.side)
        return frame_octets(link_id, number, CONTINUATION, self.chance.between(1, 63), octets)

    def unlike_frame(self):
        half = self.half_received()
        frame = UNLIKE[self.chance.pick(list(UNLIKE))](half) if half else None
        return frame or self.stray_continuation()

    def repeat_frame(self):
        half = self.half_received()
        return half.repeat() if half else self.stray_continuation()

    def single_with_wrong_check(self):
        message = self.chance.octets(self.chance.between(1, 20))
        frame = bytearray(segment_frame(self.some_link_id(), taken_number(self.chance, self.side), 0, message))
        frame[8] = self.chance.other_octet(frame[8])
        return bytes(frame)

    def makers(self):
        """What makes a frame, each with its weight."""
        return ((20, self.next_segment), (15, self.control_frame), (15, self.acknowledgement_frame),
                (10, self.repeat_frame), (10, self.unlike_frame), (10, self.again_frame), (8, self.other_half_segment),
                (8, self.stray_continuation), (8, self.single_with_wrong_check))

    def any_frame(self):
        return self.chance.weighted(self.makers())() or self.control_frame()
