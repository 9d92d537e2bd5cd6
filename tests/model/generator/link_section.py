"""Scripts for the links of one side: what the sections of the station and of the device's end share."""
from model.frames import CONTINUATION, START, cut
from model.generator.bad_records import BAD_RECORDS, good_record, taken_number, unused_link_id
from model.generator.chance import EDGE_LENGTHS, LONG_LENGTHS, WRONG_LENGTHS
from model.generator.damage import DAMAGES, any_damage, unfit
from model.generator.link_frames import OTHER_HALF, LinkFrames
from model.generator.script import labelled, operation
from model.generator.unlike_repeats import UNLIKE
from model.links import DEVICE, OPENED, PROVISIONER, Half, Record, all_marks

# What only this side sends: a segment, an acknowledgement and a control frame.
FROM_THIS_END = {PROVISIONER: ("a segment below 0x80", "an acknowledgement above 0x7F", "an Open"),
                 DEVICE: ("a segment above 0x7F", "an acknowledgement below 0x80", "an Ack")}
NOT_AWAITED = ("another number", "none outstanding")
DELIVERED_LENGTHS = (1, 19, 20, 21, 42, 43, 44, 65, 66, 67, 1446, 1447, 1468, 1469)


def last_number(side):
    return "number 0x%02X" % side.last


def labels_of(side, receiving, calls):
    """The cases by name that a side's section must meet, of its receiving operation and of all its calls."""
    cases = {"01": DAMAGES, "07": UNLIKE, "05": FROM_THIS_END[side], "12": NOT_AWAITED,
             "D": ["L %d" % length for length in DELIVERED_LENGTHS], "A": [last_number(side)]}
    received = [labelled(receiving, case, label) for case, labels in cases.items() for label in labels]
    return received + [labelled(name, "14", label) for name in calls for label in BAD_RECORDS[side]]


class LinkSection(LinkFrames):
    """A section also has its receiving operation, the right length of the area and the calls that have no argument."""
    receiving = None
    right_area = None
    without_argument = ()

    # What a side has of its own.

    def open_link(self):
        """A call that opens a link, if it can be."""
        raise NotImplementedError

    def set_line(self, index, record):
        """The line that sets a record."""
        raise NotImplementedError

    def call_lines(self):
        """What makes a line for each call, with receiving twice."""
        raise NotImplementedError

    def order_of_argument(self, line, before=()):
        """The same call with a wrong argument first, after some lines."""
        raise NotImplementedError

    # Frames.

    def receive(self, frame, label=None, expected=None):
        answer = self.script.call(self.line(frame), label, expected)
        if answer.startswith("D"):
            self.script.met[labelled(self.receiving, "D", "L %d" % int(answer[1:5], 16))] += 1
        return answer

    def line(self, frame, area=None):
        return operation(self.receiving, (self.right_area if area is None else area, 4), frame)

    def segment(self):
        frame = self.next_segment()
        if frame is None:
            return self.open_link()
        answer = self.receive(frame)
        if answer.startswith("D"):
            self.delivered = (self.delivered + [frame])[-20:]
        return None

    def control_sent(self):
        frame = self.control_frame()
        self.receive(frame, FROM_THIS_END[self.side][2], "!05")

    def acknowledgement(self):
        frame = self.acknowledgement_frame()
        link_id = int.from_bytes(frame[:4], "big")
        outstanding = [record.outstanding for record in self.records() if record.link_id == link_id]
        if not self.side.sends(frame[4]):
            return self.receive(frame, FROM_THIS_END[self.side][1], "!05")
        if frame[4] == self.side.last:
            return self.receive(frame, last_number(self.side), "A")
        return self.receive(frame, "another number" if True in outstanding else "none outstanding", "!12")

    def repeat(self):
        half = self.half_received()
        self.receive(half.repeat() if half else self.control_frame())

    def unlike(self):
        half = self.half_received()
        if half is None:
            return self.segment()
        label = self.script.in_turn("unlike", list(UNLIKE))
        frame = UNLIKE[label](half)
        return self.receive(frame, label, "!07") if frame else None

    def again(self):
        self.receive(self.again_frame())

    def damaged(self):
        if self.chance.happens(50):
            label = self.script.in_turn("damage", list(DAMAGES))
            return self.receive(DAMAGES[label](self.chance, self.some_link_id()), label, "!01")
        return self.receive(any_damage(self.chance, self.any_frame()))

    def any_frame_sent(self):
        frame = self.any_frame()
        ours = frame[5] & 3 in (START, CONTINUATION) and self.side.sends(frame[4])
        self.receive(frame, *((FROM_THIS_END[self.side][0], "!05") if ours else ()))

    def sent_length(self):
        length = self.chance.pick(EDGE_LENGTHS + LONG_LENGTHS)
        return self.chance.pick(WRONG_LENGTHS + (0xFFFF,)) if self.chance.happens(8) else length

    # States.

    def some_index(self):
        return self.chance.below(len(self.records()))

    def others(self, index):
        return [record for other, record in enumerate(self.records()) if other != index]

    def good_state(self):
        """A record at an edge, set as it might have come about."""
        index = self.some_index()
        self.script.say(self.set_line(index, good_record(self.chance, self.side, self.others(index))))

    def last_segment(self):
        """A message of an edge length with one segment missing stands in record and area; the segment follows."""
        opened = self.with_use(OPENED)
        if not opened:
            return self.open_link()
        index = self.chance.pick(opened)
        record = self.records()[index]
        message = self.chance.octets(self.chance.pick((21, 22, 43, 44, 45, 66, 67, 1446, 1447, 1468, 1469)))
        number = taken_number(self.chance, self.side)
        if number == record.last_delivered:
            return None
        frames = cut(record.link_id, number, message)
        missing = self.chance.pick((1, len(frames) - 1, self.chance.between(1, len(frames) - 1)))
        check = frames[0][8] if self.chance.happens(75) else self.chance.other_octet(frames[0][8])
        half = Half(number, len(message), check, all_marks(len(message)) & ~(1 << missing))
        hole = 20 + 23 * (missing - 1)
        held = message[:hole] + self.chance.octets(len(frames[missing]) - 6) + message[hole + len(frames[missing]) - 6:]
        self.script.say(operation(self.area + "W", (index * 1469, 4), held))
        self.script.say(self.set_line(index, Record(OPENED, record.link_id, record.next_number, record.outstanding,
                                                    record.last_delivered, half)))
        return self.receive(frames[missing])

    # The order of refusals.

    def frame_line(self):
        frame = self.any_frame()
        return self.line(unfit(self.chance, frame) if self.chance.happens(8) else frame)

    def order_of_state(self):
        """The same call on a bad state and on the good one."""
        kinds = BAD_RECORDS[self.side]
        label = self.script.in_turn("bad state", list(kinds))
        index = self.some_index()
        record = kinds[label](self.chance, self.side, self.others(index))
        if record is None:
            return
        line = self.script.in_turn(label, self.call_lines())()
        bad = self.set_line(index, record)
        good = self.set_line(index, self.records()[index])
        if line[:2] not in self.without_argument and self.chance.happens(25):
            self.order_of_argument(line, [bad])
            self.script.say(good)
            return
        self.script.say(bad)
        self.script.call(line, label, "!14")
        self.script.order(line, line, after=[good])

    def order_of_fit(self, frame):
        self.script.order(self.line(unfit(self.chance, frame)), self.line(frame))

    def order_of_opcode(self, frame):
        unknown = frame[:5] + bytes([self.chance.between(3, 63) << 2 | 3]) + frame[6:]
        self.script.order(self.line(unknown), self.line(frame))

    def order_of_link(self, frame):
        link_id = unused_link_id(self.chance, self.records())
        self.script.order(self.line(link_id.to_bytes(4, "big") + frame[4:]), self.line(frame))

    def order_of_half(self, frame):
        """The same frame with its number in the other half first."""
        other = frame[:4] + bytes([frame[4] ^ OTHER_HALF]) + frame[5:]
        self.script.order(self.line(other), self.line(frame))
