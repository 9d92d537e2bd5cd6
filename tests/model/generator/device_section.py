"""Scripts for the device's end: receive, send and close, with the own UUID that is held."""
from dataclasses import replace

from model.device_end import SESSION
from model.frames import (ACK, ACKNOWLEDGEMENT, CLOSE, CONTINUATION, CONTROL, OPEN, START, UUID_LENGTH, frame_octets,
                          segment_frame)
from model.generator.bad_records import LINK_IDS, good_half, taken_number, unused_link_id
from model.generator.chance import WRONG_LENGTHS
from model.generator.link_section import LinkSection, labels_of, last_number
from model.generator.script import RIGHT_DEVICE_AREA, labelled, operation
from model.links import DEVICE, FREE

WRONG_AREAS = (0, 1, 0x05BC, 0x05BE, 0x0600)
WRONG_UUID_LENGTHS = (0, 1, 15, 17, 32)
WRONG = ("area length", "own UUID length")
KINDS = {START: "Start", ACKNOWLEDGEMENT: "Acknowledgement", CONTINUATION: "Continuation"}
CONTROLS = {OPEN: "Open", ACK: "Ack", CLOSE: "Close"}
NOT_OPENS = ("Start", "Continuation", "Acknowledgement", "Ack", "Close")
UNKNOWN = "unknown opcode"
# Where another UUID differs from the own one.
UNLIKE_UUIDS = ("in its first octet", "in its last octet", "in some octet", "in every octet")
# Which link there is, for a frame's Link ID; and what an open link has that a Close takes away and an Open leaves.
NO_LINK, SAME_LINK, OTHER_LINK = "no link", "the link's own Link ID", "another Link ID"
HELD = ("outstanding", "last delivered", "half-received")

LABELS = (labels_of(DEVICE, "DR", ("DR", "DN", "DC"))
          + [labelled("DR", "11", what + ", " + kind) for what in WRONG for kind in NOT_OPENS + ("Open", UNKNOWN)]
          + [labelled("DR", "03", kind + ", " + link) for kind in NOT_OPENS for link in (NO_LINK, OTHER_LINK)]
          + [labelled("DR", "15", link) for link in (NO_LINK, SAME_LINK, OTHER_LINK)]
          + [labelled("DR", "15", label) for label in UNLIKE_UUIDS]
          + [labelled("DR", case, label) for case in ("15", "16", "Y", "C") for label in HELD]
          + [labelled("DC", "OK", label) for label in HELD]
          + [labelled("DR", "U", "Link ID 0"), labelled("DN", "S80", "after 0xFF")])


def kind_of(frame):
    if frame[5] & 3 == CONTROL:
        return CONTROLS.get(frame[5] >> 2, UNKNOWN)
    return KINDS[frame[5] & 3]


def held_by(record):
    held = record.outstanding, record.last_delivered is not None, record.half is not None
    return [label for label, is_held in zip(HELD, held) if is_held]


class DeviceSection(LinkSection):
    side = DEVICE
    area = "E"
    open_weight, ack_weight = 40, 30
    receiving = "DR"
    right_area = RIGHT_DEVICE_AREA
    without_argument = ("DC",)

    def records(self):
        return self.script.program.session

    def record(self):
        return self.records()[SESSION]

    def step(self):
        self.chance.weighted((
            (40, self.segment), (9, self.open_sent), (8, self.control_sent), (8, self.send), (9, self.acknowledgement),
            (8, self.repeat), (9, self.unlike), (7, self.again), (9, self.damaged), (8, self.any_frame_sent),
            (4, self.local_close), (6, self.good_state), (6, self.last_segment), (14, self.order_of_area),
            (20, self.order_of_state), (24, self.order_of_frames), (8, self.order_of_opens), (2, self.come_round),
            (2, self.storage)))()

    # Frames.

    def receive(self, frame, label=None, expected=None):
        record = self.record()
        answer = super().receive(frame, label, expected)
        case = answer[1:] if answer.startswith("!") else answer[0]
        if case == "03":
            link = NO_LINK if record.use == FREE else OTHER_LINK
            self.script.met[labelled("DR", case, kind_of(frame) + ", " + link)] += 1
        for held in held_by(record):
            self.script.met[labelled("DR", case, held)] += 1
        return answer

    def own_uuid(self):
        return self.script.program.own_uuid

    def other_uuid(self, label):
        """Unlike the own one as the label says."""
        every = range(UUID_LENGTH)
        places = {"in its first octet": every[:1], "in its last octet": every[-1:], "in every octet": every}.get(label)
        places = places or (self.chance.pick(every),)
        return bytes(self.chance.other_octet(octet) if place in places else octet
                     for place, octet in enumerate(self.own_uuid()))

    def some_uuid(self):
        if self.chance.happens(60):
            return self.own_uuid()
        return self.other_uuid(self.chance.pick(UNLIKE_UUIDS))

    def open_frame(self, link_id, uuid):
        return frame_octets(link_id, self.control_number(), CONTROL, OPEN, uuid)

    def some_open(self):
        return self.open_frame(self.some_link_id(), self.some_uuid())

    def control_octets(self, opcode, count):
        return self.some_uuid() if opcode == OPEN else super().control_octets(opcode, count)

    def single_segment(self):
        message = self.chance.octets(self.chance.between(1, 20))
        return segment_frame(self.some_link_id(), taken_number(self.chance, DEVICE), 0, message)

    def close_frame(self):
        return frame_octets(self.some_link_id(), self.control_number(), CONTROL, CLOSE, self.chance.octets(1))

    def unknown_frame(self):
        """As long as an Open, with an opcode of none."""
        opcode = self.chance.pick((3, 63, self.chance.between(3, 63)))
        return frame_octets(self.some_link_id(), self.control_number(), CONTROL, opcode, self.own_uuid())

    def makers(self):
        return super().makers() + ((12, self.some_open), (8, self.single_segment), (4, self.close_frame),
                                   (4, self.unknown_frame))

    def open_link(self):
        link_id = self.chance.pick(LINK_IDS)
        frame = self.open_frame(link_id, self.own_uuid())
        self.receive(frame, "Link ID 0" if link_id == 0 else None, "U")

    def link_for(self, link_id):
        if self.record().use == FREE:
            return NO_LINK
        return SAME_LINK if self.record().link_id == link_id else OTHER_LINK

    def open_sent(self):
        """Of another UUID as often as of the own one; for the link's Link ID as often as for another."""
        link_id = self.record().link_id if self.chance.happens(50) else unused_link_id(self.chance, self.records())
        if self.chance.happens(50):
            self.receive(self.open_frame(link_id, self.own_uuid()))
            return
        if self.chance.happens(50):
            label = self.script.in_turn("UUID", UNLIKE_UUIDS)
            self.receive(self.open_frame(link_id, self.other_uuid(label)), label, "!15")
            return
        self.receive(self.open_frame(link_id, self.chance.octets(UUID_LENGTH)), self.link_for(link_id), "!15")

    # Local calls.

    def send_line(self):
        return operation("DN", (self.sent_length(), 4))

    def send(self):
        self.script.call(self.send_line())

    def close_line(self):
        return "DC"

    def local_close(self):
        held = held_by(self.record())
        if self.script.call("DC") == "OK":
            for label in held:
                self.script.met[labelled("DC", "OK", label)] += 1

    # States.

    def set_line(self, index, record):
        return self.script.set_session(record)

    def begun(self):
        """There is a half-received message now: with one session there would often be none."""
        if self.record().use == FREE:
            self.open_link()
        record = self.record()
        if record.half is None:
            half = good_half(self.chance, DEVICE, record.last_delivered)
            self.script.say(self.script.set_session(replace(record, half=half)))

    def repeat(self):
        self.begun()
        super().repeat()

    def unlike(self):
        self.begun()
        super().unlike()

    def come_round(self):
        """The last number is sent and acknowledged, and the first one follows."""
        record = self.record()
        if record.use == FREE:
            self.open_link()
            return
        self.script.say(self.script.set_session(replace(record, next_number=DEVICE.last, outstanding=False)))
        self.send()
        self.receive(frame_octets(record.link_id, DEVICE.last, ACKNOWLEDGEMENT, 0, b""), last_number(DEVICE), "A")
        self.script.call("DN0015", "after 0xFF", "S80")

    def storage(self):
        uuid = operation("DU", self.chance.octets(UUID_LENGTH))
        self.script.say(self.chance.weighted(((1, "ZZ"), (4, "EF%02X" % self.chance.octet()), (6, uuid))))

    # The order of refusals.

    def call_lines(self):
        return self.frame_line, self.send_line, self.open_line, self.frame_line, self.close_line

    def open_line(self):
        return self.line(self.some_open())

    def order_of_argument(self, line, before=()):
        """Sending has the message's length, receiving the area and the own UUID."""
        if line.startswith("DN"):
            self.script.order(operation("DN", (self.chance.pick(WRONG_LENGTHS), 4)), line, before)
            return
        what = self.script.in_turn("wrong argument", WRONG)
        label = what + ", " + kind_of(bytes.fromhex(line[6:]))
        if what == "area length":
            wrong = "DR%04X" % self.chance.pick(WRONG_AREAS) + line[6:]
            self.script.order(wrong, line, before, label=label, expected="!11")
            return
        right = operation("DU", self.own_uuid())
        self.script.order(line, line, [*before, self.wrong_uuid()], [right], label, "!11")

    def wrong_uuid(self):
        """As the own one as far as both go."""
        return operation("DU", (self.own_uuid() + self.own_uuid())[:self.chance.pick(WRONG_UUID_LENGTHS)])

    def order_of_area(self):
        self.free_or_begun()
        make = self.chance.weighted(((60, self.frame_line), (20, self.open_line), (20, self.send_line)))
        self.order_of_argument(make())

    def order_of_state(self):
        self.free_or_begun()
        super().order_of_state()

    def free_or_begun(self):
        """No link, or a half-received message, more often than it comes about."""
        self.chance.weighted(((15, self.local_close), (15, self.begun), (70, lambda: None)))()

    def order_of_frames(self):
        frame = self.any_frame()
        self.chance.pick((self.order_of_fit, self.order_of_opcode, self.order_of_link, self.order_of_half))(frame)

    def order_of_opens(self):
        """An Open with something wrong besides, first."""
        if self.record().use == FREE:
            self.order_of_uuid(self.chance.pick(LINK_IDS))
            return
        same, other = self.record().link_id, unused_link_id(self.chance, self.records())
        order, link_ids = self.script.in_turn("order of opens", (
            (self.order_of_uuid, (same,)), (self.order_of_uuid, (other,)), (self.order_of_unfit, (same, other)),
            (self.order_of_busy, (other, same)), (self.order_of_close, (other,))))
        order(*link_ids)

    def order_of_uuid(self, link_id):
        other = self.open_frame(link_id, self.other_uuid(self.script.in_turn("UUID", UNLIKE_UUIDS)))
        self.script.order(self.line(other), self.line(self.open_frame(link_id, self.own_uuid())))

    def order_of_busy(self, other, same):
        frames = [self.open_frame(link_id, self.own_uuid()) for link_id in (other, same)]
        self.script.order(self.line(frames[0]), self.line(frames[1]))

    def order_of_close(self, link_id):
        """The same Open before and after the local Close."""
        line = self.line(self.open_frame(link_id, self.own_uuid()))
        self.script.order(line, line, after=["DC"])

    def order_of_unfit(self, same, other):
        frames = (self.open_frame(same, self.other_uuid("in some octet")), self.open_frame(other, self.own_uuid()),
                  self.unknown_frame())
        self.order_of_fit(self.chance.pick(frames))
