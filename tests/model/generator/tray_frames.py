"""What a radio hears and a station sends while a tray is served."""
from model.frames import ACK, ACKNOWLEDGEMENT, CLOSE, CONTINUATION, CONTROL, OPEN, UUID_LENGTH, cut, frame_octets
from model.generator.bad_records import LINK_IDS
from model.generator.damage import DAMAGES, any_damage
from model.generator.growing_log import GrowingLog
from model.generator.messages import good_message
from model.provisioning import CAPABILITIES, FIELD_LENGTHS
from model.links import FREE, OPENED, OPENING, PROVISIONER

INVITE = 0
# The messages that a provisioner sends: Invite, Start, Public Key, Confirmation, Random, Data.
STATION_MESSAGES = (INVITE, 2, 3, 5, 6, 7)
# Capabilities have their elements, and their two types of which bit 0 alone may be set, in these places.
ELEMENTS, TYPES = 1, (4, 5)


class TrayFrames(GrowingLog):
    def __init__(self, chance, sockets):
        super().__init__(chance, sockets)
        # Frames of modules' messages that are still to come, a list for each message.
        self.coming = []
        self.damages = 0

    def sockets_with_record(self):
        return [socket for socket in sorted(self.program.stock) if self.program.records[socket - 1].use == OPENED]

    # Links opened and closed.

    def open_socket(self):
        free = [socket for socket in self.sockets if self.program.records[socket - 1].use == FREE]
        socket = self.chance.pick(free) if free and self.chance.happens(70) else self.chance.between(1, 8)
        link_id = int.from_bytes(self.chance.octets(4), "big")
        if self.chance.happens(50):
            link_id = self.chance.pick((self.link_id(), self.chance.pick(LINK_IDS)))
        form = self.chance.pick((b"%d %08x", b"%d %08X"))
        case, _ = self.say(form % (socket, link_id))
        if case == "opening done" and self.chance.happens(60):
            self.sent(frame_octets(link_id, 0, CONTROL, OPEN, self.chance.octets(UUID_LENGTH)))

    def ack(self):
        number = 0 if self.chance.happens(70) else self.chance.octet()
        self.heard(frame_octets(self.link_id(OPENING), number, CONTROL, ACK, b""))

    def close(self):
        """Often twice, as a radio brings it."""
        link_id = self.link_id(self.chance.pick((OPENING, OPENED)))
        frame = frame_octets(link_id, 0, CONTROL, CLOSE, self.chance.octets(1))
        self.heard_or_sent(frame)
        if self.chance.happens(50):
            self.heard_or_sent(frame)

    def serve_again(self):
        """A socket that has its record is closed and opened once more, and its module says the same, or nearly."""
        sockets = self.sockets_with_record()
        if not sockets:
            return self.open_socket()
        socket = self.chance.pick(sockets)
        link_id, message = self.program.records[socket - 1].link_id, self.capabilities_of(socket)
        self.heard_or_sent(frame_octets(link_id, 0, CONTROL, CLOSE, b"\x00"))
        self.say(b"%d %08X" % (socket, link_id))
        self.heard(frame_octets(link_id, 0, CONTROL, ACK, b""))
        message = message if self.chance.happens(70) else self.with_one_octet_changed(message)
        return self.heard(cut(link_id, self.device_number(link_id), message)[0])

    # Messages of the modules.

    def module_message(self):
        """A message of any kind, a prohibited value, a wrong length, a wrong type or no provisioning message at all."""
        how = self.chance.below(100)
        if how < 30:
            return good_message(self.chance, CAPABILITIES)
        if how < 74:
            return good_message(self.chance, self.chance.below(len(FIELD_LENGTHS)))
        if how < 82:
            return good_message(self.chance, CAPABILITIES, {self.chance.pick((ELEMENTS,) + TYPES): (0, 2)})
        if how < 90:
            return good_message(self.chance, self.chance.below(len(FIELD_LENGTHS))) + self.chance.octets(1)
        return self.chance.octets(self.chance.pick((1, 2, 12, 30)))

    def segment(self):
        """The next frame of the messages on their way, of several modules at once; what is delivered is mostly acknowledged."""
        if not self.coming or len(self.coming) < 4 and self.chance.happens(60):
            self.coming.append(self.message_frames())
        frames = self.coming[self.chance.below(len(self.coming))]
        frame = frames.pop(0 if self.chance.happens(80) else self.chance.below(len(frames)))
        self.coming = [rest for rest in self.coming if rest]
        if self.chance.happens(10):
            self.heard(frame)
        _, row = self.heard(frame)
        if row and row["what"] in ("record", "message") and self.chance.happens(60):
            self.sent(frame_octets(row["link_id"], row["number"], ACKNOWLEDGEMENT, 0, b""))

    def message_frames(self):
        """The frames of a new message, now and then with a wrong check octet."""
        link_id = self.link_id(OPENED)
        frames = cut(link_id, self.device_number(link_id), self.module_message())
        if self.chance.happens(10):
            frames[0] = frames[0][:8] + bytes([self.chance.other_octet(frames[0][8])]) + frames[0][9:]
        return frames

    def capabilities_again(self):
        """Capabilities on a socket that has its record: the same, with one octet changed, or any."""
        sockets = self.sockets_with_record()
        if not sockets:
            return self.segment()
        socket = self.chance.pick(sockets)
        message = good_message(self.chance, CAPABILITIES)
        if self.chance.happens(85):
            message = self.capabilities_of(socket)
        if self.chance.happens(55):
            message = self.with_one_octet_changed(message)
        link_id = self.program.records[socket - 1].link_id
        return self.heard(cut(link_id, self.device_number(link_id), message)[0])

    def capabilities_of(self, socket):
        """The message that the socket's record was made of."""
        fields = zip(self.program.stock[socket], FIELD_LENGTHS[CAPABILITIES])
        return bytes([CAPABILITIES]) + b"".join(value.to_bytes(length, "big") for value, length in fields)

    def with_one_octet_changed(self, message):
        """Capabilities that the reader still accepts."""
        octets = bytearray(message)
        place = self.chance.between(1, len(octets) - 1)
        octets[place] = octets[place] ^ 1 if place in TYPES else self.chance.other_octet(octets[place])
        octets[ELEMENTS] = octets[ELEMENTS] or 1
        return bytes(octets)

    def under_another_number(self):
        """A frame once more, but numbered otherwise; the check octet is that of the message alone."""
        if self.frames:
            frame = self.chance.pick(self.frames)
            number = self.device_number(int.from_bytes(frame[:4], "big"))
            self.heard_or_sent(frame[:4] + bytes([number]) + frame[5:])

    # Messages of the station, and their acknowledgements.

    def acknowledged(self, link_id, number):
        return self.heard(frame_octets(link_id, number, ACKNOWLEDGEMENT, 0, b""))

    def station_message(self):
        """The next message on a link, if none is outstanding there; else a repeat of that which is."""
        link_id = self.link_id(OPENED)
        frames = cut(link_id, self.record(link_id).next_number, good_message(self.chance, self.chance.pick(STATION_MESSAGES)))
        for frame in frames if self.chance.happens(60) else frames[:1]:
            self.sent(frame)
        if self.chance.happens(50):
            self.acknowledged(link_id, frames[0][4])

    def other_start(self):
        """A Start with a number that may be another than the next, perhaps on a link that is opening, or on none."""
        link_id = self.link_id(self.chance.pick((OPENING, OPENED)))
        number = self.other_number(self.record(link_id).next_number)
        self.sent(cut(link_id, number, good_message(self.chance, self.chance.pick(STATION_MESSAGES)))[0])

    def other_number(self, number):
        near = (number + self.chance.pick((0, -1, 1))) % (PROVISIONER.last + 1)
        return self.chance.weighted(((75, near), (8, PROVISIONER.last), (8, number | 0x80), (9, self.chance.octet())))

    def acknowledgement(self):
        """Of the number that is outstanding, of the one before or after, or of another."""
        outstanding = [record.link_id for record in self.program.records if record.outstanding]
        link_id = self.chance.pick(outstanding) if outstanding and self.chance.happens(60) else self.link_id(OPENED)
        number = self.record(link_id).next_number
        self.acknowledged(link_id, self.other_number(number) if self.chance.happens(45) else number)

    def come_round(self):
        """Invites on one link until its numbers come round, and the last once more: 0x7F is not one less than 0x00."""
        link_id, number = self.link_id(OPENED), None
        while number != PROVISIONER.last and self.record(link_id).use == OPENED:
            number = self.record(link_id).next_number
            self.sent(cut(link_id, number, good_message(self.chance, INVITE))[0])
            self.acknowledged(link_id, number)
        self.sent(cut(link_id, PROVISIONER.last, good_message(self.chance, INVITE))[0])
        self.acknowledged(link_id, PROVISIONER.last)

    # Any frame, heard or sent.

    def control(self):
        """An Open, an Ack, or an opcode that is unknown."""
        opcode = self.chance.pick((OPEN, OPEN, ACK, 3, 63, self.chance.between(3, 63)))
        count = {OPEN: UUID_LENGTH, ACK: 0}.get(opcode, self.chance.below(24))
        self.heard_or_sent(frame_octets(self.link_id(OPENING), 0, CONTROL, opcode, self.chance.octets(count)))

    def stray_continuation(self):
        link_id = self.link_id(self.chance.pick((OPENING, OPENED)))
        octets = self.chance.octets(self.chance.between(1, 23))
        self.heard_or_sent(frame_octets(link_id, self.device_number(link_id), CONTINUATION, self.chance.between(1, 63), octets))

    def repeat(self):
        if self.frames:
            self.heard_or_sent(self.chance.pick(self.frames))

    def damaged(self):
        if self.frames and self.chance.happens(60):
            return self.heard_or_sent(any_damage(self.chance, self.chance.pick(self.frames)))
        self.damages += 1
        damage = list(DAMAGES.values())[self.damages % len(DAMAGES)]
        return self.heard_or_sent(damage(self.chance, self.link_id()))
