"""The two ends of a rehearsal's links: what each sends in its turn, and what is due by what it hears (docs/REHEARSAL.md, "What happens")."""
from collections import Counter

from model import device_end, station
from model.frames import LONGEST_FRAME, last_segment_number, write_ack, write_acknowledgement, write_close, write_open, write_segment
from model.links import DEVICE, FREE, OPENED, OPENING, PROVISIONER, state_is_bad
from model.refusal import Refusal

INVITE = b"\x00\x00"
NO_LINK = 3
CLOSES = 3
# The reasons of a Close.
TIMEOUT, FAILED = 1, 2
UUID_FRONT = bytes.fromhex("70CF7C9732A345B691494810D2E9CB")


def uuid_of(socket):
    return UUID_FRONT + bytes([socket])


class End:
    """The records and the area of an end; after every call at it the state may not be bad."""

    def __init__(self, side, records, area_length):
        self.side = side
        self.records = records
        self.area = bytearray(area_length)

    def call(self, function, *arguments):
        try:
            return function(self.records, *arguments)
        finally:
            if state_is_bad(self.side, self.records):
                raise AssertionError("the state is bad after %s of %s" % (function.__name__, arguments))

    def received(self, function, *arguments):
        """The word of the answer to a frame, or the number of the refusal."""
        try:
            return self.call(function, *arguments)[0]
        except Refusal as refusal:
            return refusal.number


class Station(End):
    """The station, with the Link ID of each socket that has a module; and by socket the acknowledgements and the Closes that are due."""

    def __init__(self, link_ids):
        super().__init__(PROVISIONER, station.blank_records(), station.AREA_LENGTH)
        self.link_ids = link_ids
        self.acknowledgements = Counter()
        self.closes = Counter()
        self.reasons = {}

    def open(self, socket):
        self.call(station.local_open, socket, self.link_ids[socket])

    def close(self, socket, reason):
        self.call(station.local_close, socket)
        self.closes[socket] = CLOSES
        self.reasons[socket] = reason

    def is_done(self):
        """All links are closed, and all Closes sent."""
        return all(record.use == FREE for record in self.records) and not any(self.closes.values())

    def turn(self, socket):
        """The frame that it sends, or None."""
        record = self.records[socket - 1]
        if record.use == OPENED and record.last_delivered is not None and self.acknowledgements[socket] == 0:
            self.close(socket, FAILED)
        return self.next_frame(socket, self.records[socket - 1])

    def last_turn(self, socket):
        """What is sent after the last turn of all: Closes only."""
        if self.records[socket - 1].use != FREE:
            self.close(socket, TIMEOUT)
        return self.due_close(socket)

    def next_frame(self, socket, record):
        if record.use == OPENING:
            return write_open(LONGEST_FRAME, record.link_id, uuid_of(socket))
        if record.use == FREE:
            return self.due_close(socket)
        if self.acknowledgements[socket] > 0:
            self.acknowledgements[socket] -= 1
            return write_acknowledgement(LONGEST_FRAME, record.link_id, record.last_delivered)
        if record.outstanding:
            return write_segment(LONGEST_FRAME, record.link_id, record.next_number, 0, INVITE)
        return None

    def due_close(self, socket):
        if self.closes[socket] == 0:
            return None
        self.closes[socket] -= 1
        return write_close(LONGEST_FRAME, self.link_ids[socket], self.reasons[socket])

    def hear(self, socket, frame):
        """A frame of the device at that socket."""
        answer = self.received(station.receive, self.area, len(self.area), frame)
        if answer == "opened":
            self.call(station.local_send, socket, len(INVITE))
        elif answer in ("delivered", "acknowledge again"):
            self.acknowledgements[socket] += 1
        elif answer == NO_LINK:
            self.closes[socket] = CLOSES


class Device(End):
    """The device at a socket, with the message that it answers; the Acks and the acknowledgements that are due, and the segment that is next."""

    def __init__(self, socket, message):
        super().__init__(DEVICE, device_end.blank_session(), device_end.AREA_LENGTH)
        self.uuid = uuid_of(socket)
        self.message = message
        self.acks = 0
        self.acknowledgements = 0
        self.segment = 0

    def turn(self):
        """The frame that it sends, or None."""
        record = self.records[device_end.SESSION]
        if record.use == FREE:
            return None
        if self.acks > 0:
            self.acks -= 1
            return write_ack(LONGEST_FRAME, record.link_id)
        if self.acknowledgements > 0:
            self.acknowledgements -= 1
            return write_acknowledgement(LONGEST_FRAME, record.link_id, record.last_delivered)
        return self.next_segment(record) if record.outstanding else None

    def next_segment(self, record):
        segment = self.segment
        self.segment = 0 if segment == last_segment_number(len(self.message)) else segment + 1
        return write_segment(LONGEST_FRAME, record.link_id, record.next_number, segment, self.message)

    def hear(self, frame):
        """A frame of the station."""
        answer = self.received(device_end.receive, self.uuid, self.area, len(self.area), frame)
        if answer in ("opened", "already"):
            self.acks += 1
        elif answer in ("delivered", "acknowledge again"):
            self.acknowledgements += 1
        if answer == "delivered":
            self.call(device_end.local_send, len(self.message))
