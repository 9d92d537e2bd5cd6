"""Links at either end: the rules that the station and the device's end share, over the side (document 01, "What the
station is" and "Receiving a frame"; document 02, request [1])."""
from dataclasses import dataclass, replace
from typing import Optional

from model.check_octet import check_octet
from model.frames import LONGEST_MESSAGE, is_message_length, last_segment_number, segment_length, segment_place
from model.refusal import Refusal, refuse_if

FREE, OPENING, OPENED = range(3)


@dataclass(frozen=True)
class Half:
    """A half-received message; bit k of the marks says that segment k is in."""
    number: int
    length: int
    check: int
    marks: int


@dataclass(frozen=True)
class Record:
    """A link record. "none" is None."""
    use: int = FREE
    link_id: int = 0
    next_number: int = 0
    outstanding: bool = False
    last_delivered: Optional[int] = None
    half: Optional[Half] = None


@dataclass(frozen=True)
class Side:
    """An end of the link: the first and the last number that it sends, the control frame that it sends and doesn't take,
    and whether its links are opening before they are open. It takes the numbers that it doesn't send."""
    first: int
    last: int
    own_control: str
    has_opening: bool

    def sends(self, number):
        return self.first <= number <= self.last

    def number_after(self, number):
        return self.first if number == self.last else number + 1

    def blank(self, use=FREE, link_id=0):
        """Blank but for the use and the Link ID."""
        return Record(use, link_id, self.first)


PROVISIONER = Side(0x00, 0x7F, "Open", True)
DEVICE = Side(0x80, 0xFF, "Ack", False)


def all_marks(length):
    return (1 << last_segment_number(length) + 1) - 1


def half_is_bad(side, half, last_delivered):
    if side.sends(half.number) or half.number == last_delivered:
        return True
    if not is_message_length(half.length):
        return True
    complete = all_marks(half.length)
    return half.marks & 1 == 0 or half.marks == complete or half.marks > complete


def record_is_bad(side, record):
    if record.use == FREE:
        return record != side.blank()
    if record.use == OPENING:
        return not side.has_opening or record != side.blank(OPENING, record.link_id)
    if not side.sends(record.next_number):
        return True
    if record.last_delivered is not None and side.sends(record.last_delivered):
        return True
    return record.half is not None and half_is_bad(side, record.half, record.last_delivered)


def state_is_bad(side, records):
    """14 is judged over all records, whichever of them a call is about."""
    link_ids = [record.link_id for record in records if record.use != FREE]
    return len(set(link_ids)) != len(link_ids) or any(record_is_bad(side, record) for record in records)


def find_link(records, link_id):
    """The index of the record in use with this Link ID, or None."""
    for index, record in enumerate(records):
        if record.use != FREE and record.link_id == link_id:
            return index
    return None


def receive(side, records, area, frame):
    """A frame that was read, from refusal 3 on; records and area are changed in place. The answer is document 01's word
    and its values."""
    index = find_link(records, frame.link_id)
    refuse_if(index is None, 3)
    refuse_if(records[index].use == OPENING and frame.kind not in ("Ack", "Close"), 4)
    refuse_if(is_from_this_end(side, frame), 5)
    if frame.kind in ("Start", "Continuation"):
        return receive_segment(records, index, area, frame)
    records[index], answer = receive_other(side, records[index], frame)
    return answer


def is_from_this_end(side, frame):
    """Only this end sends such a frame. An acknowledgement carries a number of the other end's."""
    if frame.kind in ("Start", "Continuation"):
        return side.sends(frame.number)
    return frame.kind == side.own_control or frame.kind == "Acknowledgement" and not side.sends(frame.number)


def receive_other(side, record, frame):
    """Anything but a segment: the record afterwards, and the answer."""
    if frame.kind == "Ack":
        answer = "opened" if record.use == OPENING else "already"
        return replace(record, use=OPENED), (answer,)
    if frame.kind == "Close":
        return side.blank(), ("closed", frame.reason)
    refuse_if(not record.outstanding or frame.number != record.next_number, 12)
    following = side.number_after(record.next_number)
    return replace(record, outstanding=False, next_number=following), ("acknowledged",)


def receive_segment(records, index, area, frame):
    record = records[index]
    if frame.number == record.last_delivered:
        return ("acknowledge again",)
    half = record.half
    if half is None or half.number != frame.number:
        refuse_if(frame.kind == "Continuation", 6)
        # A Start of another number replaces a half-received message.
        half = Half(frame.number, frame.length, frame.check, 0)
    if frame.kind == "Start":
        refuse_if((frame.length, frame.check) != (half.length, half.check), 7)
    refuse_if(frame.index > last_segment_number(half.length), 7)
    refuse_if(len(frame.octets) != segment_length(frame.index, half.length), 7)
    base = index * LONGEST_MESSAGE
    place = base + segment_place(frame.index)
    end = place + len(frame.octets)
    if half.marks >> frame.index & 1:
        refuse_if(area[place:end] != frame.octets, 7)
        return ("repeat",)
    area[place:end] = frame.octets
    half = replace(half, marks=half.marks | 1 << frame.index)
    if half.marks != all_marks(half.length):
        records[index] = replace(record, half=half)
        return ("kept",)
    return complete(records, index, half, area[base:base + half.length])


def complete(records, index, half, message):
    """The last missing segment is in. Refusal 8 clears the half-received message too, and keeps the last delivered
    number."""
    record = replace(records[index], half=None)
    if check_octet(message) != half.check:
        records[index] = record
        raise Refusal(8)
    records[index] = replace(record, last_delivered=half.number)
    return "delivered", half.length, half.number


def send(records, index, length):
    """Sets the outstanding mark; gives the number and SegN."""
    record = records[index]
    refuse_if(record.use != OPENED, 4)
    refuse_if(record.outstanding, 13)
    records[index] = replace(record, outstanding=True)
    return record.next_number, last_segment_number(length)


def close(side, records, index):
    refuse_if(records[index].use == FREE, 4)
    records[index] = side.blank()
