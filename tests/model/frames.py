"""PB-ADV frames, read and written (document 01, "PB-ADV frame")."""
from typing import NamedTuple

from model.check_octet import check_octet
from model.refusal import WRONG_ARGUMENT, refuse_if

LONGEST_MESSAGE = 1469
SEGMENT_ZERO = 20
OTHER_SEGMENT = 23
SHORTEST_FRAME = 6
LONGEST_FRAME = 29
UUID_LENGTH = 16

START, ACKNOWLEDGEMENT, CONTINUATION, CONTROL = range(4)
OPEN, ACK, CLOSE = range(3)


class Frame(NamedTuple):
    """A frame taken apart. Fields that its kind doesn't have are 0 or empty."""
    kind: str
    link_id: int
    number: int
    index: int = 0
    length: int = 0
    check: int = 0
    octets: bytes = b""
    reason: int = 0


def is_message_length(length):
    return 1 <= length <= LONGEST_MESSAGE


def last_segment_number(length):
    """SegN: the least number with L at most 20 + 23 SegN."""
    segment = 0
    while length > SEGMENT_ZERO + OTHER_SEGMENT * segment:
        segment += 1
    return segment


def segment_place(index):
    """Where a segment stands in its message."""
    return 0 if index == 0 else SEGMENT_ZERO + OTHER_SEGMENT * (index - 1)


def segment_length(index, length):
    """All segments are full but the last."""
    full = SEGMENT_ZERO if index == 0 else OTHER_SEGMENT
    return min(full, length - segment_place(index))


def read_frame(octets):
    """Any octets to a frame, or refusal 1 or 2."""
    refuse_if(not SHORTEST_FRAME <= len(octets) <= LONGEST_FRAME, 1)
    link_id = int.from_bytes(octets[:4], "big")
    readers = (read_start, read_acknowledgement, read_continuation, read_control)
    return readers[octets[5] & 3](link_id, octets[4], octets[5] >> 2, octets[6:])


def read_start(link_id, number, high_bits, body):
    refuse_if(len(body) < 3, 1)
    length = int.from_bytes(body[:2], "big")
    refuse_if(not is_message_length(length), 1)
    refuse_if(high_bits != last_segment_number(length), 1)
    segment = body[3:]
    refuse_if(len(segment) != segment_length(0, length), 1)
    return Frame("Start", link_id, number, 0, length, body[2], segment)


def read_acknowledgement(link_id, number, high_bits, body):
    refuse_if(high_bits != 0 or len(body) != 0, 1)
    return Frame("Acknowledgement", link_id, number)


def read_continuation(link_id, number, high_bits, body):
    refuse_if(high_bits == 0 or len(body) == 0, 1)
    return Frame("Continuation", link_id, number, high_bits, octets=body)


def read_control(link_id, number, high_bits, body):
    # "Length inside an unknown opcode isn't judged."
    refuse_if(high_bits > CLOSE, 2)
    refuse_if(len(body) != (UUID_LENGTH, 0, 1)[high_bits], 1)
    if high_bits == OPEN:
        return Frame("Open", link_id, number, octets=body)
    if high_bits == ACK:
        return Frame("Ack", link_id, number)
    return Frame("Close", link_id, number, reason=body[0])


def frame_octets(link_id, number, kind, high_bits, body):
    return link_id.to_bytes(4, "big") + bytes([number, high_bits << 2 | kind]) + body


def segment_frame(link_id, number, index, message):
    """The frame of one segment of a message's cut: the Start for 0, else the Continuation of that number."""
    place = segment_place(index)
    segment = message[place:place + segment_length(index, len(message))]
    if index > 0:
        return frame_octets(link_id, number, CONTINUATION, index, segment)
    head = len(message).to_bytes(2, "big") + bytes([check_octet(message)])
    return frame_octets(link_id, number, START, last_segment_number(len(message)), head + segment)


def cut(link_id, number, message):
    """All frames of a message, in order."""
    return [segment_frame(link_id, number, index, message) for index in range(last_segment_number(len(message)) + 1)]


def into_output(output_length, octets):
    """A writer's end: the output may not be shorter than what is written."""
    refuse_if(output_length < len(octets), WRONG_ARGUMENT)
    return octets


def write_segment(output_length, link_id, number, index, message):
    refuse_if(not is_message_length(len(message)), WRONG_ARGUMENT)
    refuse_if(index > last_segment_number(len(message)), WRONG_ARGUMENT)
    return into_output(output_length, segment_frame(link_id, number, index, message))


def write_acknowledgement(output_length, link_id, number):
    return into_output(output_length, frame_octets(link_id, number, ACKNOWLEDGEMENT, 0, b""))


def write_open(output_length, link_id, uuid):
    refuse_if(len(uuid) != UUID_LENGTH, WRONG_ARGUMENT)
    return into_output(output_length, frame_octets(link_id, 0, CONTROL, OPEN, uuid))


def write_ack(output_length, link_id):
    return into_output(output_length, frame_octets(link_id, 0, CONTROL, ACK, b""))


def write_close(output_length, link_id, reason):
    return into_output(output_length, frame_octets(link_id, 0, CONTROL, CLOSE, bytes([reason])))


def check_of_message(message):
    """The check octet as a call of its own."""
    refuse_if(not is_message_length(len(message)), WRONG_ARGUMENT)
    return check_octet(message)


def last_segment_of_length(length):
    """SegN as a call of its own."""
    refuse_if(not is_message_length(length), WRONG_ARGUMENT)
    return last_segment_number(length)
