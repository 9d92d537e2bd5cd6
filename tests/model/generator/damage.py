"""Frames with one field wrong, each kind of damage with its name."""
from model.frames import ACKNOWLEDGEMENT, CONTINUATION, CONTROL, START, cut, frame_octets, last_segment_number
from model.generator.chance import EDGE_LENGTHS


def short_frame(chance, link_id):
    return frame_octets(link_id, chance.octet(), ACKNOWLEDGEMENT, 0, b"")[:chance.below(6)]


def long_frame(chance, link_id):
    """30 octets and more, otherwise a right Continuation or an unknown opcode."""
    kind = chance.pick((CONTINUATION, CONTROL))
    octets = chance.octets(chance.pick((24, 25, 60)))
    return frame_octets(link_id, chance.between(0x80, 0xFF), kind, chance.between(3, 63), octets)


def start_frame(chance, link_id, length=None, last_segment=None, segment=None):
    """A Start whose header says what is given, else what is right."""
    right = chance.pick(EDGE_LENGTHS)
    length = right if length is None else length
    last_segment = last_segment_number(length) & 63 if last_segment is None else last_segment
    segment = min(length, 20) if segment is None else segment
    body = length.to_bytes(2, "big") + chance.octets(1 + segment)
    return frame_octets(link_id, chance.between(0x80, 0xFF), START, last_segment, body)


def cut_start(chance, link_id):
    """Too short to hold L and check."""
    return start_frame(chance, link_id)[:chance.between(6, 8)]


def other_last_segment(chance, link_id, step):
    length = chance.pick((21, 43, 44, 66, 67, 1446))
    return start_frame(chance, link_id, length, last_segment_number(length) + step)


def other_segment_zero(chance, link_id, step):
    length = chance.pick((1, 2, 19, 19, 20, 21, 1469)) if step < 0 else chance.pick((1, 2, 18, 19))
    return start_frame(chance, link_id, length, segment=min(length, 20) + step)


def other_length(chance, link_id):
    """L of another size, with SegN and segment 0 as they were."""
    message = chance.octets(chance.pick((5, 20, 21, 44)))
    frame = bytearray(cut(link_id, chance.between(0x80, 0xFF), message)[0])
    frame[6:8] = chance.pick((len(message) + 23, len(message) + 256, 19 if len(message) == 20 else 4)).to_bytes(2, "big")
    return bytes(frame)


def length_too_large(chance, link_id):
    return start_frame(chance, link_id, chance.pick((1470, 1471, 0x8000, 0xFFFF)), chance.pick((0, 63)), 20)


def acknowledgement(chance, link_id, high_bits, lengths):
    octets = chance.octets(chance.pick(lengths))
    return frame_octets(link_id, chance.below(0x80), ACKNOWLEDGEMENT, chance.pick(high_bits), octets)


def continuation(chance, link_id, indexes, lengths):
    octets = chance.octets(chance.pick(lengths))
    return frame_octets(link_id, chance.between(0x80, 0xFF), CONTINUATION, chance.pick(indexes), octets)


def control(chance, link_id, opcode, lengths):
    return frame_octets(link_id, chance.octet(), CONTROL, opcode, chance.octets(chance.pick(lengths)))


# Each of these gets refusal 1, whatever the link.
DAMAGES = {
    "fewer than 6 octets": short_frame,
    "more than 29 octets": long_frame,
    "Acknowledgement with high bits": lambda chance, link_id: acknowledgement(chance, link_id, (1, 32, 63), (0,)),
    "Acknowledgement with an octet after": lambda chance, link_id: acknowledgement(chance, link_id, (0,), (1, 2, 23)),
    "Start without L and check": cut_start,
    "Start with L 0": lambda chance, link_id: start_frame(chance, link_id, 0, 0, chance.pick((0, 1))),
    "Start with L above 1,469": length_too_large,
    "Start with SegN too small": lambda chance, link_id: other_last_segment(chance, link_id, -1),
    "Start with SegN too large": lambda chance, link_id: other_last_segment(chance, link_id, 1),
    "Start with segment 0 too short": lambda chance, link_id: other_segment_zero(chance, link_id, -1),
    "Start with segment 0 too long": lambda chance, link_id: other_segment_zero(chance, link_id, 1),
    "Start with another L": other_length,
    "Continuation numbered 0": lambda chance, link_id: continuation(chance, link_id, (0,), (1, 23)),
    "Continuation with no octet": lambda chance, link_id: continuation(chance, link_id, (1, 63), (0,)),
    "Open of another length": lambda chance, link_id: control(chance, link_id, 0, (0, 1, 15, 17, 23)),
    "Ack of another length": lambda chance, link_id: control(chance, link_id, 1, (1, 2, 16, 23)),
    "Close of another length": lambda chance, link_id: control(chance, link_id, 2, (0, 2, 16, 23)),
}


def unfit(chance, frame):
    """The same frame with a defect that gives 1, the Link ID and number kept where they can be."""
    if chance.happens(30):
        return frame + chance.octets(30 - len(frame))
    kind = frame[5] & 3
    if kind == CONTINUATION:
        return frame[:6] if chance.happens(50) else frame[:5] + bytes([CONTINUATION]) + frame[6:]
    if kind == START:
        return frame[:-1] if chance.happens(50) else frame[:5] + bytes([(frame[5] + 4) % 256]) + frame[6:]
    return frame + chance.octets(2)


def any_damage(chance, frame):
    """A frame with one octet changed, cut off, added or turned round; what it gets is left to the rules."""
    octets = bytearray(frame)
    place = chance.below(len(octets))
    how = chance.below(5)
    if how == 0:
        octets[place] ^= 1 << chance.below(8)
    elif how == 1:
        octets[place] = chance.octet()
    elif how == 2:
        del octets[place:]
    elif how == 3:
        octets += chance.octets(chance.between(1, 8))
    else:
        octets[4:6] = octets[5:3:-1]
    return bytes(octets)
