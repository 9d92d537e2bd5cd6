"""Every kind of bad link record that documents 01 and 02 list, over the side, and good ones at the edges."""
from dataclasses import replace

from model.frames import last_segment_number
from model.links import DEVICE, FREE, OPENED, OPENING, PROVISIONER, Half, Record, all_marks, find_link

LINK_IDS = (0x00000000, 0x00000001, 0x00000100, 0x23AF5850, 0x50FAAF23, 0x7FFFFFFF, 0x80000000, 0xA1B2C3D4, 0xFFFFFFFF)


def unused_link_id(chance, records):
    while True:
        link_id = chance.pick(LINK_IDS) if chance.happens(80) else int.from_bytes(chance.octets(4), "big")
        if find_link(records, link_id) is None:
            return link_id


def number_at_an_edge(chance, side):
    """One that the side sends."""
    return chance.pick((side.first, side.first + 1, side.last - 1, side.last, chance.between(side.first, side.last)))


def other_side(side):
    return DEVICE if side == PROVISIONER else PROVISIONER


def taken_number(chance, side):
    """One that the side takes: the other side sends it."""
    return number_at_an_edge(chance, other_side(side))


def new_number(chance, side, last_delivered):
    """One that the side takes, and not as the last delivered."""
    number = taken_number(chance, side)
    while number == last_delivered:
        number = taken_number(chance, side)
    return number


def own_number(chance, side):
    return chance.pick((side.first, side.last, chance.between(side.first, side.last)))


def good_half(chance, side, last_delivered):
    """Segment 0 in, something missing."""
    length = chance.pick((21, 43, 44, 66, 67, 1446, 1447, 1468, 1469, chance.between(21, 300)))
    number = new_number(chance, side, last_delivered)
    last = last_segment_number(length)
    missing = chance.between(1, last)
    marks = all_marks(length) & ~(1 << missing)
    if chance.happens(50):
        marks &= chance.below(1 << 32) << 32 | chance.below(1 << 32) | 1
    return Half(number, length, chance.octet(), marks | 1)


def good_record(chance, side, records):
    """An open record at some edge, or an opening one where the side has such; the others bind the Link ID alone."""
    link_id = unused_link_id(chance, records)
    if side.has_opening and chance.happens(15):
        return side.blank(OPENING, link_id)
    last = taken_number(chance, side) if chance.happens(60) else None
    half = good_half(chance, side, last) if chance.happens(60) else None
    number = number_at_an_edge(chance, side)
    return Record(OPENED, link_id, number, chance.happens(50), last, half)


def not_blank(chance, side, use, link_id):
    """One of the four ways in which a free or opening record is not blank."""
    last, blank = taken_number(chance, side), side.blank(use, link_id)
    return chance.pick((replace(blank, next_number=chance.other_octet(side.first)), replace(blank, outstanding=True),
                        replace(blank, last_delivered=last), replace(blank, half=good_half(chance, side, None))))


def shared_link_id(chance, side, records, use):
    """Two records in use with one Link ID; None if no record is in use."""
    used = [record.link_id for record in records if record.use != FREE]
    return side.blank(use, chance.pick(used)) if used else None


def shared_and_opening(chance, side, records):
    return shared_link_id(chance, side, records, OPENING)


def shared_and_open(chance, side, records):
    return shared_link_id(chance, side, records, OPENED)


def opening_not_blank(chance, side, records):
    return not_blank(chance, side, OPENING, unused_link_id(chance, records))


def with_half(chance, side, records, number=None, length=None, marks=None, last=None):
    """An open record, right but for what is given of its half-received message."""
    half = good_half(chance, side, last)
    length = half.length if length is None else length
    marks = half.marks if marks is None else marks
    number = half.number if number is None else number
    return open_with(chance, side, records, last_delivered=last, half=Half(number, length, half.check, marks))


def sending_outside(chance, side, records):
    return open_with(chance, side, records, next_number=taken_number(chance, side))


def delivered_outside(chance, side, records):
    return open_with(chance, side, records, last_delivered=own_number(chance, side))


def half_outside(chance, side, records):
    return with_half(chance, side, records, number=own_number(chance, side))


def without_mark(chance, side, records):
    return with_half(chance, side, records, marks=0)


def of_no_octets(chance, side, records):
    return with_half(chance, side, records, length=0, marks=chance.pick((0, 1)))


def complete_half(chance, side, records):
    length = chance.pick((21, 43, 44, 1469))
    return with_half(chance, side, records, length=length, marks=all_marks(length))


def with_length_too_large(chance, side, records):
    return with_half(chance, side, records, length=chance.pick((1470, 1471, 0xFFFF)), marks=1)


def of_one_segment(chance, side, records):
    return with_half(chance, side, records, length=chance.between(1, 20), marks=1)


def marked_past_the_end(chance, side, records):
    length = chance.pick((21, 43, 44, 66, 1446))
    last = last_segment_number(length)
    return with_half(chance, side, records, length=length, marks=1 | 1 << chance.pick((last + 1, 63)))


def without_segment_zero(chance, side, records):
    half = good_half(chance, side, None)
    return with_half(chance, side, records, length=half.length, marks=half.marks & ~1)


def numbered_as_delivered(chance, side, records):
    number = taken_number(chance, side)
    half = good_half(chance, side, None)
    return with_half(chance, side, records, number=number, length=half.length, marks=half.marks, last=number)


def open_with(chance, side, records, next_number=None, **fields):
    next_number = side.first if next_number is None else next_number
    return Record(OPENED, unused_link_id(chance, records), next_number, **fields)


# Each kind makes, from chance, the side and the other records, the record that is bad.
OF_SEVERAL = {
    "two in use with one Link ID, the second opening": shared_and_opening,
    "two in use with one Link ID, the second open": shared_and_open,
}
OF_EITHER_SIDE = {
    "free with a Link ID": lambda chance, side, records: side.blank(FREE, chance.pick((1, 0x23AF5850, 0xFFFFFFFF))),
    "free and otherwise not blank": lambda chance, side, records: not_blank(chance, side, FREE, 0),
    "opening and not blank": opening_not_blank,
    "sending number outside its half": sending_outside,
    "last delivered outside its half": delivered_outside,
    "half-received number outside its half": half_outside,
    "half-received without segment 0": without_segment_zero,
    "half-received with no mark": without_mark,
    "half-received with none missing": complete_half,
    "half-received with L 0": of_no_octets,
    "half-received with L above 1,469": with_length_too_large,
    "half-received of a single segment": of_one_segment,
    "half-received marked past SegN": marked_past_the_end,
    "half-received numbered as the last delivered": numbered_as_delivered,
}
OF_DEVICE = {
    "free, and every field zero": lambda chance, side, records: Record(),
    "opening and blank": lambda chance, side, records: side.blank(OPENING, unused_link_id(chance, records)),
    "opening, and every other field zero": lambda chance, side, records: Record(OPENING),
}
BAD_RECORDS = {PROVISIONER: {**OF_SEVERAL, **OF_EITHER_SIDE}, DEVICE: {**OF_EITHER_SIDE, **OF_DEVICE}}
