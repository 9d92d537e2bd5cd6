"""Provisioning messages and the view (document 01, "Provisioning messages")."""
from model.refusal import Refusal, refuse_if

NAMES = ("Invite", "Capabilities", "Start", "Public Key", "Input Complete", "Confirmation", "Random", "Data", "Complete",
         "Failed")
CAPABILITIES = 1
START = 2
FAILED = 9
# The parameters of each type: the lengths of its fields in octets. Fields of 1 and 2 octets are numbers, the others long.
FIELD_LENGTHS = ((1,), (1, 2, 1, 1, 1, 2, 1, 2), (1, 1, 1, 1, 1), (32, 32), (), (16,), (16,), (25, 8), (), (1,))


def read_message(octets):
    """The type and the list of fields."""
    refuse_if(len(octets) == 0, 41)
    message_type = octets[0]
    refuse_if(message_type >= 0x40, 42)
    refuse_if(message_type >= len(NAMES), 43)
    lengths = FIELD_LENGTHS[message_type]
    refuse_if(len(octets) != 1 + sum(lengths), 44)
    fields = take_fields(octets, lengths)
    refuse_if(has_prohibited_value(message_type, [value for _, _, value in fields]), 45)
    return message_type, fields


def take_fields(octets, lengths):
    """Each field as (place, length, value); the value of a long field is None, for it is given by place and length."""
    fields, place = [], 1
    for length in lengths:
        value = int.from_bytes(octets[place:place + length], "big") if length <= 2 else None
        fields.append((place, length, value))
        place += length
    return fields


def has_prohibited_value(message_type, values):
    if message_type == CAPABILITIES:
        elements, _, key_type, static_type = values[:4]
        return elements == 0 or key_type > 1 or static_type > 1
    if message_type == START:
        return start_is_prohibited(*values)
    return message_type == FAILED and values[0] == 0


def start_is_prohibited(_algorithm, key, method, action, size):
    if key > 1 or method > 3:
        return True
    if method in (0, 1):
        return action != 0 or size != 0
    return size == 0


class View:
    """The lent message octets and the place reached."""

    def __init__(self, octets=b"", place=0):
        self.octets = octets
        self.place = place

    def read(self, count):
        """The octets of the next field. A read past the end gives 44 and doesn't move."""
        if self.place + count > len(self.octets):
            raise Refusal(44)
        place = self.place
        self.place += count
        return self.octets[place:self.place]
