"""Provisioning messages of every kind."""
from model.provisioning import FIELD_LENGTHS


def good_message(chance, message_type, values=None):
    """A message with no prohibited value, but for those given by place; reserved values everywhere else."""
    octets = bytearray([message_type]) + chance.octets(sum(FIELD_LENGTHS[message_type]))
    if message_type == 1:
        octets[1] = chance.pick((1, 2, 0xFF, chance.between(1, 0xFF)))
        octets[4:6] = bytes([chance.below(2), chance.below(2)])
    if message_type == 2:
        octets[2:4] = bytes([chance.below(2), chance.below(4)])
        octets[4:6] = bytes([chance.octet(), chance.between(1, 255)]) if octets[3] > 1 else bytes(2)
    if message_type == 9:
        octets[1] = chance.pick((1, 8, 9, 10, 0xFF))
    for place, choices in (values or {}).items():
        octets[place] = chance.pick(choices)
    return bytes(octets)
