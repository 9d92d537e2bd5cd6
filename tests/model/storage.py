"""The replay program's storages and its hash."""
from functools import lru_cache

FACTOR = 257
MODULUS = 4294967291
BLOCK = 256
POWERS = [pow(FACTOR, count, MODULUS) for count in range(BLOCK + 1)]

# The storages are longer than what is rightly lent, so that wrong lengths can be tried and octets outside can be watched.
SIZES = {"A": 0x2E00, "B": 0x0600, "O": 0x1000, "E": 0x0600}


@lru_cache(maxsize=16384)
def block_value(block):
    """What a block adds to the hash; most blocks are unchanged from one hash to the next."""
    value = 0
    for octet in block:
        value = (value * FACTOR + octet) % MODULUS
    return value


def hash_of(*parts):
    """h := 1, then for each octet in order h := (h * 257 + octet) mod 4294967291; taken by blocks."""
    value = 1
    for part in parts:
        octets = bytes(part)
        for place in range(0, len(octets), BLOCK):
            block = octets[place:place + BLOCK]
            value = (value * POWERS[len(block)] + block_value(block)) % MODULUS
    return value
