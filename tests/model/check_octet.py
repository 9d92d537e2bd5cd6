"""The check octet of 3GPP TS 27.010: x^8+x^2+x+1, reflected, start 0xFF, result complemented, over the message."""

# x^2+x+1 with the low bit as the highest power, which is what "reflected" means.
REFLECTED_POLYNOMIAL = 0xE0


def remainder_of_octet(remainder):
    """Eight single-bit steps of the division."""
    for _ in range(8):
        low_bit = remainder & 1
        remainder >>= 1
        if low_bit:
            remainder ^= REFLECTED_POLYNOMIAL
    return remainder


REMAINDERS = [remainder_of_octet(octet) for octet in range(256)]


def check_octet(message):
    remainder = 0xFF
    for octet in message:
        remainder = REMAINDERS[remainder ^ octet]
    return remainder ^ 0xFF
