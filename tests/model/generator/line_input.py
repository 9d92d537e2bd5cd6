"""Input for the line program."""
from model.frames import LONGEST_MESSAGE
from model.generator.chance import EDGE_LENGTHS, LONG_LENGTHS

NO_MESSAGES = (b"", b"0", b"123", b"0g", b"g0", b" 00", b"00 ", b"00\r", b"0 0", b"!11", b"0x00",
               b"00\x00", b"\xff\xff", b"@@", b"::", b"``", b"GG", b"//")


def plain_message(length, first):
    """Octets that differ from place to place, so that a shift shows."""
    return bytes((first + 7 * place + place // 251) % 256 for place in range(length))


def stored_input():
    """The example of document 01, the edges, more than 128 messages so that the numbers come round, and lines that are none."""
    lines = [b"0000", b"0", b"08", b"", b"123", b"0A0b", b"deadBEEF", b"00\r", b"0g", b" 00", b"00 ", b"0005", b"04", b"00"]
    lines += [plain_message(n, n).hex().encode("ascii") for n in (19, 20, 21, 42, 43, 44, 65, 66, 67, 1468, 1469)]
    lines += [plain_message(1469, 3).hex().upper().encode("ascii"), plain_message(1470, 5).hex().encode("ascii")]
    lines += [b"0" * 2939, b"A" * 70000]
    lines += [plain_message(1 + n % 50, n).hex().encode("ascii") for n in range(140)]
    lines += [b"!11", bytes(range(11, 48)), b"7F80"]
    return b"\n".join(lines)


def mixed_case(chance, octets):
    digits = octets.hex()
    how = chance.below(3)
    if how == 0:
        return digits.encode("ascii")
    if how == 1:
        return digits.upper().encode("ascii")
    return "".join(digit.upper() if chance.happens(50) else digit for digit in digits).encode("ascii")


def random_line(chance):
    how = chance.below(100)
    if how < 65:
        return mixed_case(chance, chance.octets(chance.message_length()))
    if how < 72:
        return mixed_case(chance, chance.octets(chance.pick(EDGE_LENGTHS + LONG_LENGTHS)))
    if how < 77:
        return chance.pick((b"0" * (2 * LONGEST_MESSAGE + 1), b"5a" * (LONGEST_MESSAGE + 1), b"A" * chance.between(3000, 20000)))
    if how < 90:
        return chance.pick(NO_MESSAGES)
    line = bytearray(mixed_case(chance, chance.octets(chance.between(1, 60))))
    place = chance.below(len(line))
    if chance.happens(50):
        del line[place]
    else:
        line[place] = chance.other_octet(line[place])
    return bytes(line).replace(b"\n", b"")


def random_input(chance, count):
    """That many lines; the last with or without a newline."""
    lines = b"\n".join(random_line(chance) for _ in range(count))
    return lines + chance.pick((b"", b"\n", b"\n\n"))
