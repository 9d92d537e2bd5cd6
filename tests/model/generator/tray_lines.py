"""Lines of a log that have none of its forms, or lie at the edges of one."""
from model.generator.line_input import mixed_case

NEWLINE = 0x0A
# A program may hold the front of a line only, 64 characters say; and a frame has 58 digits at most.
EDGE_LENGTHS = tuple(range(56, 70))
# What may stand behind the digits of an edge line; a newline comes after it.
TAILS = (b"", b"\r", b"\r\r", b"g", b"g\r", b"\rA", b" ")
LONG_LENGTHS = (65, 66, 127, 128, 129, 255, 256, 400, 1023, 1024)
LONGEST_LENGTHS = (4095, 4096, 4097, 6000)

WRONG_LINES = (b" ", b"0", b"123", b"0 00000001", b"9 00000001", b"1  00000001", b"1 0000001", b"1 000000001", b"1 0000000g",
               b"1 00000001 ", b" 1 00000001", b"1\t00000001", b"1:00000001", b"1", b"1 ", b"12 00000001", b" # no comment", b" #", b"0x00",
               b"00 ", b" 00", b"00#", b"00>", b"g0", b">", b">>", b"> 00", b"> ", b">0", b">000", b">0g", b">>00", b">#", b">1 00000001",
               b" >00", b">00 ", b">0x00", b"00>00", b"\r0", b"0\r0", b"\r#", b"\r>00", b">\r00", b"1 0000\r0001", b"1\r 00000001", b"\xff")


def octet_lines():
    """Every octet but the newline in every place that a form gives to one kind of character."""
    octets = [bytes([octet]) for octet in range(256) if octet != NEWLINE]
    lines = list(octets)
    for front, back in ((b"0", b""), (b">0", b""), (b"", b" 00000001"), (b"1", b"00000001"), (b"1 0000000", b"")):
        lines += [front + octet + back for octet in octets]
    return lines


def edge_lines():
    """Digits heard and sent, and comments, of lengths about those at which a program must take care, each with each tail."""
    lines = []
    for length in EDGE_LENGTHS:
        digits = b"5A5a80FE" * (length // 8 + 1)
        lines += [front + digits[:length - len(front)] + tail for front in (b"", b">", b"#", b"1 ") for tail in TAILS]
    return lines


def long_line(chance):
    """More than 64 characters: digits heard or sent, even or odd, a comment, or digits with another character among them."""
    length = chance.pick(LONG_LENGTHS) if chance.happens(90) else chance.pick(LONGEST_LENGTHS)
    front = chance.pick((b"", b"", b">", b">", b"#", b"1 ", b">>"))
    digits = mixed_case(chance, chance.octets(length // 2 + 1))[:length + chance.below(2)]
    if chance.happens(30):
        place = chance.pick((chance.below(len(digits)), 63, 64, len(digits) - 1))
        digits = digits[:place] + chance.pick((b"g", b" ", b"\r", b"#", b">", b"\x00")) + digits[place + 1:]
    return front + digits


def comment(chance):
    length = chance.pick((0, 1, 3, 10, 40, 64, 65)) if chance.happens(95) else chance.pick((200, 1000))
    return b"#" + without_newline(chance.octets(length))


def spoiled(chance, line):
    """A line with one character changed, taken out or put in."""
    place = chance.below(len(line) + 1)
    character = chance.pick((b"0", b"F", b"g", b" ", b"\r", b">", b"#", b"1", chance.octets(1)))
    how = chance.below(3)
    if how == 0:
        character = b""
    return without_newline(line[:place] + character + line[place + (how < 2):])


def without_newline(octets):
    return octets.replace(b"\n", b"")


def odd_line(chance, before):
    """A line that has none of the forms, or may have none."""
    how = chance.below(100)
    if how < 45 or not before and how < 80:
        return chance.pick(WRONG_LINES)
    if how < 80:
        return spoiled(chance, before)
    if how < 88:
        return chance.pick((b"", b">", b"#", b"1 ")) + b"0" * chance.pick(EDGE_LENGTHS) + chance.pick(TAILS)
    return long_line(chance)
