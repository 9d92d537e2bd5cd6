"""A line of a replay script: two capital letters, then the arguments in capital hexadecimal digits."""
import re

LONGEST_LINE = 8192
ARGUMENTS = re.compile("[0-9A-F]*")
OCTETS = "octets"
FLAG = "flag"


class Malformed(Exception):
    """The answer is `?` and nothing changes."""


def malformed_if(condition):
    if condition:
        raise Malformed


def split_lines(text):
    """Lines ended by a newline or by the end of input; nothing after the last newline is no line."""
    lines = text.split(b"\n")
    if lines[-1] == b"":
        lines.pop()
    return lines


class Form:
    """The arguments of an operation, written as in the language's tables: `lent:4 authentic:flag octets`."""

    def __init__(self, text):
        words = text.split()
        self.takes_octets = words[-1:] == [OCTETS]
        kinds = [word.split(":")[1] for word in words if word != OCTETS]
        self.fixed = [(2, True) if kind == FLAG else (int(kind), False) for kind in kinds]

    def read(self, text):
        """The arguments as numbers, a last `octets` as octets."""
        malformed_if(ARGUMENTS.fullmatch(text) is None)
        values, place = [], 0
        for digits, is_flag in self.fixed:
            malformed_if(len(text) < place + digits)
            value = int(text[place:place + digits], 16)
            malformed_if(is_flag and value > 1)
            values.append(value)
            place += digits
        rest = text[place:]
        malformed_if(rest != "" and not self.takes_octets or len(rest) % 2 != 0)
        return values + [bytes.fromhex(rest)] if self.takes_octets else values


def digits_of(value, count):
    return format(int(value), "0%dX" % count)


def hexadecimal(octets):
    return bytes(octets).hex().upper()
