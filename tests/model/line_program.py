"""The line program: a message a line in, its frames out (document 01, "Lines in, lines out")."""
import re

from model.frames import LONGEST_MESSAGE, cut
from model.script_line import hexadecimal, split_lines

DIGITS = re.compile(b"([0-9A-Fa-f]{2})+")
LINK_ID = 0x00000001
# We send 0x00 to 0x7F from 0x00, then 0x00 again.
NUMBERS = 0x80


def is_message(line):
    return len(line) <= 2 * LONGEST_MESSAGE and DIGITS.fullmatch(line) is not None


def line_answers(text):
    """Each line written, with the number of the line read that it is for. A line that is no message spends no number."""
    written, number = [], 0
    for line_number, line in enumerate(split_lines(text), 1):
        if not is_message(line):
            written.append((line_number, "!11"))
            continue
        message = bytes.fromhex(line.decode("ascii"))
        written.extend((line_number, hexadecimal(frame)) for frame in cut(LINK_ID, number, message))
        number = (number + 1) % NUMBERS
    return written


def answer_lines(text):
    """All that is written for all that is read."""
    return "".join(line + "\n" for _, line in line_answers(text)).encode("ascii")
