"""A script in the making: each line is answered by the model at once, and what was met is counted."""
from collections import Counter

from model.coverage import case_of
from model.record_text import record_text
from model.replay import Program
from model.script_line import digits_of, hexadecimal

RIGHT_AREA = 0x2DE8
RIGHT_BUFFER = 0x05BD
RIGHT_DEVICE_AREA = 0x05BD
OUTPUT = 0x1000
# What is looked at after a call, now and then.
LOOKED_AT = ("LA", "XD", "FD", "KD", "VD", "AH", "BH", "OH")
DEVICE_CALLS = ("DR", "DN", "DC")
LOOKED_AT_OF_DEVICE = ("DD", "DD", "EH", "ED00000020", "ED05B00050", "LA")


class Script:
    def __init__(self, chance):
        self.chance = chance
        self.program = Program()
        self.lines = []
        self.answers = []
        self.met = Counter()
        self.turns = Counter()

    def in_turn(self, key, items):
        """The items one after the other, so that none is left out for long."""
        self.turns[key] += 1
        return items[self.turns[key] % len(items)]

    def say(self, line):
        """One line, as text; its answer."""
        octets = line.encode("latin-1")
        answer = self.program.answer(octets)
        self.lines.append(octets)
        self.answers.append(answer)
        self.met[case_of(line, answer)] += 1
        return answer

    def call(self, line, label=None, expected=None):
        """A call, watched afterwards: always after a refusal, often after any other answer. The label names the case that
        was meant, and counts if the answer begins as expected."""
        answer = self.say(line)
        if label is not None and answer.startswith(expected):
            self.met[labelled(line[:2], expected, label)] += 1
        if answer.startswith("!") or self.chance.happens(35):
            self.say("ZH")
        if self.chance.happens(12):
            self.say(self.chance.pick(LOOKED_AT_OF_DEVICE if line[:2] in DEVICE_CALLS else LOOKED_AT))
        return answer

    def order(self, wrong, right, before=None, after=None, label=None, expected=None):
        """The same call twice, first with something wrong besides; counts which answer stood before which. The label is
        that of the first."""
        for line in before or ():
            self.say(line)
        first = case_of(wrong, self.call(wrong, label, expected))
        for line in after or ():
            self.say(line)
        second = case_of(right, self.call(right))
        self.met[first + " over " + second.split()[1]] += 1

    def set_record(self, socket, record):
        return "LS" + digits_of(socket, 2) + record_text(record)

    def set_session(self, record):
        return "DS" + record_text(record)

    def text(self):
        return b"".join(line + b"\n" for line in self.lines)

    def answer_text(self):
        return "".join(answer + "\n" for answer in self.answers).encode("ascii")


def labelled(operation, expected, label):
    return operation + " " + expected.lstrip("!") + ": " + label


def operation(name, *arguments):
    """A line: each argument is octets, or a pair of a number and its digits."""
    texts = [hexadecimal(argument) if isinstance(argument, (bytes, bytearray)) else digits_of(*argument)
             for argument in arguments]
    return name + "".join(texts)
