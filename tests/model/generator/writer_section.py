"""Scripts for the writers of frames, the check octet and SegN."""
from model.frames import LONGEST_MESSAGE, last_segment_number
from model.generator.bad_records import LINK_IDS
from model.generator.chance import EDGE_LENGTHS, LONG_LENGTHS, WRONG_LENGTHS
from model.generator.script import OUTPUT, labelled, operation

WRITTEN = {"WK": 6, "WO": 22, "WA": 6, "WC": 7}
WRONG = {"WS": ("output too short", "index above SegN", "no message", "message too long"), "WK": ("output too short",),
         "WO": ("output too short", "UUID length"), "WA": ("output too short",), "WC": ("output too short",),
         "CK": ("no message", "message too long"), "SG": ("length 0", "length above 1,469")}
FITS = ("output just long enough", "whole output")

LABELS = ([labelled(name, "11", label) for name, labels in WRONG.items() for label in labels]
          + [labelled(name, "W", label) for name in ("WS", "WK", "WO", "WA", "WC") for label in FITS])


class WriterSection:
    def __init__(self, script):
        self.script = script
        self.chance = script.chance

    def step(self):
        self.chance.weighted(((40, self.segment), (30, self.other_frame), (12, self.several_wrong), (10, self.check),
                              (8, self.last_segment), (8, self.storage)))()

    def link_id(self):
        return self.chance.pick(LINK_IDS)

    def lent(self, name, written):
        """A length lent, with its label and the answer that it ought to bring."""
        label = self.script.in_turn(name, FITS + ("output too short",))
        if label == "whole output":
            return self.chance.pick((OUTPUT, written + 1, self.chance.between(written, OUTPUT))), label, "W"
        if label == "output too short":
            return self.chance.pick((0, written - 1, self.chance.below(written))), label, "!11"
        return written, label, "W"

    def segment(self):
        message = self.chance.octets(self.chance.message_length())
        last = last_segment_number(len(message))
        index = self.chance.pick((0, last, self.chance.between(0, last)))
        written = 9 + min(20, len(message)) if index == 0 else 6 + min(23, len(message) - 20 - 23 * (index - 1))
        lent, label, expected = self.lent("WS", written)
        wrong = self.chance.below(100)
        if wrong < 15:
            index, lent, label, expected = self.chance.pick((last + 1, 64, 255)), OUTPUT, "index above SegN", "!11"
        elif wrong < 20:
            message, lent, label, expected = b"", OUTPUT, "no message", "!11"
        elif wrong < 24:
            message, lent, label, expected = self.too_long(), OUTPUT, "message too long", "!11"
        self.script.call(operation("WS", (lent, 4), (self.link_id(), 8), (self.chance.octet(), 2), (index, 2), message),
                         label, expected)
        self.look(written)

    def too_long(self):
        return self.chance.octets(self.chance.pick((LONGEST_MESSAGE + 1, LONGEST_MESSAGE + 2, 2000)))

    def look(self, written):
        """Octets past what was written stay."""
        if self.chance.happens(25):
            self.script.say(operation("OD", (0, 4), (written + self.chance.below(8), 4)))

    def arguments(self, name):
        """What follows the length lent and the Link ID."""
        return {"WK": ((self.chance.octet(), 2),), "WO": (self.chance.octets(16),), "WA": (),
                "WC": ((self.chance.octet(), 2),)}[name]

    def other_frame(self):
        name = self.script.in_turn("frame", ("WK", "WO", "WA", "WC"))
        lent, label, expected = self.lent(name, WRITTEN[name])
        arguments = self.arguments(name)
        if name == "WO" and self.chance.happens(30):
            lent, label, expected = OUTPUT, "UUID length", "!11"
            arguments = (self.chance.octets(self.chance.pick((0, 1, 15, 17, 18, 32))),)
        self.script.call(operation(name, (lent, 4), (self.link_id(), 8), *arguments), label, expected)
        self.look(WRITTEN[name])

    def several_wrong(self):
        """Several wrong arguments at once are still just 11."""
        lent = (self.chance.below(7), 4)
        if self.chance.happens(50):
            self.script.call(operation("WO", lent, (self.link_id(), 8), self.chance.octets(self.chance.pick((0, 15, 17)))))
            return
        message = self.chance.octets(self.chance.pick((0, 1, 20, 21)))
        self.script.call(operation("WS", lent, (self.link_id(), 8), (self.chance.octet(), 2),
                                   (self.chance.between(2, 255), 2), message))

    def check(self):
        label = self.script.in_turn("CK", ("right", "right", "right", "right", "no message", "right", "message too long"))
        message = {"right": lambda: self.chance.octets(self.chance.message_length()), "no message": lambda: b"",
                   "message too long": self.too_long}[label]()
        self.script.call("CK" + message.hex().upper(), label, "!11")

    def last_segment(self):
        length = self.chance.pick(EDGE_LENGTHS + LONG_LENGTHS + (self.chance.between(1, LONGEST_MESSAGE),))
        if self.chance.happens(35):
            length = self.chance.pick(WRONG_LENGTHS + (0xFFFF, 0x8001))
        self.script.call(operation("SG", (length, 4)), "length 0" if length == 0 else "length above 1,469", "!11")

    def storage(self):
        self.script.say("OF%02X" % self.chance.octet())
