"""Scripts for provisioning messages and the view."""
from model.generator.messages import good_message
from model.generator.script import labelled, operation

PROHIBITED = {
    "no elements": (1, {1: (0,)}),
    "bits 1 to 7 of the key type": (1, {4: (0x02, 0x03, 0x80, 0xFF)}),
    "bits 1 to 7 of the static type": (1, {5: (0x02, 0x03, 0x80, 0xFF)}),
    "key above 1": (2, {2: (0x02, 0x80, 0xFF)}),
    "method above 3": (2, {3: (0x04, 0x80, 0xFF)}),
    "action in methods 0 and 1": (2, {3: (0, 1), 4: (1, 0xFF), 5: (0,)}),
    "size in methods 0 and 1": (2, {3: (0, 1), 4: (0,), 5: (1, 0xFF)}),
    "size 0 in methods 2 and 3": (2, {3: (2, 3), 5: (0,)}),
    "Failed with code 0": (9, {1: (0,)}),
}
LENGTHS = ("one too short", "one too long", "type alone", "of another message")
STARTS = ["Start with method %d" % method for method in range(4)]
VIEW_CALLS = ("VB", "VW", "VF")
VIEW_PLACES = ("at the end", "past the end", "last octets")

LABELS = ([labelled("PR", "45", label) for label in PROHIBITED] + [labelled("PR", "44", label) for label in LENGTHS]
          + [labelled("PR", "M02", label) for label in STARTS]
          + [labelled(name, "44", label) for name in VIEW_CALLS for label in VIEW_PLACES[:2]]
          + [labelled(name, "P" if name == "VF" else "N", "last octets") for name in VIEW_CALLS])


class ProvisioningSection:
    def __init__(self, script):
        self.script = script
        self.chance = script.chance

    def step(self):
        self.chance.weighted(((30, self.good), (25, self.prohibited), (15, self.wrong_length), (15, self.wrong_type),
                              (10, self.order), (25, self.view), (25, self.view_read), (10, self.view_edge)))()

    def message(self, message_type, values=None):
        return good_message(self.chance, message_type, values)

    def read(self, octets, label=None, expected=None):
        return self.script.call(operation("PR", octets), label, expected)

    def good(self):
        octets = self.message(self.script.in_turn("type", range(10)))
        label = STARTS[octets[3]] if octets[0] == 2 else None
        self.read(octets, label, "M02")

    def prohibited(self):
        label = self.script.in_turn("prohibited", list(PROHIBITED))
        self.read(self.message(*PROHIBITED[label]), label, "!45")

    def wrong_length(self):
        label = self.script.in_turn("length", LENGTHS)
        octets = self.message(self.chance.below(10))
        wrong = {"one too short": octets[:-1], "one too long": octets + self.chance.octets(1), "type alone": octets[:1],
                 "of another message": octets[:1] + self.chance.octets(self.chance.pick((1, 5, 11, 16, 33, 64)))}
        self.read(wrong[label], label, "!44")

    def wrong_type(self):
        first = self.chance.pick((0x0A, 0x0B, 0x3F, 0x40, 0x41, 0x80, 0xC1, 0xFF, self.chance.octet()))
        if self.chance.happens(25):
            self.read(b"")
            return
        self.read(bytes([first]) + self.chance.octets(self.chance.pick((0, 1, 5, 11, 16, 64))))

    def order(self):
        """A first octet that is wrong besides, or a length that is wrong before a prohibited value."""
        if self.chance.happens(50):
            octets = self.message(self.chance.below(10)) + self.chance.octets(1)
            wrong = bytes([self.chance.pick((0x40, 0x0A, 0x3F, 0xFF))]) + octets[1:]
            self.script.order(operation("PR", wrong), operation("PR", octets))
            return
        octets = self.message(*PROHIBITED[self.chance.pick(list(PROHIBITED))])
        wrong = octets[:-1] if self.chance.happens(50) else octets + self.chance.octets(1)
        self.script.order(operation("PR", wrong), operation("PR", octets))

    def view(self):
        octets = self.message(self.chance.below(10)) if self.chance.happens(70) else self.chance.octets(self.chance.below(90))
        place = self.chance.pick((0, 0, 1, len(octets)))
        self.script.say(operation("VS", (place, 4), octets))

    def view_line(self, name, count):
        return name + ("%04X" % count if name == "VF" else "")

    def view_read(self):
        name = self.chance.pick(VIEW_CALLS)
        self.script.call(self.view_line(name, self.chance.pick((1, 2, 8, 16, 25, 32, 0x600, 0xFFFF, self.chance.between(1, 70)))))
        if self.chance.happens(40):
            self.script.say("VD")

    def view_edge(self):
        """A read that ends at the end, one that starts there, and one that starts past it."""
        name = self.script.in_turn("view call", VIEW_CALLS)
        label = self.chance.pick(VIEW_PLACES)
        octets = self.chance.octets(self.chance.pick((2, 3, 17, 65, self.chance.between(2, 70))))
        count = {"VB": 1, "VW": 2, "VF": self.chance.between(1, len(octets))}[name]
        past = len(octets) + self.chance.pick((1, 2, 0xFFFF - len(octets)))
        place = {"at the end": len(octets) - count + 1, "past the end": past, "last octets": len(octets) - count}[label]
        expected = ("P" if name == "VF" else "N") if label == "last octets" else "!44"
        self.script.say(operation("VS", (place, 4), octets))
        self.script.call(self.view_line(name, count), label, expected)
        self.script.say("VD")
