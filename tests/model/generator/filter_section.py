"""Scripts for the filter."""
from model.generator.script import labelled, operation
from model.proxy_filter import PLACES, Filter, filter_of
from model.record_text import filter_text

EDGE_ADDRESSES = (0x0000, 0x0001, 0x0002, 0x7FFE, 0x7FFF, 0x8000, 0x8001, 0xC000, 0xFF00, 0xFFFE, 0xFFFF)


def places(chance, count):
    """That many different addresses."""
    addresses = []
    while len(addresses) < count:
        address = chance.pick(EDGE_ADDRESSES[1:] + (chance.between(1, 0xFFFF),))
        if address not in addresses:
            addresses.append(address)
    return addresses


def over_sixteen(chance):
    full = filter_of(chance.below(2), places(chance, PLACES))
    return full._replace(count=chance.pick((17, 18, 0xFF)))


def with_repeat(chance):
    addresses = places(chance, chance.between(2, PLACES))
    first = chance.below(len(addresses) - 1)
    addresses[chance.between(first + 1, len(addresses) - 1)] = addresses[first]
    return filter_of(chance.below(2), addresses)


def with_unassigned(chance):
    addresses = places(chance, chance.between(1, PLACES))
    addresses[chance.below(len(addresses))] = 0
    return filter_of(chance.below(2), addresses)


def not_zero_past_the_count(chance):
    addresses = places(chance, chance.between(1, PLACES))
    full = filter_of(chance.below(2), addresses)
    return full._replace(count=chance.below(len(addresses)))


BAD_FILTERS = {
    "over 16 addresses": over_sixteen,
    "with a repeat": with_repeat,
    "with 0x0000": with_unassigned,
    "not 0 past its count": not_zero_past_the_count,
}
LENGTHS = ("type without octet", "type with two octets", "odd list", "list of 34 octets", "list of 33 octets")
FULL = ("adding a 17th address", "learning a 17th address", "adding 16 at once")

LABELS = ([labelled(name, "14", label) for name in ("FM", "FL", "FP") for label in BAD_FILTERS]
          + [labelled("FM", "33", label) for label in LENGTHS] + [labelled("FM", "F", label) for label in (FULL[0], FULL[2])]
          + [labelled("FL", "F", FULL[1])] + [labelled("FM", "F", "removing from place %d" % place) for place in (0, 7, 15)]
          + [labelled("FL", "35", label) for label in ("0x0000", "0x8000", "0xFFFF")]
          + [labelled("FP", "P00", "0x0000 on a reject list")])


class FilterSection:
    def __init__(self, script):
        self.script = script
        self.chance = script.chance

    def step(self):
        self.chance.weighted((
            (30, self.change), (14, self.learn), (14, self.decide), (4, self.set_type), (6, self.wrong_length), (6, self.wrong_first),
            (8, self.full), (8, self.remove_place), (12, self.order_of_state), (8, self.order_of_message), (6, self.set_filter),
            (1, self.new)))()

    def filter(self):
        return self.script.program.filter

    def address(self):
        """Often one that is in the list."""
        addresses = self.filter().addresses()
        if addresses and self.chance.happens(50):
            return self.chance.pick(addresses)
        return self.chance.pick(EDGE_ADDRESSES + (self.chance.below(0x10000), self.chance.between(1, 30)))

    def addresses(self, count):
        return b"".join(self.address().to_bytes(2, "big") for _ in range(count))

    def message(self, octets, label=None, expected=None):
        answer = self.script.call(operation("FM", octets), label, expected)
        if self.chance.happens(25):
            self.script.say("FD")
        return answer

    def change(self):
        count = self.chance.pick((0, 1, 1, 2, 3, 5, self.chance.between(0, 16), 16))
        self.message(bytes([self.chance.pick((1, 1, 2))]) + self.addresses(count))

    def learn(self):
        address = self.address()
        self.script.call(operation("FL", (address, 4)), "0x%04X" % address, "!35")

    def decide(self):
        address = 0 if self.chance.happens(10) else self.address()
        label = "0x0000 on a reject list" if address == 0 and self.filter().filter_type == 1 else None
        self.script.call(operation("FP", (address, 4)), label, "P00")

    def set_type(self):
        self.message(bytes([0, self.chance.pick((0, 1, 1, 2, 0xFF))]))

    def wrong_length(self):
        label = self.script.in_turn("FM", LENGTHS)
        opcode = bytes([self.chance.between(1, 2)])
        octets = {"type without octet": b"\x00", "type with two octets": bytes([0, self.chance.below(3), 0]),
                  "odd list": opcode + self.addresses(self.chance.below(16)) + self.chance.octets(1),
                  "list of 34 octets": opcode + self.addresses(17),
                  "list of 33 octets": opcode + self.addresses(16) + self.chance.octets(1)}[label]
        self.message(octets, label, "!33")

    def wrong_first(self):
        if self.chance.happens(30):
            self.message(b"")
            return
        self.message(bytes([self.chance.pick((3, 4, 0x40, 0xFF))]) + self.chance.octets(self.chance.below(5)))

    def full(self):
        """A full list stays as it is; sixteen may come at once."""
        label = self.script.in_turn("full", FULL)
        if label == "adding 16 at once":
            self.message(bytes([0, self.chance.below(2)]))
            octets = b"".join(address.to_bytes(2, "big") for address in places(self.chance, PLACES))
            self.message(b"\x01" + octets, label, "F")
            return
        addresses = places(self.chance, PLACES + 1)
        filter_type = 0 if label == "learning a 17th address" else self.chance.below(2)
        self.script.say("FS" + filter_text(filter_of(filter_type, addresses[:PLACES])))
        if label == "adding a 17th address":
            self.message(b"\x01" + addresses[PLACES].to_bytes(2, "big"), label, "F")
        else:
            unlisted = next(address for address in range(3, 40) if address not in addresses)
            self.script.call(operation("FL", (unlisted, 4)), label, "F")
        self.script.say("FD")

    def remove_place(self):
        """Every address after the place moves down by one."""
        place = self.script.in_turn("place", (0, 7, 15, 1, 14))
        addresses = places(self.chance, PLACES)
        self.script.say("FS" + filter_text(filter_of(self.chance.below(2), addresses)))
        self.message(b"\x02" + addresses[place].to_bytes(2, "big"), "removing from place %d" % place, "F")
        self.script.say("FD")

    def some_message(self):
        return self.chance.weighted((
            (50, bytes([self.chance.between(1, 2)]) + self.addresses(self.chance.between(0, 4))), (10, b""), (10, b"\x03\x00"),
            (10, b"\x01\x00"), (10, b"\x00\x02"), (10, b"\x00\x01")))

    def some_line(self, name):
        if name == "FM":
            return operation("FM", self.some_message())
        return operation(name, (self.address(), 4))

    def order_of_state(self):
        label = self.script.in_turn("bad filter", list(BAD_FILTERS))
        line = self.some_line(self.script.in_turn(label, ("FM", "FL", "FP")))
        good = "FS" + filter_text(self.filter())
        self.script.say("FS" + filter_text(BAD_FILTERS[label](self.chance)))
        self.script.call(line, label, "!14")
        self.script.order(line, line, after=[good])

    def order_of_message(self):
        if self.chance.happens(50):
            odd = self.chance.octets(self.chance.pick((1, 3, 33, 35)))
            self.script.order(operation("FM", b"\x03" + odd), operation("FM", b"\x01" + odd))
            return
        wrong_type = bytes([0, self.chance.between(2, 255)])
        self.script.order(operation("FM", wrong_type + b"\x00"), operation("FM", wrong_type))

    def set_filter(self):
        count = self.chance.pick((0, 1, 15, 16, self.chance.below(17)))
        self.script.say("FS" + filter_text(filter_of(self.chance.below(2), places(self.chance, count))))

    def new(self):
        if self.chance.happens(50):
            self.script.say("FS" + filter_text(Filter(1, 0xFF, (0xFFFF,) * PLACES)))
        self.script.call("FN")
        self.script.say("FD")
