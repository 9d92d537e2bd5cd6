"""Scripts of malformed lines, and of the operations that set and show."""
from model.generator.filter_section import places
from model.generator.bad_records import BAD_RECORDS, good_record
from model.generator.script import labelled, operation
from model.links import DEVICE, PROVISIONER
from model.proxy_filter import PLACES, Filter
from model.record_text import filter_text, record_text
from model.replay import OPERATIONS
from model.script_line import LONGEST_LINE, digits_of
from model.storage import SIZES

# Names that are no operation, the right ones in other letters among them.
NO_NAMES = ("", "R", "Z", "zz", "Zz", "rf", "Rf", "QQ", "ZY", "AA", "A0", "00", "  ", "?", "!11", "ZH ", " ZH", "\t", "ZZ\r",
            "\xff\xff")
WRONG_CHARACTERS = ("a", "f", "g", "G", " ", ":", "@", "/", "`", "\r", "\x00", "\x80", "\xff", "-")
SHOWN_COUNT = 0x0FA0
DAMAGES = ("a character that is no digit", "one digit more", "one digit less", "nothing after the name", "a flag above 01")
PAST = ("octets past 8,192 characters", "write past the end", "show past the end", "show too many", "lent too long",
        "socket out of range", "use above 02", "view of too many octets", "own UUID of too many octets",
        "read of no octets")
WITHIN = ("octets up to 8,192 characters", "write up to the end", "write none", "show up to the end", "show the most",
          "show none", "view of the most octets", "own UUID of the most octets")
STORAGES = "".join(SIZES)

LABELS = [labelled("--", "?", label) for label in DAMAGES + PAST] + [labelled("--", "", label) for label in WITHIN]


class LineSection:
    def __init__(self, script):
        self.script = script
        self.chance = script.chance

    def step(self):
        self.chance.weighted((
            (35, self.damaged), (10, self.no_name), (16, self.edge), (10, self.write), (12, self.show), (6, self.fill),
            (10, self.set_record), (6, self.set_session), (3, self.set_own_uuid), (6, self.set_transfer),
            (6, self.set_filter), (6, self.set_key_state), (5, self.set_view), (12, self.show_state),
            (1, self.start)))()

    def malformed(self, line, label):
        """A malformed line changes nothing."""
        answer = self.script.say(line)
        if answer == "?":
            self.script.met[labelled("--", "?", label)] += 1
        if answer.startswith("!") or self.chance.happens(60):
            self.script.say("ZH")

    def right(self, line, label):
        answer = self.script.say(line)
        if answer != "?":
            self.script.met[labelled("--", "", label)] += 1
        if answer.startswith("!"):
            self.script.say("ZH")

    # Malformed lines.

    def some_line(self, name):
        """A line with all its arguments, whatever they are."""
        form = OPERATIONS[name][0]
        arguments = [(self.chance.below(2 if is_flag else 16 ** digits), digits) for digits, is_flag in form.fixed]
        octets = self.chance.octets(self.chance.below(8)) if form.takes_octets else b""
        return operation(name, *arguments, octets)

    def damaged(self):
        name = self.script.in_turn("name", sorted(OPERATIONS))
        label = self.chance.pick(DAMAGES)
        line = self.some_line(name)
        form = OPERATIONS[name][0]
        if label == "a character that is no digit":
            place = self.chance.between(2, len(line))
            line = line[:place] + self.chance.pick(WRONG_CHARACTERS) + line[place + 1:]
        elif label == "one digit more" or len(line) == 2:
            label, line = "one digit more", line + self.chance.pick("0123456789ABCDEF")
        elif label == "one digit less":
            line = line[:-1]
        elif label == "nothing after the name" and form.fixed:
            line = name
        elif label == "a flag above 01":
            line = self.flag_above(name) or line[:-1]
        self.malformed(line, label)

    def flag_above(self, name):
        """A line with one flag above 01, or None if the operation has no flag."""
        form = OPERATIONS[name][0]
        flags = [index for index, (_, is_flag) in enumerate(form.fixed) if is_flag]
        if not flags:
            return None
        wrong = self.chance.pick(flags)
        texts = [digits_of(self.chance.pick((2, 0x10, 0xFF)) if index == wrong else 0, digits)
                 for index, (digits, _) in enumerate(form.fixed)]
        return name + "".join(texts)

    def no_name(self):
        name = self.script.in_turn("no name", NO_NAMES)
        self.malformed(name + self.chance.pick(("", "00", "0000")) if name else "", "no operation")

    # Edges of the ranges.

    def edge(self):
        label = self.script.in_turn("edge", PAST + WITHIN)
        storage = self.chance.pick(STORAGES)
        size = SIZES[storage]
        if label.startswith("octets"):
            self.longest(label)
        elif label.startswith("write"):
            self.edge_of_write(label, storage, size)
        elif label.startswith("show"):
            self.edge_of_show(label, storage, size)
        elif label.startswith("view"):
            count = 0x600 + (1 if label == "view of too many octets" else 0)
            line = operation("VS", (self.chance.below(0x700), 4), self.chance.octets(count))
            (self.malformed if count > 0x600 else self.right)(line, label)
        elif label == "own UUID of the most octets":
            self.right(operation("DU", self.chance.octets(0x20)), label)
        else:
            self.malformed(self.edge_of_range(label), label)

    def edge_of_range(self, label):
        if label == "lent too long":
            name, storage = self.chance.pick((("RF", "A"), ("DR", "E"), ("XR", "B"), ("WA", "O"), ("WS", "O"),
                                              ("XW", "O"), ("WK", "O"), ("WO", "O"), ("WC", "O")))
            size = SIZES[storage]
            return name + digits_of(self.chance.pick((size + 1, 0xFFFF)), 4) + self.some_line(name)[6:]
        if label == "socket out of range":
            name = self.chance.pick(("LS", "LD"))
            return name + digits_of(self.chance.pick((0, 9, 0xFF)), 2) + ("0" * 44 if name == "LS" else "")
        if label == "use above 02":
            name = self.chance.pick(("DS", "LS" + digits_of(self.chance.between(1, 8), 2)))
            return name + digits_of(self.chance.pick((3, 0xFF)), 2) + "0" * 42
        if label == "own UUID of too many octets":
            return operation("DU", self.chance.octets(self.chance.pick((0x21, 0x22, 0x40))))
        return "VF0000"

    def longest(self, label):
        """The longest line, and one that is longer by two digits."""
        characters = LONGEST_LINE if "up to" in label else LONGEST_LINE + self.chance.pick((1, 2))
        name = self.chance.pick(("PR", "CK", "FM", "RF2DE8", "DR05BD"))
        line = name + "5A" * ((characters - len(name)) // 2)
        line += "0" * (characters - len(line))
        (self.right if "up to" in label else self.malformed)(line, label)

    def edge_of_write(self, label, storage, size):
        count = self.chance.between(1, 9)
        if label == "write past the end":
            place = self.chance.pick((size - count + 1, size, size + 1, 0xFFFF))
            self.malformed(operation(storage + "W", (place, 4), self.chance.octets(count)), label)
            return
        place, octets = (size - count, self.chance.octets(count)) if "up to" in label else (self.chance.pick((0, size)), b"")
        self.right(operation(storage + "W", (place, 4), octets), label)

    def edge_of_show(self, label, storage, size):
        if label in ("show too many", "show past the end"):
            count = SHOWN_COUNT + 1 if label == "show too many" else self.chance.between(1, 9)
            place = 0 if label == "show too many" else self.chance.pick((size - count + 1, size, 0xFFFF))
            self.malformed(operation(storage + "D", (place, 4), (count, 4)), label)
            return
        if label == "show the most":
            storage = self.chance.pick("AO")
            count, place = SHOWN_COUNT, self.chance.pick((0, SIZES[storage] - SHOWN_COUNT))
        else:
            count = 0 if label == "show none" else self.chance.between(1, 30)
            place = size - count
        self.right(operation(storage + "D", (place, 4), (count, 4)), label)

    # Setting and showing.

    def write(self):
        storage = self.chance.pick(STORAGES)
        octets = self.chance.octets(self.chance.between(0, 30))
        place = self.chance.between(0, SIZES[storage] - len(octets))
        self.script.say(operation(storage + "W", (place, 4), octets))
        self.script.say(operation(storage + "D", (place, 4), (len(octets), 4)))

    def show(self):
        storage = self.chance.pick(STORAGES)
        count = self.chance.between(0, 40)
        self.script.say(operation(storage + "D", (self.chance.between(0, SIZES[storage] - count), 4), (count, 4)))
        self.script.say(storage + "H")

    def fill(self):
        self.script.say(operation(self.chance.pick(STORAGES) + "F", (self.chance.octet(), 2)))

    def set_record(self):
        socket = digits_of(self.chance.between(1, 8), 2)
        self.script.say("LS" + socket + self.record_text(PROVISIONER, self.script.program.records))
        self.script.say("LD" + socket)

    def set_session(self):
        self.script.say("DS" + self.record_text(DEVICE, self.script.program.session))
        self.script.say("DD")

    def set_own_uuid(self):
        """It is no part of any hash; what shows it is an Open."""
        self.script.say(operation("DU", self.chance.octets(self.chance.pick((0, 1, 15, 16, 16, 16, 17, 32)))))
        self.script.say("ZH")

    def record_text(self, side, records):
        """Good, bad, or any digits at all: setting a state never refuses, and what is governed by a flag is dropped."""
        if self.chance.happens(30):
            return digits_of(self.chance.below(3), 2) + self.some_record()
        if self.chance.happens(50):
            return record_text(good_record(self.chance, side, records))
        kinds = BAD_RECORDS[side]
        return record_text(kinds[self.chance.pick(list(kinds))](self.chance, side, records) or records[0])

    def some_record(self):
        octets = bytearray(self.chance.octets(21))
        for flag in (5, 6, 8):
            octets[flag] = self.chance.below(2)
        return operation("", octets)

    def set_transfer(self):
        flags = (self.chance.below(2), 2), (self.chance.below(2), 2)
        self.script.say(operation("XS", *flags, (self.chance.octet(), 2), (self.chance.below(0x10000), 4)))
        self.script.say("XD")

    def set_filter(self):
        proxy_filter = Filter(self.chance.below(2), self.chance.octet(), tuple(places(self.chance, PLACES)))
        self.script.say("FS" + filter_text(proxy_filter))
        self.script.say("FD")

    def set_key_state(self):
        self.script.say(operation("KS", (self.chance.octet(), 2), self.chance.octets(4), (self.chance.below(2), 2)))
        self.script.say("KD")

    def set_view(self):
        self.script.say(operation("VS", self.chance.octets(2), self.chance.octets(self.chance.below(12))))
        self.script.say("VD")

    def show_state(self):
        record = operation("LD", (self.chance.between(1, 8), 2))
        self.script.say(self.chance.pick(("LA", "DD", "XD", "FD", "KD", "VD", "AH", "BH", "OH", "EH", "ZH", record)))

    def start(self):
        self.script.say("ZZ")
        self.script.say("ZH")
