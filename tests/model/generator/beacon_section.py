"""Scripts for beacons, key refresh and IV state."""
from model.generator.script import labelled, operation

LAST_INDEX = 0xFFFFFFFF
EDGE_INDEXES = (0, 1, 41, 42, 43, 0x12345678, LAST_INDEX - 43, LAST_INDEX - 42, LAST_INDEX - 41, LAST_INDEX - 1, LAST_INDEX)
STEPS = (0, 0, 0, 1, 1, 1, 2, 3, 41, 42, 43, 44, -1, -2)
WRONG_LENGTHS = {0: (1, 17, 18, 20, 21, 22, 24, 30), 1: (1, 2, 19, 21, 23, 24)}
OUT_OF_WINDOW = ("B below I", "B above I + 42", "B above I on a secondary subnet")
WRONG_KEY = ("new in phase 0", "old in phase 2")
PHASES = ["phase %d, %s key, flag %d" % (phase, key, flag) for phase, key in ((0, "old"), (1, "old"), (1, "new"), (2, "new"))
          for flag in (0, 1)]
UPDATES = ["%s, B = I + %d, flag %d" % (state, step, flag) for state in ("normal", "in progress") for step in (0, 1, 2, 42)
           for flag in (0, 1)]

LABELS = ([labelled("BR", "57", label) for label in OUT_OF_WINDOW] + [labelled("BR", "55", label) for label in WRONG_KEY]
          + [labelled("BR", "B", label) for label in PHASES + UPDATES]
          + [labelled("BR", "53", "type %d of %d octets" % (kind, count)) for kind in (0, 1) for count in WRONG_LENGTHS[kind]]
          + [labelled("BR", "U", label) for label in ("without hash", "with hash")]
          + [labelled("BR", "B", "I = B = FFFFFFFF")]
          + [labelled("KT", answer, "target %d in phase %d" % (target, phase)) for answer, target, phase in
             (("K00", 2, 1), ("K00", 2, 2), ("K01", 3, 1), ("K01", 3, 2), ("56", 2, 0), ("56", 3, 0), ("56", 1, 1), ("56", 4, 2),
              ("56", 0, 2))])


class BeaconSection:
    def __init__(self, script):
        self.script = script
        self.chance = script.chance

    def step(self):
        self.chance.weighted((
            (40, self.secure), (10, self.device), (10, self.wrong_length), (6, self.wrong_type), (12, self.set_state),
            (8, self.local_start), (12, self.local_set), (12, self.order_of_state), (14, self.order_of_beacon), (6, self.last_index), (2, self.empty)))()

    def state(self):
        return self.script.program.key_state

    # Lines.

    def line(self, octets, authentic=1, new_key=0, secondary=0):
        return operation("BR", (authentic, 2), (new_key, 2), (secondary, 2), octets)

    def any_saying(self):
        """What the host says, of no account to a type 0 beacon."""
        return self.chance.below(2), self.chance.below(2), self.chance.below(2)

    def right_key(self):
        """A key that the phase allows."""
        return {0: 0, 1: self.chance.below(2)}.get(self.state().phase, 1)

    def beacon(self, received, flags=None):
        flags = self.chance.pick((0, 1, 2, 3, self.chance.octet())) if flags is None else flags
        return bytes([1, flags]) + self.chance.octets(8) + received.to_bytes(4, "big") + self.chance.octets(8)

    def received(self):
        index = self.state().index + self.chance.pick(STEPS)
        return index if 0 <= index <= LAST_INDEX else self.chance.pick((0, LAST_INDEX))

    def set_line(self, phase, index, in_progress):
        return operation("KS", (phase, 2), (index, 8), (in_progress, 2))

    def state_line(self):
        state = self.state()
        return self.set_line(state.phase, state.index, state.in_progress)

    # Beacons.

    def secure(self):
        state = self.state()
        octets, secondary = self.beacon(self.received()), int(self.chance.happens(15))
        new_key = self.right_key() if self.chance.happens(85) else self.chance.below(2)
        authentic = int(self.chance.happens(93))
        answer = self.script.call(self.line(octets, authentic, new_key, secondary))
        self.count(state, octets, new_key, secondary, answer)
        if self.chance.happens(50):
            self.script.say("KD")

    def count(self, state, octets, new_key, secondary, answer):
        """Count which line of document 01's rules this beacon was for."""
        step = int.from_bytes(octets[10:14], "big") - state.index
        key_flag, update_flag = octets[1] & 1, octets[1] >> 1 & 1
        labels = []
        if answer == "!57":
            labels = [OUT_OF_WINDOW[0] if step < 0 else OUT_OF_WINDOW[1] if step > 42 else OUT_OF_WINDOW[2]]
        elif answer == "!55":
            labels = [WRONG_KEY[0] if new_key else WRONG_KEY[1]]
        elif answer.startswith("B"):
            labels = ["phase %d, %s key, flag %d" % (state.phase, ("old", "new")[new_key], key_flag),
                      "%s, B = I + %d, flag %d" % (("normal", "in progress")[state.in_progress], step, update_flag)]
        expected = answer[1:] if answer.startswith("!") else answer[:1]
        for label in labels:
            self.script.met[labelled("BR", expected, label)] += 1

    def device(self):
        label = self.script.in_turn("device", ("without hash", "with hash"))
        octets = b"\x00" + self.chance.octets(18 if label == "without hash" else 22)
        self.script.call(self.line(octets, *self.any_saying()), label, "U")

    def wrong_length(self):
        kind = self.chance.below(2)
        count = self.script.in_turn(kind, WRONG_LENGTHS[kind])
        octets = bytes([kind]) + self.chance.octets(count - 1)
        self.script.call(self.line(octets, *self.any_saying()), "type %d of %d octets" % (kind, count), "!53")

    def wrong_type(self):
        octets = bytes([self.chance.pick((2, 3, 0x80, 0xFF))]) + self.chance.octets(self.chance.pick((0, 18, 21, 22)))
        self.script.call(self.line(octets, *self.any_saying()))

    def empty(self):
        self.script.call(self.line(b"", *self.any_saying()))

    def last_index(self):
        """No wrap: FFFFFFFF accepts only FFFFFFFF."""
        self.script.say(self.set_line(0, LAST_INDEX, self.chance.below(2)))
        received = self.chance.pick((LAST_INDEX, LAST_INDEX, 0, 1, 41))
        label = "I = B = FFFFFFFF" if received == LAST_INDEX else None
        self.script.call(self.line(self.beacon(received)), label, "B")

    # States.

    def set_state(self):
        index = self.chance.pick(EDGE_INDEXES + (self.chance.below(LAST_INDEX + 1),))
        self.script.say(self.set_line(self.chance.below(3), index, self.chance.below(2)))

    def local_start(self):
        self.script.call("KI")

    def target(self):
        return self.chance.pick((2, 2, 2, 3, 3, 0, 1, 4, 0xFF))

    def local_set(self):
        if self.state().phase == 0 and self.chance.happens(70):
            self.script.call("KI")
        target, phase = self.target(), self.state().phase
        label = "target %d in phase %d" % (target, phase)
        answer = self.script.call(operation("KT", (target, 2)))
        self.script.met[labelled("KT", answer, label)] += 1

    # The order of refusals.

    def some_line(self):
        name = self.script.in_turn("some line", ("BR", "KI", "BR", "KT", "BR"))
        if name == "KI":
            return name
        if name == "KT":
            return operation("KT", (self.target(), 2))
        octets = self.chance.weighted((
            (60, self.beacon(self.received())), (8, b""), (8, b"\x02\x00"), (8, b"\x01" + self.chance.octets(20)),
            (8, b"\x00" + self.chance.octets(18)), (8, self.beacon(self.chance.below(LAST_INDEX)))))
        new_key = self.right_key() if self.chance.happens(80) else self.chance.below(2)
        return self.line(octets, int(self.chance.happens(85)), new_key)

    def order_of_state(self):
        """The same call in a phase above 2 and in a good state."""
        self.set_state()
        line = self.some_line()
        if self.chance.happens(25):
            # A beacon that revokes the old key, and that the IV rule reports as nothing, "reset sequence" or "recovery wanted".
            in_progress, step = self.script.in_turn("both reports", ((0, 0), (1, 0), (0, 2)))
            index = min(self.state().index, LAST_INDEX - 2)
            self.script.say(self.set_line(self.chance.between(1, 2), index, in_progress))
            line = self.line(self.beacon(index + step, self.chance.octet() & 0xFC), 1, 1)
        good = self.state_line()
        bad = self.set_line(self.chance.pick((3, 4, 0x80, 0xFF)), self.state().index, self.state().in_progress)
        self.script.order(line, line, [bad], [good])

    def order_of_beacon(self):
        self.set_state()
        octets = self.beacon(self.received())
        saying = int(self.chance.happens(70)), self.chance.below(2), self.chance.below(2)
        self.chance.pick((self.order_of_type, self.order_of_length, self.order_of_authentic, self.order_of_key))(octets, saying)

    def order_of_type(self, octets, saying):
        octets = octets[:self.chance.between(1, 21)]
        self.script.order(self.line(b"\x02" + octets[1:], *saying), self.line(octets, *saying))

    def order_of_length(self, octets, saying):
        wrong = octets[:-1] if self.chance.happens(50) else octets + self.chance.octets(1)
        self.script.order(self.line(wrong, *saying), self.line(octets, *saying))

    def order_of_authentic(self, octets, saying):
        self.script.order(self.line(octets, 0, *saying[1:]), self.line(octets, 1, *saying[1:]))

    def order_of_key(self, octets, saying):
        right = self.right_key()
        self.script.order(self.line(octets, 1, 1 - right, saying[2]), self.line(octets, 1, right, saying[2]))
