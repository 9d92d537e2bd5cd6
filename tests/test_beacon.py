"""Beacons, key refresh and IV update."""
import unittest

from model.beacon import KeyState, local_set, local_start, read_beacon
from model.refusal import Refusal
from scripted import ScriptedTest


def beacon(received, key_refresh=0, iv_update=0, ignored=0):
    return bytes([1, ignored | key_refresh | iv_update << 1]) + bytes(8) + received.to_bytes(4, "big") + bytes(8)


def outcome(call, *arguments):
    try:
        return call(*arguments)
    except Refusal as refusal:
        return refusal.number


class KeyRule(unittest.TestCase):
    # Phase, key, flag: phase and report afterwards, or the refusal.
    TABLE = {(0, 0, 0): (0, 0), (0, 0, 1): (0, 0), (0, 1, 0): 55, (0, 1, 1): 55,
             (1, 0, 0): (1, 0), (1, 0, 1): (1, 0), (1, 1, 0): (0, 1), (1, 1, 1): (2, 0),
             (2, 0, 0): 55, (2, 0, 1): 55, (2, 1, 0): (0, 1), (2, 1, 1): (2, 0)}

    def test_table(self):
        for (phase, key, flag), expected in self.TABLE.items():
            for ignored in (0, 0xFC):
                got = outcome(read_beacon, KeyState(phase, 7), True, key, False, beacon(7, flag, 0, ignored))
                if not isinstance(got, int):
                    got = got[0].phase, got[1][0]
                self.assertEqual(got, expected, (phase, key, flag))

    def test_local(self):
        self.assertEqual([outcome(local_start, KeyState(phase)) for phase in range(4)], [(KeyState(1), 0), 56, 56, 14])
        for target in range(256):
            expected = {2: (KeyState(2), 0), 3: (KeyState(0), 1)}.get(target, 56)
            self.assertEqual([outcome(local_set, KeyState(phase), target) for phase in range(4)], [56, expected, expected, 14])


class IvRule(unittest.TestCase):
    # In progress, B - I, flag: B - I of the index kept, in progress and report afterwards.
    TABLE = {(0, 0, 0): (0, 0, 0), (0, 0, 1): (0, 0, 0), (0, 1, 0): (0, 0, 0), (0, 1, 1): (1, 1, 0),
             (0, 2, 0): (0, 0, 2), (0, 2, 1): (0, 0, 2), (0, 42, 0): (0, 0, 2), (0, 42, 1): (0, 0, 2),
             (1, 0, 0): (0, 0, 1), (1, 0, 1): (0, 1, 0), (1, 1, 0): (0, 1, 2), (1, 1, 1): (0, 1, 2),
             (1, 2, 0): (0, 1, 2), (1, 2, 1): (0, 1, 2), (1, 42, 0): (0, 1, 2), (1, 42, 1): (0, 1, 2)}

    def test_table(self):
        for (in_progress, step, flag), (kept, after, report) in self.TABLE.items():
            for index in (0, 1000, 0xFFFFFFFF - 42):
                state, reports = read_beacon(KeyState(0, index, bool(in_progress)), True, 0, False, beacon(index + step, 0, flag))
                self.assertEqual((state, reports), (KeyState(0, index + kept, bool(after)), (0, report)))

    def test_window(self):
        for in_progress in (False, True):
            for flag in (0, 1):
                state = KeyState(1, 100, in_progress)
                for received in (0, 99, 143, 0xFFFFFFFF):
                    self.assertEqual(outcome(read_beacon, state, True, 1, False, beacon(received, 1, flag)), 57)
                for received in (101, 102, 142):
                    self.assertEqual(outcome(read_beacon, state, True, 1, True, beacon(received, 1, flag)), 57)

    def test_secondary_subnet_may_end_the_update(self):
        state, reports = read_beacon(KeyState(0, 100, True), True, 0, True, beacon(100))
        self.assertEqual((state, reports), (KeyState(0, 100, False), (0, 1)))

    def test_no_wrap(self):
        last = KeyState(0, 0xFFFFFFFF)
        self.assertEqual(read_beacon(last, True, 0, False, beacon(0xFFFFFFFF))[1], (0, 0))
        for received in (0, 1, 41, 0xFFFFFFFE):
            self.assertEqual(outcome(read_beacon, last, True, 0, False, beacon(received, 0, 1)), 57)


class Order(ScriptedTest):
    def test_order(self):
        """One condition after the other is taken away; nothing changes with any of them."""
        body, ends = "00" + "3E" * 8 + "00000063" + "5F" * 8, "5F"
        self.play("\n".join(["KS030000006400  OK", "BR000000  !14", "KI  !14", "KT02  !14", "KS020000006400  OK", "BR000000  !51",
                             "BR00000002" + body + ends + "  !52", "BR00000001" + body + ends + "  !53", "BR00000001" + body + "  !54",
                             "BR01000001" + body + "  !55", "BR01010001" + body + "  !57", "KD  K020000006400"]))

    def test_lengths(self):
        for kind, right in ((0, (19, 23)), (1, (22,))):
            for length in range(1, 40):
                octets = bytes([kind]) + bytes(length - 1)
                got = outcome(read_beacon, KeyState(), True, 0, False, octets)
                self.assertEqual(got == 53, length not in right, (kind, length))

    def test_type_zero_changes_no_state(self):
        octets = "AB" * 16 + "0102"
        for saying in ("000000", "010101", "000100"):
            self.play("KS02FFFFFFFF01  OK\nBR%s00%s  U%s0000000000\nKD  K02FFFFFFFF01" % (saying, octets, octets))


if __name__ == "__main__":
    unittest.main()
