"""Provisioning messages and the view."""
import unittest

from model.generator.chance import Chance
from model.generator.messages import good_message
from model.provisioning import FIELD_LENGTHS, read_message
from model.refusal import Refusal
from scripted import ScriptedTest

PARAMETER_LENGTHS = (1, 11, 5, 64, 0, 16, 16, 33, 0, 1)


def refusal(octets):
    try:
        read_message(octets)
    except Refusal as refused:
        return refused.number
    return None


class Messages(ScriptedTest):
    def test_parameter_lengths(self):
        self.assertEqual(tuple(sum(lengths) for lengths in FIELD_LENGTHS), PARAMETER_LENGTHS)

    def test_every_first_octet_and_length(self):
        chance = Chance(1)
        self.assertEqual(refusal(b""), 41)
        for first in range(256):
            for count in range(0, 70):
                expected = 42 if first >= 0x40 else 43 if first > 9 else 44 if count != PARAMETER_LENGTHS[first] else None
                octets = bytes([first]) + chance.octets(count)
                if expected is None:
                    octets = good_message(chance, first)
                self.assertEqual(refusal(octets), expected, octets.hex())

    def test_prohibited_values(self):
        self.play("""
            PR010000010000000000000000  !45
            PR010100000202000000000000  !45
            PR010100000001000000000000  M010100000001000000000000
            PR010100000102000000000000  !45
            PR0101FFFF0101FFFFFFFFFFFF  M0101FFFF0101FFFFFFFFFFFF
            PR02FF01000000  M02FF01000000
            PR020002000000  !45
            PR020000040001  !45
            PR020000000100  !45
            PR020000000001  !45
            PR020000010100  !45
            PR020000010001  !45
            PR020000020000  !45
            PR020000030000  !45
            PR02000002FFFF  M02000002FFFF
            PR020001030001  M020001030001
            PR0900  !45
            PR0909  M0909
            PR09FF  M09FF
            PR00FF  M00FF
            PR04  M04
            PR08  M08
            PR0800  !44
        """)

    def test_order(self):
        self.play("PR  !41\nPR40  !42\nPR4A00  !42\nPR0A  !43\nPR3F00  !43\nPR01  !44\nPR090000  !44\nPR0900  !45")

    def test_long_fields(self):
        self.play("PR03%s  M030001002000210020\nPR07%s  M0700010019001A0008\nPR05%s  M0500010010" % ("AB" * 64, "CD" * 33, "EF" * 16))


class View(ScriptedTest):
    def test_reads(self):
        self.play("""
            VB  !44
            VS00000102030405  OK
            VF0002  P00000002
            VW  N0304
            VW  !44
            VF0002  !44
            VD  V0004
            VB  N05
            VD  V0005
            VF0001  !44
            VF0000  ?
            VSFFFF0102  OK
            VB  !44
            VF0001  !44
            VD  VFFFF
            VS00020102  OK
            VB  !44
            VS00010102  OK
            VW  !44
            VF0001  P00010001
        """)


if __name__ == "__main__":
    unittest.main()
