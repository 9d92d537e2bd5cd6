"""The proxy filter."""
import unittest

from model.generator.chance import Chance
from model.generator.filter_section import BAD_FILTERS
from model.proxy_filter import filter_of, take_message
from model.record_text import filter_text
from scripted import ScriptedTest


class Filters(ScriptedTest):
    def test_seventeenth_address(self):
        sixteen = "".join("%04X" % address for address in range(1, 17))
        self.play("FM01%s  F03000010\nFM010011  F03000010\nFL0011  F03000010\nFP0011  P00\nFP0010  P01\nFM01%s0011  !33" % (sixteen, sixteen))

    def test_order_of_refusals(self):
        self.play("FS0011%s  OK\nFM  !14\nFL0000  !14\nFP0000  !14\nFN  OK" % ("0000" * 16))
        self.play("FM  !31\nFM03  !32\nFM030000  !32\nFM000200  !33\nFM00  !33\nFM0002  !34\nFM00FF  !34\nFM0100  !33\nFM0200  !33")
        self.play("FM01  F03000000\nFM02  F03000000\nFM01%s  !33\nFM02%s  !33" % ("00" * 33, "00" * 34))

    def test_skips(self):
        self.play("""
            FM01000000050005C0000005  F03000002
            FM0200000006C000  F03000001
            FD  F00010005000000000000000000000000000000000000000000000000000000000000
        """)

    def test_removal_keeps_the_order(self):
        """Every address after the place moves down by one; the last is not moved into its place."""
        proxy_filter = filter_of(0, [1, 2, 3, 4, 5])
        self.assertEqual(take_message(proxy_filter, b"\x02\x00\x02").addresses(), [1, 3, 4, 5])
        self.assertEqual(take_message(proxy_filter, b"\x02\x00\x05\x00\x01").addresses(), [2, 3, 4])

    def test_sources(self):
        self.play("""
            FL0000  !35
            FL8000  !35
            FLFFFF  !35
            FL7FFF  F03000001
            FL7FFF  F03000001
            FP7FFF  P01
            FM0001  F03010000
            FL0001  F03010000
            FM0100010002  F03010002
            FL0001  F03010001
            FP0001  P01
            FP0002  P00
            FP0000  P00
            FM0000  F03000000
            FP0000  P00
        """)

    def test_bad_filters(self):
        chance = Chance(1)
        for make in BAD_FILTERS.values():
            for _ in range(20):
                self.play("FS%s  OK\nFM  !14\nFL0000  !14\nFP0001  !14" % filter_text(make(chance)))


if __name__ == "__main__":
    unittest.main()
