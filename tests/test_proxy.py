"""Proxy transfer."""
import unittest

from model.generator.chance import Chance
from model.proxy import Transfer, number_of_pieces, pieces, read_piece
from scripted import ScriptedTest


class Writing(ScriptedTest):
    def test_figures(self):
        self.assertEqual([len(piece) for piece in pieces(20, 0, bytes(19))], [20])
        self.assertEqual([len(piece) for piece in pieces(20, 0, bytes(20))], [20, 2])

    def test_lists(self):
        """Full pieces, the last of what remains and never empty; put together, the message."""
        chance = Chance(1)
        for size in (20, 21, 100, 514):
            for length in (1, size - 2, size - 1, size, 2 * size - 2, 2 * size - 1, 1469):
                message = chance.octets(min(length, 1469))
                every = pieces(size, 2, message)
                self.assertEqual(number_of_pieces(size, len(message)), len(every))
                self.assertEqual(b"".join(piece[1:] for piece in every), message)
                self.assertTrue(all(len(piece) == size for piece in every[:-1]) and 2 <= len(every[-1]) <= size)
                tops = [piece[0] >> 6 for piece in every]
                self.assertEqual(tops, [0] if len(every) == 1 else [1] + [2] * (len(every) - 2) + [3])

    def test_arguments(self):
        message = "11" * 20
        self.play("\n".join(["XN00130001  !11", "XN02030001  !11", "XN00140000  !11", "XN001405BE  !11", "XN001405BD  N4E", "XN020205BD  N03",
                             "XW100000140400" + message + "  !11", "XW100000140002" + message + "  !11", "XW100000140000  !11",
                             "XW001300140000" + message + "  !11", "XW001400140000" + message + "  W001440" + "11" * 19,
                             "XW000100140001" + message + "  !11", "XW000200140001" + message + "  W0002C011",
                             "XW100000150000" + message + "  W001500" + message, "XW100000150001" + message + "  !11"]))


class Reading(ScriptedTest):
    def test_order(self):
        """One condition after the other is taken away."""
        self.play("""
            XS00010105BE  OK
            XR05BC  !11
            XR05BE  !11
            XR05BD  !14
            XC  !14
            XX  !14
            XS0000000000  OK
            XR05BD  !26
            XC  OK
            XR05BD  !21
            XR05BD84  !21
            XR05BD8400  !22
            XD  X0100000000
            XR05BD8300  !23
            XD  X0000000000
            XC  OK
            XR05BD43AA  M
            XR05BD82BB  !24
            XD  X0000000000
            XC  OK
            XC  OK
            XX  OK
            XX  OK
        """)

    def test_unexpected_top_bits(self):
        for piece, held in (("8000", ""), ("C000", ""), ("0000", "01000001"), ("4000", "01000001")):
            state = "XS01" + (held or "00000000")
            self.play("%s  OK\nXR05BD%s  !23\nXD  X0000000000\nBD00000001  H00" % (state, piece))

    def test_edges_of_the_buffer(self):
        full, over = "5A" * 1469, "5A" * 1470
        self.play("BFEE  OK\nXC  OK\nXR05BD00%s  !25\nXD  X0000000000\nXC  OK\nXR05BD40%s  !25\nBD00000001  HEE" % (over, over))
        self.play("BFEE  OK\nXC  OK\nXR05BD01%s  T0105BD\nBD05BC0002  H5AEE\nXD  X0100000000" % full)
        self.play("XC  OK\nXR05BD41%s  M\nXD  X01010105BD\nXR05BD8111  !25\nXD  X0000000000" % full)
        self.play("XS01010205BC  OK\nXR05BDC21122  !25\nXS01010205BC  OK\nXR05BDC211  T0205BD\nBD05BB0003  H001100")
        self.play("XS01010205BC  OK\nXR05BD8211  M\nXD  X01010205BD")

    def test_bad_states(self):
        """Of 0 octets, over 1,469 octets, of type 4, while disconnected; then the good ones beside them."""
        for state in ("0101000000", "01010005BE", "010100FFFF", "0101040001", "0001000001"):
            self.play("XS%s  OK\nXC  !14\nXX  !14\nXR05BD0000  !14" % state)
        for state in ("0101000001", "01010305BD", "0100FFFFFF", "0000FFFFFF"):
            self.play("XS%s  OK\nXX  OK" % state)

    def test_round_trip(self):
        chance = Chance(2)
        for length in (1, 19, 20, 38, 39, 1469):
            message = chance.octets(length)
            transfer, buffer = Transfer(connected=True), bytearray(1469)
            answers = [read_piece(transfer, buffer, 1469, piece) for piece in pieces(20, 3, message)]
            self.assertEqual(answers, [None] * (len(answers) - 1) + [(3, length)])
            self.assertEqual(bytes(buffer), message + bytes(1469 - length))


if __name__ == "__main__":
    unittest.main()
