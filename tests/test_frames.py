"""Check octet, SegN, frames read and written."""
import unittest

from model import samples
from model.check_octet import check_octet
from model.frames import cut, last_segment_number, read_frame, segment_length, segment_place
from model.generator.chance import Chance
from model.refusal import Refusal
from scripted import ScriptedTest


def divided_bit_by_bit(message):
    """The check octet a second way: the register as a list of bits, highest power last."""
    register = [1] * 8
    for octet in message:
        for bit in range(8):
            feedback = register[7] ^ (octet >> bit & 1)
            register = [feedback, register[0] ^ feedback, register[1] ^ feedback] + register[2:7]
    return sum((1 - value) << (7 - place) for place, value in enumerate(register))


class CheckOctet(unittest.TestCase):
    def test_figures(self):
        for message, check in samples.CHECKS:
            self.assertEqual(check_octet(bytes.fromhex(message)), int(check, 16))

    def test_a_second_way(self):
        chance = Chance(1)
        for length in (0, 1, 2, 20, 255, 1469):
            message = chance.octets(length)
            self.assertEqual(check_octet(message), divided_bit_by_bit(message))


class Cut(unittest.TestCase):
    def test_last_segment_figures(self):
        for length, segment in samples.LAST_SEGMENTS:
            self.assertEqual(last_segment_number(length), segment)

    def test_every_length(self):
        """All full but the last, one after the other, and together the whole message."""
        for length in range(1, 1470):
            last = last_segment_number(length)
            lengths = [segment_length(index, length) for index in range(last + 1)]
            self.assertEqual(sum(lengths), length)
            self.assertEqual(lengths[:-1], ([20] + [23] * last)[:last])
            self.assertTrue(1 <= lengths[-1] <= (20 if last == 0 else 23))
            self.assertEqual([segment_place(index) for index in range(last + 1)], [sum(lengths[:index]) for index in range(last + 1)])

    def test_segment_two_starts_at_43(self):
        self.assertEqual(segment_place(2), 43)

    def test_what_is_cut_is_read(self):
        chance = Chance(2)
        for length in (1, 20, 21, 43, 44, 1469):
            message = chance.octets(length)
            frames = [read_frame(frame) for frame in cut(0x01020304, 0x85, message)]
            self.assertEqual(b"".join(frame.octets for frame in frames), message)
            self.assertEqual([frame.index for frame in frames], list(range(len(frames))))
            self.assertEqual((frames[0].length, frames[0].check), (length, check_octet(message)))


class ReadFrame(unittest.TestCase):
    def refusal(self, text):
        with self.assertRaises(Refusal) as caught:
            read_frame(bytes.fromhex(text.replace(" ", "")))
        return caught.exception.number

    def test_unfit(self):
        for text in ("", "01020304", "0102030480", "0102030480" + "06" + "00" * 24,
                     "0102030400 05", "0102030400 01 00",
                     "0102030480 00", "0102030480 00 0001", "0102030480 00 0001 30", "0102030480 00 0000 FF",
                     "0102030480 00 0001 30 00 00", "0102030480 04 0001 30 00", "0102030480 00 0015 30" + "00" * 20,
                     "0102030480 08 0015 30" + "00" * 20, "0102030480 04 0015 30" + "00" * 19,
                     "0102030480 FC 05BE 30" + "00" * 20, "0102030480 02 00", "0102030480 06",
                     "0102030400 03" + "00" * 15, "0102030400 03" + "00" * 17, "0102030400 07 00", "0102030400 0B",
                     "0102030400 0B 0000"):
            self.assertEqual(self.refusal(text), 1, text)

    def test_unknown_opcode_of_any_length(self):
        for opcode in range(3, 64):
            for count in (0, 1, 16, 23):
                self.assertEqual(self.refusal("0102030400" + "%02X" % (opcode << 2 | 3) + "00" * count), 2)
        self.assertEqual(self.refusal("01020304000F" + "00" * 24), 1)

    def test_every_close_reason_and_number_is_read(self):
        for octet in range(256):
            self.assertEqual(read_frame(bytes([0, 0, 0, 1, octet, 0x0B, octet])).reason, octet)


class Writers(ScriptedTest):
    def test_writers(self):
        self.play("""
            OFEE  OK
            WA0006FFFFFFFF  W0006FFFFFFFF0007
            WA0005FFFFFFFF  !11
            WC000700000000FF  W000700000000000BFF
            WC000600000000FF  !11
            WK0006000000019C  W0006000000019C01
            WO001600000001000102030405060708090A0B0C0D0E0F  W0016000000010003000102030405060708090A0B0C0D0E0F
            WO001500000001000102030405060708090A0B0C0D0E0F  !11
            WO100000000001000102030405060708090A0B0C0D0E  !11
            WO100000000001000102030405060708090A0B0C0D0E0F10  !11
            WO100000000001  !11
            OD00140004  H0E0FEEEE
            WS000A000000010000  !11
            WS000A00000001000000  W000A00000001000000013000
            WS000900000001000000  !11
            WS100000000001000100  !11
            WS1000000000017F01000102030405060708090A0B0C0D0E0F1011121314  W0007000000017F0614
            WS1000000000017F02000102030405060708090A0B0C0D0E0F1011121314  !11
            SG0000  !11
            SG05BE  !11
            CK  !11
        """)

    def test_longest_message(self):
        message = "5A" * 1469
        self.play("SG05BD  N3F\nWS0012000000010040%s  !11\nWS1000000000010000%s5A  !11\nCK%s5A  !11" % (message, message, message))
        program = self.play("OFEE  OK")
        answer = program.answer(("WS1000000000010" + "03F" + message).encode("ascii"))
        self.assertEqual(answer, "W001D0000000100FE" + "5A" * 23)
        self.assertEqual(program.storages["O"][0x1D], 0xEE)


if __name__ == "__main__":
    unittest.main()
