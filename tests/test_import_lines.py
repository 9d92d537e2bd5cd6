"""The import program's lines: their forms and ends, and the rows of those that are refused."""
import unittest

from imported import CLOSE, OPENED, UUID, heard, rows, written
from model.import_program import log_answers


class Lines(unittest.TestCase):
    def test_forms(self):
        for line in ("1 0000000a", "1 0000000A", "#", "# 00", "#\xff\r", ""):
            self.assertEqual(rows(line, "#"), [], line)
        for line in (" ", "0", "000", "0 00000001", "9 00000001", "1 0000001", "1 000000001", "1  0000001", "1 00000001 ", "1", " #", " 00",
                     "0x00", "G0", "0g", ">", ">>", "> 00", ">0", ">000", ">>00", ">#", ">1 00000001", "\xff"):
            self.assertEqual(rows(line, "#"), ["refused,1,,,,11"], line)

    def test_either_case(self):
        self.assertEqual(rows("1 abcdef05", "aBCdEf050007", "AbcDeF05000F"), ["refused,3,,,,2"])
        self.assertEqual(rows("1 abcdef05", "2 ABCDEF05", ">abcdEF0500000002140000"),
                         ["refused,2,2,0xABCDEF05,,10", "refused,3,1,0xABCDEF05,0x00,4"])

    def test_lines_are_counted(self):
        """Empty lines and comments count; nothing after the last newline is no line."""
        for text, count in ((b"", 0), (b"\n", 1), (b"#", 1), (b"#\n", 1), (b"\n\n#", 3), (b"\r\n\n", 2), (b"\n#\n\n", 3)):
            self.assertEqual(written(text)[8:], ["end,%d" % count], text)
        self.assertEqual(rows("", "#", "", "0"), ["refused,4,,,,11"])

    def test_carriage_returns(self):
        """One straight before a newline is dropped, and no other."""
        self.assertEqual(rows("1 00000005\r", "000000050007\r", "000000050007\r", "\r", "#\r", ">00\r", "00000005000F\r", "#"),
                         ["refused,6,,,,1", "refused,7,,,,2"])
        self.assertEqual(rows("00\r\r", "\r\r", "0\r0", "\r00", "#\r\r", "#"), ["refused,%d,,,,11" % line for line in (1, 2, 3, 4)])

    def test_carriage_return_at_the_end_of_input(self):
        for text, expected in ((b"00\r", ["refused,1,,,,11"]), (b"\r", ["refused,1,,,,11"]), (b"#\r", []), (b"00\r\n", ["refused,1,,,,1"]),
                               (b"00", ["refused,1,,,,1"]), (b"\r\n", []), (b"\n\r", ["refused,2,,,,11"])):
            self.assertEqual([row for row in written(text) if row.startswith("refused")], expected, text)

    def test_long_lines(self):
        """Of any length: even digits are no frame, odd ones no line of any form."""
        for count in (60, 64, 66, 128, 70000):
            digits = "aB" * (count // 2)
            for front in ("", ">"):
                self.assertEqual(rows(front + digits, front + digits + "\r", front + digits + "0", front + digits + "0\r", "#"),
                                 ["refused,1,,,,1", "refused,2,,,,1", "refused,3,,,,11", "refused,4,,,,11"])
            self.assertEqual(rows("#" + digits, digits + "g", digits + "\r\r", digits + "\r0", "1 " + digits, "#"),
                             ["refused,%d,,,,11" % line for line in (2, 3, 4, 5)])

    def test_place_of_each_row(self):
        """The header is for no line, the rows at the end are for the one past the last."""
        places = [place for place, _ in log_answers(b"#\n0\n\n00")]
        self.assertEqual(places, [0, 2, 4] + [5] * 9)


class Refused(unittest.TestCase):
    def test_openings(self):
        self.assertEqual(rows("1 00000005", "1 00000006", "2 00000005", "1 00000005"),
                         ["refused,2,1,0x00000006,,9", "refused,3,2,0x00000005,,10", "refused,4,1,0x00000005,,9"])

    def test_no_frame(self):
        """Octets that parse as no frame have no Link ID, though they begin as one of the link's."""
        self.assertEqual(rows(*OPENED, "00", "00" * 30, "000000050005", "00000005000F", "0000000500FF00"),
                         ["refused,3,,,,1", "refused,4,,,,1", "refused,5,,,,1", "refused,6,,,,2", "refused,7,,,,2"])

    def test_no_link(self):
        """Segments and acknowledgements have a number, control frames have none; a Close writes nothing."""
        start, open_frame = "00000005800000013000", "000000050003" + UUID
        self.assertEqual(rows(start, "00000005800600", "000000050001", open_frame, "000000058507", CLOSE),
                         ["refused,1,,0x00000005,0x80,3", "refused,2,,0x00000005,0x80,3", "refused,3,,0x00000005,0x00,3",
                          "refused,4,,0x00000005,,3", "refused,5,,0x00000005,,3"])

    def test_link_opening(self):
        self.assertEqual(rows("7 00000005", "00000005800000013000", "00000005FF0600", "000000057F01", "000000050003" + UUID),
                         ["refused,2,7,0x00000005,0x80,4", "refused,3,7,0x00000005,0xFF,4", "refused,4,7,0x00000005,0x7F,4",
                          "refused,5,7,0x00000005,,4"])

    def test_link_open(self):
        start, last = "00000005800400162B0102030405060708090A0B0C0D0E0F1011121314", "0000000580061516"
        self.assertEqual(rows(*OPENED, "000000057F0600", "000000058001", "000000050003" + UUID, last, start, "00000005800615",
                              start[:-2] + "15", "0000000580061517", last),
                         ["refused,3,1,0x00000005,0x7F,5", "refused,4,1,0x00000005,0x80,5", "refused,5,1,0x00000005,,5",
                          "refused,6,1,0x00000005,0x80,6", "refused,8,1,0x00000005,0x80,7", "refused,9,1,0x00000005,0x80,7",
                          "refused,10,1,0x00000005,0x80,8", "refused,11,1,0x00000005,0x80,6"])

    def test_by_the_reader(self):
        """A first octet too high, a type that is none, an Invite without its octet, Capabilities with no elements; and two messages
        that are accepted. Each was delivered, so the frame heard again is only acknowledged again."""
        messages = ("40", "0A", "00", "010000010000000000000000", "0000", "0902")
        frames = [heard(0x80 + index, message) for index, message in enumerate(messages)]
        self.assertEqual(rows(*OPENED, *[frame for frame in frames for _ in range(2)]),
                         ["refused,3,1,0x00000005,0x80,42", "refused,5,1,0x00000005,0x81,43", "refused,7,1,0x00000005,0x82,44",
                          "refused,9,1,0x00000005,0x83,45", "message,11,1,0x00000005,0x84,,Invite", "message,13,1,0x00000005,0x85,,Failed"])

    def test_the_socket_is_the_one_of_that_time(self):
        """A Link ID that moves to another socket."""
        self.assertEqual(rows(*OPENED, "00000005800600", CLOSE, "00000005800600", "6 00000005", "00000005800600"),
                         ["refused,3,1,0x00000005,0x80,6", "refused,5,,0x00000005,0x80,3", "refused,7,6,0x00000005,0x80,4"])


if __name__ == "__main__":
    unittest.main()
