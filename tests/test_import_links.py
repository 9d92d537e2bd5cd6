"""The import program's links: frames that were sent, repeats that write nothing, and the records of the sockets."""
import unittest

from imported import (CAPABILITIES, CLOSE, INVITE, INVITE_ACKNOWLEDGED, OPENED, OTHER_CAPABILITIES, OTHER_RECORD, RECORD, UUID, heard,
                      missing_rows, rows, written)


class Sent(unittest.TestCase):
    def test_what_is_acknowledged(self):
        """With the message that the station sent its acknowledgement is no refusal; without, it is."""
        self.assertEqual(rows(*OPENED, INVITE, INVITE_ACKNOWLEDGED, ">0000000501000002140000", "000000050101"), [])
        self.assertEqual(rows(*OPENED, INVITE_ACKNOWLEDGED), ["refused,3,1,0x00000005,0x00,12"])
        self.assertEqual(rows(*OPENED, INVITE, INVITE_ACKNOWLEDGED, "000000050101"), ["refused,5,1,0x00000005,0x01,12"])

    def test_repeated_starts_do_nothing(self):
        """While the message is outstanding, after its acknowledgement, and with a number that is not the next."""
        self.assertEqual(rows(*OPENED, INVITE, INVITE, INVITE_ACKNOWLEDGED, INVITE, "000000050101"),
                         ["refused,7,1,0x00000005,0x01,12"])
        for number in ("01", "7F", "80", "FF"):
            self.assertEqual(rows(*OPENED, ">00000005" + number + "000002140000", INVITE_ACKNOWLEDGED),
                             ["refused,4,1,0x00000005,0x00,12"])
        self.assertEqual(rows(*OPENED, INVITE, ">0000000501000002140000", INVITE_ACKNOWLEDGED, "000000050101"),
                         ["refused,6,1,0x00000005,0x01,12"])

    def test_start_of_several_segments(self):
        """The Start alone is the Send; Continuations do nothing."""
        start = ">00000005000400162B0102030405060708090A0B0C0D0E0F1011121314"
        self.assertEqual(rows(*OPENED, ">0000000500061516", INVITE_ACKNOWLEDGED, start, INVITE_ACKNOWLEDGED),
                         ["refused,4,1,0x00000005,0x00,12"])

    def test_start_refused(self):
        """3 comes first, whatever the number; 4 is Send's, so it needs the next number."""
        self.assertEqual(rows(INVITE, ">0000000580000002140000", "2 00000005", INVITE, ">0000000501000002140000"),
                         ["refused,1,,0x00000005,0x00,3", "refused,2,,0x00000005,0x80,3", "refused,4,2,0x00000005,0x00,4"])

    def test_no_frame(self):
        self.assertEqual(rows(*OPENED, ">00", ">000000050005", ">00000005000F"), ["refused,3,,,,1", "refused,4,,,,1", "refused,5,,,,2"])

    def test_close(self):
        """Of a link open or opening; of none it does nothing."""
        sent_close = ">" + CLOSE
        self.assertEqual(rows(*OPENED, sent_close, "000000050007", "1 00000006", ">00000006000BFF", "1 00000007"),
                         ["refused,4,,0x00000005,,3"])
        self.assertEqual(rows(sent_close, *OPENED, sent_close, sent_close), [])

    def test_other_frames_do_nothing(self):
        """On the link or on none; a sent Ack opens no link, a sent acknowledgement acknowledges nothing."""
        others = (">000000050007", ">000000050003" + UUID, ">000000050001", ">000000058001", ">00000005800600")
        self.assertEqual(rows(*others), [])
        self.assertEqual(rows("1 00000005", *others, heard(0x80, "08")), ["refused,7,1,0x00000005,0x80,4"])
        self.assertEqual(rows(*OPENED, INVITE, *others, INVITE_ACKNOWLEDGED), [])


class Repeats(unittest.TestCase):
    def test_acknowledgement_again(self):
        """Of the number one less than the next, whether that is outstanding or not; of one two less it is a refusal."""
        again = INVITE_ACKNOWLEDGED
        self.assertEqual(rows(*OPENED, INVITE, again, again, again), [])
        self.assertEqual(rows(*OPENED, INVITE, again, ">0000000501000002140000", again, "000000050101", again),
                         ["refused,8,1,0x00000005,0x00,12"])

    def test_where_the_numbers_come_round(self):
        """0x7F is not one less than 0x00: the acknowledgement heard again is a refusal there."""
        lines = list(OPENED)
        for number in range(0x80):
            lines += [">00000005%02X000002140000" % number, "00000005%02X01" % number]
        self.assertEqual(rows(*lines), [])
        self.assertEqual(rows(*lines, "000000057F01", "000000057E01", INVITE, "000000057F01", INVITE_ACKNOWLEDGED, INVITE_ACKNOWLEDGED),
                         ["refused,259,1,0x00000005,0x7F,12", "refused,260,1,0x00000005,0x7E,12", "refused,262,1,0x00000005,0x7F,12"])
        self.assertEqual(rows(*OPENED, "000000057F01"), ["refused,3,1,0x00000005,0x7F,12"])

    def test_close_again(self):
        self.assertEqual(rows(*OPENED, CLOSE, CLOSE, "00000009850B03"), [])


class Records(unittest.TestCase):
    FIRST = OPENED + (heard(0x80, CAPABILITIES),)

    def test_the_same_frame_again(self):
        self.assertEqual(rows(*self.FIRST, self.FIRST[2]), ["record,3" + RECORD % 0x80])

    def test_repeated_and_conflict(self):
        """Each is compared with the record, not with the one before."""
        lines = (heard(0x81, CAPABILITIES), heard(0x82, OTHER_CAPABILITIES), heard(0x83, OTHER_CAPABILITIES), heard(0x84, CAPABILITIES))
        self.assertEqual(rows(*self.FIRST, *lines),
                         ["record,3" + RECORD % 0x80, "repeated,4" + RECORD % 0x81, "conflict,5" + OTHER_RECORD % 0x82,
                          "conflict,6" + OTHER_RECORD % 0x83, "repeated,7" + RECORD % 0x84])

    def test_one_field_is_enough(self):
        """Each octet of the eight fields by itself."""
        for place in range(1, 12):
            octets = bytearray.fromhex(CAPABILITIES)
            octets[place] ^= 1 if place in (4, 5) else 2
            self.assertEqual([row.split(",")[0] for row in rows(*self.FIRST, heard(0x81, octets.hex()))], ["record", "conflict"], place)

    def test_opened_again(self):
        """From then on the next is a record, whatever it says; the numbers start anew with the link."""
        for close in (CLOSE, ">" + CLOSE):
            self.assertEqual(rows(*self.FIRST, close, *self.FIRST), ["record,3" + RECORD % 0x80, "record,7" + RECORD % 0x80])
            self.assertEqual(rows(*self.FIRST, close, *OPENED, heard(0x80, OTHER_CAPABILITIES), heard(0x81, CAPABILITIES)),
                             ["record,3" + RECORD % 0x80, "record,7" + OTHER_RECORD % 0x80, "conflict,8" + RECORD % 0x81])

    def test_a_refused_opening_opens_nothing(self):
        self.assertEqual(rows(*self.FIRST, "1 00000006", heard(0x81, CAPABILITIES)),
                         ["record,3" + RECORD % 0x80, "refused,4,1,0x00000006,,9", "repeated,5" + RECORD % 0x81])

    def test_each_socket_has_its_own(self):
        """The same Link ID on another socket, later."""
        self.assertEqual(rows(*self.FIRST, CLOSE, "2 00000005", "000000050007", heard(0x80, OTHER_CAPABILITIES)),
                         ["record,3" + RECORD % 0x80, "record,7" + (OTHER_RECORD % 0x80).replace(",1,", ",2,", 1)])

    def test_missing(self):
        """Opened and no record since: also where the link was closed, or refused messages came, or the record was before."""
        refused, complete = heard(0x80, "010000010000000000000000"), heard(0x80, "08")
        for lines in (OPENED[:1], OPENED, OPENED + (CLOSE,), OPENED + (refused, complete), self.FIRST + (CLOSE,) + OPENED):
            self.assertEqual(missing_rows(*lines), ["missing,,1"], lines)
        for lines in (self.FIRST, self.FIRST + (CLOSE,), self.FIRST + ("1 00000006",), self.FIRST + (CLOSE, "2 00000005", ">" + CLOSE)):
            self.assertNotIn("missing,,1", missing_rows(*lines), lines)

    def test_one_pass_over_the_sockets(self):
        """A refused opening leaves its socket unopened."""
        self.assertEqual(written(b"7 00000007\n2 00000002\n3 00000002")[1:],
                         ["unopened,,1", "missing,,2", "unopened,,3", "unopened,,4", "unopened,,5", "unopened,,6", "missing,,7",
                          "unopened,,8", "end,3"])


if __name__ == "__main__":
    unittest.main()
