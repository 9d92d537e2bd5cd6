"""The station: every refusal in its place, and what each answer leaves behind."""
import unittest

from model.frames import cut
from model.generator.bad_records import BAD_RECORDS, good_record
from model.generator.chance import Chance
from model.links import PROVISIONER, Record, record_is_bad, state_is_bad
from model.record_text import record_text
from model.replay import Program
from model.script_line import hexadecimal
from model.station import AREA_LENGTH, blank_records, receive
from scripted import ScriptedTest

OPEN_LINK = """
    OP0100000005  OK
    RF2DE8000000050007  U
"""
# 22 octets in two segments, check octet 2B.
START = "RF2DE800000005800400162B0102030405060708090A0B0C0D0E0F1011121314"
LAST = "RF2DE80000000580061516"


class Receiving(ScriptedTest):
    def test_order_of_the_table(self):
        """One condition after the other is taken away."""
        self.play(OPEN_LINK + """
            OP0200000006  OK
            LS0300000000010000000000000000000000000000000000  OK
            RF2DE7000000070005  !11
            RF2DE8000000070005  !14
            LS0300000000000000000000000000000000000000000000  OK
            RF2DE8000000070005  !01
            RF2DE800000007000F  !02
            RF2DE8000000077F0600  !03
            RF2DE8000000067F0600  !04
            RF2DE8000000057F0600  !05
            RF2DE8000000058001  !05
            RF2DE8000000050001  !12
            RF2DE800000005800600  !06
        """)

    def test_controls(self):
        self.play("""
            OP0100000005  OK
            RF2DE800000005000300112233445566778899AABBCCDDEEFF  !04
            RF2DE8000000050001  !04
            RF2DE8000000058507  U
            RF2DE8000000050507  Y
            RF2DE800000005000300112233445566778899AABBCCDDEEFF  !05
            RF2DE800000005850B03  C03
            RF2DE800000005850B03  !03
            OP0100000005  OK
            RF2DE800000005000BFF  CFF
            LD01  L00000000000000000000000000000000000000000000
        """)

    def test_acknowledgements_come_round(self):
        self.play("""
            LS0102000000057F00000000000000000000000000000000  OK
            RF2DE8000000057F01  !12
            SN0105BD  S7F3F
            RF2DE8000000050001  !12
            SN010001  !13
            RF2DE8000000057F01  A
            SN010014  S0000
            LD01  L02000000050001000000000000000000000000000000
        """)

    def test_seven(self):
        self.play(OPEN_LINK + START + "  K\n" + START + "  R" + """
            RF2DE800000005800400172B0102030405060708090A0B0C0D0E0F1011121314  !07
            RF2DE800000005800400162C0102030405060708090A0B0C0D0E0F1011121314  !07
            RF2DE800000005800400162B0102030405060708090A0B0C0D0E0F1011121315  !07
            RF2DE800000005800000012B01  !07
            RF2DE800000005800A1516  !07
            RF2DE800000005800615  !07
            RF2DE8000000058006151600  !07
            RF2DE80000000581061516  !06
        """ + LAST + "  D001680\n" + LAST + "  G" + """
            RF2DE800000005800400172B0102030405060708090A0B0C0D0E0F1011121314  G
            RF2DE80000000580FE00  G
        """)

    def test_eight_clears_and_keeps_the_octets(self):
        self.play(OPEN_LINK + """
            RF2DE800000005900000021EAABB  D000290
            RF2DE800000005800400162A0102030405060708090A0B0C0D0E0F1011121314  K
            RF2DE80000000580061516  !08
            LD01  L02000000050000019000000000000000000000000000
            AD00000018  H0102030405060708090A0B0C0D0E0F101112131415160000
            RF2DE80000000580061516  !06
            RF2DE800000005800400162B0102030405060708090A0B0C0D0E0F1011121314  K
            RF2DE80000000580061516  D001680
        """)

    def test_another_start_replaces(self):
        """A single segment with a wrong check octet too: the earlier half-received message is gone."""
        self.play(OPEN_LINK + START + """  K
            RF2DE800000005810000021FAABB  !08
            LD01  L02000000050000000000000000000000000000000000
            AD00000004  HAABB0304
            RF2DE80000000580061516  !06
        """)
        self.play(OPEN_LINK + START + """  K
            RF2DE800000005810000021EAABB  D000281
            RF2DE80000000580061516  !06
            RF2DE800000005800400162B0102030405060708090A0B0C0D0E0F1011121314  K
            RF2DE800000005810000021EAABB  G
            RF2DE80000000580061516  D001680
        """)

    def test_any_number_but_the_last_is_new(self):
        self.play(OPEN_LINK + """
            RF2DE800000005FF0000021EAABB  D0002FF
            RF2DE800000005800000021EAABB  D000280
            RF2DE800000005FF0000021EAABB  D0002FF
        """)

    def test_last_socket_and_longest_message(self):
        """Every frame of a full message, last one first; it stands at the start of the socket's part and nothing else changes."""
        chance = Chance(3)
        message = chance.octets(1469)
        program = self.play("AFEE  OK\nOP0800000008  OK\nRF2DE8000000080007  U")
        frames = cut(8, 0xFF, message)
        answers = [program.answer(b"RF2DE8" + hexadecimal(frame).encode()) for frame in frames[:1] + frames[:0:-1]]
        self.assertEqual(answers, ["K"] * 63 + ["D05BDFF"])
        self.assertEqual(bytes(program.storages["A"]), b"\xEE" * 7 * 1469 + message + b"\xEE" * 24)


class LocalCalls(ScriptedTest):
    def test_order(self):
        bad = "LS0800000001000000000000000000000000000000000000  OK"
        good = "LS0800000000000000000000000000000000000000000000  OK"
        self.play("\n".join(["OP0100000005  OK", bad, "OP0000000005  !11", "OP0900000005  !11", "OP0100000005  !14", "SN000001  !11",
                             "SN010000  !11", "SN0105BE  !11", "SN010001  !14", "CLFF  !11", "CL01  !14", good, "OP0100000005  !09",
                             "OP0200000005  !10", "SN010001  !04", "SN020001  !04", "CL02  !04", "CL01  OK", "CL01  !04"]))

    def test_a_freed_record_is_blank(self):
        self.play("""
            LS0102000000057F01019001800016FF0000000000000001  OK
            CL01  OK
            LD01  L00000000000000000000000000000000000000000000
            OP0100000000  OK
            LD01  L01000000000000000000000000000000000000000000
            RF2DE8000000000007  U
        """)


class BadStates(unittest.TestCase):
    def test_every_kind_and_every_call(self):
        """Each bad record, in each place, is refused by each call, and nothing changes."""
        chance = Chance(4)
        calls = (b"RF2DE8000000050007", b"OP0200000009", b"SN010001", b"CL01")
        for make in BAD_RECORDS[PROVISIONER].values():
            for _ in range(20):
                self.refused(chance, make, chance.between(2, 8), calls)

    def refused(self, chance, make, socket, calls):
        program = Program()
        program.answer(b"OP0100000005")
        record = make(chance, PROVISIONER, program.records)
        program.answer(("LS%02X" % socket + record_text(record)).encode())
        before = program.answer(b"ZH")
        for call in calls:
            self.assertEqual(program.answer(call), "!14", (record, call))
        self.assertEqual(program.answer(b"ZH"), before)

    def test_good_edges(self):
        chance = Chance(5)
        for _ in range(500):
            self.assertFalse(record_is_bad(PROVISIONER, good_record(chance, PROVISIONER, blank_records())))
        for text in ("01000000000000000000000000000000000000000000", "0200000000000001FF01800015300000000000000001",
                     "02FFFFFFFF7F0101FF018005BDFF7FFFFFFFFFFFFFFF"):
            program = Program()
            self.assertEqual(program.answer(b"LS01" + text.encode()), "OK")
            self.assertFalse(state_is_bad(PROVISIONER, program.records), text)

    def test_what_a_flag_governs_is_dropped(self):
        program = Program()
        program.answer(b"LS010200000005000000FF00" + b"F" * 24)
        self.assertEqual(program.records[0], Record(2, 5))


class Mixtures(unittest.TestCase):
    def test_eight_links_in_any_mixture(self):
        """Frames of eight messages mixed, each twice: every message is delivered, as if the links came one after the other."""
        chance = Chance(6)
        records = [Record(2, link_id) for link_id in range(8)]
        messages = [chance.octets(chance.between(1, 200)) for _ in range(8)]
        starts = [cut(link_id, 0x80, messages[link_id])[0] for link_id in range(8)]
        rest = [frame for link_id in range(8) for frame in cut(link_id, 0x80, messages[link_id])[1:]]
        area = bytearray(AREA_LENGTH)
        answers = [receive(records, area, AREA_LENGTH, frame)[0] for frame in starts + chance.shuffled(rest + rest)]
        self.assertEqual(answers.count("delivered"), 8)
        for index, message in enumerate(messages):
            part = area[index * 1469:(index + 1) * 1469]
            self.assertEqual(bytes(part), message + bytes(1469 - len(message)))


if __name__ == "__main__":
    unittest.main()
