"""The device's end (document 02, request [1]): how it is opened, every refusal in its place, the halves exchanged."""
import unittest

from model import device_end, station
from model.frames import cut, last_segment_number, write_ack, write_acknowledgement, write_close, write_open
from model.generator.bad_records import BAD_RECORDS, good_record
from model.generator.chance import EDGE_LENGTHS, LONG_LENGTHS, Chance
from model.generator.device_section import DeviceSection
from model.generator.script import Script
from model.generator.scripts import run
from model.links import DEVICE, FREE, OPENED, OPENING, PROVISIONER, Half, Record, record_is_bad
from model.record_text import record_text
from model.refusal import Refusal
from model.replay import Program
from model.script_line import hexadecimal
from scripted import ScriptedTest

UUID = "00112233445566778899AABBCCDDEEFF"
OTHER = "00112233445566778899AABBCCDDEEFE"
OWN_UUID = "DU" + UUID + "  OK\n"
OPEN_LINK = OWN_UUID + "DR05BD000000050003" + UUID + "  U\n"
FREE_AND_BLANK = "D00000000008000000000000000000000000000000000"
# 22 octets in two segments, check octet 2B.
START = "DR05BD00000005000400162B0102030405060708090A0B0C0D0E0F1011121314"
LAST = "DR05BD0000000500061516"
# A frame of each kind for Link ID 5: Open, Ack, Close, Start, Continuation, acknowledgement.
KINDS = ("000000050003" + UUID, "000000050007", "00000005000B00", "00000005000000021EAABB", "00000005000600",
         "000000058001")
OUTPUT = 0x1000


class Opening(ScriptedTest):
    def test_opened_and_already(self):
        """The record is blank but for state and Link ID, and the area stays as it was."""
        program = self.play("EFEE  OK\n" + OPEN_LINK + """
            DD  D02000000058000000000000000000000000000000000
            DR05BD000000050003%s  Y
            DR05BD00000005FF03%s  Y
            DD  D02000000058000000000000000000000000000000000
        """ % (UUID, UUID))
        self.assertEqual(bytes(program.storages["E"]), b"\xEE" * 0x600)

    def test_the_start(self):
        self.play("DD  " + FREE_AND_BLANK + "\nDR05BD000000000003" + "00" * 16 + "  U")

    def test_link_id_zero_is_ordinary(self):
        self.play(OWN_UUID + """
            DR05BD000000000007  !03
            DR05BD000000000003%s  U
            DR05BD000000000003%s  Y
            DR05BD00000000000000021EAABB  D000200
            DR05BD00000000000B01  C01
            DR05BD00000000000B01  !03
        """ % (UUID, UUID))

    def test_already_and_the_refusals_change_nothing(self):
        """Whatever the link has: numbers, a mark, a half-received message."""
        state = "DS0200000005FF01017F010000162B0000000000000001  OK\n"
        program = self.play("EF5A  OK\n" + OWN_UUID + state)
        before = program.answer(b"ZH")
        self.play("""
            DR05BD000000050003%s  Y
            DR05BD000000050003%s  !15
            DR05BD000000060003%s  !16
            DR05BD000000060003%s  !15
        """ % (UUID, OTHER, UUID, OTHER), program)
        self.assertEqual(program.answer(b"ZH"), before)

    def test_another_uuid(self):
        """15 with no link, for the link's own Link ID and for another; by any one octet of the sixteen."""
        for setting in (OWN_UUID, OPEN_LINK, OPEN_LINK.replace("00000005", "00000006")):
            program = self.play(setting)
            before = program.answer(b"DD")
            for place in range(16):
                uuid = bytearray.fromhex(UUID)
                uuid[place] ^= 0x40
                line = "DR05BD000000050003" + hexadecimal(uuid)
                self.assertEqual(program.answer(line.encode()), "!15", line)
            self.assertEqual(program.answer(b"DD"), before)

    def test_busy_until_closed(self):
        other = "DR05BD000000060003" + UUID
        self.play(OPEN_LINK + other + "  !16\nDC  OK\n" + other + "  U\nDR05BD000000050003" + UUID + "  !16")
        self.play(OPEN_LINK + other + "  !16\nDR05BD00000005000B00  C00\n" + other + "  U\nDR05BD000000050007  !03")


class Receiving(ScriptedTest):
    def test_order_of_an_open(self):
        """One condition after the other is taken away: 11, 14, 1, 2, 15, 16."""
        self.play(OPEN_LINK + """
            DS01000000058000000000000000000000000000000000  OK
            DR05BC000000060003%(other)s00  !11
            DR05BD000000060003%(other)s00  !14
            DS02000000058000000000000000000000000000000000  OK
            DR05BD000000060003%(other)s00  !01
            DR05BD00000006000F%(other)s00  !02
            DR05BD000000060003%(other)s  !15
            DR05BD000000060003%(uuid)s  !16
            DR05BD000000050003%(uuid)s  Y
        """ % {"other": OTHER, "uuid": UUID})

    def test_order_of_the_other_frames(self):
        self.play(OPEN_LINK + """
            DS00000000000000000000000000000000000000000000  OK
            DR05BE000000070005  !11
            DR05BD000000070005  !14
            DS02000000058000000000000000000000000000000000  OK
            DR05BD000000070005  !01
            DR05BD00000007000F  !02
            DR05BD00000007800600  !03
            DR05BD00000005800600  !05
            DR05BD000000050001  !05
            DR05BD000000058001  !12
            DR05BD00000005000600  !06
        """)

    def test_an_ack(self):
        """5 for the link, 3 for another Link ID or no link; an Open is no such frame."""
        self.play("DR05BD000000050007  !03\n" + OPEN_LINK + "DR05BD000000050007  !05\nDR05BD000000060007  !03")
        self.play(OPEN_LINK + "DR05BD000000058507  !05\nDD  D02000000058000000000000000000000000000000000")

    def test_wrong_arguments(self):
        """An area or an own UUID of another length, for every kind of frame; also before a bad state."""
        for setting in (OPEN_LINK, OWN_UUID, OPEN_LINK + "DS01000000058000000000000000000000000000000000  OK\n"):
            program = self.play(setting)
            before = program.answer(b"ZH")
            for frame in KINDS:
                for area in ("0000", "05BC", "05BE", "0600"):
                    self.assertEqual(program.answer(("DR" + area + frame).encode()), "!11", (area, frame))
                for uuid in ("", UUID[:2], UUID[:30], UUID + "00", UUID + UUID):
                    self.play("DU%s  OK\nDR05BD%s  !11" % (uuid, frame), program)
                self.play(OWN_UUID, program)
            self.assertEqual(program.answer(b"ZH"), before)

    def test_closes(self):
        self.play(OPEN_LINK + """
            DS0200000005FF01017F010000162B0000000000000001  OK
            DR05BD00000006000B03  !03
            DR05BD00000005850B03  C03
            DD  %(blank)s
            DS0200000005FF01017F010000162B0000000000000001  OK
            DC  OK
            DD  %(blank)s
            DC  !04
            DN0001  !04
            DR05BD00000005000B03  !03
        """ % {"blank": FREE_AND_BLANK})

    def test_seven(self):
        self.play(OPEN_LINK + START + "  K\n" + START + "  R" + """
            DR05BD00000005000400172B0102030405060708090A0B0C0D0E0F1011121314  !07
            DR05BD00000005000400162C0102030405060708090A0B0C0D0E0F1011121314  !07
            DR05BD00000005000400162B0102030405060708090A0B0C0D0E0F1011121315  !07
            DR05BD00000005000A1516  !07
            DR05BD00000005000615  !07
            DR05BD0000000501061516  !06
        """ + LAST + "  D001600\n" + LAST + "  G\nDR05BD0000000500FE00  G")

    def test_eight_clears_and_keeps_the_octets(self):
        self.play(OPEN_LINK + """
            DR05BD00000005100000021EAABB  D000210
            DR05BD00000005000400162A0102030405060708090A0B0C0D0E0F1011121314  K
            DR05BD0000000500061516  !08
            DD  D02000000058000011000000000000000000000000000
            ED00000018  H0102030405060708090A0B0C0D0E0F101112131415160000
            DR05BD0000000500061516  !06
        """)

    def test_another_start_replaces(self):
        self.play(OPEN_LINK + START + """  K
            DR05BD000000057F0000021EAABB  D00027F
            DD  D02000000058000017F00000000000000000000000000
            ED00000004  HAABB0304
        """ + LAST + "  !06")


class Halves(ScriptedTest):
    def test_every_number(self):
        """Segments are taken from 0x00 to 0x7F, acknowledgements from 0x80 to 0xFF; each other one is 5."""
        for number in range(256):
            program = self.play(OPEN_LINK)
            program.session = [Record(OPENED, 5, max(number, 0x80), True)]
            answers = [program.answer(("DR05BD00000005%02X" % number + rest).encode())
                       for rest in ("0600", "0000021EAABB", "01")]
            taken = ["!06", "D0002%02X" % number, "!05"]
            self.assertEqual(answers, ["!05", "!05", "A"] if number >= 0x80 else taken, number)

    def test_numbers_come_round(self):
        """From 0x80 to 0xFF, then 0x80 again."""
        program = self.play(OPEN_LINK)
        for number in list(range(0x80, 0x100)) + [0x80, 0x81]:
            self.play("DN05BD  S%02X3F\nDN0001  !13\nDR05BD00000005%02X01  A\nDR05BD00000005%02X01  !12"
                      % (number, number, number), program)

    def test_as_the_station_with_the_halves_exchanged(self):
        """Every frame of a random script but Opens and Acks is answered as by a station that has the same record, with
        the high bit of every number the other way."""
        script = Script(Chance(7))
        section = DeviceSection(script)
        run(script, section, 2500)
        program, compared = Program(), 0
        for line, answer in zip(script.lines, script.answers):
            if line.startswith(b"DR05BD") and line[16:18] not in (b"03", b"07") and answer not in ("!11", "!14"):
                records = [exchanged(program.session[0])] + [PROVISIONER.blank()] * 7
                area = program.storages["E"] + bytearray(station.AREA_LENGTH)
                frame = bytearray.fromhex(line[6:].decode())
                frame[4:5] = bytes(octet ^ 0x80 for octet in frame[4:5])
                received = outcome(station.receive, records, area, station.AREA_LENGTH, bytes(frame))
                self.assertEqual(program.answer(line), answer)
                self.assertEqual(text_of(received), answer, line)
                self.assertEqual(exchanged(program.session[0]), records[0], line)
                self.assertEqual(program.storages["E"][:1469], area[:1469], line)
                compared += 1
            else:
                program.answer(line)
        self.assertGreater(compared, 500)


def exchanged(record):
    """The record with the high bit of every number the other way."""
    last = None if record.last_delivered is None else record.last_delivered ^ 0x80
    half = record.half and Half(record.half.number ^ 0x80, record.half.length, record.half.check, record.half.marks)
    return Record(record.use, record.link_id, record.next_number ^ 0x80, record.outstanding, last, half)


def outcome(call, *arguments):
    try:
        return call(*arguments)
    except Refusal as refusal:
        return "!%02d" % refusal.number


def text_of(answer):
    """The station's answer as the device's script has it."""
    letters = {"kept": "K", "repeat": "R", "acknowledge again": "G", "acknowledged": "A"}
    if isinstance(answer, str):
        return answer
    if answer[0] == "delivered":
        return "D%04X%02X" % (answer[1], answer[2] ^ 0x80)
    return "C%02X" % answer[1] if answer[0] == "closed" else letters[answer[0]]


class LocalCalls(ScriptedTest):
    def test_order(self):
        """Send 11, 14, 4, 13; Close 14, 4."""
        program = self.play("""
            DS00000000000000000000000000000000000000000000  OK
            DN0000  !11
            DN05BE  !11
            DN0001  !14
            DC  !14
            DS00000000008000000000000000000000000000000000  OK
            DN0000  !11
            DN0001  !04
            DC  !04
        """)
        self.play(OPEN_LINK + """
            DN0000  !11
            DN0001  S8000
            DN05BE  !11
            DN0001  !13
            DC  OK
            DC  !04
        """, program)

    def test_send_sets_the_mark_alone(self):
        self.play("""
            DS0200000005FE00017F010000162B0000000000000001  OK
            DN0041  SFE02
            DD  D0200000005FE01017F010000162B0000000000000001
        """)


class BadStates(unittest.TestCase):
    def test_every_kind_and_every_call(self):
        """Each bad record is refused by each call, and nothing changes."""
        chance = Chance(4)
        calls = [("DR05BD" + frame).encode() for frame in KINDS] + [b"DN0001", b"DC"]
        for make in BAD_RECORDS[DEVICE].values():
            for _ in range(20):
                self.refused(make(chance, DEVICE, ()), calls)

    def refused(self, record, calls):
        program = Program()
        self.assertEqual(program.answer(("DS" + record_text(record)).encode()), "OK")
        before = program.answer(b"ZH")
        for call in calls:
            self.assertEqual(program.answer(call), "!14", (record, call))
        self.assertEqual(program.answer(b"ZH"), before)

    def test_named_ones(self):
        """A zeroed record, every opening one, and the other end's numbers."""
        blank = Record(next_number=0x80)
        bad = [Record(), Record(OPENING, 0, 0x80), Record(OPENING, 5, 0x80), Record(OPENING, 5), Record(FREE, 5, 0x80),
               Record(FREE, 0, 0x81), Record(FREE, 0, 0x80, True), Record(FREE, 0, 0x80, False, 0x00),
               Record(OPENED, 5), Record(OPENED, 5, 0x7F), Record(OPENED, 5, 0x80, False, 0x80),
               Record(OPENED, 5, 0x80, False, 0xFF), Record(OPENED, 5, 0x80, False, 3, Half(3, 21, 0, 1))]
        halves = Half(0x80, 21, 0, 1), Half(3, 20, 0, 1), Half(3, 21, 0, 3), Half(3, 44, 0, 2), Half(3, 1470, 0, 1)
        bad += [Record(OPENED, 5, 0x80, False, None, half) for half in halves]
        good = [blank, Record(OPENED, 0, 0x80), Record(OPENED, 5, 0xFF, True, 0x7F, Half(0x00, 21, 0, 1)),
                Record(OPENED, 0xFFFFFFFF, 0x80, False, 0x00, Half(0x7F, 1469, 0xFF, 2 ** 63 - 1))]
        for record in bad:
            self.assertTrue(record_is_bad(DEVICE, record), record)
        for record in good:
            self.assertFalse(record_is_bad(DEVICE, record), record)

    def test_the_sides_are_told_apart(self):
        """No record with a number in it is good at both ends; not even a free one."""
        chance = Chance(5)
        for side, other in ((PROVISIONER, DEVICE), (DEVICE, PROVISIONER)):
            for record in [side.blank()] + [good_record(chance, side, ()) for _ in range(300)]:
                self.assertFalse(record_is_bad(side, record), record)
                self.assertTrue(record_is_bad(other, record), record)

    def test_the_octets_of_the_area_are_no_part_of_it(self):
        for fill in range(0, 256, 51):
            session = [Record(OPENED, 5, 0x80, False, None, Half(3, 22, 0x2B, 1))]
            area = bytearray([fill]) * 1469
            answer = device_end.receive(session, bytes(16), area, 1469, bytes.fromhex("00000005000B07"))
            self.assertEqual((answer, area), (("closed", 7), bytearray([fill]) * 1469))


class Messages(unittest.TestCase):
    def test_round_trip(self):
        """A message that is cut and received in any order from its Start on, a frame twice, stands at the start of the
        area; the rest is as it was."""
        chance = Chance(6)
        for length in EDGE_LENGTHS + LONG_LENGTHS:
            message, number = chance.octets(length), chance.below(0x80)
            session, area = [Record(OPENED, 5, 0x80)], bytearray(b"\xEE" * 1469)
            start, *rest = cut(5, number, message)
            frames = [start] + chance.shuffled(rest + [chance.pick([start] + rest)])
            answers = [device_end.receive(session, bytes(16), area, 1469, frame) for frame in frames]
            self.assertEqual(answers.count(("delivered", length, number)), 1)
            self.assertEqual(answers.count(("kept",)), last_segment_number(length))
            self.assertEqual(bytes(area), message + b"\xEE" * (1469 - length))
            self.assertEqual(session, [Record(OPENED, 5, 0x80, False, number)])


class Talk:
    """A station with a link on socket 3, and a device: what one host writes the other end receives."""

    def __init__(self, uuid):
        self.uuid = uuid
        self.records, self.area = station.blank_records(), bytearray(station.AREA_LENGTH)
        self.session, self.device_area = device_end.blank_session(), bytearray(device_end.AREA_LENGTH)

    def to_device(self, frame):
        return device_end.receive(self.session, self.uuid, self.device_area, device_end.AREA_LENGTH, frame)

    def to_station(self, frame):
        return station.receive(self.records, self.area, station.AREA_LENGTH, frame)


class Rehearsal(unittest.TestCase):
    def test_a_whole_exchange(self):
        """Open, Ack, Invite, acknowledgement, Capabilities, acknowledgement, Close."""
        link_id, uuid = 0x23AF5850, bytes.fromhex(UUID)
        talk = Talk(uuid)
        station.local_open(talk.records, 3, link_id)
        open_frame = write_open(OUTPUT, link_id, uuid)
        self.assertEqual(talk.to_device(open_frame), ("opened",))
        self.assertEqual(talk.to_station(write_ack(OUTPUT, link_id)), ("opened",))
        # The Open comes once more, and the host writes the Ack again.
        self.assertEqual(talk.to_device(open_frame), ("already",))
        self.assertEqual(talk.to_station(write_ack(OUTPUT, link_id)), ("already",))

        invite = bytes.fromhex("0005")
        self.assertEqual(station.local_send(talk.records, 3, len(invite)), (0x00, 0))
        self.assertEqual(talk.to_device(cut(link_id, 0x00, invite)[0]), ("delivered", 2, 0x00))
        self.assertEqual(bytes(talk.device_area[:2]), invite)
        self.assertEqual(talk.to_station(write_acknowledgement(OUTPUT, link_id, 0x00)), ("acknowledged",))

        capabilities = bytes.fromhex("010100010000000000000000") + bytes(20)
        self.assertEqual(device_end.local_send(talk.session, len(capabilities)), (0x80, 1))
        answers = [talk.to_station(frame) for frame in cut(link_id, 0x80, capabilities)]
        self.assertEqual(answers, [("kept",), ("delivered", 32, 0x80)])
        self.assertEqual(bytes(talk.area[2 * 1469:2 * 1469 + 32]), capabilities)
        self.assertEqual(talk.to_device(write_acknowledgement(OUTPUT, link_id, 0x80)), ("acknowledged",))
        self.assertEqual(talk.session, [Record(OPENED, link_id, 0x81, False, 0x00)])
        self.assertEqual(talk.records[2], Record(OPENED, link_id, 0x01, False, 0x80))

        self.assertEqual(talk.to_device(write_close(OUTPUT, link_id, 0)), ("closed", 0))
        station.local_close(talk.records, 3)
        self.assertEqual(talk.records, station.blank_records())
        self.assertEqual(talk.session, device_end.blank_session())

    def test_each_end_refuses_its_own_frames(self):
        """A frame that comes back to the end that sent it is 5; only a Close may come from either."""
        uuid, link_id = bytes.fromhex(UUID), 5
        talk = Talk(uuid)
        station.local_open(talk.records, 3, link_id)
        talk.to_device(write_open(OUTPUT, link_id, uuid))
        talk.to_station(write_ack(OUTPUT, link_id))
        ours = [write_open(OUTPUT, link_id, uuid), *cut(link_id, 0x00, bytes(30)),
                write_acknowledgement(OUTPUT, link_id, 0x80)]
        theirs = [write_ack(OUTPUT, link_id), *cut(link_id, 0x80, bytes(30)),
                  write_acknowledgement(OUTPUT, link_id, 0x00)]
        self.assertEqual([outcome(talk.to_station, frame) for frame in ours], ["!05"] * 4)
        self.assertEqual([outcome(talk.to_device, frame) for frame in theirs], ["!05"] * 4)


if __name__ == "__main__":
    unittest.main()
