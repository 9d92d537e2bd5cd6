"""The script language: the worked script, the published samples and figures, malformed lines, the hash."""
import unittest

from model.generator.chance import Chance
from model.generator.scripts import worked_operations
from model.replay import Program, answer_script
from model.samples import SAMPLES, beacon_operations, sample_operations
from model.storage import hash_of
from scripted import ScriptedTest


class Stored(unittest.TestCase):
    def run_all(self, operations):
        program = Program()
        for line, answer in operations:
            got = program.answer(line.encode("ascii"))
            if answer is not None:
                self.assertEqual(got, answer, line)

    def test_worked_script(self):
        operations = worked_operations()
        self.assertGreater(len(operations), 70)
        self.run_all(operations)

    def test_samples_and_figures(self):
        operations = sample_operations()
        frames = [frame for step in SAMPLES["steps"] for frame in step["frames"]]
        played = [line[:1] for line, _ in operations if line.startswith(("RF", "DR", "W"))]
        # Each frame is written at one end and received at the other.
        self.assertEqual(len(played), 2 * len(frames))
        self.assertEqual(played.count("W"), len(frames))
        self.run_all(operations)

    def test_sample_beacons(self):
        program = Program()
        answers = [program.answer(line.encode("ascii")) for line, _ in beacon_operations()]
        uuid = SAMPLES["device_uuid"]
        self.assertEqual(answers, ["OK", "B0000", "K001234567800", "!54", "K001234567800", "B0000", "K001234567901", "!54",
                                   "K001234567901", "U" + uuid + "A0400000000000", "K001234567901", "U" + uuid + "402001D97478B3",
                                   "K001234567901"])


class Hash(ScriptedTest):
    def test_octet_by_octet(self):
        chance = Chance(1)
        for lengths in ((0,), (1,), (255, 1), (256,), (257, 3), (1000, 0, 600)):
            parts = [chance.octets(length) for length in lengths]
            value = 1
            for octet in b"".join(parts):
                value = (value * 257 + octet) % 4294967291
            self.assertEqual(hash_of(*parts), value)

    def test_every_state_and_storage_is_in_it(self):
        changes = ("LS01" + "00" + "00000000" + "00" + "01" + "0" * 30, "XS0100000000", "FS0100" + "0000" * 16, "KS000000000001",
                   "VS0001", "AW2DFF01", "BW05FF01", "OW0FFF01", "EW05FF01", "DS0200000000" + "80" + "0" * 32)
        hashes = set()
        for change in changes:
            program = Program()
            self.assertEqual(program.answer(change.encode("ascii")), "OK")
            hashes.add(program.answer(b"ZH"))
        self.assertEqual(len(hashes), len(changes))


    def test_its_order(self):
        """The station's states and storages, then the device's record and its storage."""
        program = self.play("DS0200000005FF01017F010000162B0000000000000001  OK\nEW0000AABB  OK")
        shown = [program.answer(name).encode() for name in (b"LA", b"XD", b"FD", b"KD", b"VD")]
        storages = [bytes(0x2E00), bytes(0x600), bytes(0x1000)]
        device = b"D0200000005FF01017F010000162B0000000000000001", b"\xAA\xBB" + bytes(0x5FE)
        self.assertEqual(program.answer(b"ZH"), "H%08X" % hash_of(*shown, *storages, *device))

    def test_the_own_uuid_is_no_part_of_it(self):
        program = Program()
        before = program.answer(b"ZH"), program.answer(b"EH"), program.answer(b"DD")
        self.assertEqual(program.answer(b"DU" + b"5A" * 16), "OK")
        self.assertEqual((program.answer(b"ZH"), program.answer(b"EH"), program.answer(b"DD")), before)


class Lines(ScriptedTest):
    def test_malformed(self):
        program = Program()
        before = program.answer(b"ZH")
        for line in (b"", b"Z", b"zz", b"ZZ0", b"ZZ00", b" ZZ", b"ZZ ", b"ZZ\r", b"AF0", b"AF000", b"AFgg", b"AFaa", b"AW", b"AW000", b"AW00000",
                     b"AW2E0000", b"AW2DFF0000", b"BW060000", b"OW100000", b"AD00000FA1", b"AD2E000001", b"BD05FF0002", b"LS00" + b"0" * 44,
                     b"LS09" + b"0" * 44, b"LS0103" + b"0" * 42, b"LS01" + b"0" * 43, b"LS01" + b"0" * 45, b"LD00", b"LD09", b"LD0A", b"XS0200000000",
                     b"XS0002000000", b"FS0200" + b"0" * 64, b"KS000000000002", b"VS000", b"VS0000" + b"00" * 0x601, b"RF2E01", b"RF2DE80",
                     b"XR0601", b"WA100100000000", b"VF0000", b"BR020000", b"BR000200", b"BR000002", b"PR0", b"PR" + b"00" * 4095 + b"0",
                     b"PR" + b"00" * 4096, b"DS" + b"0" * 43, b"DS" + b"0" * 45, b"DS03" + b"0" * 42,
                     b"DS02" + b"0" * 10 + b"02" + b"0" * 30, b"DD0", b"DD00", b"DU0", b"DU" + b"00" * 0x21, b"DR", b"DR05B",
                     b"DR05BD0", b"DR0601", b"DN", b"DN001", b"DN00001", b"DC0", b"DC00", b"EF0", b"EW05FF0000", b"EW060000",
                     b"ED05FF0002", b"EH00", b"\xff\xff"):
            self.assertEqual(program.answer(line), "?", line[:40])
        self.assertEqual(program.answer(b"ZH"), before)

    def test_edges(self):
        self.play("""
            AW2E00  OK
            AD2E000000  H
            AW2DFFAA  OK
            AD2DFF0001  HAA
            OD00600FA0  H%s
            RF2E00  !11
            DR0600  !11
            XR0600  !11
            WA100000000000  W0006000000000007
        """ % ("00" * 4000))
        self.assertEqual(Program().answer(b"PR" + b"40" * 4095), "!42")
        self.assertEqual(Program().answer(b"VS0000" + b"00" * 0x600), "OK")

    def test_the_device(self):
        """What is held for it: its record, its own UUID with its length, and storage E; all as at start after ZZ."""
        self.play("""
            DD  D00000000008000000000000000000000000000000000
            DR05BD00000001000300000000000000000000000000000000  U
            DUAAAAAAAAAAAAAAAAAAAAAAAAAAAAAAAA  OK
            DR05BD00000001000300000000000000000000000000000000  !15
            DR05BD000000010003AAAAAAAAAAAAAAAAAAAAAAAAAAAAAAAA  Y
            DU%s  OK
            DR05BD000000010003AAAAAAAAAAAAAAAAAAAAAAAAAAAAAAAA  !11
            DU  OK
            DR05BD00000001000B00  !11
            EF11  OK
            EW05BCAABBCC  OK
            ED05BB0005  H11AABBCC11
            ED05FF0001  H11
            DS02000000058001017F017E002200FFFFFFFFFFFFFFFF  OK
            DD  D02000000058001017F017E002200FFFFFFFFFFFFFFFF
            DC  !14
            DS010000000500000055007E002200FFFFFFFFFFFFFFFF  OK
            DD  D01000000050000000000000000000000000000000000
            ZZ  OK
            DD  D00000000008000000000000000000000000000000000
            ED00000004  H00000000
            DR05BD00000001000300000000000000000000000000000000  U
            LA  L%s
        """ % ("AA" * 32, "00" * 176))

    def test_end_of_input(self):
        self.assertEqual(answer_script(b""), b"")
        self.assertEqual(answer_script(b"\n"), b"?\n")
        self.assertEqual(answer_script(b"ZZ\n\nSG0001"), b"OK\n?\nN00\n")

    def test_states_are_held_as_given(self):
        self.play("""
            XS0100FFFFFF  OK
            XD  X0100000000
            XS0001FFFFFF  OK
            XD  X0001FFFFFF
            FS01FF0000000000000000000000000000000000000000000000000000000000000001  OK
            FD  F01FF0000000000000000000000000000000000000000000000000000000000000001
            KSFFFFFFFFFF01  OK
            KD  KFFFFFFFFFF01
            ZZ  OK
            XD  X0000000000
            KD  K000000000000
        """)


if __name__ == "__main__":
    unittest.main()
