"""The line program and the import program, over whole inputs."""
import unittest

from model.import_program import answer_log
from model.line_program import answer_lines
from model.samples import SAMPLES


class LineProgram(unittest.TestCase):
    def test_figure(self):
        written = b"0000000100000002140000\n!11\n00000001010000013E08\n"
        self.assertEqual(answer_lines(b"0000\n0\n08"), written)
        self.assertEqual(answer_lines(b"0000\n0\n08\n"), written)

    def test_no_lines(self):
        self.assertEqual(answer_lines(b""), b"")
        self.assertEqual(answer_lines(b"\n"), b"!11\n")
        self.assertEqual(answer_lines(b"\n\n00"), b"!11\n!11\n0000000100000001" + b"3000\n")

    def test_what_is_no_message(self):
        for line in (b"0", b"0g", b" 00", b"00 ", b"00\r", b"0" * 2939, b"0" * 2940, b"0" * 70000, b"\xff\xff", b"+0"):
            self.assertEqual(answer_lines(line), b"!11\n")
        self.assertEqual(answer_lines(b"0" * 2938).count(b"\n"), 64)

    def test_numbers_come_round(self):
        lines = answer_lines(b"00\nx\n" * 129).split(b"\n")[:-1]
        numbers = [int(line[8:10], 16) for line in lines if line != b"!11"]
        self.assertEqual(numbers, list(range(128)) + [0])

    def test_either_case(self):
        self.assertEqual(answer_lines(b"aBcD"), answer_lines(b"AbCd"))


HEADER = ("what,line,socket,link_id,number,refusal,message,elements,algorithms,public_key_type,static_oob_type,output_oob_size,"
          "output_oob_action,input_oob_size,input_oob_action")


def written(*lines):
    """What the import program writes for these lines, the header left out; checked for that header and the last newline."""
    text = answer_log("\n".join(lines).encode("ascii")).decode("ascii")
    header, *rows, last = text.split("\n")
    if (header, last) != (HEADER, ""):
        raise AssertionError(text)
    return rows


class ImportProgram(unittest.TestCase):
    """Whole logs with whole rows; test_import_lines.py and test_import_links.py have the rules one by one."""

    def test_empty(self):
        self.assertEqual(written(""), ["unopened,,%d,,,,,,,,,,,," % socket for socket in range(1, 9)] + ["end,0,,,,,,,,,,,,,"])

    def test_documented_rows(self):
        """The rows that docs/IMPORT.md shows, made by a log with those lines and comments in between."""
        lines = ["#"] * 51
        lines[:7] = ["1 23AF5850", "2 23AF5851", "3 23AF5852", "4 23AF5853", "5 23AF5854", "6 23AF5855", "7 23AF5856"]
        lines[7] = "23AF58520007"
        lines[8] = "23AF58528000000C87010100010001000000000000"
        lines[24:26] = ["23AF58540007", "23AF58548000000C69010500010000060010000000"]
        lines[31:35] = ["23AF58500007", "23AF5850810800411003F465E43FF23D3F1B9DC7DFC04DA8758184DBC9",
                        "23AF5850810AC424164E33C201C2B010CA6B4D43A8A155CAD8ECB279",
                        "23AF5850810666204796ECCF0D6CF5E16500CC0201D048BCBBD899EEEF"]
        self.assertEqual(written(*lines), [
            "record,9,3,0x23AF5852,0x80,,Capabilities,1,0x0001,0,1,0,0x0000,0,0x0000", "refused,26,5,0x23AF5854,0x80,8,,,,,,,,,",
            "message,35,1,0x23AF5850,0x81,,Public Key,,,,,,,,", "missing,,1,,,,,,,,,,,,", "missing,,2,,,,,,,,,,,,",
            "missing,,4,,,,,,,,,,,,", "missing,,5,,,,,,,,,,,,", "missing,,6,,,,,,,,,,,,", "missing,,7,,,,,,,,,,,,",
            "unopened,,8,,,,,,,,,,,,", "end,51,,,,,,,,,,,,,"])

    def test_every_column(self):
        """A value in each field, so that none is in another's place."""
        self.assertEqual(written("8 0000000a", "0000000A0007", "0000000AFF00000CFD01FE12340001567ABC9DEF01")[:1],
                         ["record,3,8,0x0000000A,0xFF,,Capabilities,254,0x1234,0,1,86,0x7ABC,157,0xEF01"])

    def test_published_exchange(self):
        """One module, both directions: no row is a refusal."""
        lines = ["1 " + SAMPLES["link_id"]]
        for step in SAMPLES["steps"]:
            lines += [(">" if step["from"] == "provisioner" else "") + frame for frame in step["frames"]]
        self.assertEqual(written(*lines), [
            "record,6,1,0x23AF5850,0x80,,Capabilities,1,0x0001,0,0,0,0x0000,0,0x0000",
            "message,16,1,0x23AF5850,0x81,,Public Key,,,,,,,,", "message,20,1,0x23AF5850,0x82,,Confirmation,,,,,,,,",
            "message,24,1,0x23AF5850,0x83,,Random,,,,,,,,", "message,29,1,0x23AF5850,0x84,,Complete,,,,,,,,",
            "unopened,,2,,,,,,,,,,,,", "unopened,,3,,,,,,,,,,,,", "unopened,,4,,,,,,,,,,,,", "unopened,,5,,,,,,,,,,,,",
            "unopened,,6,,,,,,,,,,,,", "unopened,,7,,,,,,,,,,,,", "unopened,,8,,,,,,,,,,,,", "end,31,,,,,,,,,,,,,"])


if __name__ == "__main__":
    unittest.main()
