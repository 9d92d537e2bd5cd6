"""scripts/tray_log: from the text of btmon and of tshark to a log. The stored texts are those of btmon 5.66 and tshark 4.0.17."""
import os
import pathlib
import select
import subprocess
import sys
import tempfile
import unittest

TESTS = pathlib.Path(__file__).resolve().parent
SCRIPT = TESTS.parent / "scripts" / "tray_log"
UUIDS = {1: "00112233445566778899AABBCCDDEEFF", 2: "00112233445566778899AABBCCDDEEFE", 8: "00112233445566778899AABBCCDDEEF8"}
# With a mark of UTF-8 and a carriage return, as some editors write.
SOCKETS = "\ufeff# Três módulos\n\n1 00112233-4455-6677-8899-aabbccddeeff\n2 %s\r\n8 %s\n" % (UUIDS[2], UUIDS[8])
START = "000000058008002CA20102030405060708090A0B0C0D0E0F1011121314"
FIRST, LAST = "00000005800615161718191A1B1C1D1E1F202122232425262728292A2B", "00000005800A2C"
ACK = "000000050007"
NO_OCTETS = "# a frame of no octets"


def an_open(link, socket):
    return "%08X0003%s" % (link, UUIDS[socket])


OPEN = an_open(5, 1)
# The log of the stored texts, a packet a line: the milliseconds, and the lines of the log.
PACKETS = [(1, "1 00000005", ">" + OPEN), (2, ">" + OPEN), (3, ACK), (4, ">0000000500000002140000"), (5, START, FIRST), (6, START, FIRST, LAST),
           (7, START, LAST), (8, LAST), (9, "23", "0000000500", "00000005001F", NO_OCTETS), (10, "000000058000" + "00" * 40, NO_OCTETS),
           (11, NO_OCTETS), (12, "00000005000B02"), (13, "1 00000005", ">" + OPEN)]
LOG = "".join("# 2026-11-17 09:30:00.%03d000\n%s\n" % (time, "\n".join(lines)) for time, *lines in PACKETS)


def run(tool, text, sockets=SOCKETS, arguments=()):
    """The lines of the log but for comments, what standard error has, and whether all went well."""
    with tempfile.NamedTemporaryFile() as file:
        file.write(sockets.encode("utf-8"))
        file.flush()
        command = [sys.executable, str(SCRIPT), tool, file.name, *arguments]
        finished = subprocess.run(command, input=text.encode("latin-1"), capture_output=True, check=False)
    lines = [line for line in finished.stdout.decode("utf-8").splitlines() if not line.startswith("#")]
    return lines, finished.stderr.decode("utf-8"), finished.returncode == 0


def btmon(*frames, adapter="[hci0] "):
    """btmon's text of these frames, < before a sent one."""
    packets = ["%s HCI Packet  #1 %s0.500000\n        Mesh Provisioning: %s\n" % (frame[0], adapter, frame[1:].lower()) for frame in frames]
    return "".join(packets)


def tshark(sent, *frames, unread="", adapter="0", types=None, lengths=None, data_length=None):
    """tshark's fields of a packet with these frames."""
    counts = [1 + len(frame) // 2 for frame in frames]
    total = str(sum(counts) + len(counts)) if data_length is None else data_length
    lengths = ",".join(map(str, counts)) if lengths is None else lengths
    types = ",".join(["0x29"] * len(frames)) if types is None else types
    data = ",".join(filter(None, frames)).lower()
    return "\t".join(("0.5", adapter, "0x2008" if sent else "", total if sent else "", types, lengths, data, unread)) + "\n"


class StoredTexts(unittest.TestCase):
    def check(self, tool):
        text = (TESTS / "samples" / ("packets.%s.txt" % tool)).read_bytes()
        with tempfile.NamedTemporaryFile() as file:
            file.write(SOCKETS.encode("utf-8"))
            file.flush()
            finished = subprocess.run([sys.executable, str(SCRIPT), tool, file.name], input=text, capture_output=True, check=False)
        self.assertEqual((finished.stdout.decode("ascii"), finished.stderr, finished.returncode), (LOG, b"", 0))

    def test_btmon(self):
        self.check("btmon")

    def test_tshark(self):
        self.check("tshark")


class Openings(unittest.TestCase):
    def opened(self, *frames):
        """The opening lines of a log."""
        return [line for line in run("btmon", btmon(*frames))[0] if line[1:2] == " " and line[0] != "!"]

    def test_sockets(self):
        frames = ["<" + an_open(socket + 4, socket) for socket in UUIDS]
        self.assertEqual(self.opened(*frames), ["1 00000005", "2 00000006", "8 0000000C"])

    def test_once_for_a_link(self):
        self.assertEqual(self.opened("<" + OPEN, "<" + OPEN, "<" + an_open(6, 1), "<" + OPEN), ["1 00000005", "1 00000006"])

    def test_again_after_a_close(self):
        for close in (">00000005000B02", "<00000005000B00"):
            self.assertEqual(self.opened("<" + OPEN, close, "<" + OPEN), ["1 00000005"] * 2)

    def test_no_close(self):
        """A Close of another link, and what is too short or too long for a Close."""
        for other in (">00000006000B02", ">00000005000B", ">00000005000B0200", ">" + ACK):
            self.assertEqual(self.opened("<" + OPEN, other, "<" + OPEN), ["1 00000005"])

    def test_no_opening(self):
        """An Open that was heard; one that is too short or too long; an Ack. The first right one behind it opens."""
        for frame in (">" + OPEN, "<" + OPEN[:-2], "<" + OPEN + "00", "<" + ACK):
            self.assertEqual(self.opened(frame), [])
            self.assertEqual(self.opened(frame, "<" + OPEN), ["1 00000005"])
            self.assertEqual(run("btmon", btmon("<" + OPEN, frame))[1:], ("", True))

    def test_again_when_the_link_was_used(self):
        """The import will refuse the second opening with 9: a Close is missing. An Ack alone may come between two Opens."""
        for frame in (">" + START, ">" + LAST, "<0000000500000002140000", ">000000050001"):
            self.assertEqual(self.opened("<" + OPEN, frame, "<" + OPEN, "<" + OPEN), ["1 00000005"] * 2)
        self.assertEqual(self.opened("<" + OPEN, ">" + ACK, "<" + OPEN), ["1 00000005"])

    def test_link_of_another_module(self):
        """The import will refuse the second opening with 10, and does not take the second module for the first."""
        self.assertEqual(self.opened("<" + OPEN, "<" + an_open(5, 2)), ["1 00000005", "2 00000005"])

    def test_module_of_no_socket(self):
        other = OPEN[:-2] + "00"
        log, said, well = run("btmon", btmon("<" + OPEN, "<" + "00000006" + other[8:]))
        self.assertEqual((log, well), (["1 00000005", ">" + OPEN, ">00000006" + other[8:]], True))
        self.assertIn("link 00000006 was opened to a module of no socket, UUID 00112233445566778899AABBCCDDEE00", said)


class OtherText(unittest.TestCase):
    def test_adapters(self):
        """None, another one; two of which one is named."""
        for adapter in ("", "[hci1] ", "[hci10] "):
            self.assertEqual(run("btmon", btmon("<" + OPEN, adapter=adapter)), (["1 00000005", ">" + OPEN], "", True))
        text = btmon(">" + OPEN) + btmon("<" + OPEN, adapter="[hci10] ")
        self.assertEqual(run("btmon", text, arguments=("10",)), (["1 00000005", ">" + OPEN], "", True))
        text = tshark(True, OPEN, adapter="7") + tshark(False, ACK, adapter="8")
        self.assertEqual(run("tshark", text, arguments=("7",)), (["1 00000005", ">" + OPEN], "", True))

    def test_number_left_out(self):
        """As btmon does where the packet before, of another adapter, has the same number."""
        self.assertEqual(run("btmon", btmon("<" + OPEN).replace("#1 ", "")), (["1 00000005", ">" + OPEN], "", True))

    def test_forms_of_time(self):
        for time in ("12.345678", "09:30:00.500000", "2026-11-17 09:30:00.500000"):
            self.assertEqual(run("btmon", btmon("<" + OPEN).replace("0.500000", time)), (["1 00000005", ">" + OPEN], "", True))

    def test_other_channels(self):
        """What isn't sent to the adapter or heard by it is no frame of the log."""
        other = "@ MGMT Event: Mesh Packet Found  {0x0001} [hci0] 0.600000\n        Mesh Provisioning: 000000050007\n"
        self.assertEqual(run("btmon", btmon("<" + OPEN) + other), (["1 00000005", ">" + OPEN], "", True))

    def test_lines_at_once(self):
        """The log of a packet is there when the next one begins."""
        with tempfile.NamedTemporaryFile() as file:
            file.write(SOCKETS.encode("utf-8"))
            file.flush()
            buffered = {name: value for name, value in os.environ.items() if name != "PYTHONUNBUFFERED"}
            with subprocess.Popen([sys.executable, str(SCRIPT), "btmon", file.name], stdin=subprocess.PIPE, stdout=subprocess.PIPE, env=buffered) as process:
                process.stdin.write(btmon("<" + OPEN, ">" + ACK).encode("ascii"))
                process.stdin.flush()
                there, _, _ = select.select([process.stdout], [], [], 20)
                self.assertEqual(there, [process.stdout])
                self.assertEqual(process.stdout.readline(), b"# 0.500000\n")

    def test_names(self):
        """A name may have any octets, a newline among them; the frame behind it is there."""
        for name in ("\xff\xfe", "a\nb", "Mesh Provisioning: x", "\n", "a\n Mesh Provisioning: 00", "a\n= b", "a\n@ b 1", "a\r\n* b"):
            text = btmon("<" + OPEN) + btmon(">" + ACK).replace("        Mesh", "        Name (complete): %s\n        Mesh" % name)
            self.assertEqual(run("btmon", text), (["1 00000005", ">" + OPEN, ACK], "", True))


class NotInOrder(unittest.TestCase):
    """Where something may be missing the log has a line that is refused, standard error says why, and the status tells."""

    def check(self, words, *result):
        lines, said, well = result
        self.assertTrue(any(line.startswith("! ") and words in line for line in lines), lines)
        self.assertIn("tray_log: ", said)
        self.assertIn(words, said)
        self.assertNotIn("Traceback", said)
        self.assertFalse(well)

    def test_no_opening(self):
        words = "no Open was sent to a module of a socket"
        for tool, text in (("btmon", ""), ("btmon", "Bluetooth monitor ver 5.66\n"), ("tshark", ""), ("btmon", btmon(">" + OPEN, ">" + ACK))):
            self.check(words, *run(tool, text))

    def test_no_time(self):
        self.check("a packet without its time", *run("btmon", btmon("<" + OPEN) + "> HCI Event: LE Meta Event (0x3e) plen 20\n"))

    def test_open_is_missing(self):
        for frame in (START, "000000050001"):
            self.check("frames were sent on link 00000005, and its Open is not there", *run("btmon", btmon("<" + an_open(6, 1), "<" + frame)))
        for frame in ("<00000005000B00", ">" + START):
            self.assertTrue(run("btmon", btmon("<" + an_open(6, 1), frame))[2])
        self.assertTrue(run("btmon", btmon("<" + OPEN, ">00000005000B00", "<000000058001"))[2])

    def test_link_of_a_module_of_no_socket(self):
        other = OPEN[:-2] + "00"
        self.check("link 00000005 was opened a second time, to a module of no socket", *run("btmon", btmon("<" + OPEN, "<" + other)))

    def test_no_digits(self):
        for frame in (">00 00 00 05", ">0x00000005", ">000"):
            self.check("not the digits of a frame", *run("btmon", btmon(frame)))
        self.check("not the digits of a frame", *run("tshark", tshark(False, "0:7.", lengths="3")))

    def test_two_adapters(self):
        self.check("adapters 0 and 1 both have frames", *run("btmon", btmon("<" + OPEN) + btmon(">" + ACK, adapter="[hci1] ")))
        self.check("adapters 0 and 1 both have frames", *run("tshark", tshark(True, OPEN) + tshark(False, ACK, adapter="1")))

    def test_packet_not_read_to_its_end(self):
        for unread in (tshark(False, types="0xff", lengths="1", unread="[Malformed Packet]"), tshark(False, ACK, unread="[Malformed Packet]")):
            text = tshark(True, OPEN) + unread + tshark(False, LAST)
            self.check("a packet that was not read as it is", *run("tshark", text))
            self.assertEqual(run("tshark", text)[0][-1], LAST)
        size = "        invalid packet size\n"
        for kind in ("> HCI Event: LE Meta Event (0x3e) plen 20", "< HCI Command: LE.. (0x08|0x0008) plen 9"):
            self.check("a packet that was not read as it is", *run("btmon", btmon("<" + OPEN) + kind + "  #2 [hci0] 0.600000\n" + size))
        other = "> HCI Event: Vendor (0xff) plen 20  #2 [hci0] 0.600000\n" + size
        self.assertEqual(run("btmon", btmon("<" + OPEN) + other), (["1 00000005", ">" + OPEN], "", True))

    def test_lengths(self):
        """A frame that is shorter or longer than its AD structure, one too many, and one behind the data's length."""
        for line in (tshark(False, ACK, lengths="8"), tshark(False, ACK, lengths="6"), tshark(False, ACK, ACK, types="0x29", lengths="7"),
                     tshark(False, ACK, types="0x29,0x29", lengths="7,7"), tshark(True, ACK, data_length="3"), tshark(True, ACK, data_length="0")):
            self.check("a packet that was not read as it is", *run("tshark", tshark(True, OPEN) + line))
        others = tshark(False, "", ACK, types="0x01,0x29,0x29,0xff", lengths="2,1,7,3")
        self.assertEqual(run("tshark", tshark(True, OPEN) + others), (["1 00000005", ">" + OPEN, ACK], "", True))

    def test_two_frames_sent_at_once(self):
        self.check("a packet to the adapter with more than one frame", *run("tshark", tshark(True, OPEN, ACK)))
        text = btmon("<" + OPEN) + "        Mesh Provisioning: %s\n" % ACK.lower()
        self.check("a packet to the adapter with more than one frame", *run("btmon", text))

    def test_other_fields(self):
        for line in ("0.5\t\t0x29\t%s\n" % ACK, ACK + "\n", tshark(False, ACK, types="0x29,0x01"), tshark(False, ACK, lengths="7,7")):
            self.check("not eight fields", *run("tshark", tshark(True, OPEN) + line))
        self.check("invalid literal", *run("tshark", tshark(True, OPEN) + tshark(False, ACK, lengths="x")))

    def test_sockets(self):
        uuid = UUIDS[1]
        for sockets in ("0 " + uuid, "9 " + uuid, "1 " + uuid[2:], "1" + uuid, "1  " + uuid, "1 %s # left" % uuid):
            self.check("not a socket 1 to 8, a space and a UUID of 32 digits", *run("btmon", btmon(">" + ACK), sockets + "\n"))
        for sockets in ("1 %s\n1 %s" % (uuid, UUIDS[2]), "1 %s\n2 %s" % (uuid, uuid.lower())):
            self.check("a socket or a UUID for the second time", *run("btmon", btmon(">" + ACK), sockets + "\n"))

    def test_no_file(self):
        finished = subprocess.run([sys.executable, str(SCRIPT), "btmon", "no such file"], input=b"", capture_output=True, check=False)
        self.assertEqual((finished.stdout[:2], finished.returncode), (b"! ", 1))
        self.assertIn(b"tray_log: [Errno 2] No such file or directory", finished.stderr)

    def test_sockets_in_another_code(self):
        with tempfile.NamedTemporaryFile() as file:
            file.write(SOCKETS.encode("utf-16"))
            file.flush()
            finished = subprocess.run([sys.executable, str(SCRIPT), "btmon", file.name], input=b"", capture_output=True, check=False)
        self.assertEqual((finished.stdout[:2], finished.returncode), (b"! ", 1))
        self.assertNotIn(b"Traceback", finished.stderr)

    def test_no_input(self):
        with tempfile.NamedTemporaryFile() as file:
            command = "%s %s btmon %s <&-" % (sys.executable, SCRIPT, file.name)
            finished = subprocess.run(["bash", "-c", command], capture_output=True, check=False)
        self.assertEqual((finished.stdout, finished.returncode), (b"! there is no standard input\n", 1))

    def test_full_disk(self):
        with open("/dev/full", "wb") as full, tempfile.NamedTemporaryFile() as file:
            finished = subprocess.run([sys.executable, str(SCRIPT), "btmon", file.name], input=btmon("<" + OPEN).encode("ascii"), stdout=full,
                                      stderr=subprocess.PIPE, check=False)
        self.assertNotEqual(finished.returncode, 0)
        self.assertIn(b"No space left on device", finished.stderr)
        self.assertNotIn(b"Traceback", finished.stderr)

    def test_usage(self):
        self.assertIn("usage: ", run("hcidump", "")[1])
        self.assertIn("usage: ", run("btmon", "", arguments=("0", "1"))[1])


if __name__ == "__main__":
    unittest.main()
