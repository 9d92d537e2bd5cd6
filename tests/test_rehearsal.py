"""The rehearsal: its lines, its ends turn by turn, the stored logs, and what comes of a tray whatever the channel does to it."""
import pathlib
import re
import subprocess
import sys
import tempfile
import unittest
from collections import Counter

from imported import table
from model.frames import cut
from model.generator.chance import Chance
from model.generator.messages import good_message
from model.generator.rehearsals import capabilities, module_line
from model.links import DEVICE, OPENING
from model.lossy_channel import LossyChannel
from model.rehearsal import Module, Rehearsal, rehearsal_lines, rehearse
from model.rehearsed_ends import End
from model.script_line import hexadecimal
from stand_in import TESTS, write_program

TOP = TESTS.parent
SOCKETS = list("12345678")
UUID_FRONT = "70CF7C9732A345B691494810D2E9CB"
# The lines of tests/rehearsals/lines.txt that docs/REHEARSAL.md refuses.
REFUSED_LINES = [3, 4, *range(6, 31), 32, 33, *range(35, 39), 40, *range(42, 71), 72, 73, 77, 78, 79, 80, 83, 84, 85, 86, 87, 91]
# The refusals of the reader.
READER = ("42", "43", "44", "45")
# Whose turn it is: at socket 1, and at socket 8, which has no module here.
STATION, DEVICE_AT_1, NOBODY = 0, 1, 15


def stored(path):
    return (TOP / path).read_bytes()


def modules_of(text):
    """The modules of a stored tray, as text: the Link ID and the message by socket."""
    found = re.findall(r"^([1-8]) (\w{8}) (\w+)$", text.decode("latin-1").upper(), re.MULTILINE)
    return {socket: (link_id, message) for socket, link_id, message in found}


def record_by_hand(socket, link_id, digits):
    """What a record has of a Capabilities message, each field from its octets."""
    decimal = {"elements": digits[2:4], "public_key_type": digits[8:10], "static_oob_type": digits[10:12], "output_oob_size": digits[12:14],
               "input_oob_size": digits[18:20]}
    wide = {"link_id": link_id, "number": "80", "algorithms": digits[4:8], "output_oob_action": digits[14:18], "input_oob_action": digits[20:24]}
    return {"what": "record", "socket": socket, "message": "Capabilities", "refusal": "", **{name: str(int(value, 16)) for name, value in decimal.items()},
            **{name: "0x" + value for name, value in wide.items()}}


def delivered(rows):
    """Each row of a message that came, by its socket: a record, a message, or a refusal of the reader."""
    return {row["socket"]: row for row in rows if row["what"] in ("record", "message") or row["refusal"] in READER}


def unexplained(log, rows):
    """The refused rows but for those of the reader, for 3 behind a Close that was sent on the link, and for 6 before a Start that was heard on it."""
    refused = {int(row["line"]): row for row in rows if row["what"] == "refused" and row["refusal"] not in READER}
    closed, started, left = set(), set(), []
    for number, line in enumerate(log.decode("ascii").splitlines(), 1):
        refusal = refused[number]["refusal"] if number in refused else None
        if refusal and not (refusal == "3" and line[:8] in closed or refusal == "6" and line[:8] not in started):
            left.append(refused[number])
        if line.startswith(">") and line[11:13] == "0B":
            closed.add(line[1:9])
        elif re.fullmatch(r"\w{11}[048C]\w{8,}", line):
            started.add(line[:8])
    return left


def tray_text(messages, *channel):
    """A tray with these messages by socket, and perhaps the seed and the two shares of a channel."""
    lines = [module_line(socket, message) for socket, message in messages.items()]
    return b"\n".join(lines + ([b"channel %d %d %d" % channel] if channel else []))


class FixedChannel:
    """Turns as they are told: of whom, and how often the frame comes that is sent in it. Behind the last nobody has a turn."""

    def __init__(self, *steps):
        self.steps = list(steps)
        self.count = 1

    def turn(self):
        place, self.count = self.steps.pop(0) if self.steps else (NOBODY, 1)
        return place

    def times(self):
        return self.count


def played(messages, *steps):
    """The log behind the openings, of modules with the Link IDs 1, 2 and so on; each step is whose turn it is and how often the frame comes."""
    modules = {socket: Module(socket, message) for socket, message in enumerate(messages, 1)}
    return Rehearsal(modules, FixedChannel(*steps)).run()[len(modules):]


class Lines(unittest.TestCase):
    def rounds(self, socket, link_id):
        """What is sent and heard in each round of the turns, by hand, of a module that answers 08; the check octet of that is document 01's."""
        close = [">%s000B02" % link_id]
        return [[">%s0003%s0%d" % (link_id, UUID_FRONT, socket), link_id + "0007"], [">%s00000002140000" % link_id, link_id + "0001"],
                [link_id + "800000013E08"], [">%s8001" % link_id], close, close, close]

    def test_one_module(self):
        self.assertEqual(rehearse(b"3 0000000a 08").decode("ascii").splitlines(), ["3 0000000A"] + sum(self.rounds(3, "0000000A"), []))

    def test_turns_go_round(self):
        """The sockets in their order, whatever that of the lines."""
        lines = rehearse(b"8 0000000A 08\n1 0000000C 08\n5 0000000B 08\n").decode("ascii").splitlines()
        rounds = zip(self.rounds(1, "0000000C"), self.rounds(5, "0000000B"), self.rounds(8, "0000000A"))
        self.assertEqual(lines, ["1 0000000C", "5 0000000B", "8 0000000A"] + [line for parts in rounds for part in parts for line in part])

    def test_without_modules(self):
        for text in (b"", b"\n", b"#", b"channel 7 30 30", b"\r\n# \r\n"):
            self.assertEqual(rehearse(text), b"")

    def test_place_of_each_line(self):
        """A refused line is for itself, the log for the last."""
        lines = rehearsal_lines(b"x\n\n1 00000001 08\n1 00000002 08\n#")
        self.assertEqual(lines[:3], [(1, "# refused 1"), (4, "# refused 4"), (5, "1 00000001")])
        self.assertEqual({place for place, _ in lines[2:]}, {5})

    def test_largest_numbers(self):
        for line, count in ((b"channel 4294967295 100 100", 0), (b"channel 4294967296 0 0", 1), (b"channel 0 101 0", 1), (b"channel 0 0 101", 1)):
            self.assertEqual(rehearse(line).count(b"# refused"), count, line)

    def test_refused_lines(self):
        """Exactly those that the page refuses, in front of the log; and what they gave was not given."""
        log = stored("tests/rehearsals/lines.log").decode("ascii").splitlines()
        count = len(REFUSED_LINES)
        self.assertEqual(log[:count], ["# refused %d" % number for number in REFUSED_LINES])
        openings = ["1 23AF5850", "2 23AF5851", "3 0000000A", "5 FFFFFFFF", "7 DEADBEEF", "8 00000000"]
        self.assertEqual(log[count:count + 7], openings + [line for line in log[count:] if line.startswith(">")][:1])

    def test_their_number(self):
        self.assertEqual(len(stored("tests/rehearsals/lines.txt").split(b"\n")), 91)


class Turns(unittest.TestCase):
    def test_a_close_that_is_lost(self):
        """The acknowledgement is lost, and the first Close: the module sends its message again, and three Closes more are due."""
        steps = [(STATION, 1), (DEVICE_AT_1, 1), (STATION, 1), (DEVICE_AT_1, 1), (DEVICE_AT_1, 1), (STATION, 0), (STATION, 0), (DEVICE_AT_1, 1)]
        log = played([b"\x08"], *steps, *[(STATION, 1)] * 9)
        self.assertEqual(log[4:], ["00000001800000013E08", ">000000018001", ">00000001000B02", "00000001800000013E08"] + [">00000001000B02"] * 3)

    def test_what_comes_twice_is_answered_twice(self):
        """Two Acks, two acknowledgements of the Invite, and two of the message."""
        steps = [(STATION, 2), (DEVICE_AT_1, 1), (DEVICE_AT_1, 2), (STATION, 2)] + [(DEVICE_AT_1, 1)] * 2 + [(DEVICE_AT_1, 2)] + [(STATION, 1)] * 9
        self.assertEqual(played([b"\x08"], *steps)[1:-3], ["000000010007"] * 3 + [">0000000100000002140000"] + ["000000010001"] * 2
                         + ["00000001800000013E08"] * 2 + [">000000018001"] * 2)

    def test_segments_go_round(self):
        """The first is lost, so the others are refused with 6; the second is lost in the second round."""
        message = bytes(range(44))
        frames = [hexadecimal(frame) for frame in cut(1, 0x80, message)]
        steps = [(STATION, 1), (DEVICE_AT_1, 1), (STATION, 1), (DEVICE_AT_1, 1)] + [(DEVICE_AT_1, count) for count in (0, 1, 1, 1, 0, 1, 2, 1)]
        log = played([message], *steps, *[(STATION, 1)] * 9)
        self.assertEqual(log[4:-3], [frames[place] for place in (1, 2, 0, 2, 0, 0, 1)] + [">000000018001"])

    def test_order_of_what_is_due(self):
        """At the module an Ack, the acknowledgement of the Invite, then its message."""
        steps = [(STATION, 1), (STATION, 1), (DEVICE_AT_1, 1), (STATION, 1)] + [(DEVICE_AT_1, 1)] * 3 + [(STATION, 1)] * 9
        self.assertEqual(played([b"\x08"], *steps)[2:-4], ["000000010007", ">0000000100000002140000", "000000010007", "000000010001", "00000001800000013E08"])

    def test_an_invite_still_outstanding(self):
        """Its acknowledgement is lost, and the message comes: the station acknowledges that and closes the link, though its own acknowledgement is lost.
        A module that hears the Close is silent."""
        steps = [(STATION, 1), (DEVICE_AT_1, 1), (STATION, 1), (DEVICE_AT_1, 0), (DEVICE_AT_1, 1), (STATION, 0), (STATION, 1)]
        log = played([b"\x08"], *steps, *[(DEVICE_AT_1, 1)] * 5, *[(STATION, 1)] * 2)
        self.assertEqual(log[2:], [">0000000100000002140000", "00000001800000013E08", ">000000018001"] + [">00000001000B02"] * 3)

    def test_after_the_last_turn(self):
        """A link that is opening, one that is open, and one whose Close was sent once: three Closes each, of their reasons."""
        log = played([b"\x08"] * 3, *[(place, 1) for place in (0, 2, 4, 3, 5, 4, 5, 5, 4, 4)])
        closes = [line for line in log if line[11:13] == "0B"]
        self.assertEqual(closes, [">00000003000B02"] + [">00000001000B01", ">00000002000B01", ">00000003000B02"] * 2 + [">00000001000B01", ">00000002000B01"])
        self.assertEqual(log[-8:], closes[1:])

    def test_a_state_that_is_bad(self):
        """No call leaves one; if one did, the model would stop."""
        end = End(DEVICE, [DEVICE.blank()], 0)
        with self.assertRaises(AssertionError):
            end.received(lambda records: records.append(DEVICE.blank(OPENING)))


class Stored(unittest.TestCase):
    def assert_records(self, tray, log, sockets):
        """The modules at these sockets answer with Capabilities, and each message is the record of its socket."""
        modules = modules_of(tray)
        answering = [socket for socket, (_, message) in sorted(modules.items()) if message[:2] == "01" and len(message) == 24]
        self.assertEqual(answering, list(sockets))
        records = sorted((row for row in table(log) if row["what"] == "record"), key=lambda row: row["socket"])
        wanted = [record_by_hand(socket, *modules[socket]) for socket in answering]
        self.assertEqual([{name: value for name, value in row.items() if name != "line"} for row in records], wanted)

    def test_without_a_channel(self):
        log = stored("crates/rehearse_tray/stdout")
        self.assert_records(stored("crates/rehearse_tray/stdin"), log, SOCKETS)
        self.assertEqual(Counter(row["what"] for row in table(log)), {"record": 8, "end": 1})

    def test_losses(self):
        log = stored("tests/rehearsals/losses.log")
        self.assert_records(stored("tests/rehearsals/losses.txt"), log, SOCKETS)
        self.assertEqual(unexplained(log, table(log)), [])

    def test_messages(self):
        """A Public Key, a message of full length and type 0x40, Capabilities without their last octet, Failed, Capabilities, and type 0x0A."""
        messages = {socket: message for socket, (_, message) in modules_of(stored("tests/rehearsals/messages.txt")).items()}
        self.assertEqual({socket: (message[:2], len(message) // 2) for socket, message in messages.items()},
                         {"1": ("03", 65), "3": ("40", 1469), "4": ("01", 11), "5": ("09", 2), "7": ("01", 12), "8": ("0A", 1)})
        log = stored("tests/rehearsals/messages.log")
        self.assert_records(stored("tests/rehearsals/messages.txt"), log, "7")
        rows = table(log)
        self.assertEqual({socket: (row["what"], row["refusal"], row["message"], row["number"]) for socket, row in delivered(rows).items()},
                         {"1": ("message", "", "Public Key", "0x80"), "3": ("refused", "42", "", "0x80"), "4": ("refused", "44", "", "0x80"),
                          "5": ("message", "", "Failed", "0x80"), "7": ("record", "", "Capabilities", "0x80"), "8": ("refused", "43", "", "0x80")})
        self.assertEqual({what: [row["socket"] for row in rows if row["what"] == what] for what in ("missing", "unopened")},
                         {"missing": list("13458"), "unopened": list("26")})
        self.assertEqual(unexplained(log, rows), [])
        self.assertEqual({row["refusal"] for row in rows}, {"", "3", "6", "42", "43", "44"})

    def test_lines(self):
        """The modules of the lines that are not refused."""
        lines = stored("tests/rehearsals/lines.txt").replace(b"\r\n", b"\n").split(b"\n")
        taken = b"\n".join(line for number, line in enumerate(lines, 1) if number not in REFUSED_LINES)
        log = stored("tests/rehearsals/lines.log")
        self.assert_records(taken, log, "28")
        self.assertEqual(unexplained(log, table(log)), [])

    def test_runs(self):
        """The script that compares the program with the stored logs: silent if it writes them, and else not."""
        runs = [self.run_with(change) for change in ("text", "text.replace(b'# refused 91', b'')", None)]
        self.assertEqual([code for code, _ in runs], [0, 1, 1])
        self.assertEqual([said for _, said in runs[:2]], ["", "tests/rehearsals/lines.txt: not the log that is stored\n"])
        self.assertIn("no program", runs[2][1])

    def run_with(self, change):
        with tempfile.TemporaryDirectory() as folder:
            path = pathlib.Path(folder) / "program"
            importer = pathlib.Path(folder) / "importer"
            if change:
                write_program(path, "rehearsal", "rehearse", change)
            write_program(importer, "import_program", "answer_log", "text")
            finished = subprocess.run([sys.executable, str(TESTS / "stored_runs"), "--rehearse_tray", str(path), "--import_capabilities", str(importer)],
                                      stdout=subprocess.PIPE, stderr=subprocess.STDOUT, check=False)
        return finished.returncode, finished.stdout.decode("ascii")


class Channel(unittest.TestCase):
    def test_published_figure(self):
        """minstd_rand of the C++ standard: the 10,000th number behind 1 is 399268537."""
        channel = LossyChannel(0, 0, 0)
        numbers = [channel.draw() for _ in range(10000)]
        self.assertEqual((numbers[0], numbers[-1]), (48271, 399268537))

    def test_seeds(self):
        """The numbers begin behind one more than the seed, which comes round at 2,147,483,646: no number is 0."""
        firsts = [LossyChannel(seed, 0, 0).draw() for seed in (0, 1, 2147483645, 2147483646, 4294967295)]
        self.assertEqual(firsts, [48271, 2 * 48271, 2147483647 - 48271, 48271, 4 * 48271])

    def test_first_frame(self):
        """Behind 1 come 48271, the turn of 15; 182605794, of which 94 says whether the frame is lost; 1291394886, of which 86 says whether it comes twice."""
        for lost, repeated, count in ((95, 100, 0), (94, 87, 2), (94, 86, 1), (0, 0, 1)):
            channel = LossyChannel(0, lost, repeated)
            self.assertEqual((channel.turn(), channel.times()), (15, count))

    def test_means(self):
        """Of many frames, each drawn behind a turn, the shares are within two points."""
        for seed, lost, repeated in ((1, 0, 50), (2, 10, 90), (3, 30, 30), (4, 49, 10), (5, 75, 100), (4294967295, 100, 100)):
            channel, places, counts = LossyChannel(seed, lost, repeated), Counter(), Counter()
            for _ in range(20000):
                places[channel.turn()] += 1
                counts[channel.times()] += 1
            self.assertLess(abs(counts[0] / 200 - lost), 2)
            if lost < 100:
                self.assertLess(abs(100 * counts[2] / (counts[1] + counts[2]) - repeated), 2)
            self.assertTrue(all(abs(places[place] / 200 - 100 / 16) < 2 for place in range(16)), places)

    def test_every_message_comes(self):
        """Up to 49 lost of a hundred: a record or a message for each module, and no refusal but 3 behind the Close and 6 before the Start."""
        chance, met = Chance(1), Counter()
        for seed in range(200):
            messages = {socket: good_message(chance, chance.pick((1, 1, 3, 5, 7, 9))) for socket in range(1, 9)}
            log = rehearse(tray_text(messages, seed * 21474836, seed % 50, chance.below(101)))
            rows = table(log)
            self.assertEqual(sorted(row["socket"] for row in rows if row["what"] in ("record", "message")), SOCKETS, seed)
            self.assertEqual(unexplained(log, rows), [], seed)
            met.update(row["refusal"] for row in rows)
        self.assertEqual(set(met), {"", "3", "6"})

    def test_full_length(self):
        """Messages of 1,469 octets come through too, and the reader says what they are."""
        for seed, repeated in ((1, 0), (2, 100)):
            log = rehearse(tray_text({socket: bytes([0x40 + socket]) * 1469 for socket in range(1, 9)}, seed, 49, repeated))
            rows = table(log)
            self.assertEqual(sorted((row["socket"], row["refusal"]) for row in delivered(rows).values()), [(socket, "42") for socket in SOCKETS])
            self.assertEqual(unexplained(log, rows), [])

    def test_nothing_is_lost(self):
        """Then nothing is refused, however much comes twice."""
        for seed in range(40):
            messages = {socket: capabilities(socket) + bytes(88 * (socket & 1)) for socket in range(1, 9)}
            rows = table(rehearse(tray_text(messages, seed, 0, 100 - 2 * seed)))
            self.assertEqual(sorted(row["refusal"] for row in rows), [""] * 9 + ["44"] * 4)

    def test_no_channel(self):
        """Without one nothing is refused but by the reader, whatever the messages are."""
        for seed in range(40):
            chance = Chance(seed)
            rows = table(rehearse(tray_text({socket: good_message(chance, chance.below(10)) for socket in range(1, 2 + seed % 8)})))
            self.assertEqual([row for row in rows if row["what"] == "refused"], [])
        rows = table(rehearse(tray_text({socket: b"\x40" + bytes(1468) for socket in range(1, 9)})))
        self.assertEqual([row["refusal"] for row in rows if row["what"] == "refused"], ["42"] * 8)

    def test_all_is_lost(self):
        """The turns end: an Open in each turn of the station, counted here from the numbers themselves, and then the Closes."""
        log = rehearse(tray_text({socket: capabilities(socket) for socket in range(1, 9)}, 5, 100, 100)).decode("ascii").splitlines()
        number, opens = 6, Counter()
        for _ in range(64000):
            number = number * 48271 % 2147483647
            place = number % 16
            if place % 2 == 0:
                opens[">23AF585%d0003%s%02X" % (place // 2 + 1, UUID_FRONT, place // 2 + 1)] += 1
                number = number * 48271 * 48271 % 2147483647
        self.assertEqual((len(opens), Counter(log[8:-24])), (8, opens))
        self.assertEqual(log[-24:], [">23AF585%s000B01" % socket for socket in SOCKETS] * 3)
        self.assertEqual([row["what"] for row in table("\n".join(log).encode("ascii"))], ["missing"] * 8 + ["end"])


if __name__ == "__main__":
    unittest.main()
