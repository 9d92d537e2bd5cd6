"""The example tray has what its page tells of, and a tray where all is well gives records and no refusal."""
import pathlib
import re
import unittest
from itertools import groupby

from imported import table
from model.frames import read_frame
from model.generator.air import SENDING
from model.generator.capture import capture_and_log, packets_of
from model.generator.example_tray import EMPTY, PUBLISHED, SILENT, example_tray, healthy_tray
from model.samples import SAMPLES
from model.script_line import hexadecimal
from model.stock_table import FIELDS


def rows_of(tray):
    return table(capture_and_log(tray)[1])


def sockets(rows, what):
    return [row["socket"] for row in rows if row["what"] == what]


class Example(unittest.TestCase):
    def setUp(self):
        self.tray = example_tray()
        self.rows = rows_of(self.tray)

    def test_every_kind_of_row(self):
        self.assertEqual(sorted(sockets(self.rows, "record")), ["1", "2", "3", "3", "4", "5", "8"])
        self.assertEqual((sockets(self.rows, "repeated"), sockets(self.rows, "conflict")), (["4"], ["2"]))
        self.assertEqual((sockets(self.rows, "unopened"), sockets(self.rows, "missing")), ([str(EMPTY)], [str(SILENT)]))
        self.assertEqual(sockets(self.rows, "message"), ["1"] * 4)
        self.assertEqual([(row["socket"], row["refusal"]) for row in self.rows if row["what"] == "refused"], [("5", "8"), ("", "3")])
        self.assertEqual(self.rows[-1]["what"], "end")

    def test_conflict(self):
        """The second answer of socket 2 has static OOB data, and else the same fields."""
        record, conflict = [row for row in self.rows if row["socket"] == "2"]
        self.assertEqual({name: conflict[name] for name in FIELDS if record[name] != conflict[name]}, {"static_oob_type": "1"})

    def test_published_exchange(self):
        """Each frame of it, in both directions and in its order, but for repeats; the segments of a message may change places."""
        link = [passage for passage in self.tray.air.in_time() if passage.octets[:4] == PUBLISHED.to_bytes(4, "big")]
        first = list(dict.fromkeys((passage.sent, hexadecimal(passage.octets)) for passage in link))
        published = [(step["from"] == "provisioner", sorted(step["frames"])) for step in SAMPLES["steps"]]
        for sent, frames in published:
            taken, first = first[:len(frames)], first[len(frames):]
            self.assertEqual(sorted(taken), [(sent, frame) for frame in frames])
        self.assertEqual(first, [])

    def test_repeats_and_mixture(self):
        """Frames pass once, twice and three times, sent and heard; links change from packet to packet; an event may have several frames."""
        passages = self.tray.air.in_time()
        for sent in (True, False):
            frames = sorted(passage.octets for passage in passages if passage.sent == sent)
            self.assertEqual({len(list(same)) for _, same in groupby(frames)}, {1, 2, 3})
        self.assertGreater(len(list(groupby(passage.socket for passage in passages))), len(passages) // 2)
        self.assertGreater(max(map(len, packets_of(passages))), 1)

    def test_opened_again(self):
        """The module of socket 3 closes its link, and is opened again under another Link ID."""
        frames = [(passage.sent, read_frame(passage.octets)) for passage in self.tray.air.in_time() if passage.socket == 3]
        kinds = [kind for kind, _ in groupby((sent, frame.kind) for sent, frame in frames) if kind[1] in ("Open", "Close")]
        self.assertEqual(kinds, [(True, "Open"), (False, "Close"), (True, "Open"), (True, "Close")])
        self.assertEqual(len({frame.link_id for _, frame in frames}), 2)

    def test_reasons(self):
        """Of the Closes by socket: success after the whole exchange, the time that is over on the silent link, else a failure."""
        frames = [(passage.socket, read_frame(passage.octets)) for passage in self.tray.air.in_time()]
        reasons = sorted({(socket, frame.reason) for socket, frame in frames if frame.kind == "Close"})
        self.assertEqual(reasons, [(1, 0), (2, 2), (3, 2), (4, 2), (5, 2), (SILENT, 1), (8, 2)])

    def test_one_adapter(self):
        """It is not given a frame before the one before it can have gone out."""
        sent = [passage.time for passage in self.tray.air.in_time() if passage.sent]
        self.assertTrue(all(second - first >= SENDING for first, second in zip(sent, sent[1:])))

    def test_silent(self):
        """Opens for a minute, and then the Closes."""
        link = [passage for passage in self.tray.air.in_time() if passage.socket == SILENT]
        self.assertEqual([read_frame(passage.octets).kind for passage in link], ["Open"] * 3 + ["Close"] * 3)
        self.assertGreaterEqual(link[3].time - link[0].time, 60000)

    def test_page(self):
        """The page's rows of each socket are the table's, in their order."""
        page = (pathlib.Path(__file__).resolve().parent.parent / "docs" / "LOGS.md").read_text(encoding="utf-8")
        told = {}
        for socket, cell in re.findall(r"^\| ([1-8]) \| [^|]* \| ([^|]*) \|$", page, re.MULTILINE):
            told[socket] = re.findall(r"`(\w+)`", cell.replace("four times `message`", "`message` " * 4))
        rows = {socket: [row["what"] for row in self.rows if row["socket"] == socket] for socket in told}
        self.assertEqual((sorted(told), told), (list("12345678"), rows))

    def test_damaged(self):
        """What is refused with 8 differs from what is then recorded in the number of elements alone."""
        heard = [passage.octets for passage in self.tray.air.in_time() if passage.socket == 5 and len(passage.octets) == 21]
        damaged, whole = heard[:2]
        self.assertEqual([place for place in range(21) if damaged[place] != whole[place]], [10])


class Healthy(unittest.TestCase):
    def test_records_and_no_refusal(self):
        rows = rows_of(healthy_tray())
        self.assertEqual(sorted(sockets(rows, "record")), list("12345678"))
        self.assertEqual({row["what"] for row in rows}, {"record", "message", "end"})


if __name__ == "__main__":
    unittest.main()
