"""The pages say what the repository has: files, the example's table, the refusals."""
import pathlib
import re
import unittest

from model import lossy_channel, rehearsal
from model.log_coverage import OUTCOMES
from model.rehearsed_ends import UUID_FRONT

TOP = pathlib.Path(__file__).resolve().parent.parent
FOLDERS = (".", "docs", "tests", "tests/samples", "bench")
PAGES = sorted(path.relative_to(TOP).as_posix() for folder in FOLDERS for path in (TOP / folder).glob("*.md"))
NAMED = re.compile(r"`((?:\.ci|bench|crates|docs|example|scripts|tests)/[\w./-]+)`?")


def text_of(page):
    return (TOP / page).read_text(encoding="utf-8")


def cells(page, heading, column):
    """A column of the tables under a heading, without the tables' own two rows."""
    part = re.split(r"^#+ ", text_of(page), flags=re.MULTILINE)
    rows = [line.split(" | ") for section in part if section.startswith(heading) for line in section.splitlines() if line.startswith("| ")]
    return [row[column].strip("| ") for row in rows[1:] if len(row) > column]


def numbers(text):
    return tuple(map(int, re.findall(r"\d+", text)))


def orders_of_replay():
    """The refusals of each operation of the replay program, in the order in which they are tried."""
    rows = re.findall(r"^\| `([A-Z]{2})`, [^|]* \| [^|]* \| ([\d ]+) \|", text_of("docs/REPLAY.md"), re.MULTILINE)
    return {name: numbers(cell) for name, cell in rows}


class Pages(unittest.TestCase):
    def test_files_that_are_named(self):
        """From the repository's top, or from the page's own folder."""
        for page in PAGES:
            for name in NAMED.findall(text_of(page)):
                places = [TOP / name.rstrip("."), (TOP / page).parent / name.rstrip(".")]
                self.assertTrue(any(place.exists() for place in places), "%s names %s" % (page, name))

    def test_example(self):
        self.assertIn("```text\n%s```" % text_of("example/tray.csv"), text_of("README.md"))
        self.assertIn("```text\n%s```" % text_of("example/sockets.txt"), text_of("docs/LOGS.md"))

    def test_kinds_of_rows(self):
        kinds = cells("docs/IMPORT.md", "Rows out", 0)
        self.assertEqual(kinds[0], "`record`")
        self.assertEqual(cells("docs/LOGS.md", "What each row asks of the operator", 0), kinds)

    def test_refusals(self):
        """Each operation of the replay program has its order, but for the two that the program itself refuses; each number its row."""
        called = orders_of_replay()
        told = {}
        for order, names in zip(cells("docs/REFUSALS.md", "The order by call", 1), cells("docs/REFUSALS.md", "The order by call", 2)):
            told.update({name: numbers(order) for name in re.findall(r"[A-Z]{2}", names)})
        self.assertEqual({**told, "CK": (11,), "SG": (11,)}, called)
        numbered = [int(number) for number in re.findall(r"^\| (\d+) \|", text_of("docs/REFUSALS.md"), re.MULTILINE)]
        self.assertEqual(len(numbered), len(set(numbered)))
        self.assertEqual(set(numbered), {number for order in called.values() for number in order})

    def test_refusals_of_the_table(self):
        """The page says which numbers the import program's table can have."""
        met = {int(number) for outcomes in OUTCOMES.values() for outcome in outcomes for number in re.findall(r"^refused (\d+)", outcome)}
        self.assertEqual(met, {*range(1, 13), *range(42, 46)})
        self.assertIn("and only 1 to 12 and 42 to 45 do", " ".join(text_of("docs/REFUSALS.md").split()))

    def test_drawing(self):
        """From above, the numbers stand in the order of receiving; from 12 on the device's end has the station's."""
        drawings = re.findall(r"^```text$(.*?)^```$", text_of("docs/REFUSALS.md"), re.MULTILINE | re.DOTALL)
        station, device = [tuple(map(int, re.findall(r"[├┬]─ +(\d+) ──", drawing))) for drawing in drawings]
        self.assertEqual(station, orders_of_replay()["RF"])
        self.assertEqual(device + station[station.index(12):], orders_of_replay()["DR"])

    def test_worked_lines(self):
        """What the page shows of the worked script stands in it, in this order."""
        section = text_of("docs/REPLAY.md").split("## A worked script")[1]
        shown = [line.strip() for line in section.splitlines() if line.startswith("    ")]
        worked = text_of("tests/scripts/worked.txt").splitlines()
        self.assertGreater(len(shown), 15)
        places = [worked.index(line) for line in shown]
        self.assertEqual(places, sorted(places))

    def test_numbers_of_the_rehearsal(self):
        """The page has the model's."""
        page = text_of("docs/REHEARSAL.md")
        for number in (rehearsal.TURNS, rehearsal.LONGEST_LINE, rehearsal.LARGEST_SEED, lossy_channel.MULTIPLIER, lossy_channel.MODULUS):
            self.assertIn(" %s" % format(number, ","), page)
        self.assertIn(UUID_FRONT.hex().upper(), page)

    def test_nothing_left_open(self):
        for page in PAGES:
            self.assertFalse("@@" in text_of(page), page)

    def test_names_of_refusals(self):
        """Each number stands with its name in the code."""
        named = set(re.findall(r"^\| (\d+) \| `(\w+)`", text_of("docs/REFUSALS.md"), re.MULTILINE))
        pairs = re.findall(r"Refusal::(\w+) => (\d+)", text_of("crates/refusal_numbers/src/lib.rt"))
        self.assertEqual(named, {(number, name) for name, number in pairs})


if __name__ == "__main__":
    unittest.main()
