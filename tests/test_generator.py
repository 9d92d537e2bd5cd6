"""The generator: the same seed gives the same script, and the comparison finds a difference."""
import pathlib
import subprocess
import sys
import tempfile
import unittest
from collections import Counter

from model import coverage, log_coverage
from model.generator.chance import Chance
from model.generator.line_input import random_input
from model.generator.rehearsals import random_tray
from model.generator.scripts import mixed_script
from model.generator.tray_log import random_log, stored_log
from model.import_program import answer_log
from model.replay import CALLS, answer_script
from stand_in import TESTS, write_program


class Seeds(unittest.TestCase):
    def test_the_same_seed_gives_the_same_script(self):
        first, second, other = mixed_script(1, 3000), mixed_script(1, 3000), mixed_script(2, 3000)
        self.assertEqual(first.text(), second.text())
        self.assertNotEqual(first.text(), other.text())
        self.assertEqual(len(first.lines), 3000)
        self.assertEqual(answer_script(first.text()), first.answer_text())

    def test_other_inputs(self):
        self.assertEqual(random_input(Chance(1), 50), random_input(Chance(1), 50))
        self.assertEqual(random_log(Chance(1), 200), random_log(Chance(1), 200))
        self.assertEqual(random_tray(Chance(1)), random_tray(Chance(1)))

    def test_a_refusal_is_followed_by_the_hash_of_everything(self):
        script = mixed_script(3, 3000)
        followed = [script.lines[index + 1] for index, answer in enumerate(script.answers[:-1]) if answer.startswith("!")]
        self.assertEqual(set(followed), {b"ZH"})


    def test_every_call_is_in_a_mixed_script(self):
        """Receiving, at the station and at the device's end, is most of them."""
        named = Counter(line[:2].decode("latin-1") for line in mixed_script(5, 8000).lines)
        self.assertEqual(set(CALLS) - set(named), set())
        self.assertEqual(set(sorted(CALLS, key=lambda name: -named[name])[:2]), {"RF", "DR"})


class Logs(unittest.TestCase):
    def test_stored_log(self):
        """Always the same; large; the last line without a newline, and its carriage return kept."""
        log = stored_log()
        self.assertEqual(log, stored_log())
        self.assertGreater(len(log), 200000)
        self.assertTrue(log.endswith(b"\r"))
        rows = [row.split(",") for row in answer_log(log).decode("ascii").split("\n")[:-1]]
        self.assertEqual([row[2] for row in rows if row[0] == "unopened"], ["6"])
        self.assertEqual({len(row) for row in rows}, {15})

    def test_random_logs_meet_everything(self):
        met = Counter()
        for seed in range(6):
            met.update(log_coverage.met(random_log(Chance(seed), 1500)))
        self.assertEqual(coverage.never_met(met, log_coverage.required()), [])

    def test_a_case_that_is_missed(self):
        missed = coverage.never_met(log_coverage.met(b"1 00000005\n>00000005000B00\n"), log_coverage.required())
        self.assertIn("heard record", missed)
        self.assertNotIn("opening done", missed)
        self.assertNotIn("sent Close: link opening", missed)
        self.assertNotIn("row missing: link free", missed)


class Comparison(unittest.TestCase):
    def compare(self, *changes):
        """The comparison's exit code and text, with programs that answer as the model does but for a change of their text."""
        programs = (("replay", "replay", "answer_script"), ("segment_lines", "line_program", "answer_lines"),
                    ("import_capabilities", "import_program", "answer_log"), ("rehearse_tray", "rehearsal", "rehearse"))
        with tempfile.TemporaryDirectory() as folder:
            options = []
            for (name, module, function), change in zip(programs, changes):
                path = pathlib.Path(folder) / name
                write_program(path, module, function, change)
                options += ["--" + name, str(path)]
            finished = subprocess.run([sys.executable, str(TESTS / "compare"), "1", "600"] + options, stdout=subprocess.PIPE, check=False)
        return finished.returncode, finished.stdout.decode("ascii")

    def test_equal(self):
        self.assertEqual(self.compare("text", "text", "text", "text")[0], 0)

    def test_differences(self):
        for place, change in enumerate(("text.replace(b'!07', b'R')", "text[:-1]", "text + b'end\\n'", "text.replace(b'>', b'', 1)")):
            code, shown = self.compare(*["text"] * place, change, *["text"] * (3 - place))
            self.assertEqual(code, 1)
            self.assertEqual(shown.count("differs"), 1)


if __name__ == "__main__":
    unittest.main()
