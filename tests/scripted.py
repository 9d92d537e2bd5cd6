"""Tests written as scripts: each line an operation, two spaces and the answer that document 01 demands."""
import unittest

from model.replay import Program


class ScriptedTest(unittest.TestCase):
    def play(self, script, program=None):
        """Runs the lines of a script; the program afterwards."""
        program = program or Program()
        for line in script.split("\n"):
            if line.strip():
                operation, _, answer = line.strip().partition("  ")
                self.assertEqual(program.answer(operation.encode("ascii")), answer.strip(), operation)
        return program
