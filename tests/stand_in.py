"""Programs for tests of the scripts that run programs: each answers as the model does, but for a change of its text."""
import pathlib
import sys

TESTS = pathlib.Path(__file__).resolve().parent
PROGRAM = """#!%s
import sys
sys.path.insert(0, %r)
from model.%s import %s as answer
text = answer(sys.stdin.buffer.read())
sys.stdout.buffer.write(%s)
"""


def write_program(path, module, function, change):
    """The change is an expression of `text`, which is what the model's function answers."""
    path.write_text(PROGRAM % (sys.executable, str(TESTS), module, function, change), encoding="ascii")
    path.chmod(0o755)
