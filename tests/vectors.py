#!/usr/bin/env python3
"""The stored files that the independent model makes: the programs' input and output from fixed seeds, and the example tray.

usage: tests/vectors.py --check [NAME..]      whether the stored files are what the model makes, and every case is met
       tests/vectors.py --write [NAME..]      writes them
       tests/vectors.py --coverage [NAME..]   how often the stored script and log meet each answer, row, refusal and case

NAME is replay, segment_lines, import_capabilities, rehearse_tray or example; without any, all of them. The trays and logs under
tests/rehearsals are made with those of rehearse_tray.
"""
import pathlib
import sys
from collections import Counter
from typing import NamedTuple

from model import coverage, log_coverage
from model.generator import capture, example_tray, line_input, rehearsals, scripts, tray_log
from model.import_program import answer_log
from model.line_program import answer_lines
from model.rehearsal import rehearse

TOP = pathlib.Path(__file__).resolve().parent.parent


class Vectors(NamedTuple):
    """Files by their path, what an input among them meets, and what it has to meet."""
    files: dict
    met: Counter = Counter()
    required: tuple = ()


def of_program(crate, stdin, stdout):
    return {"crates/%s/stdin" % crate: stdin, "crates/%s/stdout" % crate: stdout}


def replay():
    script = scripts.stored_script()
    return Vectors(of_program("replay", script.text(), script.answer_text()), script.met, scripts.required())


def segment_lines():
    text = line_input.stored_input()
    return Vectors(of_program("segment_lines", text, answer_lines(text)))


def import_capabilities():
    text = tray_log.stored_log()
    return Vectors(of_program("import_capabilities", text, answer_log(text)), log_coverage.met(text), log_coverage.required())


def rehearse_tray():
    """The program's own tray and log, and those that are tests only."""
    tray = rehearsals.stored_tray()
    files = of_program("rehearse_tray", tray, rehearse(tray))
    for name, text in rehearsals.stored_rehearsals().items():
        files.update({"tests/rehearsals/%s.txt" % name: text, "tests/rehearsals/%s.log" % name: rehearse(text)})
    return Vectors(files)


def example():
    """The example tray as a capture, a log and a table; and the packets by which the way from a capture to a log is tested."""
    tray = example_tray.example_tray()
    packets, log = capture.capture_and_log(tray)
    return Vectors({"example/tray.btsnoop": packets, "example/sockets.txt": example_tray.sockets_text(tray.sockets), "example/tray.log": log,
                    "example/tray.csv": answer_log(log), "tests/samples/packets.btsnoop": capture.packet_forms()})


MAKERS = {"replay": replay, "segment_lines": segment_lines, "import_capabilities": import_capabilities, "rehearse_tray": rehearse_tray,
          "example": example}


def stored(path):
    """The stored file; one that is missing is as one that differs."""
    return (TOP / path).read_bytes() if (TOP / path).exists() else None


def check(name):
    """The complaints, one a line."""
    made = MAKERS[name]()
    complaints = ["%s is not what tests/vectors.py makes" % path for path, octets in made.files.items() if stored(path) != octets]
    return complaints + ["%s: never met: %s" % (name, case) for case in coverage.never_met(made.met, made.required)]


def write(name):
    for path, octets in MAKERS[name]().files.items():
        (TOP / path).parent.mkdir(exist_ok=True)
        (TOP / path).write_bytes(octets)


def main(arguments):
    names = arguments[1:] or list(MAKERS)
    if not arguments or any(name not in MAKERS for name in names):
        sys.exit(__doc__)
    if arguments[0] == "--check":
        complaints = [complaint for name in names for complaint in check(name)]
        sys.exit("\n".join(complaints) if complaints else 0)
    if arguments[0] == "--write":
        for name in names:
            write(name)
    elif arguments[0] == "--coverage":
        for made in [MAKERS[name]() for name in names]:
            sys.stdout.write(coverage.table(made.met, made.required))
    else:
        sys.exit(__doc__)


if __name__ == "__main__":
    main(sys.argv[1:])
