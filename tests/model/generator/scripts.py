"""Whole scripts: the stored one, and a mixed one of any length."""
import pathlib

from model import coverage
from model.generator import (beacon_section, device_section, filter_section, line_section, provisioning_section,
                             proxy_section, station_section, writer_section)
from model.generator.chance import Chance
from model.generator.script import Script
from model.samples import sample_operations

WORKED = pathlib.Path(__file__).resolve().parent.parent.parent / "scripts" / "worked.txt"

# Section, seed and number of operations of the stored script; and how often a mixed one has the section.
STORED = ((station_section.StationSection, 101, 20000, 6), (writer_section.WriterSection, 102, 4000, 1),
          (provisioning_section.ProvisioningSection, 103, 6000, 1), (proxy_section.ProxySection, 104, 8000, 1),
          (filter_section.FilterSection, 105, 6000, 1), (beacon_section.BeaconSection, 106, 8000, 1),
          (device_section.DeviceSection, 109, 11000, 4), (line_section.LineSection, 107, 5000, 1))
MODULES = (station_section, writer_section, provisioning_section, proxy_section, filter_section, beacon_section,
           device_section, line_section)


def worked_operations():
    """The worked script of the language's description: operation, two spaces, answer."""
    return [tuple(line.split("  ")) for line in WORKED.read_text(encoding="ascii").splitlines()]


def required():
    """Every case that the stored script must have met."""
    labels = [label for module in MODULES for label in module.LABELS]
    return coverage.base() + sorted(coverage.orders()) + labels


def stored_script():
    """The worked script, the published samples and figures, then each section from its seed."""
    script = Script(None)
    for line, _ in worked_operations() + sample_operations():
        script.say(line)
    for section, seed, count, _ in STORED:
        script.chance = Chance(seed)
        script.say("ZZ")
        run(script, section(script), count)
    return script


def run(script, section, count):
    end = len(script.lines) + count
    while len(script.lines) < end:
        section.step()


def mixed_script(seed, count):
    """Short runs of the sections in any order on one and the same state."""
    script = Script(Chance(seed))
    sections = [(weight, section(script)) for section, _, _, weight in STORED]
    while len(script.lines) < count:
        section = script.chance.weighted(sections)
        run(script, section, min(count - len(script.lines), script.chance.between(20, 200)))
        # What the malformed lines' section sets is mostly bad.
        if isinstance(section, line_section.LineSection) or script.chance.happens(5):
            script.say("ZZ")
    del script.lines[count:], script.answers[count:]
    return script
