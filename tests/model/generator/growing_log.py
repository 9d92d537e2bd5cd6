"""A log of a tray in the making: each line is taken by the import program at once, so that the next can fit its state."""
from model.frames import SHORTEST_FRAME
from model.generator.bad_records import LINK_IDS
from model.generator.line_input import mixed_case
from model.import_program import Import, form_of, log_lines
from model.links import OPENED, OPENING, PROVISIONER, find_link

FRAMES_KEPT = 12


class GrowingLog:
    """Only the sockets given are ever opened."""

    def __init__(self, chance, sockets):
        self.chance = chance
        self.sockets = sockets
        self.program = Import()
        # The lines without their newlines, and what stands before a newline in this stretch of the log.
        self.lines = []
        self.ending = b""
        # The last frames that were heard or sent.
        self.frames = []

    def take(self, line):
        """A line as it stands before its newline, with a carriage return if there is one. One that would open a socket which is
        to stay unopened becomes a comment."""
        if self.opens_another(log_lines(line + b"\n")):
            line = b"#" + line
        self.lines.append(line)
        return self.program.take(len(self.lines), *log_lines(line + b"\n"))

    def opens_another(self, lines):
        form, parts = form_of(*lines)
        if form != "opening" or int(parts[0]) in self.sockets:
            return False
        return find_link(self.program.records, int(parts[1], 16)) is None

    def say(self, line):
        """A line with the ending of this stretch, now and then another."""
        ending = self.chance.pick((b"", b"\r", b"\r\r")) if self.chance.happens(3) else self.ending
        return self.take(line + ending)

    def heard(self, frame):
        self.keep(frame)
        return self.say(mixed_case(self.chance, frame))

    def sent(self, frame):
        self.keep(frame)
        return self.say(b">" + mixed_case(self.chance, frame))

    def heard_or_sent(self, frame):
        return self.heard(frame) if self.chance.happens(55) else self.sent(frame)

    def keep(self, frame):
        if len(frame) >= SHORTEST_FRAME:
            self.frames = (self.frames + [frame])[-FRAMES_KEPT:]

    # The links as they stand.

    def links(self, *uses):
        return [record for record in self.program.records if record.use in uses]

    def link_id(self, *uses):
        """Mostly of a record in use, of one with such a use if there is one."""
        used = self.links(*uses) or self.links(OPENING, OPENED)
        if used and self.chance.happens(90):
            return self.chance.pick(used).link_id
        return self.chance.pick(LINK_IDS)

    def record(self, link_id):
        """The record in use with this Link ID; a blank one if there is none."""
        index = find_link(self.program.records, link_id)
        return PROVISIONER.blank() if index is None else self.program.records[index]

    def device_number(self, link_id):
        """Mostly the one after the last delivered."""
        last = self.record(link_id).last_delivered
        following = 0x80 if last in (None, 0xFF) else last + 1
        return self.chance.weighted(((70, following), (15, 0x80), (13, self.chance.between(0x80, 0xFF)), (2, self.chance.octet())))
