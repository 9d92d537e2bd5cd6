"""Which cases of the import program a log has met: what its lines came to, and what they were like."""
import re
from collections import Counter

from model.frames import read_frame
from model.import_program import FORMS, Import, form_of, log_lines
from model.refusal import Refusal
from model.script_line import split_lines
from model.links import FREE, OPENING, PROVISIONER, find_link
from model.stock_table import FIELDS

DIGITS = re.compile(b"[0-9A-Fa-f]*")
# The import program holds 64 characters of a line, and a longer one must do what it would do as a whole.
HELD = 64
LONG_KINDS = ("even digits", "odd digits", "> and even digits", "> and odd digits", "comment", "other")

# What a line of each form can come to. Never met are 41 of the reader, for a message that was delivered has an octet; 13 of Send and 4
# of Close, for those are called only where they don't refuse so; and 11 and 14 of every call.
OUTCOMES = {
    "opening": ("done", "refused 9", "refused 10"),
    "heard": ("kept", "repeat", "acknowledge again", "opened", "already", "closed", "acknowledged", "record", "repeated", "conflict",
              "message Invite", "message Start", "message Public Key", "message Input Complete", "message Confirmation",
              "message Random", "message Data", "message Complete", "message Failed", "refused 1", "refused 2", "refused 3", "refused 4",
              "refused 5", "refused 6", "refused 7", "refused 8", "refused 12", "refused 42", "refused 43", "refused 44", "refused 45",
              "acknowledgement again", "Close of no link"),
    "sent": ("Start", "Start again", "Close", "Open of no effect", "Ack of no effect", "Close of no effect", "Continuation of no effect",
             "Acknowledgement of no effect", "refused 1", "refused 2", "refused 3", "refused 4"),
    "comment": ("passed over",), "empty line": ("passed over",), "other": ("refused 11",), "row": ("missing", "unopened", "end"),
}
# Cases within these: the kind of frame, whether the link was opening, how a number stood to the link's next sending number, and what
# had come on the socket before.
DETAILS = {
    "opening done": ("for the first time", "again"), "opening refused 9": ("opened before",),
    "opening refused 10": ("opened before", "never opened"),
    "heard closed": ("link opening", "link open"), "sent Close": ("link opening", "link open"),
    "heard refused 3": ("Start", "Continuation", "Acknowledgement", "Open", "Ack"), "sent refused 3": ("Start",),
    "heard refused 4": ("Start", "Continuation", "Acknowledgement", "Open"), "sent refused 4": ("Start", "the next, link opening"),
    "heard refused 5": ("Start", "Continuation", "Acknowledgement", "Open"),
    "heard acknowledged": ("the next, outstanding", "the next 0x7F, outstanding"),
    "heard acknowledgement again": ("one less, outstanding", "one less, not outstanding"),
    "heard refused 12": ("the next, not outstanding", "one more, outstanding", "one more, not outstanding", "0x7F at 0x00, outstanding",
                         "0x7F at 0x00, not outstanding", "another, outstanding", "another, not outstanding"),
    "sent Start": ("the next, not outstanding", "the next 0x7F, not outstanding"),
    "sent Start again": ("the next, outstanding", "one less, outstanding", "one less, not outstanding", "one more, outstanding",
                         "one more, not outstanding", "0x7F at 0x00, not outstanding", "one more, link opening", "another, link opening"),
    "row missing": ("link free", "link in use", "after unopened"), "row unopened": ("after missing",),
    "heard record": ("the first", "as before the opening", "not as before the opening"),
    "heard repeated": ("after the record", "after a conflict"),
    "heard conflict": ("a new one", "the same once more") + tuple(name + " alone" for name in FIELDS),
}


def required():
    """Every case that the stored log must have met."""
    cases = [form + " " + outcome for form, outcomes in OUTCOMES.items() for outcome in outcomes]
    cases += [case + ": " + detail for case, details in DETAILS.items() for detail in details]
    cases += ["carriage return dropped: " + form for form in [name for name, _ in FORMS] + ["other"]]
    cases += ["carriage return kept: " + place for place in ("inside", "at the end", "at the end of input")]
    cases += ["over 64 characters: " + kind for kind in LONG_KINDS]
    return cases + ["over 64 characters and a carriage return: " + kind for kind in LONG_KINDS]


def long_kind(line):
    front = "> and " if line.startswith(b">") else ""
    body = line[1:] if front else line
    if DIGITS.fullmatch(body):
        return front + ("odd" if len(body) % 2 else "even") + " digits"
    return "comment" if line.startswith(b"#") else "other"


def shape_cases(line, dropped):
    """The cases of a line by its length and its carriage returns; one before the newline may have been dropped."""
    cases = ["carriage return dropped: " + form_of(line)[0]] if dropped else []
    if b"\r" in line:
        cases.append("carriage return kept: " + ("at the end" if line.endswith(b"\r") else "inside"))
    if len(line) > HELD:
        cases.append("over 64 characters" + (" and a carriage return" if dropped else "") + ": " + long_kind(line))
    return cases


def number_detail(number, record):
    """How a number stands to the link's next sending number."""
    near = {0: "the next", -1: "one less", 1: "one more"}.get(number - record.next_number, "another")
    if number == PROVISIONER.last:
        near = {0: "0x7F at 0x00", PROVISIONER.last: "the next 0x7F"}.get(record.next_number, near)
    if record.use == OPENING:
        return near + ", link opening"
    return near + (", outstanding" if record.outstanding else ", not outstanding")


def frame_details(form, octets, records):
    """The kind of a frame and how it fits the records as they stood."""
    try:
        frame = read_frame(octets)
    except Refusal:
        return []
    index = find_link(records, frame.link_id)
    if index is None:
        return [frame.kind]
    details = [frame.kind, "link opening" if records[index].use == OPENING else "link open"]
    if (form, frame.kind) in (("heard", "Acknowledgement"), ("sent", "Start")):
        details.append(number_detail(frame.number, records[index]))
    return details


class LogCases:
    """A log taken line by line, and what it met."""

    def __init__(self):
        self.program = Import()
        self.met = Counter()
        # For each socket the records of its openings, and the conflicts of the last.
        self.records = {}
        self.conflicts = {}

    def take(self, line_number, line, dropped):
        records, opened = list(self.program.records), set(self.program.opened)
        form, parts = form_of(line)
        case, row = self.program.take(line_number, line)
        self.met.update([case] + shape_cases(line, dropped))
        details = []
        if form == "opening":
            details = self.opening_details(case, int(parts[0]), opened)
        elif form in ("heard", "sent"):
            details = frame_details(form, bytes.fromhex(parts[0]), records) + self.stock_details(row)
        self.met.update(case + ": " + detail for detail in details)

    def opening_details(self, case, socket, opened):
        if case != "opening done":
            return ["opened before" if socket in opened else "never opened"]
        self.conflicts[socket] = []
        return ["again" if socket in opened else "for the first time"]

    def stock_details(self, row):
        """What Capabilities are like beside those that came before."""
        if row is None or "elements" not in row:
            return []
        fields = [row[name] for name in FIELDS]
        before, conflicts = self.records.setdefault(row["socket"], []), self.conflicts[row["socket"]]
        if row["what"] == "record":
            details = [("as" if fields == before[-1] else "not as") + " before the opening"] if before else ["the first"]
            before.append(fields)
            return details
        if row["what"] == "repeated":
            return ["after a conflict" if conflicts else "after the record"]
        details = ["the same once more" if fields in conflicts else "a new one"]
        conflicts.append(fields)
        other = [name for name, value, first in zip(FIELDS, fields, before[-1]) if value != first]
        return details + ([other[0] + " alone"] if len(other) == 1 else [])

    def end(self, line_count):
        before = None
        for row in self.program.end(line_count):
            case = "row " + row["what"]
            self.met.update([case, "%s: after %s" % (case, before)])
            if row["what"] == "missing":
                self.met[case + ": link " + ("free" if self.program.records[row["socket"] - 1].use == FREE else "in use")] += 1
            before = row["what"]


def met(text):
    """How often a log meets each case."""
    cases = LogCases()
    lines = log_lines(text)
    for line_number, (line, whole) in enumerate(zip(lines, split_lines(text)), 1):
        cases.take(line_number, line, line != whole)
    cases.met["carriage return kept: at the end of input"] += text.endswith(b"\r")
    cases.end(len(lines))
    return cases.met
