"""The import program: a tray's log in, a table of stock records out. Its lines and rows are those of docs/IMPORT.md."""
import re

from model import provisioning, station
from model.frames import LONGEST_MESSAGE, read_frame
from model.links import find_link
from model.refusal import WRONG_ARGUMENT, Refusal, refuse_if
from model.stock_table import FIELDS, HEADER, row_text

DIGITS = b"((?:[0-9A-Fa-f]{2})+)"
PASSED_OVER = (("comment", re.compile(b"#.*", re.DOTALL)), ("empty line", re.compile(b"")))
# A line that has none of these forms is "other".
FORMS = (("opening", re.compile(b"([1-8]) ([0-9A-Fa-f]{8})")), ("heard", re.compile(DIGITS)), ("sent", re.compile(b">" + DIGITS))) + PASSED_OVER
NUMBERED = ("Start", "Continuation", "Acknowledgement")


def log_lines(text):
    """The lines. One carriage return straight before a newline is no part of the line; one at the end of input is."""
    *ended, last = text.split(b"\n")
    lines = [line[:-1] if line.endswith(b"\r") else line for line in ended]
    return lines + [last] if last else lines


def form_of(line, forms=FORMS):
    """The name of a line's form, and its parts."""
    for name, form in forms:
        found = form.fullmatch(line)
        if found:
            return name, [part.decode("ascii") for part in found.groups()]
    return "other", []


def refused(refusal, columns):
    return "refused %d" % refusal.number, {"what": "refused", "refusal": refusal.number, **columns}


class Import:
    """The station's records and area, the sockets ever opened, and of each the fields of its record since it was opened."""

    def __init__(self):
        self.records = station.blank_records()
        self.area = bytearray(station.AREA_LENGTH)
        self.opened = set()
        self.stock = {}

    def take(self, line_number, line):
        """What a line comes to: the case by name, and its row, or None where it writes nothing."""
        steps = {"opening": self.open, "heard": self.hear, "sent": self.send, "comment": self.pass_over,
                 "empty line": self.pass_over, "other": self.refuse}
        form, parts = form_of(line)
        case, row = steps[form](*parts)
        if row is not None:
            row["line"] = line_number
        return form + " " + case, row

    def pass_over(self):
        return "passed over", None

    def refuse(self):
        return refused(Refusal(WRONG_ARGUMENT), {})

    def open(self, digit, link_id_digits):
        socket, link_id = int(digit), int(link_id_digits, 16)
        try:
            station.local_open(self.records, socket, link_id)
        except Refusal as refusal:
            return refused(refusal, {"socket": socket, "link_id": link_id})
        self.opened.add(socket)
        self.stock.pop(socket, None)
        return "done", None

    def columns_of(self, octets):
        """What a row says of a frame, by the records as they stand; nothing of octets that parse as no frame."""
        try:
            frame = read_frame(octets)
        except Refusal:
            return {}
        columns = {"link_id": frame.link_id}
        index = find_link(self.records, frame.link_id)
        if index is not None:
            columns["socket"] = index + 1
        if frame.kind in NUMBERED:
            columns["number"] = frame.number
        return columns

    def hear(self, digits):
        octets = bytes.fromhex(digits)
        columns = self.columns_of(octets)
        try:
            answer = station.receive(self.records, self.area, station.AREA_LENGTH, octets)
            return self.answered(answer, columns)
        except Refusal as refusal:
            repeat = self.repeat_heard(octets, refusal.number)
            return (repeat, None) if repeat else refused(refusal, columns)

    def repeat_heard(self, octets, number):
        """The two refusals that every radio brings and that write nothing, by name; None for every other."""
        if number not in (3, 12):
            return None
        frame = read_frame(octets)
        if number == 3:
            return "Close of no link" if frame.kind == "Close" else None
        # As whole numbers: 0x7F is not one less than 0x00.
        record = self.records[find_link(self.records, frame.link_id)]
        return "acknowledgement again" if frame.number + 1 == record.next_number else None

    def answered(self, answer, columns):
        """What the receiving call answered; a delivered message is read, and the reader may refuse it."""
        if answer[0] != "delivered":
            return answer[0], None
        base = (columns["socket"] - 1) * LONGEST_MESSAGE
        message_type, fields = provisioning.read_message(bytes(self.area[base:base + answer[1]]))
        name = provisioning.NAMES[message_type]
        row = {**columns, "message": name}
        if message_type != provisioning.CAPABILITIES:
            return "message " + name, {"what": "message", **row}
        values = [value for _, _, value in fields]
        what = self.enter(columns["socket"], values)
        return what, {"what": what, **row, **dict(zip(FIELDS, values))}

    def enter(self, socket, values):
        """The first since the socket was opened is the record; a further one is compared with that."""
        if socket not in self.stock:
            self.stock[socket] = values
            return "record"
        return "repeated" if self.stock[socket] == values else "conflict"

    def send(self, digits):
        octets = bytes.fromhex(digits)
        columns = self.columns_of(octets)
        try:
            return self.sent(read_frame(octets)), None
        except Refusal as refusal:
            return refused(refusal, columns)

    def sent(self, frame):
        """A frame that the station sent, by name: it does what keeps the link's record as the station had it."""
        index = find_link(self.records, frame.link_id)
        if frame.kind == "Start":
            refuse_if(index is None, 3)
            return self.sent_start(frame, index)
        if frame.kind == "Close" and index is not None:
            station.local_close(self.records, index + 1)
            return "Close"
        return frame.kind + " of no effect"

    def sent_start(self, frame, index):
        record = self.records[index]
        if record.outstanding or frame.number != record.next_number:
            return "Start again"
        station.local_send(self.records, index + 1, frame.length)
        return "Start"

    def end(self, line_count):
        """The rows after the last line."""
        rows = []
        for socket in range(1, station.SOCKETS + 1):
            if socket not in self.opened:
                rows.append({"what": "unopened", "socket": socket})
            elif socket not in self.stock:
                rows.append({"what": "missing", "socket": socket})
        return rows + [{"what": "end", "line": line_count}]


def log_answers(text):
    """Each line written, with the number of the line read that it is for: 0 for the header, one past the last for the end."""
    program = Import()
    lines = log_lines(text)
    written = [(0, HEADER)]
    for line_number, line in enumerate(lines, 1):
        _, row = program.take(line_number, line)
        if row is not None:
            written.append((line_number, row_text(row)))
    return written + [(len(lines) + 1, row_text(row)) for row in program.end(len(lines))]


def answer_log(text):
    """All that is written for all that is read."""
    return "".join(line + "\n" for _, line in log_answers(text)).encode("ascii")
