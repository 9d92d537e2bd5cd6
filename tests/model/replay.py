"""The replay program: a script of operations in, one answer line for each out.

It keeps the states and the storages between lines; one operation makes one call. The numbers and words are those of
documents 01 and 02."""
from model import beacon, device_end, frames, provisioning, proxy, proxy_filter, station
from model.record_text import (FILTER, RECORD, filter_of_arguments, filter_text, key_state_text, record_of, record_text,
                               transfer_of, transfer_text)
from model.refusal import Refusal
from model.script_line import LONGEST_LINE, Form, Malformed, digits_of, hexadecimal, malformed_if, split_lines
from model.storage import SIZES, hash_of

LONGEST_SHOWN = 0x0FA0
LONGEST_VIEW = 0x0600
LONGEST_OWN_UUID = 0x0020
RECEIVED = {"kept": "K", "repeat": "R", "acknowledge again": "G", "opened": "U", "already": "Y", "acknowledged": "A"}


class Program:
    """What the program holds."""

    def __init__(self):
        self.start()

    def start(self):
        self.records = station.blank_records()
        self.storages = {name: bytearray(size) for name, size in SIZES.items()}
        self.transfer = proxy.Transfer()
        self.filter = proxy_filter.Filter()
        self.key_state = beacon.KeyState()
        self.view = provisioning.View()
        self.session = device_end.blank_session()
        self.own_uuid = bytes(frames.UUID_LENGTH)
        return "OK"

    def answer(self, line):
        """The answer to one line, given as octets without its newline."""
        try:
            malformed_if(len(line) > LONGEST_LINE)
            text = line.decode("latin-1")
            malformed_if(text[:2] not in OPERATIONS)
            form, operation = OPERATIONS[text[:2]]
            return operation(self, *form.read(text[2:]))
        except Malformed:
            return "?"
        except Refusal as refusal:
            return "!%02d" % refusal.number

    # Operations that set and show.

    def show_all(self):
        shown = self.show_records(), self.show_transfer(), self.show_filter(), self.show_key_state(), self.show_view()
        texts = [text.encode("ascii") for text in shown]
        parts = texts + [self.storages[name] for name in "ABO"]
        return "H" + digits_of(hash_of(*parts, self.show_session().encode("ascii"), self.storages["E"]), 8)

    def fill(self, name, octet):
        self.storages[name][:] = bytes([octet]) * SIZES[name]
        return "OK"

    def write(self, name, place, octets):
        malformed_if(place + len(octets) > SIZES[name])
        self.storages[name][place:place + len(octets)] = octets
        return "OK"

    def show(self, name, place, count):
        malformed_if(count > LONGEST_SHOWN or place + count > SIZES[name])
        return "H" + hexadecimal(self.storages[name][place:place + count])

    def show_hash(self, name):
        return "H" + digits_of(hash_of(self.storages[name]), 8)

    def set_record(self, socket, *fields):
        malformed_if(not station.is_socket(socket))
        self.records[socket - 1] = record_of(*fields)
        return "OK"

    def show_record(self, socket):
        malformed_if(not station.is_socket(socket))
        return "L" + record_text(self.records[socket - 1])

    def show_records(self):
        return "L" + "".join(record_text(record) for record in self.records)

    def set_session(self, *fields):
        self.session = [record_of(*fields)]
        return "OK"

    def show_session(self):
        return "D" + record_text(self.session[device_end.SESSION])

    def set_own_uuid(self, octets):
        malformed_if(len(octets) > LONGEST_OWN_UUID)
        self.own_uuid = octets
        return "OK"

    def set_transfer(self, *fields):
        self.transfer = transfer_of(*fields)
        return "OK"

    def show_transfer(self):
        return "X" + transfer_text(self.transfer)

    def set_filter(self, *fields):
        self.filter = filter_of_arguments(*fields)
        return "OK"

    def show_filter(self):
        return "F" + filter_text(self.filter)

    def set_key_state(self, phase, index, in_progress):
        self.key_state = beacon.KeyState(phase, index, bool(in_progress))
        return "OK"

    def show_key_state(self):
        return "K" + key_state_text(self.key_state)

    def set_view(self, place, octets):
        malformed_if(len(octets) > LONGEST_VIEW)
        self.view = provisioning.View(octets, place)
        return "OK"

    def show_view(self):
        return "V" + digits_of(self.view.place, 4)

    # Calls.

    def lent(self, name, length):
        """A length lent above the storage's size is malformed."""
        malformed_if(length > SIZES[name])
        return length

    def receive(self, length, octets):
        return received_text(station.receive(self.records, self.storages["A"], self.lent("A", length), octets))

    def local_open(self, socket, link_id):
        station.local_open(self.records, socket, link_id)
        return "OK"

    def local_send(self, socket, length):
        return sent_text(*station.local_send(self.records, socket, length))

    def local_close(self, socket):
        station.local_close(self.records, socket)
        return "OK"

    def device_receive(self, length, octets):
        area = self.storages["E"]
        return received_text(device_end.receive(self.session, self.own_uuid, area, self.lent("E", length), octets))

    def device_send(self, length):
        return sent_text(*device_end.local_send(self.session, length))

    def device_close(self):
        device_end.local_close(self.session)
        return "OK"

    def writer(self, write, length, *arguments):
        """Writers write from the output's start and no octet after what is written."""
        written = write(self.lent("O", length), *arguments)
        self.storages["O"][:len(written)] = written
        return "W" + digits_of(len(written), 4) + hexadecimal(written)

    def check_octet(self, message):
        return "N" + digits_of(frames.check_of_message(message), 2)

    def last_segment(self, length):
        return "N" + digits_of(frames.last_segment_of_length(length), 2)

    def read_message(self, octets):
        message_type, fields = provisioning.read_message(octets)
        texts = [digits_of(place, 4) + digits_of(length, 4) if value is None else digits_of(value, 2 * length)
                 for place, length, value in fields]
        return "M" + digits_of(message_type, 2) + "".join(texts)

    def view_number(self, count):
        return "N" + hexadecimal(self.view.read(count))

    def view_field(self, count):
        malformed_if(count == 0)
        place = self.view.place
        self.view.read(count)
        return "P" + digits_of(place, 4) + digits_of(count, 4)

    def connect(self):
        proxy.connect(self.transfer)
        return "OK"

    def disconnect(self):
        proxy.disconnect(self.transfer)
        return "OK"

    def read_piece(self, length, piece):
        whole = proxy.read_piece(self.transfer, self.storages["B"], self.lent("B", length), piece)
        return "M" if whole is None else "T" + digits_of(whole[0], 2) + digits_of(whole[1], 4)

    def number_of_pieces(self, size, length):
        return "N" + digits_of(proxy.number_of_pieces(size, length), 2)

    def new_filter(self):
        self.filter = proxy_filter.Filter()
        return "OK"

    def change_filter(self, change, argument):
        self.filter = change(self.filter, argument)
        return "F" + hexadecimal(self.filter.status())

    def passes(self, address):
        return "P" + digits_of(proxy_filter.passes(self.filter, address), 2)

    def read_beacon(self, authentic, new_key, secondary, octets):
        self.key_state, answer = beacon.read_beacon(self.key_state, authentic, new_key, secondary, octets)
        if not isinstance(answer, beacon.Device):
            return "B" + digits_of(answer[0], 2) + digits_of(answer[1], 2)
        uri_hash = digits_of(answer.uri_hash != b"", 2) + hexadecimal(answer.uri_hash or bytes(4))
        return "U" + hexadecimal(answer.uuid) + digits_of(answer.oob, 4) + uri_hash

    def local_start(self):
        self.key_state, report = beacon.local_start(self.key_state)
        return "K" + digits_of(report, 2)

    def local_set(self, target):
        self.key_state, report = beacon.local_set(self.key_state, target)
        return "K" + digits_of(report, 2)


def received_text(answer):
    if answer[0] == "delivered":
        return "D" + digits_of(answer[1], 4) + digits_of(answer[2], 2)
    if answer[0] == "closed":
        return "C" + digits_of(answer[1], 2)
    return RECEIVED[answer[0]]


def sent_text(number, last_segment):
    return "S" + digits_of(number, 2) + digits_of(last_segment, 2)


def writer_of(write):
    return lambda program, *arguments: program.writer(write, *arguments)


def change_of(change):
    return lambda program, argument: program.change_filter(change, argument)


def storage_operations(name):
    return {
        name + "F": ("octet:2", lambda program, octet: program.fill(name, octet)),
        name + "W": ("place:4 octets", lambda program, place, octets: program.write(name, place, octets)),
        name + "D": ("place:4 count:4", lambda program, place, count: program.show(name, place, count)),
        name + "H": ("", lambda program: program.show_hash(name)),
    }


SET_AND_SHOW = {
    "ZZ": ("", Program.start),
    "ZH": ("", Program.show_all),
    "LS": ("socket:2 " + RECORD, Program.set_record),
    "LD": ("socket:2", Program.show_record),
    "LA": ("", Program.show_records),
    "XS": ("connected:flag held:flag type:2 length:4", Program.set_transfer),
    "XD": ("", Program.show_transfer),
    "FS": (FILTER, Program.set_filter),
    "FD": ("", Program.show_filter),
    "KS": ("phase:2 index:8 in-progress:flag", Program.set_key_state),
    "KD": ("", Program.show_key_state),
    "VS": ("place:4 octets", Program.set_view),
    "VD": ("", Program.show_view),
    "DS": (RECORD, Program.set_session),
    "DD": ("", Program.show_session),
    "DU": ("octets", Program.set_own_uuid),
    **storage_operations("A"), **storage_operations("B"), **storage_operations("O"), **storage_operations("E"),
}

CALLS = {
    "RF": ("lent:4 octets", Program.receive),
    "OP": ("socket:2 Link-ID:8", Program.local_open),
    "SN": ("socket:2 length:4", Program.local_send),
    "CL": ("socket:2", Program.local_close),
    "DR": ("lent:4 octets", Program.device_receive),
    "DN": ("length:4", Program.device_send),
    "DC": ("", Program.device_close),
    "WS": ("lent:4 Link-ID:8 number:2 index:2 octets", writer_of(frames.write_segment)),
    "WK": ("lent:4 Link-ID:8 number:2", writer_of(frames.write_acknowledgement)),
    "WO": ("lent:4 Link-ID:8 octets", writer_of(frames.write_open)),
    "WA": ("lent:4 Link-ID:8", writer_of(frames.write_ack)),
    "WC": ("lent:4 Link-ID:8 reason:2", writer_of(frames.write_close)),
    "CK": ("octets", Program.check_octet),
    "SG": ("length:4", Program.last_segment),
    "PR": ("octets", Program.read_message),
    "VB": ("", lambda program: program.view_number(1)),
    "VW": ("", lambda program: program.view_number(2)),
    "VF": ("count:4", Program.view_field),
    "XC": ("", Program.connect),
    "XX": ("", Program.disconnect),
    "XR": ("lent:4 octets", Program.read_piece),
    "XN": ("size:4 length:4", Program.number_of_pieces),
    "XW": ("lent:4 size:4 type:2 index:2 octets", writer_of(proxy.write_piece)),
    "FN": ("", Program.new_filter),
    "FM": ("octets", change_of(proxy_filter.take_message)),
    "FL": ("address:4", change_of(proxy_filter.learn_source)),
    "FP": ("address:4", Program.passes),
    "BR": ("authentic:flag key:flag secondary:flag octets", Program.read_beacon),
    "KI": ("", Program.local_start),
    "KT": ("target:2", Program.local_set),
}

OPERATIONS = {name: (Form(form), operation) for name, (form, operation) in {**SET_AND_SHOW, **CALLS}.items()}


def answer_script(text):
    """All that is written for all that is read."""
    program = Program()
    return b"".join(program.answer(line).encode("ascii") + b"\n" for line in split_lines(text))
