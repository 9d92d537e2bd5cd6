"""A tray as a capture: a btsnoop file with the packets of Linux's Bluetooth monitor, as btmon writes it; and the log that is due for it."""
import struct
from datetime import datetime, timedelta

from model.frames import cut, read_frame
from model.generator.example_tray import uuid_of
from model.refusal import Refusal
from model.script_line import hexadecimal

BEGIN = datetime(2026, 11, 17, 9, 30)
# btsnoop counts microseconds from the year 0; this is the first of the year 2000.
YEAR_2000, MICROSECOND = 0x00E03AB44A676000, timedelta(microseconds=1)
HEADER = b"btsnoop\x00" + struct.pack(">II", 1, 2001)
# What the monitor has: an adapter that is there, a command to the adapter, an event of it, an adapter that is used, its maker, a note.
NEW_INDEX, COMMAND, EVENT, OPEN_INDEX, INDEX_INFO, NOTE = 0, 2, 3, 8, 10, 12
NO_ADAPTER = 0xFFFF
ADAPTER_ADDRESS = bytes.fromhex("B4A9C3CB5AA4")
SET_ADVERTISING_DATA, SET_ADVERTISING_ENABLE, SET_EXTENDED_DATA = 0x2008, 0x200A, 0x2037
COMMAND_COMPLETE, LE_META, ADVERTISING_REPORT, EXTENDED_REPORT = 0x0E, 0x3E, 0x02, 0x0D
NOT_CONNECTABLE, EXTENDED_NOT_CONNECTABLE, RANDOM_ADDRESS = 0x03, 0x0010, 0x01
# What follows an extended command's handle and a report's address: all data at once; one radio, no further ones, no strength, no second address.
ALL_AT_ONCE, ONE_RADIO = b"\x03\x01", bytes.fromhex("0100FF7F7F000000000000000000")
FLAGS, PB_ADV, MESH_BEACON, MANUFACTURER = 0x01, 0x29, 0x2B, 0xFF
ADVERTISING_LENGTH = 31
STRENGTH = 256 - 47


def structure(kind, octets):
    """An AD structure: its length, its type, the octets."""
    return bytes([1 + len(octets), kind]) + octets


def address(socket):
    """That of a socket's module, with its type."""
    return bytes([RANDOM_ADDRESS, 0x10 + socket, 0x5A, 0x3C, 0x77, 0x21, 0xC8])


def report(socket, data):
    """One report of what was heard of a socket's module."""
    return bytes([NOT_CONNECTABLE]) + address(socket) + bytes([len(data)]) + data + bytes([STRENGTH])


def extended_report(socket, data):
    return struct.pack("<H", EXTENDED_NOT_CONNECTABLE) + address(socket) + ONE_RADIO + bytes([len(data)]) + data


class Capture:
    """Packets one after the other, each at its time in microseconds; no two at the same."""

    def __init__(self):
        self.octets = HEADER
        self.clock = 0
        self.put(0, NOTE, b"Linux version 6.1.0 (x86_64)\x00", NO_ADAPTER)
        self.put(0, NEW_INDEX, b"\x00\x01" + ADAPTER_ADDRESS + b"hci0".ljust(8, b"\x00"))
        self.put(0, OPEN_INDEX, b"")
        self.put(0, INDEX_INFO, ADAPTER_ADDRESS + b"\x02\x00")

    def put(self, milliseconds, opcode, data, adapter=0):
        self.clock = max(self.clock + 25, 1000 * milliseconds)
        time = YEAR_2000 + (BEGIN - datetime(2000, 1, 1)) // MICROSECOND + self.clock
        self.octets += struct.pack(">IIIIQ", len(data), len(data), adapter << 16 | opcode, 0, time) + data

    def command(self, milliseconds, code, parameters):
        """A command, and the event that says it is done."""
        self.put(milliseconds, COMMAND, struct.pack("<HB", code, len(parameters)) + parameters)
        time = self.time()
        self.event(milliseconds, COMMAND_COMPLETE, struct.pack("<BHB", 1, code, 0))
        return time

    def event(self, milliseconds, code, parameters):
        self.put(milliseconds, EVENT, bytes([code, len(parameters)]) + parameters)

    def time(self):
        """Of the last packet, as a log has it."""
        return (BEGIN + self.clock * MICROSECOND).isoformat(" ", "microseconds")

    def sent(self, milliseconds, frame):
        data = structure(PB_ADV, frame)
        time = self.command(milliseconds, SET_ADVERTISING_DATA, bytes([len(data)]) + data.ljust(ADVERTISING_LENGTH, b"\x00"))
        self.command(milliseconds, SET_ADVERTISING_ENABLE, b"\x01")
        return time

    def sent_extended(self, milliseconds, frame):
        data = structure(PB_ADV, frame)
        self.command(milliseconds, SET_EXTENDED_DATA, b"\x01" + ALL_AT_ONCE + bytes([len(data)]) + data)

    def heard(self, milliseconds, *reports, kind=ADVERTISING_REPORT):
        self.event(milliseconds, LE_META, bytes([kind, len(reports)]) + b"".join(reports))
        return self.time()

    def heard_extended(self, milliseconds, *frames):
        self.heard(milliseconds, *[extended_report(1, structure(PB_ADV, frame)) for frame in frames], kind=EXTENDED_REPORT)


def packets_of(passages):
    """The passages by packets: frames heard in the same millisecond come in one event."""
    packets = []
    for passage in passages:
        before = packets[-1][-1] if packets else None
        if before and not before.sent and not passage.sent and before.time == passage.time:
            packets[-1].append(passage)
        else:
            packets.append([passage])
    return packets


def opening_lines(passage, opened):
    """The line that opens a socket, where an Open is the first sent on its link; a link that was closed is forgotten."""
    try:
        frame = read_frame(passage.octets)
    except Refusal:
        return []
    if frame.kind == "Close":
        opened.discard(frame.link_id)
    if frame.kind != "Open" or not passage.sent or frame.link_id in opened:
        return []
    opened.add(frame.link_id)
    return ["%d %08X" % (passage.socket, frame.link_id)]


def capture_and_log(tray):
    """The file, and the log that is due for it: before the frames of a packet its time."""
    capture, lines, opened = Capture(), [], set()
    for socket in tray.sockets:
        beacon = structure(FLAGS, b"\x06") + structure(MESH_BEACON, b"\x00" + uuid_of(socket) + b"\x00\x00")
        capture.heard(10 * socket, report(0, structure(MANUFACTURER, b"\x59\x00\x29\x00")), report(socket, beacon))
    for packet in packets_of(tray.air.in_time()):
        milliseconds = packet[0].time
        if packet[0].sent:
            time = capture.sent(milliseconds, packet[0].octets)
        else:
            time = capture.heard(milliseconds, *[report(passage.socket, structure(PB_ADV, passage.octets)) for passage in packet])
        lines.append("# " + time)
        for passage in packet:
            lines += opening_lines(passage, opened) + [(">" if passage.sent else "") + hexadecimal(passage.octets)]
    return capture.octets, "".join(line + "\n" for line in lines).encode("ascii")


def packet_forms():
    """A short file with every form of a packet that has frames, frames of wrong lengths, and repeated segments, two in one event."""
    capture = Capture()
    opening, start, first, last = bytes.fromhex("00000005000300112233445566778899AABBCCDDEEFF"), *cut(5, 0x80, bytes(range(1, 45)))
    capture.sent(1, opening)
    capture.sent_extended(2, opening)
    capture.heard_extended(3, bytes.fromhex("000000050007"))
    capture.sent(4, bytes.fromhex("0000000500000002140000"))
    capture.heard(5, *[report(1, structure(PB_ADV, frame)) for frame in (start, first)])
    capture.heard(6, *[report(1, structure(PB_ADV, frame)) for frame in (start, first, last)])
    capture.heard_extended(7, start, last)
    capture.heard(8, report(1, structure(FLAGS, b"\x06") + structure(PB_ADV, last) + structure(MANUFACTURER, b"\x59\x00")))
    capture.heard(9, *[report(1, structure(PB_ADV, bytes.fromhex(digits))) for digits in ("23", "0000000500", "00000005001F", "")])
    capture.heard_extended(10, bytes.fromhex("000000058000") + bytes(40), b"")
    capture.sent(11, b"")
    capture.heard(12, report(1, structure(PB_ADV, bytes.fromhex("00000005000B02"))))
    capture.sent(13, opening)
    return capture.octets
