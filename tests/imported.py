"""Tests of the import program: small logs on one link, and the rows that they write, as docs/IMPORT.md has them; any log's rows by column."""
from model.frames import cut
from model.import_program import answer_log
from model.script_line import hexadecimal

# Link 00000005 on socket 1, opened by its module.
OPENED = ("1 00000005", "000000050007")
INVITE, INVITE_ACKNOWLEDGED = ">0000000500000002140000", "000000050001"
CLOSE = "00000005000B00"
UUID = "00112233445566778899AABBCCDDEEFF"
CAPABILITIES = "010100010000000000000000"
OTHER_CAPABILITIES = "010200010000000000000000"
RECORD = ",1,0x00000005,0x%02X,,Capabilities,1,0x0001,0,0,0,0x0000,0,0x0000"
OTHER_RECORD = ",1,0x00000005,0x%02X,,Capabilities,2,0x0001,0,0,0,0x0000,0,0x0000"


def written(text):
    """The rows but for the header, without the commas of empty columns at their end."""
    return [row.rstrip(",") for row in answer_log(text).decode("ascii").split("\n")[1:-1]]


def rows(*lines):
    """The rows of these lines, those after the last line left out."""
    return [row for row in written("\n".join(lines).encode("latin-1")) if row.split(",")[0] not in ("missing", "unopened", "end")]


def missing_rows(*lines):
    """The rows of sockets that were opened and have no record since."""
    return [row for row in written("\n".join(lines).encode("latin-1")) if row.startswith("missing")]


def heard(number, message):
    """The only frame of a short message on the link."""
    return hexadecimal(cut(5, number, bytes.fromhex(message))[0])


def table(log):
    """Each row of a log's table, as its columns by name."""
    names, *lines = [line.split(",") for line in answer_log(log).decode("ascii").split("\n")[:-1]]
    return [dict(zip(names, line)) for line in lines]
