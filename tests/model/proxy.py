"""Proxy transfer (document 01, "Proxy transfer")."""
from dataclasses import dataclass

from model.frames import LONGEST_MESSAGE, is_message_length
from model.refusal import BAD_STATE, WRONG_ARGUMENT, Refusal, refuse_if

BUFFER_LENGTH = LONGEST_MESSAGE
WHOLE, FIRST, MIDDLE, LAST = range(4)
LAST_TYPE = 3
SMALLEST_SIZE = 20
LARGEST_SIZE = 514


@dataclass
class Transfer:
    """What is held of a half transfer: its type and how many octets of it stand in the buffer."""
    connected: bool = False
    held: bool = False
    message_type: int = 0
    length: int = 0

    def is_bad(self):
        if not self.held:
            return False
        return not (self.connected and self.message_type <= LAST_TYPE and 1 <= self.length <= LONGEST_MESSAGE)

    def hold(self, message_type, length):
        self.held, self.message_type, self.length = True, message_type, length

    def empty(self, connected):
        self.connected, self.held, self.message_type, self.length = connected, False, 0, 0


def connect(transfer):
    """Reconnecting starts empty."""
    refuse_if(transfer.is_bad(), BAD_STATE)
    transfer.empty(connected=True)


def disconnect(transfer):
    refuse_if(transfer.is_bad(), BAD_STATE)
    transfer.empty(connected=False)


def piece_refusal(transfer, position, message_type, count):
    """23 to 25, in that order, or None."""
    if transfer.held != (position in (MIDDLE, LAST)):
        return 23
    if transfer.held and message_type != transfer.message_type:
        return 24
    return 25 if transfer.length + count > LONGEST_MESSAGE else None


def read_piece(transfer, buffer, buffer_length, piece):
    """Read a piece; transfer and buffer are changed in place. None is "more", else type and length of a whole message."""
    refuse_if(buffer_length != BUFFER_LENGTH, WRONG_ARGUMENT)
    refuse_if(transfer.is_bad(), BAD_STATE)
    refuse_if(not transfer.connected, 26)
    refuse_if(len(piece) < 2, 21)
    position, message_type, data = piece[0] >> 6, piece[0] & 0x3F, piece[1:]
    refuse_if(message_type > LAST_TYPE, 22)
    refusal = piece_refusal(transfer, position, message_type, len(data))
    if refusal is not None:
        # 23 to 25 disconnect and drop the half-received message.
        transfer.empty(connected=False)
        raise Refusal(refusal)
    end = transfer.length + len(data)
    buffer[transfer.length:end] = data
    if position in (WHOLE, LAST):
        transfer.empty(connected=True)
        return message_type, end
    transfer.hold(message_type, end)
    return None


def pieces(size, message_type, message):
    """The list of pieces; the size counts the first octet."""
    if len(message) < size:
        return [bytes([WHOLE << 6 | message_type]) + message]
    full = size - 1
    parts = [message[place:place + full] for place in range(0, len(message), full)]
    positions = [FIRST] + [MIDDLE] * (len(parts) - 2) + [LAST]
    return [bytes([position << 6 | message_type]) + part for position, part in zip(positions, parts)]


def arguments_are_wrong(size, length):
    return not SMALLEST_SIZE <= size <= LARGEST_SIZE or not is_message_length(length)


def number_of_pieces(size, length):
    """The number of pieces reported is the length of that list."""
    refuse_if(arguments_are_wrong(size, length), WRONG_ARGUMENT)
    return len(pieces(size, 0, bytes(length)))


def write_piece(output_length, size, message_type, index, message):
    refuse_if(arguments_are_wrong(size, len(message)), WRONG_ARGUMENT)
    refuse_if(message_type > LAST_TYPE, WRONG_ARGUMENT)
    all_pieces = pieces(size, message_type, message)
    refuse_if(index >= len(all_pieces), WRONG_ARGUMENT)
    refuse_if(output_length < len(all_pieces[index]), WRONG_ARGUMENT)
    return all_pieces[index]
