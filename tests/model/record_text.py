"""The states as the replay script writes them."""
from model.proxy import Transfer
from model.proxy_filter import PLACES, Filter
from model.script_line import digits_of, malformed_if
from model.links import OPENED, Half, Record

RECORD = "use:2 Link-ID:8 next:2 outstanding:flag delivered:flag last:2 half:flag number:2 L:4 check:2 marks:16"
FILTER = "type:flag count:2 " + " ".join("address:4" for _ in range(PLACES))


def record_of(use, link_id, next_number, outstanding, is_delivered, last, has_half, number, length, check, marks):
    """Where a flag "there is one" is 00, the fields it governs are dropped."""
    malformed_if(use > OPENED)
    last_delivered = last if is_delivered else None
    half = Half(number, length, check, marks) if has_half else None
    return Record(use, link_id, next_number, bool(outstanding), last_delivered, half)


def record_text(record):
    half = record.half or Half(0, 0, 0, 0)
    has_last = record.last_delivered is not None
    fields = ((record.use, 2), (record.link_id, 8), (record.next_number, 2), (record.outstanding, 2), (has_last, 2),
              (record.last_delivered or 0, 2), (record.half is not None, 2), (half.number, 2), (half.length, 4),
              (half.check, 2), (half.marks, 16))
    return "".join(digits_of(value, count) for value, count in fields)


def transfer_of(connected, held, message_type, length):
    if not held:
        return Transfer(bool(connected))
    return Transfer(bool(connected), True, message_type, length)


def transfer_text(transfer):
    fields = ((transfer.connected, 2), (transfer.held, 2), (transfer.message_type, 2), (transfer.length, 4))
    return "".join(digits_of(value, count) for value, count in fields)


def filter_of_arguments(filter_type, count, *places):
    return Filter(filter_type, count, places)


def filter_text(proxy_filter):
    places = "".join(digits_of(address, 4) for address in proxy_filter.places)
    return digits_of(proxy_filter.filter_type, 2) + digits_of(proxy_filter.count, 2) + places


def key_state_text(state):
    return digits_of(state.phase, 2) + digits_of(state.index, 8) + digits_of(state.in_progress, 2)
