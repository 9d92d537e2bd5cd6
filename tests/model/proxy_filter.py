"""The proxy filter (document 01, "Filter")."""
from typing import NamedTuple

from model.refusal import BAD_STATE, refuse_if

PLACES = 16
ACCEPT, REJECT = range(2)
SET_TYPE, ADD, REMOVE = range(3)
LONGEST_LIST = 2 * PLACES
UNASSIGNED = 0x0000
LAST_UNICAST = 0x7FFF


class Filter(NamedTuple):
    """The type, the count, and all sixteen places, those past the count too."""
    filter_type: int = ACCEPT
    count: int = 0
    places: tuple = (UNASSIGNED,) * PLACES

    def addresses(self):
        return list(self.places[:self.count])

    def is_bad(self):
        if self.count > PLACES:
            return True
        addresses = self.addresses()
        has_repeat = len(set(addresses)) != len(addresses)
        return has_repeat or UNASSIGNED in addresses or any(self.places[self.count:])

    def status(self):
        """The answer: 03, type, count in two octets."""
        return bytes([3, self.filter_type]) + self.count.to_bytes(2, "big")


def filter_of(filter_type, addresses):
    return Filter(filter_type, len(addresses), tuple(addresses) + (UNASSIGNED,) * (PLACES - len(addresses)))


def add(addresses, address):
    """0x0000, an address already there, or no room: skipped."""
    if address == UNASSIGNED or address in addresses or len(addresses) == PLACES:
        return addresses
    return addresses + [address]


def remove(addresses, address):
    """Every address after the place moves down by one; an absent one is skipped."""
    return [other for other in addresses if other != address]


def take_message(proxy_filter, octets):
    """A filter message: the new filter."""
    refuse_if(proxy_filter.is_bad(), BAD_STATE)
    refuse_if(len(octets) == 0, 31)
    opcode, parameters = octets[0], octets[1:]
    refuse_if(opcode > REMOVE, 32)
    if opcode == SET_TYPE:
        refuse_if(len(parameters) != 1, 33)
        refuse_if(parameters[0] > REJECT, 34)
        return filter_of(parameters[0], [])
    refuse_if(len(parameters) % 2 != 0 or len(parameters) > LONGEST_LIST, 33)
    change = add if opcode == ADD else remove
    addresses = proxy_filter.addresses()
    for place in range(0, len(parameters), 2):
        addresses = change(addresses, int.from_bytes(parameters[place:place + 2], "big"))
    return filter_of(proxy_filter.filter_type, addresses)


def learn_source(proxy_filter, address):
    """A source address is added to an accept list, removed from a reject list."""
    refuse_if(proxy_filter.is_bad(), BAD_STATE)
    refuse_if(not 1 <= address <= LAST_UNICAST, 35)
    change = add if proxy_filter.filter_type == ACCEPT else remove
    return filter_of(proxy_filter.filter_type, change(proxy_filter.addresses(), address))


def passes(proxy_filter, address):
    refuse_if(proxy_filter.is_bad(), BAD_STATE)
    is_there = address in proxy_filter.addresses()
    return address != UNASSIGNED and is_there == (proxy_filter.filter_type == ACCEPT)
