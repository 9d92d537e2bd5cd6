"""The station: eight sockets with at most one link each (document 01, "What the station is" and "Receiving a frame")."""
from model import links
from model.frames import LONGEST_MESSAGE, is_message_length, read_frame
from model.links import FREE, OPENING, PROVISIONER, find_link, state_is_bad
from model.refusal import BAD_STATE, WRONG_ARGUMENT, refuse_if

SOCKETS = 8
AREA_LENGTH = SOCKETS * LONGEST_MESSAGE


def blank_records():
    return [PROVISIONER.blank()] * SOCKETS


def is_socket(socket):
    return 1 <= socket <= SOCKETS


def receive(records, area, area_length, octets):
    """Receive a frame; records and area are changed in place. The answer is document 01's word and its values."""
    refuse_if(area_length != AREA_LENGTH, WRONG_ARGUMENT)
    refuse_if(state_is_bad(PROVISIONER, records), BAD_STATE)
    return links.receive(PROVISIONER, records, area, read_frame(octets))


def local_open(records, socket, link_id):
    refuse_if(not is_socket(socket), WRONG_ARGUMENT)
    refuse_if(state_is_bad(PROVISIONER, records), BAD_STATE)
    refuse_if(records[socket - 1].use != FREE, 9)
    refuse_if(find_link(records, link_id) is not None, 10)
    records[socket - 1] = PROVISIONER.blank(OPENING, link_id)


def local_send(records, socket, length):
    """Sets the outstanding mark; gives the number and SegN."""
    refuse_if(not is_socket(socket) or not is_message_length(length), WRONG_ARGUMENT)
    refuse_if(state_is_bad(PROVISIONER, records), BAD_STATE)
    return links.send(records, socket - 1, length)


def local_close(records, socket):
    refuse_if(not is_socket(socket), WRONG_ARGUMENT)
    refuse_if(state_is_bad(PROVISIONER, records), BAD_STATE)
    links.close(PROVISIONER, records, socket - 1)
