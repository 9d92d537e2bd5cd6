"""The device's end: one session, opened by an Open frame of its own UUID (document 02, request [1]).

Its state is a list of one record, so that the rules of links are those of the station's."""
from model import links
from model.frames import LONGEST_MESSAGE, UUID_LENGTH, is_message_length, read_frame
from model.links import DEVICE, FREE, OPENED, state_is_bad
from model.refusal import BAD_STATE, WRONG_ARGUMENT, refuse_if

AREA_LENGTH = LONGEST_MESSAGE
SESSION = 0


def blank_session():
    return [DEVICE.blank()]


def receive(session, own_uuid, area, area_length, octets):
    """Receive a frame; session and area are changed in place. An Open skips 3 to 5."""
    refuse_if(area_length != AREA_LENGTH or len(own_uuid) != UUID_LENGTH, WRONG_ARGUMENT)
    refuse_if(state_is_bad(DEVICE, session), BAD_STATE)
    frame = read_frame(octets)
    if frame.kind == "Open":
        return receive_open(session, own_uuid, frame)
    return links.receive(DEVICE, session, area, frame)


def receive_open(session, own_uuid, frame):
    """The host writes the Ack after either answer."""
    record = session[SESSION]
    refuse_if(frame.octets != own_uuid, 15)
    refuse_if(record.use != FREE and record.link_id != frame.link_id, 16)
    if record.use != FREE:
        return ("already",)
    session[SESSION] = DEVICE.blank(OPENED, frame.link_id)
    return ("opened",)


def local_send(session, length):
    """Sets the outstanding mark; gives the number and SegN."""
    refuse_if(not is_message_length(length), WRONG_ARGUMENT)
    refuse_if(state_is_bad(DEVICE, session), BAD_STATE)
    return links.send(session, SESSION, length)


def local_close(session):
    refuse_if(state_is_bad(DEVICE, session), BAD_STATE)
    links.close(DEVICE, session, SESSION)
