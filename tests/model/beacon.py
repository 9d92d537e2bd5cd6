"""Beacons, key refresh and IV update (document 01, "Beacons and states")."""
from typing import NamedTuple

from model.refusal import BAD_STATE, refuse_if

UNPROVISIONED, SECURE_NETWORK = range(2)
LENGTHS = ((19, 23), (22,))
LAST_PHASE = 2
WINDOW = 42
NOTHING, REVOKE_OLD = range(2)
RESET_SEQUENCE, RECOVERY_WANTED = 1, 2


class KeyState(NamedTuple):
    """The key refresh phase, the IV index, and whether an IV update is in progress."""
    phase: int = 0
    index: int = 0
    in_progress: bool = False

    def is_bad(self):
        return self.phase > LAST_PHASE


class Device(NamedTuple):
    """A beacon of type 0."""
    uuid: bytes
    oob: int
    uri_hash: bytes


def read_beacon(state, authentic, new_key, secondary, octets):
    """The state afterwards and either a Device or the two reports of a type 1 beacon."""
    refuse_if(state.is_bad(), BAD_STATE)
    refuse_if(len(octets) == 0, 51)
    refuse_if(octets[0] > SECURE_NETWORK, 52)
    refuse_if(len(octets) not in LENGTHS[octets[0]], 53)
    if octets[0] == UNPROVISIONED:
        return state, Device(octets[1:17], int.from_bytes(octets[17:19], "big"), octets[19:])
    refuse_if(not authentic, 54)
    key_refresh, iv_update = octets[1] & 1, octets[1] >> 1 & 1
    refuse_if(state.phase == 0 and new_key or state.phase == 2 and not new_key, 55)
    received = int.from_bytes(octets[10:14], "big")
    refuse_if(received < state.index or received > state.index + WINDOW, 57)
    refuse_if(secondary and received > state.index, 57)
    phase, key_report = key_rule(state.phase, new_key, key_refresh)
    index, in_progress, iv_report = iv_rule(state.index, state.in_progress, received, iv_update)
    return KeyState(phase, index, in_progress), (key_report, iv_report)


def key_rule(phase, new_key, key_refresh):
    """Phase 3 is passed in one step: phase 0 and "revoke old"."""
    if phase == 0 or not new_key:
        return phase, NOTHING
    return (2, NOTHING) if key_refresh else (0, REVOKE_OLD)


def iv_rule(index, in_progress, received, iv_update):
    """The index and whether an update is in progress afterwards, and the report; the window has been judged."""
    if not in_progress and received == index + 1 and iv_update:
        return received, True, NOTHING
    if in_progress and received == index and not iv_update:
        return index, False, RESET_SEQUENCE
    if received >= index + (1 if in_progress else 2):
        return index, in_progress, RECOVERY_WANTED
    return index, in_progress, NOTHING


def local_start(state):
    refuse_if(state.is_bad(), BAD_STATE)
    refuse_if(state.phase != 0, 56)
    return state._replace(phase=1), NOTHING


def local_set(state, target):
    refuse_if(state.is_bad(), BAD_STATE)
    refuse_if(state.phase == 0 or target not in (2, 3), 56)
    if target == 3:
        return state._replace(phase=0), REVOKE_OLD
    return state._replace(phase=2), NOTHING
