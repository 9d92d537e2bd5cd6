"""A link's frames in their time: what the station sends, and what it hears of the module, each frame up to three times."""
from typing import NamedTuple

from model.frames import ACK, ACKNOWLEDGEMENT, CLOSE, CONTROL, OPEN, cut, frame_octets

ROUNDS = 3
# Milliseconds: from one frame to the next of the same sender, and that a frame takes the adapter.
SOONEST, LATEST, SENDING = 20, 50, 10


class Passage(NamedTuple):
    """A frame that the station sent or heard, at a time in milliseconds, on the link of a socket; socket 0 is none of the tray's."""
    time: int
    sent: bool
    socket: int
    octets: bytes


def control(link_id, opcode, octets=b""):
    return frame_octets(link_id, 0, CONTROL, opcode, octets)


class Air:
    """All passages of a tray. The station has one adapter, which sends one frame after the other."""

    def __init__(self):
        self.passages = []

    def heard(self, time, socket, octets):
        self.passages.append(Passage(time, False, socket, octets))

    def sent(self, time, socket, octets):
        """At the first time that the adapter is free; gives that time."""
        while any(passage.sent and abs(passage.time - time) < SENDING for passage in self.passages):
            time += 1
        self.passages.append(Passage(time, True, socket, octets))
        return time

    def in_time(self):
        """All passages by their time; at the same time, a socket after the other."""
        return sorted(self.passages, key=lambda passage: (passage.time, passage.socket))


class Link:
    """One link. What comes next on it begins at `time`."""

    def __init__(self, air, chance, socket, link_id, time):
        self.air = air
        self.chance = chance
        self.socket = socket
        self.link_id = link_id
        self.time = time

    def wait(self, milliseconds):
        self.time += milliseconds

    def pause(self):
        """What a sender waits before each frame."""
        self.wait(self.chance.between(SOONEST, LATEST))

    def send(self, *frames):
        for frame in frames:
            self.time = self.air.sent(self.time, self.socket, frame)
            self.pause()

    def hear(self, frame):
        """A frame of the module that is not acknowledged, one to three times; the station goes on at the first."""
        for place in range(self.chance.between(1, ROUNDS)):
            self.air.heard(self.time + place * SENDING, self.socket, frame)
        self.pause()

    def open(self, uuid):
        """One to three Opens until the module's Ack comes."""
        for _ in range(self.chance.between(1, ROUNDS)):
            self.send(control(self.link_id, OPEN, uuid))
        self.hear(control(self.link_id, ACK))

    def open_in_vain(self, uuid, milliseconds):
        """Three Opens in that time."""
        for _ in range(ROUNDS):
            self.send(control(self.link_id, OPEN, uuid))
            self.wait(milliseconds // ROUNDS)

    def close(self, reason):
        """A Close is not acknowledged, so it is sent three times."""
        self.wait(150)
        self.send(*[control(self.link_id, CLOSE, reason)] * ROUNDS)

    def hear_close(self, reason):
        self.wait(150)
        self.hear(control(self.link_id, CLOSE, reason))

    def ask(self, number, message):
        """A message of the station, in one to three rounds until the module acknowledges it."""
        for _ in range(self.chance.between(1, ROUNDS)):
            self.send(*cut(self.link_id, number, message))
        self.hear(frame_octets(self.link_id, number, ACKNOWLEDGEMENT, 0, b""))

    def answer(self, number, message, damaged=None):
        """A message of the module, which sends it in rounds until it hears the station's acknowledgement, and perhaps once more. The
        station acknowledges it when it is whole, and again for each later round. A damaged frame comes instead of the first."""
        frames = cut(self.link_id, number, message)
        missing, more = set(frames), self.chance.below(2)
        for place in range(ROUNDS):
            heard = self.round(frames, place, damaged)
            missing -= set(heard)
            if heard and not missing:
                self.send(frame_octets(self.link_id, number, ACKNOWLEDGEMENT, 0, b""))
                more -= 1
            if more < 0:
                return

    def round(self, frames, place, damaged):
        """What is heard of one round: the Start of the first always, since a Continuation before it would be refused, and all of the last."""
        heard = []
        for index, frame in enumerate(frames):
            if (place, index) == (0, 0) or place == ROUNDS - 1 or self.chance.happens(70):
                heard.append(damaged if damaged and place == 0 else frame)
                self.air.heard(self.time, self.socket, heard[-1])
            self.pause()
        return heard
