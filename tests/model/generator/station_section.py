"""Scripts for the station: receive, open, send, close."""
from model.generator.bad_records import LINK_IDS, unused_link_id
from model.generator.link_section import LinkSection, labels_of
from model.generator.script import RIGHT_AREA, operation
from model.links import FREE, OPENED, OPENING, PROVISIONER
from model.station import AREA_LENGTH, SOCKETS

WRONG_AREAS = (0, 1, 1469, AREA_LENGTH - 1, AREA_LENGTH + 1, 0x2E00)
WRONG_SOCKETS = (0x00, 0x09, 0x0A, 0x80, 0xFF)

LABELS = labels_of(PROVISIONER, "RF", ("RF", "OP", "SN", "CL"))


class StationSection(LinkSection):
    side = PROVISIONER
    area = "A"
    open_weight, ack_weight = 10, 60
    receiving = "RF"
    right_area = RIGHT_AREA

    def records(self):
        return self.script.program.records

    def step(self):
        self.chance.weighted((
            (40, self.segment), (9, self.open_link), (12, self.control_sent), (8, self.send), (9, self.acknowledgement),
            (8, self.repeat), (9, self.unlike), (7, self.again), (9, self.damaged), (5, self.any_frame_sent),
            (2, self.local_close), (5, self.good_state), (5, self.last_segment), (7, self.order_of_area),
            (9, self.order_of_state), (12, self.order_of_frames), (4, self.order_of_local), (1, self.storage)))()

    # Local calls.

    def some_socket(self):
        return self.chance.pick(WRONG_SOCKETS) if self.chance.happens(6) else self.chance.between(1, SOCKETS)

    def open_line(self):
        free = self.with_use(FREE)
        socket = self.chance.pick(free) + 1 if free and self.chance.happens(80) else self.some_socket()
        link_id = unused_link_id(self.chance, self.records()) if self.chance.happens(80) else self.chance.pick(LINK_IDS)
        return operation("OP", (socket, 2), (link_id, 8))

    def open_link(self):
        self.script.call(self.open_line())

    def send_line(self):
        length = self.sent_length()
        return operation("SN", (self.some_socket(), 2), (length, 4))

    def send(self):
        self.script.call(self.send_line())

    def close_line(self):
        return operation("CL", (self.some_socket(), 2))

    def local_close(self):
        self.script.call(self.close_line())

    # States.

    def set_line(self, index, record):
        return self.script.set_record(index + 1, record)

    def storage(self):
        self.script.say(self.chance.weighted(((4, "ZZ"), (5, "AF" + "%02X" % self.chance.octet()), (2, "BF5A"), (2, "OFA5"))))

    # The order of refusals.

    def call_lines(self):
        return self.open_line, self.frame_line, self.send_line, self.frame_line, self.close_line

    def any_call(self):
        return self.chance.weighted(((60, self.frame_line), (15, self.open_line), (15, self.send_line), (15, self.close_line)))()

    def order_of_argument(self, line, before=()):
        if line.startswith("RF"):
            wrong = "RF%04X" % self.chance.pick(WRONG_AREAS) + line[6:]
        else:
            wrong = line[:2] + "%02X" % self.chance.pick(WRONG_SOCKETS) + line[4:]
        self.script.order(wrong, line, before)

    def order_of_area(self):
        self.order_of_argument(self.any_call())

    def order_of_frames(self):
        frame = self.any_frame()
        self.chance.pick((self.order_of_fit, self.order_of_opcode, self.order_of_link, self.order_of_use,
                          self.order_of_half))(frame)

    def order_of_use(self, frame):
        """The same frame while the link is opening and while it is open."""
        for index, record in enumerate(self.records()):
            if record.use == OPENED and record.link_id.to_bytes(4, "big") == frame[:4]:
                opening = self.set_line(index, PROVISIONER.blank(OPENING, record.link_id))
                self.script.order(self.line(frame), self.line(frame), [opening], [self.set_line(index, record)])

    def order_of_local(self):
        """A Link ID in use, for a socket in use or none at all and for a free one."""
        used, free = self.with_use(OPENING, OPENED), self.with_use(FREE)
        if used and free:
            link_id = self.records()[self.chance.pick(used)].link_id
            wrong = self.chance.pick((self.chance.pick(used) + 1, self.chance.pick(WRONG_SOCKETS)))
            self.script.order(operation("OP", (wrong, 2), (link_id, 8)),
                              operation("OP", (self.chance.pick(free) + 1, 2), (link_id, 8)))
