"""The published samples and document 01's figures as operations."""
import json
import pathlib

from model.proxy_filter import PLACES

FILE = pathlib.Path(__file__).resolve().parent.parent / "samples" / "mesh_profile.json"
SAMPLES = json.loads(FILE.read_text(encoding="ascii"))
LINK_ID = SAMPLES["link_id"]
# The operations of the two ends, by the words of the sample exchange; and what a control frame is answered.
RECEIVING = {"provisioner": "RF2DE8", "device": "DR05BD"}
SENDING = {"provisioner": "SN01", "device": "DN"}
SHOWING = {"provisioner": "AD", "device": "ED"}
RECEIVED = {"Link Open": "U", "Link Ack": "U", "Link Close": "C00"}

# Document 01, "Figures at the edges": operation and answer, those marked (P) and those not.
CHECKS = (("00", "30"), ("0000", "14"), ("0005", "82"), ("04", "37"), ("08", "3E"))
LAST_SEGMENTS = ((20, 0), (21, 1), (43, 1), (44, 2), (65, 2), (1469, 63))
NINETEEN, TWENTY = "11" * 19, "11" * 20
SEVENTEENTH = "01" + "".join("%04X" % address for address in range(1, PLACES + 1)), "010011"


def step_operations(end, step):
    """The calls that an end's host makes for one step of the sample exchange, with the answers that they must have."""
    return sent_operations(end, step) if step["from"] == end else received_operations(end, step)


def sent_operations(end, step):
    what, number, message = step["what"], step["number"], step["message"]
    written = ["W%04X%s" % (len(frame) // 2, frame) for frame in step["frames"]]
    if what == "Link Open":
        return [("OP01" + LINK_ID, "OK"), ("WO1000" + LINK_ID + SAMPLES["device_uuid"], written[0])]
    if what == "Link Ack":
        return [("WA1000" + LINK_ID, written[0])]
    if what == "Link Close":
        return [("WC1000" + LINK_ID + "00", written[0]), ("CL01", "OK")]
    if message is None:
        return [("WK1000" + LINK_ID + number, written[0])]
    send = SENDING[end] + "%04X" % (len(message) // 2), "S%s%02X" % (number, len(written) - 1)
    segments = ["WS1000%s%s%02X%s" % (LINK_ID, number, index, message) for index in range(len(written))]
    return [send] + list(zip(segments, written))


def received_operations(end, step):
    received = [RECEIVING[end] + frame for frame in step["frames"]]
    if step["message"] is None:
        return [(received[0], RECEIVED.get(step["what"], "A"))]
    length = len(step["message"]) // 2
    answers = ["K"] * (len(received) - 1) + ["D%04X%s" % (length, step["number"])]
    shown = SHOWING[end] + "0000%04X" % length, "H" + step["message"]
    return list(zip(received, answers)) + [shown, ("PR" + step["message"], None)]


def exchange_operations(end):
    return [pair for step in SAMPLES["steps"] for pair in step_operations(end, step)]


def station_operations():
    return exchange_operations("provisioner")


def device_operations():
    return [("DU" + SAMPLES["device_uuid"], "OK")] + exchange_operations("device")


def beacon_operations():
    """From index 12345678 in normal operation the third beacon begins an IV update."""
    operations = [("KS001234567800", "OK")]
    for beacon in SAMPLES["beacons"]:
        authentic = "01" if beacon["authentic"] else "00"
        operations += [("BR" + authentic + "0000" + beacon["octets"], None), ("KD", None)]
    return operations


def filter_operations():
    return [("FM" + sample["opened"], "F" + sample["answer"]) for sample in SAMPLES["filter"]]


def figure_operations():
    operations = [("CK" + message, "N" + check) for message, check in CHECKS]
    operations += [("SG%04X" % length, "N%02X" % segment) for length, segment in LAST_SEGMENTS]
    operations += [("XN00140013", "N01"), ("XN00140014", "N02"), ("XW100000140000" + NINETEEN, "W001400" + NINETEEN),
                   ("XW100000140000" + TWENTY, "W001440" + NINETEEN), ("XW100000140001" + TWENTY, "W0002C011")]
    operations += [("FN", "OK"), ("FM" + SEVENTEENTH[0], "F03000010"), ("FM" + SEVENTEENTH[1], "F03000010"), ("FP0011", "P00")]
    beacon = "0100" + "3E" * 8 + "FFFFFFFF" + "5F" * 8
    return operations + [("KS00FFFFFFFF00", "OK"), ("BR010000" + beacon, "B0000"), ("KD", "K00FFFFFFFF00")]


def sample_operations():
    """All of them, each part from the start; an answer that isn't published is None."""
    operations = []
    for part in (station_operations, device_operations, beacon_operations, filter_operations, figure_operations):
        operations += [("ZZ", "OK")] + part() + [("ZH", None)]
    return operations
