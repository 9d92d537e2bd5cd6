"""Which answers and refusals of which operations a script has met."""
from model.replay import OPERATIONS

# Every answer and refusal of every call. An answer's case is its first letter, or letter and digits where those tell
# answers of different meaning apart.
ANSWERS = {
    "RF": "11 14 01 02 03 04 05 12 06 07 08 K R D G U Y C A",
    "OP": "11 14 09 10 OK", "SN": "11 14 04 13 S", "CL": "11 14 04 OK",
    "DR": "11 14 01 02 15 16 03 05 12 06 07 08 K R D G U Y C A", "DN": "11 14 04 13 S", "DC": "14 04 OK",
    "WS": "11 W", "WK": "11 W", "WO": "11 W", "WA": "11 W", "WC": "11 W", "CK": "11 N", "SG": "11 N",
    "PR": "41 42 43 44 45 M00 M01 M02 M03 M04 M05 M06 M07 M08 M09",
    "VB": "44 N", "VW": "44 N", "VF": "44 P",
    "XC": "14 OK", "XX": "14 OK", "XR": "11 14 26 21 22 23 24 25 M T", "XN": "11 N", "XW": "11 W",
    "FN": "OK", "FM": "14 31 32 33 34 F", "FL": "14 35 F", "FP": "14 P00 P01",
    "BR": "14 51 52 53 54 55 57 U B0000 B0001 B0002 B0100 B0101 B0102",
    "KI": "14 56 K00", "KT": "14 56 K00 K01",
}
SHOWN = {"ZZ": "OK", "ZH": "H", "LS": "OK", "LD": "L", "LA": "L", "XS": "OK", "XD": "X", "FS": "OK", "FD": "F",
         "KS": "OK", "KD": "K", "VS": "OK", "VD": "V", "DS": "OK", "DD": "D", "DU": "OK"}
for storage in "ABOE":
    SHOWN.update({storage + "F": "OK", storage + "W": "OK", storage + "D": "H", storage + "H": "H"})

# Answers whose digits are part of the case.
TOLD_APART = {("PR", "M"): 3, ("FP", "P"): 3, ("BR", "B"): 5, ("KI", "K"): 3, ("KT", "K"): 3}


def case_of(line, answer):
    """The operation and the case of its answer, as "RF 07"; a name that is no operation counts as "--"."""
    name = line[:2] if line[:2] in OPERATIONS else "--"
    if answer in ("?", "OK"):
        return name + " " + answer
    if answer.startswith("!"):
        return name + " " + answer[1:]
    return name + " " + answer[:TOLD_APART.get((name, answer[0]), 1)]


def pairs(name, first, seconds):
    return [name + " " + first + " over " + second for second in seconds.split()]


def orders():
    """Of two conditions at once the one that stands first in the order of documents 01 and 02 is given."""
    required = []
    for name, cases in sorted(ANSWERS.items()):
        listed = cases.split()
        if "14" in listed:
            after = " ".join(case for case in listed if case not in ("11", "14"))
            required += pairs(name, "14", after)
    after_area = "14 01 02 03 04 05 12 06 07 08 K R D G U Y C A"
    required += pairs("RF", "11", after_area) + pairs("RF", "01", "03 04 05 12 06 07 G") + pairs("RF", "02", "03 04")
    required += pairs("RF", "03", "04 05 12 06 07 08 G") + pairs("RF", "04", "05 12 06 07 G") + pairs("RF", "05", "12 06 G")
    required += pairs("OP", "11", "14 09 10") + pairs("OP", "09", "10")
    required += pairs("SN", "11", "14 04 13") + pairs("CL", "11", "14 04")
    required += pairs("DR", "11", "14 01 02 15 16 03 05 12 06 07 08 K R D G U Y C A")
    required += pairs("DR", "01", "02 15 16 03 05 12 06 07 08 G") + pairs("DR", "02", "03")
    required += pairs("DR", "15", "16 U Y") + pairs("DR", "16", "U Y") + pairs("DR", "03", "05 12 06 07 08 G")
    required += pairs("DR", "05", "12 06 08 G") + pairs("DN", "11", "14 04 13")
    required += pairs("XR", "11", "14 26 21 22 23 24 25 M T") + pairs("XR", "26", "21 22 23 25 M T")
    required += pairs("XR", "21", "22 23 24") + pairs("XR", "22", "23 24 25") + pairs("XR", "23", "24 25")
    required += pairs("XR", "24", "25") + pairs("FM", "32", "33") + pairs("FM", "33", "34")
    required += pairs("BR", "52", "53") + pairs("BR", "53", "54 55 57") + pairs("BR", "54", "55 57") + pairs("BR", "55", "57")
    required += pairs("PR", "42", "44") + pairs("PR", "43", "44") + pairs("PR", "44", "45")
    return required


def base():
    """Every operation's answers and refusals, and that each operation was also tried malformed."""
    required = []
    for name, cases in {**ANSWERS, **SHOWN}.items():
        required += [name + " " + case for case in cases.split()]
    required += [name + " ?" for name in OPERATIONS] + ["-- ?"]
    return sorted(required)


def never_met(met, required):
    return [case for case in required if met[case] == 0]


def table(met, required):
    """One line for each required case: how often it was met."""
    return "".join("%7d  %s\n" % (met[case], case) for case in required)
