"""Certificates of which one byte is changed: what `check` of the library says of each other value of each byte."""
from typing import NamedTuple


class Certificate(NamedTuple):
    """A certificate, and the faults of its form where one byte is another: the name of a fault and its place, or None where the form is
    still whole."""

    board: str  # a file in boards/
    bytes: bytes
    claim: str
    fields: list  # from a place to another, and the fault where one of these bytes has any other value
    values: list  # a place, values from one to another, and the fault of these in place of the field's


SHORT, BAD_MAGIC, BAD_RULE, BAD_KIND = ("CERT_SHORT", 0), ("CERT_BAD_MAGIC", 0), ("CERT_BAD_RULE", 0), ("CERT_BAD_KIND", 0)
TRAILING, BAD_RECORD_0, LABEL_0 = ("CERT_TRAILING", 0), ("CERT_BAD_RECORD", 0), ("CERT_LABEL", 0)
# What is asked once the form is whole.
LATER = {"CERT_OTHER_GAME", "CERT_NOT_ALLOWED", "CERT_NOT_HOME", "CERT_START_OPEN", "CERT_WON_LISTED", "CERT_OPEN"}


def bad_move(number):
    return "CERT_BAD_MOVE", number


# Two kings over queens of other suits, in the first form, by home rule 0: five moves and one record.
TWO_KINGS_BYTES = bytes.fromhex("46434331 00 01 00000005 3161 3168 3268 3268 6168 00000001 00000000 0d0d0b0b ffffffff 022e33 022f32 000000000000")
TWO_KINGS_FIELDS = [
    (0, 4, BAD_MAGIC),
    (4, 5, BAD_RULE),
    (5, 6, BAD_KIND),
    (6, 10, bad_move(6)),
    (10, 12, bad_move(1)),
    (12, 14, bad_move(2)),
    (14, 16, bad_move(3)),
    (16, 18, bad_move(4)),
    (18, 20, bad_move(5)),
    (20, 24, SHORT),
    (24, 28, None),
    (28, 36, BAD_RECORD_0),
    (36, 37, SHORT),
    (37, 39, BAD_RECORD_0),
    (39, 40, SHORT),
    (40, 42, BAD_RECORD_0),
    (42, 48, SHORT),
]
TWO_KINGS_VALUES = [
    (3, 50, 51, BAD_KIND),
    (4, 1, 1, None),
    (5, 2, 2, BAD_RECORD_0),
    (9, 0, 0, BAD_RECORD_0),
    (9, 1, 4, SHORT),
    (10, 50, 56, None),
    (10, 97, 100, None),
    (11, 49, 56, None),
    (11, 98, 100, None),
    (11, 104, 104, None),
    (12, 50, 56, None),
    (12, 97, 100, None),
    (13, 49, 56, None),
    (13, 97, 100, None),
    (14, 49, 56, None),
    (14, 97, 100, None),
    (15, 49, 56, None),
    (15, 97, 100, None),
    (16, 49, 56, None),
    (16, 97, 100, None),
    (17, 49, 56, None),
    (17, 97, 100, None),
    (18, 49, 56, None),
    (18, 98, 100, None),
    (19, 49, 56, None),
    (19, 97, 100, None),
    (23, 0, 0, TRAILING),
]

# A locked board, in the first form, by home rule 1: no list wins.
LOCKED_BYTES = bytes.fromhex("46434331 01 02 00000001 00000000 07070707 30313233 021c20 021d21 021e22 021f23 03242c28 03252d29 03262e2a 03272f2b")
LOCKED_FIELDS = [
    (0, 4, BAD_MAGIC),
    (4, 5, BAD_RULE),
    (5, 6, BAD_KIND),
    (6, 10, SHORT),
    (10, 14, LABEL_0),
    (14, 22, BAD_RECORD_0),
    (22, 23, SHORT),
    (23, 25, BAD_RECORD_0),
    (25, 26, SHORT),
    (26, 28, BAD_RECORD_0),
    (28, 29, SHORT),
    (29, 31, BAD_RECORD_0),
    (31, 32, SHORT),
    (32, 34, BAD_RECORD_0),
    (34, 35, SHORT),
    (35, 38, BAD_RECORD_0),
    (38, 39, SHORT),
    (39, 42, BAD_RECORD_0),
    (42, 43, SHORT),
    (43, 46, BAD_RECORD_0),
    (46, 47, SHORT),
    (47, 50, BAD_RECORD_0),
]
LOCKED_VALUES = [
    (3, 50, 51, BAD_KIND),
    (4, 0, 0, None),
    (5, 1, 1, bad_move(1)),
    (9, 0, 0, TRAILING),
    (46, 0, 2, BAD_RECORD_0),
]

# The two kings in the third form: five moves by the clearing bound, for which no record is needed.
SHORTEST_BYTES = bytes.fromhex("46434333 00 04 00 01 01 00000005 3161 3168 3268 3268 6168 00000000")
# The same list by the plain bound, of which none is below 4 moves.
BETWEEN_BYTES = bytes.fromhex("46434333 00 04 00 00 03 00000004 00000005 3161 3168 3268 3268 6168 00000000")

CERTIFICATES = [
    Certificate("two-kings", TWO_KINGS_BYTES, "shortest 5", TWO_KINGS_FIELDS, TWO_KINGS_VALUES),
    Certificate("locked", LOCKED_BYTES, "can't be won", LOCKED_FIELDS, LOCKED_VALUES),
    Certificate("two-kings", SHORTEST_BYTES, "shortest 5", [], []),
    Certificate("two-kings", BETWEEN_BYTES, "won 5, at least 4", [], []),
]


def fault_of(it, at, value):
    """The fault of the form where the byte at this place has another value than the certificate's."""
    for place, low, high, fault in it.values:
        if place == at and low <= value <= high:
            return fault
    return next(fault for first, last, fault in it.fields if first <= at < last)


def is_true(text, claim):
    """Whether a claim is the certificate's own, or names another floor of the two kings, whose shortest list has five moves."""
    words = text.replace(",", "").split()
    if claim.startswith("won") and words[:2] == ["accepted:", "won"]:
        return int(words[5]) <= 5 <= int(words[2])
    return text == f"accepted: {claim}\n"


def is_right(it, at, value, number, place, text):
    """Whether what is told of such a byte is right: the fault that the fields say, if there are any, and no false claim."""
    fault = None if number in LATER or number == "DONE" else (number, place)
    return (number != "DONE" or is_true(text, it.claim)) and (not it.fields or fault == fault_of(it, at, value))


def changed(it):
    """Each place, each other value there, and the bytes then."""
    for at, byte in enumerate(it.bytes):
        for value in range(256):
            if value != byte:
                yield at, value, it.bytes[:at] + bytes([value]) + it.bytes[at + 1:]
