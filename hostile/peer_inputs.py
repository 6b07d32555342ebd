"""Hostile input to the listeners of associations and of exchanges of the built archive.

A kind is a function that draws the octets of a connection by dice, from which a run can be made again.
"""
import os
import struct
import sys

sys.path.insert(0, os.path.join(os.path.dirname(os.path.abspath(__file__)), "..", "clients"))
from dicom import (  # noqa: E402
    CT_IMAGE, IMPLICIT, STUDY_ROOT_FIND, STUDY_ROOT_GET, VERIFICATION, Association, command, element, image, short, uid)
from spoiling import flipped_in, front_of  # noqa: E402

CONTEXTS = [(VERIFICATION, [IMPLICIT]), (CT_IMAGE, [IMPLICIT]), (STUDY_ROOT_FIND, [IMPLICIT]),
            (STUDY_ROOT_GET, [IMPLICIT])]
REQUEST = Association.request("ARCHIVE", "HOSTILE", CONTEXTS, [CT_IMAGE], 65536)
USER = REQUEST[REQUEST.rindex(b"\x50\0\0"):]
RELEASE = b"\5\0\0\0\0\4\0\0\0\0"


def data_pdu(context, flags, piece):
    return b"\4\0" + struct.pack(">IIBB", len(piece) + 6, len(piece) + 2, context, flags) + piece


def data_pdus(context, data, most):
    """A data set in fragments of so many bytes."""
    ends = range(most, max(len(data), 1) + most, most)
    return b"".join(data_pdu(context, 2 if end >= len(data) else 0, data[end - most:end]) for end in ends)


def store(dice, data, most=65530):
    """A C-STORE of a data set, in fragments of at most so many bytes."""
    fields = {0x0002: uid(CT_IMAGE), 0x0100: short(1), 0x0110: short(dice.randrange(65536)), 0x0700: short(0),
              0x0800: short(0), 0x1000: uid("1.2.9.1.1")}
    return data_pdu(3, 3, command(fields)) + data_pdus(3, data, most)


def find(dice, data):
    fields = {0x0002: uid(STUDY_ROOT_FIND), 0x0100: short(0x20), 0x0110: short(dice.randrange(65536)),
              0x0700: short(0), 0x0800: short(0)}
    return data_pdu(5, 3, command(fields)) + data_pdu(5, 2, data)


def lawful(dice):
    data = image("1.2.9", "1.2.9.1", f"1.2.9.1.{dice.randrange(50)}", "P1", "DOE^JANE", bytes(200))
    query = element(0x00080052, b"CS", b"STUDY ", False) + element(0x00100010, b"PN", b"DOE*", False)
    return REQUEST + store(dice, data) + find(dice, query) + RELEASE


def flipped(dice):
    return flipped_in(dice, lawful(dice))


def cut(dice):
    return front_of(dice, lawful(dice))


def lengths(dice):
    """A PDU or an element whose length says nothing of what follows."""
    size = dice.choice([0, 1, 5, 65536, 65537, 0x7FFFFFFF, 0xFFFFFFFF])
    if dice.random() < 0.5:
        return REQUEST + bytes([dice.choice([1, 2, 3, 4, 5, 6, 7, 8, 255]), 0]) + struct.pack(">I", size) + bytes(40)
    data = struct.pack("<HHI", 8, 0x18, size) + bytes(dice.randrange(64))
    return REQUEST + store(dice, data)


def nested(dice):
    """Sequences in sequences."""
    depth = dice.choice([15, 16, 17, 200, 10000])
    one = struct.pack("<HHI", 8, 0x1115, 0xFFFFFFFF) + struct.pack("<HHI", 0xFFFE, 0xE000, 0xFFFFFFFF)
    return REQUEST + store(dice, one * depth)


def item(kind, body):
    return bytes([kind, 0]) + struct.pack(">H", len(body) % 65536) + body


def proposed(number, abstract, syntaxes):
    """A presentation context."""
    return item(0x20, bytes([number, 0, 0, 0]) + item(0x30, abstract) + b"".join(item(0x40, s) for s in syntaxes))


def request(raw, user=USER):
    """A request with these items in the place of its contexts."""
    body = REQUEST[6:74] + item(0x10, b"1.2.840.10008.3.1.1.1") + raw + user
    return b"\1\0" + struct.pack(">I", len(body)) + body


def contexts(dice):
    """A request with as many contexts as there may be, or one less, or with contexts of one number."""
    count = dice.choice([127, 128, 300])
    return request(b"".join(
        proposed(2 * i % 256 | 1, VERIFICATION.encode(), [IMPLICIT.encode()]) for i in range(count)))


def thousands(dice):
    """A request with thousands of contexts or of transfer syntaxes, within what a request may have or beyond it."""
    count, syntaxes = dice.choice([(1000, 1), (2000, 1), (3600, 1), (5000, 1), (20000, 1), (1, 12000), (128, 90)])
    number = dice.choice([lambda i: 2 * i % 256 | 1, lambda i: i % 256, lambda i: 1])
    return request(b"".join(proposed(number(i), b"1", [b"1"] * syntaxes) for i in range(count)))


def roles(dice):
    """A request with thousands of sub-items for the user: role selections, or others that are passed over."""
    sub = dice.choice([item(0x54, b"\0\1" + b"1" + b"\0\1"), item(0x56, b""), item(dice.randrange(256), b"1")])
    return request(proposed(1, VERIFICATION.encode(), [IMPLICIT.encode()]),
                   item(0x50, USER[4:] + sub * dice.choice([1000, 6000, 9000])))


def tiny(dice):
    """A data set in fragments of one octet."""
    data = image("1.2.9", "1.2.9.1", "1.2.9.1.77", "P1", "DOE^JANE", bytes(400))
    return REQUEST + store(dice, data, 1) + RELEASE


def million(dice):
    """A data set in a million fragments of one octet."""
    data = image("1.2.9", "1.2.9.1", "1.2.9.1.78", "P1", "DOE^JANE", bytes(1000000))
    pieces = bytearray(data_pdu(3, 0, data[:1]) * len(data))
    pieces[12::13] = data
    pieces[-2] = 2
    return REQUEST + store(dice, b"")[:-12] + bytes(pieces) + RELEASE


def behind(dice):
    """PDUs behind a release and behind an abort."""
    end = dice.choice([RELEASE, b"\7\0\0\0\0\4\0\0\0\0"])
    return REQUEST + end + lawful(dice) * dice.randint(1, 40)


def noise(dice):
    return dice.randbytes(dice.choice([1, 5, 6, 100, 4000]))


def frame(kind, body):
    return bytes([kind]) + struct.pack(">I", len(body)) + body


HELLO = frame(7, b"\0\2")


def digests(dice, count):
    return b"".join(sorted(dice.randbytes(32) for _ in range(count)))


def counted(kind, count, body):
    return frame(kind, struct.pack(">I", count) + body)


def round_of(dice):
    """What a caller says who has nothing in common: buckets, what it has, what it wants, and what it gives."""
    data = image("1.2.9", "1.2.9.1", f"1.2.9.1.{dice.randrange(50)}", "P1", "DOE^JANE", bytes(200))
    given = (b"\1" + bytes([len(CT_IMAGE)]) + CT_IMAGE.encode() + b"\x0b1.2.9.1.100\1" + struct.pack(">I", len(data))
             + data)
    few = dice.randint(0, 20)
    return (HELLO + frame(5, dice.randbytes(8192)) + counted(1, few, digests(dice, few)) + frame(3, given)
            + frame(4, b"") + frame(6, b"\0\1\7") + counted(2, few, digests(dice, few)) + frame(4, b""))


def x_flipped(dice):
    raw = bytearray(round_of(dice))
    for _ in range(dice.randint(1, 8)):
        raw[dice.choice([dice.randrange(len(raw)), dice.randrange(20)])] = dice.randrange(256)
    return bytes(raw)


def x_cut(dice):
    return front_of(dice, round_of(dice))


def x_lengths(dice):
    """A frame whose length or count says nothing of what follows."""
    size = dice.choice([0, 1, 4, 8191, 67109000, 67109001, 0x7FFFFFFF, 0xFFFFFFFF])
    front = dice.choice([b"", HELLO, HELLO + frame(5, bytes(8192))])
    if dice.random() < 0.5:
        return front + bytes([dice.choice([0, 1, 2, 3, 4, 5, 6, 7, 8, 255])]) + struct.pack(">I", size) + bytes(100)
    return front + counted(dice.choice([1, 2]), dice.choice([0, 1, 1048576, 1048577, 0xFFFFFFFF]), digests(dice, 3))


def x_noise(dice):
    return dice.choice([b"", HELLO]) + dice.randbytes(dice.choice([1, 4, 5, 9000]))


KINDS = [flipped, flipped, flipped, cut, lengths, nested, contexts, thousands, roles, tiny, behind, noise]
EXCHANGE_KINDS = [x_flipped, x_flipped, x_cut, x_lengths, x_noise]
