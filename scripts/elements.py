"""The bytes of DICOM files (PS3.5 7.1, 7.5; PS3.10 7.1), for the scripts that make some.

A transfer syntax is given by its UID. A tag is one number, its group in the upper half.
"""
import struct

IMPLICIT = b"1.2.840.10008.1.2"
LITTLE = b"1.2.840.10008.1.2.1"
BIG = b"1.2.840.10008.1.2.2"
JPEG = b"1.2.840.10008.1.2.4.50"

LONG_FORM = "OB OD OF OL OV OW SQ SV UC UN UR UT UV ZZ".split()
UNDEFINED = 0xFFFFFFFF

# The VRs whose values are padded by 00, and not by a space (PS3.5 6.2).
PADDED_BY_ZERO = "OB UI UN".split()


def order(uid):
    return ">" if uid == BIG else "<"


def tag_bytes(tag, uid):
    return struct.pack(order(uid) + "HH", tag >> 16, tag & 0xFFFF)


def head(tag, vr, size, uid=LITTLE):
    if uid == IMPLICIT or tag >> 16 == 0xFFFE:
        return tag_bytes(tag, uid) + struct.pack(order(uid) + "I", size)
    if vr in LONG_FORM:
        return tag_bytes(tag, uid) + vr.encode() + bytes(2) + struct.pack(order(uid) + "I", size)
    return tag_bytes(tag, uid) + vr.encode() + struct.pack(order(uid) + "H", size)


def leaf(tag, vr, value, uid=LITTLE):
    """An element of this value, as it is."""
    return head(tag, vr, len(value), uid) + value


def padded(value, vr="UI"):
    """A value of even length."""
    return value + (b"\0" if vr in PADDED_BY_ZERO else b" ") * (len(value) % 2)


def even_leaf(tag, vr, value, uid=LITTLE):
    return leaf(tag, vr, padded(value, vr), uid)


def item(content, uid=LITTLE):
    return head(0xFFFEE000, "", len(content), uid) + content


def open_item(content, uid=LITTLE):
    return head(0xFFFEE000, "", UNDEFINED, uid) + content + head(0xFFFEE00D, "", 0, uid)


def sequence(tag, content, uid=LITTLE, vr="SQ"):
    return leaf(tag, vr, content, uid)


def open_sequence(tag, content, uid=LITTLE, vr="SQ"):
    return head(tag, vr, UNDEFINED, uid) + content + head(0xFFFEE0DD, "", 0, uid)


def group(*leaves):
    """The meta group, which is of explicit VR in each file: its length, and these elements."""
    content = b"".join(leaves)
    return leaf(0x00020000, "UL", struct.pack("<I", len(content))) + content


def file_of(uid, data_set, preamble=bytes(128)):
    return preamble + b"DICM" + group(even_leaf(0x00020010, "UI", uid)) + data_set


def after_prefix(content):
    return bytes(128) + b"DICM" + content


# what dcmdeid puts last in the meta group: the class and the version name of its own implementation
OWN = leaf(0x00020012, "UI", b"2.25.313428391727201999114611669686557106709") + leaf(0x00020013, "SH", b"DCMTOOLS")
