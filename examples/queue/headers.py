"""What a mirror reads of a message beside its text: the header `signature`, if it is a string.

`pika` decodes all that a poster writes there, and fails at what it can't decode, each time that the message comes. This stands
in its place: it steps over values by their lengths, and where they make no sense it stops, with what it has found.
"""
import pika

# How many bytes a value of each type has. The others have their length in four bytes before them.
SIZES = {b"V": 0, b"t": 1, b"b": 1, b"B": 1, b"s": 2, b"u": 2, b"U": 2, b"i": 4, b"I": 4, b"f": 4, b"D": 5, b"l": 8, b"L": 8, b"d": 8, b"T": 8}
STRINGS = b"S", b"x"
LONG = STRINGS + (b"A", b"F")


def number(encoded):
    return int.from_bytes(encoded, "big")


def table_of(properties):
    """The bytes of the headers. Only the content's type and encoding, two short strings, may stand before them."""
    flags, at = number(properties[:2]), 2
    for flag in 1 << 15, 1 << 14:
        if flags & flag:
            at += 1 + number(properties[at:at + 1])
    return properties[at + 4:at + 4 + number(properties[at:at + 4])] if flags & 1 << 13 else b""


def entries(table):
    """The name, the type and the bytes of each header, up to the first that isn't whole."""
    at = 0
    while at < len(table):
        end = at + 1 + table[at]
        name, kind, at = table[at + 1:end], table[end:end + 1], end + 1
        if kind not in SIZES and kind not in LONG:
            return
        size = SIZES.get(kind)
        if size is None:
            size, at = number(table[at:at + 4]), at + 4
        if at + size > len(table):
            return
        yield name, kind, table[at:at + size]
        at += size


def decode(properties, encoded, offset=0):
    properties.encoded = bytes(encoded[offset:])
    found = entries(table_of(properties.encoded))
    properties.headers = {"signature": value for name, kind, value in found if name == b"signature" and kind in STRINGS}
    return properties


pika.BasicProperties.decode = decode
