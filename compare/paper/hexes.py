"""EEPROM images as Intel HEX by document 02's Ask 2, read once more in another language: a writer and a reader."""
import re

from reader import MOST, Refused

END = b":00000001FF"
# The end record, to the end of the text, and any other line: a colon and pairs of digits.
LAST = re.compile(rb":00000001[Ff]{2}(\r?\n)?")
LINE = re.compile(rb":((?:[0-9A-Fa-f]{2})*)\r?\n")


def spelled(record):
    return b":" + record.hex().upper().encode()


def record(address, data, kind=0, count=None, off=0):
    """A record's bytes; by the last three it is of another type, says another count or has another checksum."""
    body = bytes([len(data) if count is None else count]) + address.to_bytes(2, "big") + bytes([kind]) + data
    return body + bytes([(off - sum(body)) % 256])


def row(address, data, **other):
    return spelled(record(address, data, **other))


def exported(eeprom):
    rows = [row(a, bytes(eeprom[a:a + 16])) for a in range(0, len(eeprom), 16)]
    return b"".join(line + b"\n" for line in [*rows, END])


def imported(text, e):
    """The image of e bytes that a text gives."""
    if e > MOST:
        raise Refused(14)
    image, named, at = bytearray(b"\xFF" * e), bytearray(e), 0
    while not LAST.fullmatch(text, at):
        line = LINE.match(text, at)
        if not line:
            raise Refused(16)
        said = bytes.fromhex(line[1].decode())
        if len(said) < 5 or len(said) != said[0] + 5 or said[3] != 0:
            raise Refused(16)
        if sum(said) % 256:
            raise Refused(17)
        start, stop = int.from_bytes(said[1:3], "big"), int.from_bytes(said[1:3], "big") + said[0]
        if stop > e:
            raise Refused(7)
        if any(named[start:stop]):
            raise Refused(18)
        image[start:stop], named[start:stop] = said[4:-1], b"\x01" * said[0]
        at = line.end()
    return bytes(image)
