"""Receipt and saves as documents 01 and 02 have them, read once more in another language: a writer, a reader and the listing."""

MOST = 65536
REPORT = 64


class Refused(Exception):
    pass


def field(tag, content):
    return bytes([tag]) + len(content).to_bytes(2, "big") + content


def frame(packet):
    body = bytes([len(packet) + 1]) + packet
    return body + bytes([sum(body) % 256])


def write_memory(addr, data):
    return field(0x10, frame(b"\x04" + addr.to_bytes(2, "big") + data))


def write_word(addr, word):
    return field(0x10, frame(b"\x13\x80" + addr.to_bytes(2, "big") + word.to_bytes(4, "little")))


def shape(e, s):
    return field(0x01, e.to_bytes(4, "big") + s.to_bytes(4, "big"))


def end(count):
    return field(0x7F, count.to_bytes(4, "big"))


def saved(eeprom, settings):
    """The fields of a save, in order."""
    blocks = [write_memory(a, bytes(eeprom[a:a + 32])) for a in range(0, len(eeprom), 32)]
    words = [write_word(a, w) for a, w in enumerate(settings)]
    return [shape(len(eeprom), len(settings)), *blocks, *words, end(len(blocks) + len(words))]


def take(stream, at):
    """The tag, the content and the end of the field that starts here."""
    if len(stream) < at + 3:
        raise Refused(13)
    stop = at + 3 + int.from_bytes(stream[at + 1:at + 3], "big")
    if len(stream) < stop:
        raise Refused(13)
    return stream[at], stream[at + 3:stop], stop


def plain(received):
    if not received or received[0] == 0:
        raise Refused(1)
    if len(received) < received[0]:
        raise Refused(2)
    return received[1:received[0]]


def strict(received, in_save=False):
    """The packet; behind the checksum there may be filler, of any content, where 64 bytes were received, but not in a save."""
    if not received or received[0] == 0:
        raise Refused(1)
    last = received[0]
    if len(received) < last + 1:
        raise Refused(2)
    if len(received) > last + 1 and (in_save or len(received) != REPORT):
        raise Refused(10)
    if sum(received[:last]) % 256 != received[last]:
        raise Refused(9)
    return received[1:last]


def exact(received):
    """Strict receipt as a save asks for it."""
    return strict(received, in_save=True)


def meant(packet, e, s):
    """The write that a packet means: ('memory', address, bytes) or ('setting', address, word)."""
    if not packet:
        raise Refused(3)
    if packet[0] not in (0x04, 0x13):
        raise Refused(13)
    if len(packet) - 1 < 2:
        raise Refused(3)
    if packet[0] == 0x04:
        addr, data = int.from_bytes(packet[1:3], "big"), packet[3:]
        if addr + len(data) > e:
            raise Refused(7)
        return "memory", addr, data
    if len(packet) - 1 != 7:
        raise Refused(13)
    addr = (packet[1] & 0x0F) << 16 | packet[2] << 8 | packet[3]
    if addr >= s:
        raise Refused(7)
    return "setting", addr, int.from_bytes(packet[4:], "little")


def read(stream, sizes=None):
    """The sizes and the writes of a stream, for memories of these sizes or of its own."""
    tag, content, at = take(stream, 0)
    if tag != 0x01 or len(content) != 8:
        raise Refused(13)
    own = int.from_bytes(content[:4], "big"), int.from_bytes(content[4:], "big")
    if own != sizes if sizes else max(own) > MOST:
        raise Refused(14)
    writes = []
    while True:
        tag, content, at = take(stream, at)
        if tag == 0x7F:
            if len(content) != 4 or int.from_bytes(content, "big") != len(writes) or at != len(stream):
                raise Refused(13)
            return own, writes
        if tag != 0x10:
            raise Refused(13)
        writes.append(meant(exact(content), *own))


def listed(stream):
    (e, s), writes = read(stream)
    lines = [f"shape {e} {s}"]
    for kind, addr, what in writes:
        lines.append(f"memory {addr} {len(what)}" if kind == "memory" else f"setting {addr} {what:08X}")
    lines.append(f"end {len(writes)}")
    return "".join(line + "\n" for line in lines).encode()


def hexed(data):
    return data.hex().upper() or "-"
