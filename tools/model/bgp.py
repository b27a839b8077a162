"""BGP messages, the content of an UPDATE and the SFP attribute, each read and written."""
import struct

OPEN, UPDATE, NOTIFICATION, KEEPALIVE = 1, 2, 3, 4
LEAST = {OPEN: 29, UPDATE: 23, NOTIFICATION: 21, KEEPALIVE: 19}
REACH, UNREACH, COMMUNITIES, SFP = 14, 15, 16, 37
FAMILY = bytes.fromhex("001f09")
SFIR, SFPR = 1, 2
MARKER = b"\xff" * 16


class Refused(Exception):
    """A refusal, with what a NOTIFICATION says of it."""

    def __init__(self, code, subcode, info=b""):
        super().__init__(code, subcode)
        self.code, self.subcode, self.info = code, subcode, info


def message(kind, content=b""):
    return MARKER + struct.pack(">HB", 19 + len(content), kind) + content


def cut(stream):
    """The kind, the content and the length of the message at the front of a stream; None where none is whole."""
    if any(byte != 0xFF for byte in stream[:16]):
        raise Refused(1, 1)
    if len(stream) < 18:
        return None
    length = struct.unpack(">H", stream[16:18])[0]
    if not 19 <= length <= 4096:
        raise Refused(1, 2, stream[16:18])
    if len(stream) < 19:
        return None
    kind = stream[18]
    if kind not in LEAST:
        raise Refused(1, 3, stream[18:19])
    if length < LEAST[kind] or (kind == KEEPALIVE and length != 19):
        raise Refused(1, 2, stream[16:18])
    if len(stream) < length:
        return None
    return kind, stream[19:length], length


def capabilities(value):
    at = 0
    while at < len(value):
        if at + 2 > len(value) or at + 2 + value[at + 1] > len(value):
            raise Refused(2, 0)
        yield value[at], value[at + 2:at + 2 + value[at + 1]]
        at += 2 + value[at + 1]


def read_open(content):
    """The AS and the hold time of an OPEN."""
    version, my_as, hold, identifier, size = struct.unpack(">BHHIB", content[:10])
    if version != 4:
        raise Refused(2, 1, b"\x00\x04")
    if hold in (1, 2):
        raise Refused(2, 6)
    if identifier == 0:
        raise Refused(2, 3)
    parameters = content[10:]
    if size != len(parameters):
        raise Refused(2, 0)
    found, at = None, 0
    while at < len(parameters):
        if at + 2 > len(parameters) or at + 2 + parameters[at + 1] > len(parameters):
            raise Refused(2, 0)
        if parameters[at] != 2:
            raise Refused(2, 4)
        for code, body in capabilities(parameters[at + 2:at + 2 + parameters[at + 1]]):
            if code == 65 and len(body) == 4 and found is None:
                found = struct.unpack(">I", body)[0]
        at += 2 + parameters[at + 1]
    return my_as if found is None else found, hold


def written_open(asn, hold, identifier):
    in_two = asn if asn < 65536 else 23456
    named = bytes.fromhex("0104001f0009") + b"\x41\x04" + struct.pack(">I", asn)
    head = struct.pack(">BHH", 4, in_two, hold) + identifier
    return message(OPEN, head + bytes([2 + len(named), 2, len(named)]) + named)


def read_nlri(value):
    """The names in a list: (SFIR, RD, type) and (SFPR, RD, SPI), others left out."""
    names, at = [], 0
    while at < len(value):
        if at + 4 > len(value):
            raise Refused(3, 1)
        kind, length = struct.unpack(">HH", value[at:at + 4])
        body = value[at + 4:at + 4 + length]
        if len(body) < length or length != {SFIR: 10, SFPR: 11}.get(kind, length):
            raise Refused(3, 1)
        if kind in (SFIR, SFPR):
            names.append((kind, body[:8], int.from_bytes(body[8:], "big")))
        at += 4 + length
    return names


def written_nlri(name):
    kind, rd, number = name
    body = rd + number.to_bytes(2 if kind == SFIR else 3, "big")
    return struct.pack(">HH", kind, len(body)) + body


def read_attributes(value):
    """The attributes of an UPDATE as flags, kind and value."""
    at = 0
    while at < len(value):
        long = bool(value[at] & 0x10)
        begin = at + (4 if long else 3)
        if begin > len(value):
            raise Refused(3, 1)
        length = int.from_bytes(value[at + 2:begin], "big")
        if begin + length > len(value):
            raise Refused(3, 1)
        yield value[at], value[at + 1], value[begin:begin + length]
        at = begin + length


def written_attribute(flags, kind, value):
    if len(value) > 255:
        return struct.pack(">BBH", flags | 0x10, kind, len(value)) + value
    return bytes([flags, kind, len(value)]) + value


def check_family(kind, value):
    """Refuses the value of an attribute of kind 14 or 15 that does not hold its parts."""
    if len(value) < 3:
        raise Refused(3, 1)
    if value[:3] != FAMILY:
        return
    if kind == UNREACH:
        read_nlri(value[3:])
        return
    if len(value) < 5 or value[3] not in (4, 16) or 4 + value[3] + 1 > len(value):
        raise Refused(3, 1)
    read_nlri(value[5 + value[3]:])


def read_update(content):
    """The attributes of the content of an UPDATE."""
    withdrawn = int.from_bytes(content[:2], "big")
    if len(content) < 4 or withdrawn + 4 > len(content):
        raise Refused(3, 1)
    begin = withdrawn + 4
    size = int.from_bytes(content[begin - 2:begin], "big")
    if begin + size > len(content):
        raise Refused(3, 1)
    attributes = []
    for flags, kind, value in read_attributes(content[begin:begin + size]):
        if kind in (REACH, UNREACH):
            if any(other[1] == kind for other in attributes):
                raise Refused(3, 1)
            check_family(kind, value)
        attributes.append((flags, kind, value))
    return attributes


def written_update(attributes):
    joined = b"".join(attributes)
    return message(UPDATE, bytes(2) + struct.pack(">H", len(joined)) + joined)


def parts(value):
    """The parts of an SFP value or of a hop as kind and value; None behind them where one does not fit."""
    at = 0
    while at < len(value):
        length = int.from_bytes(value[at + 1:at + 3], "big")
        if at + 3 > len(value) or at + 3 + length > len(value):
            yield None
            return
        yield value[at], value[at + 3:at + 3 + length]
        at += 3 + length


def read_hop(value):
    """The service index of a hop and its types with their RDs; None where it is refused."""
    types = []
    for part in parts(value[1:]):
        if part is None or part[0] in (0, 1, 2, 4, 5):
            return None
        if part[0] != 3:
            continue
        kind, rds = int.from_bytes(part[1][:2], "big"), part[1][2:]
        if len(part[1]) < 2 or len(rds) % 8 or kind < 32:
            return None
        types.append((kind, [rds[at:at + 8] for at in range(0, len(rds), 8)]))
    return value[0], types


def read_sfp(value):
    """The hops of an SFP value; None where it is refused."""
    hops = []
    for part in parts(value):
        if part is None or part[0] in (0, 3, 4, 5) or (part[0] == 1 and len(part[1]) != 12):
            return None
        if part[0] != 2:
            continue
        hop = read_hop(part[1]) if part[1] else None
        if hop is None or hop[0] == 0 or (hops and hop[0] >= hops[-1][0]):
            return None
        hops.append(hop)
    return hops or None


def written_part(kind, value):
    return bytes([kind]) + struct.pack(">H", len(value)) + value


def written_sfp(hops):
    written = b""
    for si, types in hops:
        named = b"".join(written_part(3, struct.pack(">H", kind) + b"".join(rds)) for kind, rds in types)
        written += written_part(2, bytes([si]) + named)
    return written
