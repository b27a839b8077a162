"""The fields of a frame, and the edits of functions."""

TAGS = (b"\x81\x00", b"\x88\xa8")
MOST_CAPTURED = 262144
TCP, UDP = 6, 17


class Fields:
    """Where the parts of a frame stand, and what they say; None for what is not captured."""

    def __init__(self, data):
        self.vlan = self.ether = self.ipv4 = self.ipv6 = None
        self.protocol = self.transport = self.to_port = self.source = self.destination = None
        at, tags = 12, 0
        while tags < 2 and data[at:at + 2] in TAGS and at + 4 <= len(data):
            if tags == 0:
                self.vlan = int.from_bytes(data[at + 2:at + 4], "big") & 0xFFF
            at, tags = at + 4, tags + 1
        if at + 2 > len(data):
            return
        self.ether = int.from_bytes(data[at:at + 2], "big")
        self.read_ip(data, at + 2)

    def read_ip(self, data, at):
        rest = data[at:]
        if self.ether == 0x0800 and rest[:1] and rest[0] >> 4 == 4 and 20 <= 4 * (rest[0] & 15) <= len(rest):
            self.ipv4, self.protocol = at, rest[9]
            self.source, self.destination = rest[12:16], rest[16:20]
            if int.from_bytes(rest[6:8], "big") & 0x1FFF == 0:
                self.transport = at + 4 * (rest[0] & 15)
        elif self.ether == 0x86DD and rest[:1] and rest[0] >> 4 == 6 and len(rest) >= 40:
            self.ipv6, self.protocol = at, rest[6]
            self.source, self.destination = rest[8:24], rest[24:40]
            self.transport = at + 40
        if self.protocol in (TCP, UDP) and self.transport is not None and self.transport + 4 <= len(data):
            self.to_port = int.from_bytes(data[self.transport + 2:self.transport + 4], "big")


def word(data, at):
    return int.from_bytes(data[at:at + 2], "big")


def put(data, at, new):
    return data[:at] + new + data[at + len(new):]


def adjusted(checksum, old, new):
    """A checksum after a word that it covers has changed."""
    total = (~checksum & 0xFFFF) + (~old & 0xFFFF) + new
    while total > 0xFFFF:
        total = (total & 0xFFFF) + (total >> 16)
    return ~total & 0xFFFF


def changed(data, at, new, checksum):
    """New bytes in place of whole words, with the checksum at an offset adjusted word by word."""
    total = word(data, checksum)
    for offset in range(0, len(new), 2):
        total = adjusted(total, word(data, at + offset), word(new, offset))
    return put(put(data, at, new), checksum, total.to_bytes(2, "big"))


def remark(data, dscp):
    fields = Fields(data)
    if fields.ipv4 is not None:
        at = fields.ipv4
        return changed(data, at, bytes([data[at], dscp << 2 | data[at + 1] & 3]), at + 10)
    if fields.ipv6 is not None:
        at = fields.ipv6
        kept = word(data, at) & 0xF03F
        return put(data, at, (kept | dscp << 6).to_bytes(2, "big"))
    return data


def transport_checksum(fields, data):
    """Where the checksum of TCP or UDP stands, or None where it is not captured or there is none."""
    offset = {TCP: 16, UDP: 6}.get(fields.protocol)
    if offset is None or fields.transport is None or fields.transport + offset + 2 > len(data):
        return None
    at = fields.transport + offset
    return None if fields.protocol == UDP and word(data, at) == 0 else at


def set_address(data, side, old, new):
    fields = Fields(data)
    if fields.ipv4 is None or (fields.source if side == "source" else fields.destination) != old:
        return data
    checksum = transport_checksum(fields, data)
    at = fields.ipv4 + (12 if side == "source" else 16)
    if checksum is not None:
        data = put(data, checksum, changed(data, at, new, checksum)[checksum:checksum + 2])
        if fields.protocol == UDP and word(data, checksum) == 0:
            data = put(data, checksum, b"\xff\xff")
    return changed(data, at, new, fields.ipv4 + 10)


def lower_hop_limit(data):
    """The frame with its hop limit one lower; None where it is spent."""
    fields = Fields(data)
    if fields.ipv4 is not None:
        at = fields.ipv4
        if data[at + 8] <= 1:
            return None
        return changed(data, at + 8, bytes([data[at + 8] - 1, data[at + 9]]), at + 10)
    if fields.ipv6 is not None:
        at = fields.ipv6
        return None if data[at + 7] <= 1 else put(data, at + 7, bytes([data[at + 7] - 1]))
    return data
