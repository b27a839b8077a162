"""Control files: the segments of the peers, in order."""
import struct

HEAD = 23
CONNECT, BYTES, CLOSE = 1, 2, 3


class Segment:
    def __init__(self, kind, peer, moment, position, data=b""):
        self.kind, self.peer, self.moment, self.position, self.data = kind, peer, moment, position, data


def head_fault(head, at, last, peers):
    """The refusal of a segment's fields so far as they are whole, as its place and its reason, or None."""
    if len(head) >= 1 and head[0] not in (CONNECT, BYTES, CLOSE):
        return at, "kind"
    if len(head) >= 3 and struct.unpack(">H", head[1:3])[0] not in peers:
        return at + 1, "peer"
    if len(head) >= 11 and struct.unpack(">Q", head[3:11])[0] < last.moment:
        return at + 3, "moment"
    if len(head) >= 19 and struct.unpack(">Q", head[11:19])[0] < last.position:
        return at + 11, "position"
    if len(head) == HEAD:
        length = struct.unpack(">I", head[19:])[0]
        if length > 65535 or (head[0] != BYTES and length > 0):
            return at + 19, "length"
    return None


def read(data, peers):
    """The good segments of a control file, and its refusal or None."""
    segments, at, last = [], 0, Segment(CLOSE, 0, 0, 0)
    while at < len(data):
        head = data[at:at + HEAD]
        fault = head_fault(head, at, last, peers)
        if fault:
            return segments, fault
        if len(head) < HEAD:
            return segments, (len(data), "short")
        kind, peer, moment, position, length = struct.unpack(">BHQQI", head)
        if at + HEAD + length > len(data):
            return segments, (len(data), "short")
        at += HEAD + length
        last = Segment(kind, peer, moment, position, data[at - length:at])
        segments.append(last)
    return segments, None


def written(segment):
    head = (segment.kind, segment.peer, segment.moment, segment.position, len(segment.data))
    return struct.pack(">BHQQI", *head) + segment.data
