"""Captures: libpcap files of version 2.4 in their four forms."""
import struct

HEAD, RECORD = 24, 16
MOST_CAPTURED, MOST_ORIGINAL = 262144, 2147483647

# The four magics as they stand in a file: the order of its numbers, and whether fractions are nanoseconds.
FORMS = {
    bytes.fromhex("a1b2c3d4"): (">", False),
    bytes.fromhex("d4c3b2a1"): ("<", False),
    bytes.fromhex("a1b23c4d"): (">", True),
    bytes.fromhex("4d3cb2a1"): ("<", True),
}


class Frame:
    """Captured bytes with the length on the wire and the times as read."""

    def __init__(self, seconds, fraction, original, data):
        self.seconds, self.fraction, self.original, self.data = seconds, fraction, original, data


def head_fault(data):
    """The refusal of a file header, as its place and its reason, or None."""
    if len(data) >= 4 and data[:4] not in FORMS:
        return 0, "magic"
    if len(data) < 8:
        return len(data), "short"
    order = FORMS[data[:4]][0]
    if struct.unpack(order + "HH", data[4:8]) != (2, 4):
        return 4, "version"
    if len(data) < HEAD:
        return len(data), "short"
    if struct.unpack(order + "I", data[20:24])[0] != 1:
        return 20, "link"
    return None


def read(data):
    """The form of a capture or None, its whole frames, and its refusal or None."""
    fault = head_fault(data)
    if fault:
        return None, [], fault
    form, frames, at = FORMS[data[:4]], [], HEAD
    while at < len(data):
        head = data[at:at + RECORD]
        captured = struct.unpack(form[0] + "I", head[8:12])[0] if len(head) >= 12 else None
        if captured is not None and captured > MOST_CAPTURED:
            return form, frames, (at + 8, "length")
        original = struct.unpack(form[0] + "I", head[12:16])[0] if len(head) == RECORD else None
        if original is not None and not captured <= original <= MOST_ORIGINAL:
            return form, frames, (at + 12, "original")
        if original is None or at + RECORD + captured > len(data):
            return form, frames, (len(data), "short")
        seconds, fraction = struct.unpack(form[0] + "II", head[:8])
        at += RECORD + captured
        frames.append(Frame(seconds, fraction, original, data[at - captured:at]))
    return form, frames, None


def written_head(form):
    magic = next(magic for magic, other in FORMS.items() if other == form)
    return magic + struct.pack(form[0] + "HHIIII", 2, 4, 0, 0, MOST_CAPTURED, 1)


def written(form, frame):
    """A frame as a record of a capture; captured bytes past the limit are cut."""
    data = frame.data[:MOST_CAPTURED]
    return struct.pack(form[0] + "IIII", frame.seconds, frame.fraction, len(data), frame.original) + data
