"""The walk of a frame: where it begins, the turns of forwarders, what functions do, and how it ends."""
import captures
import frames
import tables

NSH_ETHER, MOST_CONTEXT = 0x894F, 244


class Record:
    """What became of a frame."""

    def __init__(self, end, path=None):
        self.path, self.versions, self.visits, self.end, self.worker = path, [], [], end, 0

    def line(self, number):
        path = "-" if self.path is None else self.path
        versions = ",".join(str(version) for version in self.versions) or "-"
        visits = ",".join(self.visits) or "-"
        return f"{number} worker={self.worker} path={path} versions={versions} visits={visits} end={self.end}\n"


def item(class_and_kind, body):
    """A context item of MD Type 2, padded to whole words."""
    return class_and_kind + bytes([len(body)]) + body + bytes(-len(body) % 4)


def items(context):
    """The class and kind of each item."""
    at = 0
    while at < len(context):
        yield context[at:at + 3]
        at += 4 + (context[at + 3] & 0x7F) + -(context[at + 3] & 0x7F) % 4


class Packet:
    """A frame under way, with its header."""

    def __init__(self, frame, spi, si, ttl, fixed):
        self.data, self.original = frame.data, frame.original
        self.spi, self.si, self.ttl = spi, si, ttl
        self.md, self.context = (2, b"") if fixed is None else (1, fixed)

    def header(self):
        words = (8 + len(self.context)) // 4
        head = (self.ttl << 6 | words).to_bytes(2, "big") + bytes([self.md, 3])
        return head + self.spi.to_bytes(3, "big") + bytes([self.si]) + self.context

    def serve(self, function):
        """Does what a function does; the reason where it drops the frame, else None."""
        return getattr(self, "do_" + function[0].replace("-", "_"))(*function[1:])

    def do_pass(self):
        return None

    def do_firewall(self, protocol, low, high):
        fields = frames.Fields(self.data)
        denied = fields.protocol == protocol and fields.to_port is not None and low <= fields.to_port <= high
        return "denied" if denied else None

    def do_remark(self, dscp):
        self.data = frames.remark(self.data, dscp)

    def do_nat(self, side, old, new):
        self.data = frames.set_address(self.data, side, old, new)

    def do_hoplimit(self):
        lowered = frames.lower_hop_limit(self.data)
        if lowered is None:
            return "hop-limit"
        self.data = lowered
        return None

    def do_push_vlan(self, vid):
        if len(self.data) < 12:
            return None
        if len(self.data) + 4 > frames.MOST_CAPTURED:
            return "too-long"
        self.data = self.data[:12] + b"\x81\x00" + vid.to_bytes(2, "big") + self.data[12:]
        self.original += 4
        return None

    def do_pop_vlan(self):
        if len(self.data) >= 16 and self.data[12:14] in frames.TAGS:
            self.data = self.data[:12] + self.data[16:]
            self.original -= 4

    def do_stamp(self, of_class, kind, body):
        if self.md == 1:
            return "meta"
        pushed = item(of_class + bytes([kind]), body)
        if len(self.context) + len(pushed) > MOST_CONTEXT:
            return "meta-full"
        self.context += pushed
        return None

    def do_require_meta(self, of_class, kind):
        return None if self.md == 2 and of_class + bytes([kind]) in items(self.context) else "meta"

    def do_clear_meta(self):
        self.context = bytes(16) if self.md == 1 else b""


def lies_in(address, prefix):
    base, length = prefix
    if address is None or len(address) != len(base):
        return False
    shift = 8 * len(base) - length
    return int.from_bytes(address, "big") >> shift == int.from_bytes(base, "big") >> shift


def matches(rule, fields):
    if rule.vlan is not None and fields.vlan != rule.vlan:
        return False
    if rule.source is not None and not lies_in(fields.source, rule.source):
        return False
    if rule.destination is not None and not lies_in(fields.destination, rule.destination):
        return False
    if rule.protocol is not None and fields.protocol != rule.protocol:
        return False
    return rule.ports is None or (fields.to_port is not None and rule.ports[0] <= fields.to_port <= rule.ports[1])


def verdict(setup, data):
    fields = frames.Fields(data)
    if fields.ether == NSH_ETHER:
        return ("nsh-ingress",)
    return next((rule.action for rule in setup.rules if matches(rule, fields)), ("bypass",))


def handed(frame, packet, here, there):
    """The packet from one forwarder to another, as a frame of a trace."""
    head = b"\x02\0\0\0\0" + bytes([there]) + b"\x02\0\0\0\0" + bytes([here]) + b"\x89\x4f" + packet.header()
    return captures.Frame(frame.seconds, frame.fraction, packet.original + len(head), head + packet.data)


def forward(setup, ask, frame, trace=None):
    """The record of a frame over the version and its table that each asking gives, and the frame as its walk leaves it."""
    found = verdict(setup, frame.data)
    if found[0] != "path":
        end = {"bypass": "bypass", "refuse": "drop:rule", "nsh-ingress": "drop:nsh-ingress"}[found[0]]
        return Record(end), frame
    packet, record, here = Packet(frame, *found[1:]), Record(None, found[1]), setup.ingress
    while record.end is None:
        here = turn(setup, ask, frame, packet, record, here, trace)
    return record, captures.Frame(frame.seconds, frame.fraction, packet.original, packet.data)


def turn(setup, ask, frame, packet, record, here, trace):
    """One turn of a forwarder; the forwarder of the next."""
    packet.ttl = 63 if packet.ttl == 0 else packet.ttl - 1
    if packet.ttl == 0:
        record.end = "drop:ttl"
        return here
    version, table = ask()
    record.versions.append(version)
    if packet.spi not in table:
        record.end = "drop:no-path"
        return here
    row = tables.hop_for(table[packet.spi], packet.si)
    if row is None:
        record.end = "egress"
        return here
    packet.si, chosen = row
    if chosen is None:
        record.end = f"drop:no-instance({packet.si})"
        return here
    there, number = chosen
    if there != here:
        if trace is not None:
            trace.append(handed(frame, packet, here, there))
        return there
    instance = setup.instances[number]
    record.visits.append(instance.name)
    reason = packet.serve(instance.function)
    if reason:
        record.end = f"drop:{reason}({instance.name})"
    else:
        packet.si -= 1
    return here
