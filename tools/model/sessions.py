"""BGP sessions: what is sent, and which routes come and go, event by event."""
import struct

import bgp
import controls

IDLE, OPEN_SENT, OPEN_CONFIRM, ESTABLISHED = "idle", "open-sent", "open-confirm", "established"
SECOND = 1000000
MOST_ROUTES = 1024


class Change:
    """The change of one peer's routes: all of them go first, then those withdrawn, then the others come."""

    def __init__(self, peer, all=False, withdrawn=(), announced=()):
        self.peer, self.all = peer, all
        self.withdrawn, self.announced = list(withdrawn), list(announced)


class Route:
    def __init__(self, next_hop, targets, hops):
        self.next_hop, self.targets, self.hops = next_hop, targets, hops


def first(attributes, kind):
    return next((attribute for attribute in attributes if attribute[1] == kind), None)


def of_family(attribute):
    return attribute is not None and attribute[2][:3] == bgp.FAMILY


def are_communities(attribute):
    flags, _, value = attribute
    return flags & 0xC0 == 0xC0 and value != b"" and len(value) % 8 == 0


def path_of(attribute):
    return bgp.read_sfp(attribute[2]) if attribute is not None and attribute[0] & 0xC0 == 0xC0 else None


def change_of(peer, attributes):
    """The meaning of an UPDATE."""
    change = Change(peer)
    unreach, reach = first(attributes, bgp.UNREACH), first(attributes, bgp.REACH)
    if of_family(unreach):
        change.withdrawn += bgp.read_nlri(unreach[2][3:])
    if not of_family(reach):
        return change
    size = reach[2][3]
    names, next_hop = bgp.read_nlri(reach[2][5 + size:]), reach[2][4:4 + size]
    communities = first(attributes, bgp.COMMUNITIES)
    if communities is not None and not are_communities(communities):
        change.withdrawn += names
        return change
    value = communities[2] if communities is not None else b""
    targets = [value[at:at + 8] for at in range(0, len(value), 8)]
    targets = [target for target in targets if target[0] in (0, 1, 2) and target[1] == 2]
    hops = path_of(first(attributes, bgp.SFP))
    for name in names:
        if name[0] == bgp.SFPR and hops is None:
            change.withdrawn.append(name)
        else:
            change.announced.append((name, Route(next_hop, targets, hops if name[0] == bgp.SFPR else None)))
    return change


class Session:
    """The local side of a session with one peer."""

    def __init__(self, setup, peer):
        self.setup, self.peer = setup, peer
        self.state, self.stream, self.names = IDLE, b"", set()
        self.last = self.sent = self.hold = 0

    def step(self, segment):
        """The bytes sent and the changes of routes for one event."""
        self.out, self.changes, self.now = b"", [], segment.moment
        if segment.kind == controls.CONNECT:
            self.connect()
        elif segment.kind == controls.CLOSE:
            self.end()
        elif self.state != IDLE:
            self.take(segment.data)
        return self.out, self.changes

    def send(self, data):
        self.out += data
        self.sent = self.now

    def end(self):
        if self.state == ESTABLISHED:
            self.changes.append(Change(self.peer, all=True))
        self.state, self.stream, self.names = IDLE, b"", set()

    def notify(self, code, subcode, info=b""):
        self.send(bgp.message(bgp.NOTIFICATION, bytes([code, subcode]) + info))
        self.end()

    def connect(self):
        self.end()
        self.last = self.now
        self.send(bgp.written_open(self.setup.local_as, self.setup.hold, self.setup.local_id))
        self.state = OPEN_SENT

    def timer(self):
        return 240 * SECOND if self.state == OPEN_SENT else self.hold

    def take(self, data):
        if self.timer() and self.now >= self.last + self.timer():
            self.notify(4, 0)
            return
        self.stream += data
        while self.state != IDLE and self.take_message():
            pass
        alive = self.state in (OPEN_CONFIRM, ESTABLISHED) and self.hold
        if alive and self.now >= self.sent + self.hold // 3:
            self.send(bgp.message(bgp.KEEPALIVE))

    def take_message(self):
        """Takes the next message; False where none is whole."""
        try:
            found = bgp.cut(self.stream)
            if found is None:
                return False
            kind, content, length = found
            opening = bgp.read_open(content) if kind == bgp.OPEN else None
        except bgp.Refused as refusal:
            self.notify(refusal.code, refusal.subcode, refusal.info)
            return True
        self.stream, self.last = self.stream[length:], self.now
        if kind == bgp.NOTIFICATION:
            self.end()
        elif kind == bgp.OPEN and self.state == OPEN_SENT:
            self.take_open(*opening)
        elif kind == bgp.KEEPALIVE and self.state in (OPEN_CONFIRM, ESTABLISHED):
            self.state = ESTABLISHED
        elif kind == bgp.UPDATE and self.state == ESTABLISHED:
            self.take_update(content)
        else:
            self.notify(5, 0)
        return True

    def take_open(self, asn, hold):
        if asn != self.setup.peers[self.peer]:
            self.notify(2, 2)
            return
        self.send(bgp.message(bgp.KEEPALIVE))
        self.hold = min(hold, self.setup.hold) * SECOND
        self.state = OPEN_CONFIRM

    def take_update(self, content):
        try:
            change = change_of(self.peer, bgp.read_update(content))
        except bgp.Refused as refusal:
            self.notify(refusal.code, refusal.subcode)
            return
        names = self.names - set(change.withdrawn) | {name for name, _ in change.announced}
        if len(names) > MOST_ROUTES:
            self.notify(6, 1)
            return
        self.names = names
        self.changes.append(change)


class Sessions:
    """The sessions with all peers of a setup."""

    def __init__(self, setup):
        self.of = {peer: Session(setup, peer) for peer in setup.peers}

    def step(self, segment):
        """The reply to one segment or None, and the changes of routes."""
        out, changes = self.of[segment.peer].step(segment)
        if not out:
            return None, changes
        return controls.Segment(controls.BYTES, segment.peer, segment.moment, segment.position, out), changes
