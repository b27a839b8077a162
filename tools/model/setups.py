"""Setups and routes as texts. Both are taken to be right: what is refused in them is no part of the model."""

PROTOCOLS = {"tcp": 6, "udp": 17}


class Setup:
    def __init__(self):
        self.local_as, self.local_id, self.hold = 0, b"", 0
        self.targets, self.peers = set(), {}
        self.forwarders, self.addresses = [], []
        self.ingress = None
        self.instances, self.rules = [], []


class Instance:
    def __init__(self, name, rd, kind, function):
        self.name, self.rd, self.kind, self.function = name, rd, kind, function


class Rule:
    def __init__(self, vlan, source, destination, protocol, ports, action):
        self.vlan, self.source, self.destination = vlan, source, destination
        self.protocol, self.ports, self.action = protocol, ports, action


def address(word):
    if "." in word:
        return bytes(int(part) for part in word.split("."))
    return bytes.fromhex(word)


def digits(word):
    return b"" if word == "-" else bytes.fromhex(word)


def protocol(word):
    return PROTOCOLS[word] if word in PROTOCOLS else int(word)


def part(word, read):
    """A part of a rule: None for any."""
    return None if word == "*" else read(word)


def prefix(word):
    base, length = word.split("/")
    return address(base), int(length)


def port_range(word):
    low, high = word.split("-")
    return int(low), int(high)


def action(words):
    if words[0] != "path":
        return (words[0],)
    context = None if words[4] == "md2" else bytes.fromhex(words[4][len("md1:"):])
    return "path", int(words[1]), int(words[2]), int(words[3]), context


def function(words):
    name, rest = words[0], words[1:]
    if name == "firewall":
        return name, protocol(rest[0]), int(rest[1]), int(rest[2])
    if name == "nat":
        return name, rest[0], address(rest[1]), address(rest[2])
    if name in ("remark", "push-vlan"):
        return name, int(rest[0])
    if name == "stamp":
        return name, bytes.fromhex(rest[0]), int(rest[1]), digits(rest[2])
    if name == "require-meta":
        return name, bytes.fromhex(rest[0]), int(rest[1])
    return (name,)


def take(setup, words):
    statement, rest = words[0], words[1:]
    if statement == "local":
        setup.local_as, setup.local_id, setup.hold = int(rest[0]), address(rest[1]), int(rest[2])
    elif statement == "target":
        setup.targets.add(bytes.fromhex(rest[0]))
    elif statement == "peer":
        setup.peers[int(rest[0])] = int(rest[1])
    elif statement == "forwarder":
        setup.forwarders.append(rest[0])
        setup.addresses.append(address(rest[1]))
    elif statement == "ingress":
        setup.ingress = setup.forwarders.index(rest[0])
    elif statement == "instance":
        setup.instances.append(Instance(rest[0], bytes.fromhex(rest[1]), int(rest[2]), function(rest[4:])))
    elif statement == "rule":
        parts = (part(rest[0], int), part(rest[1], prefix), part(rest[2], prefix))
        setup.rules.append(Rule(*parts, part(rest[3], protocol), part(rest[4], port_range), action(rest[5:])))


def read(text):
    setup = Setup()
    for line in text.split("\n"):
        if line and not line.startswith("#"):
            take(setup, line.split(" "))
    return setup


class Route:
    """A line of a routes text: an instance (SFIR) of a kind, or a path (SFPR) with an SPI and hops."""

    def __init__(self, rd, kind=None, next_hop=b"", spi=None, targets=(), hops=()):
        self.rd, self.kind, self.next_hop, self.spi = rd, kind, next_hop, spi
        self.targets, self.hops = list(targets), list(hops)


def targets_of(word):
    return [] if word == "-" else [bytes.fromhex(target) for target in word.split(",")]


def hop(word):
    si, types = word.split("=")
    named = []
    for one in types.split(";"):
        kind, rds = one.split(":")
        named.append((int(kind), [bytes.fromhex(rd) for rd in rds.split(",") if rd]))
    return int(si), named


def read_routes(text):
    routes = []
    for line in text.splitlines():
        words = line.split(" ")
        rd = bytes.fromhex(words[1])
        if words[0] == "sfir":
            routes.append(Route(rd, int(words[2]), address(words[3]), targets=targets_of(words[4])))
        else:
            hops = [hop(word) for word in words[4:]]
            routes.append(Route(rd, next_hop=bytes(4), spi=int(words[2]), targets=targets_of(words[3]), hops=hops))
    return routes
