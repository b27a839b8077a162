"""Inputs that the program makes: the control file of a peer's routes, and generated frames and segments."""
import struct

import bgp
import captures
import controls
import runs
import setups

# The setup of generated inputs, and the routes that its peer announces first.
SETUP = """local 65000 192.0.2.1 90
peer 1 65001
forwarder f0 10.0.0.1
forwarder f1 10.0.0.2
ingress f0
instance fw 0000fde800000001 41 aware firewall tcp 23 23
instance nat 0000fde800000002 42 proxy nat source 10.1.0.5 192.0.2.9
instance vlan 0000fde800000003 43 proxy push-vlan 7
rule * * * * * path 42 255 63 md2
"""
ROUTES = """sfir 0000fde800000001 41 10.0.0.2 -
sfir 0000fde800000002 42 10.0.0.1 -
sfir 0000fde800000003 43 10.0.0.1 -
sfpr 0000fde80000002a 42 - 255=43:0000000000000000 254=42:0000fde800000002 253=41:0000000000000000
"""
FORM = captures.FORMS[bytes.fromhex("d4c3b2a1")]
BETWEEN = 64
TCP = 6


def announced(setup, peer, route):
    """The UPDATE by which a peer announces a route."""
    asn = setup.peers[peer]
    attributes = [bgp.written_attribute(0x40, 1, b"\0")]
    if asn == setup.local_as:
        attributes += [bgp.written_attribute(0x40, 2, b""), bgp.written_attribute(0x40, 5, struct.pack(">I", 100))]
    else:
        attributes.append(bgp.written_attribute(0x40, 2, b"\x02\x01" + struct.pack(">I", asn)))
    name = (bgp.SFIR, route.rd, route.kind) if route.spi is None else (bgp.SFPR, route.rd, route.spi)
    reach = bgp.FAMILY + bytes([len(route.next_hop)]) + route.next_hop + b"\0" + bgp.written_nlri(name)
    attributes.append(bgp.written_attribute(0x80, bgp.REACH, reach))
    if route.targets:
        attributes.append(bgp.written_attribute(0xC0, bgp.COMMUNITIES, b"".join(route.targets)))
    if route.spi is not None:
        attributes.append(bgp.written_attribute(0xC0, bgp.SFP, bgp.written_sfp(route.hops)))
    return bgp.written_update(attributes)


def withdrawn(route):
    """The UPDATE by which a peer withdraws a route."""
    name = (bgp.SFIR, route.rd, route.kind) if route.spi is None else (bgp.SFPR, route.rd, route.spi)
    return bgp.written_update([bgp.written_attribute(0x80, bgp.UNREACH, bgp.FAMILY + bgp.written_nlri(name))])


def announcement(setup, peer, routes):
    """The segments by which a peer connects and announces its routes, all at moment 0 and position 0."""
    identifier = struct.pack(">HH", 0, peer)
    said = [bgp.written_open(setup.peers[peer], setup.hold, identifier), bgp.message(bgp.KEEPALIVE)]
    said += [announced(setup, peer, route) for route in routes]
    return [controls.Segment(controls.CONNECT, peer, 0, 0)] + [
        controls.Segment(controls.BYTES, peer, 0, 0, data) for data in said]


def checksum(data):
    """The checksum over whole words in which its own word is 0."""
    total = sum(struct.unpack(f">{len(data) // 2}H", data))
    while total > 0xFFFF:
        total = (total & 0xFFFF) + (total >> 16)
    return ~total & 0xFFFF


def ipv4(length, identification, protocol, source, destination):
    """An IPv4 header with the right checksum; the packet is not to be fragmented and has a hop limit of 64."""
    fields = (0x45, 0, length, identification, 0x4000, 64, protocol, 0, source, destination)
    header = struct.pack(">BBHHHBBH4s4s", *fields)
    return header[:10] + struct.pack(">H", checksum(header)) + header[12:]


def generated_frame(number, draw):
    length = 60 + draw % 1441
    link = bytes.fromhex("0200000000020200000000010800")
    network = ipv4(length - len(link), number % 65536, TCP, bytes([10, 1, 0, 5]), bytes([198, 51, 100, draw % 256]))
    ports = struct.pack(">HH", 49152, 23 if draw % 16 == 0 else 443)
    data = link + network + ports
    return captures.Frame(number, 0, length, data + bytes(length - len(data)))


def draws(seed):
    state = seed
    while True:
        state = (state * 6364136223846793005 + 1442695040888963407) % 2 ** 64
        yield state // 2 ** 33


def generated(seed, count):
    """The capture and the control file of `generate`."""
    setup, routes = setups.read(SETUP), setups.read_routes(ROUTES)
    frames = [generated_frame(number, draw) for number, draw in zip(range(count), draws(seed))]
    segments = announcement(setup, 1, routes)
    for number, position in enumerate(range(BETWEEN, count, BETWEEN), start=1):
        said = withdrawn(routes[0]) if number % 2 else announced(setup, 1, routes[0])
        segments.append(controls.Segment(controls.BYTES, 1, 0, position, said))
    capture = captures.written_head(FORM) + b"".join(captures.written(FORM, frame) for frame in frames)
    return capture, b"".join(controls.written(segment) for segment in segments)


def summary(seed, count):
    """The line that `generate` writes."""
    run = runs.Single(setups.read(SETUP), *generated(seed, count))
    egress = sum(record.end in ("egress", "bypass") for record in run.records)
    return f"frames={count} egress={egress} dropped={count - egress} last-version={run.version}"
