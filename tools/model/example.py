"""The capture and the control file of examples/chain, packet by packet."""
import os
import struct

import captures
import controls
import inputs
import setups

FORM = captures.FORMS[bytes.fromhex("d4c3b2a1")]
FOLDER = os.path.join(os.path.dirname(os.path.realpath(__file__)), "..", "..", "examples", "chain")
NOON = 1700000000
TCP, UDP, ICMP = 6, 17, 1
SYN = 2

HOST, GATEWAY = bytes.fromhex("020000000001"), bytes.fromhex("020000000002")
INSIDE, BESIDE = bytes([10, 1, 0, 5]), bytes([10, 1, 0, 6])
WEB, SHELL, NAMES = bytes([198, 51, 100, 7]), bytes([198, 51, 100, 9]), bytes([198, 51, 100, 53])
STRANGER = bytes([172, 16, 0, 9])

# A question for the address of example.org.
QUESTION = bytes.fromhex("12340100000100000000000007") + b"example\x03org\x00" + bytes.fromhex("00010001")


def transport(protocol, source, destination, segment, at):
    """A segment with its right checksum, which stands at an offset and covers the addresses too."""
    pseudo = source + destination + struct.pack(">HH", protocol, len(segment))
    checksum = inputs.checksum(pseudo + segment + bytes(len(segment) % 2))
    return segment[:at] + struct.pack(">H", checksum) + segment[at + 2:]


def tcp(source, destination, port):
    """The first segment of a connection."""
    segment = struct.pack(">HHIIBBHHH", 49152, port, 1, 0, 5 << 4, SYN, 64240, 0, 0)
    return transport(TCP, source, destination, segment, 16)


def udp(source, destination, port, data):
    segment = struct.pack(">HHHH", 49152, port, 8 + len(data), 0) + data
    return transport(UDP, source, destination, segment, 6)


def packet(number, protocol, source, destination, segment):
    header = inputs.ipv4(20 + len(segment), number, protocol, source, destination)
    return GATEWAY + HOST + b"\x08\x00" + header + segment


def web(number, source):
    return packet(number, TCP, source, WEB, tcp(source, WEB, 443))


def who_has(sender, wanted):
    """An ARP request."""
    return b"\xff" * 6 + HOST + bytes.fromhex("0806" "0001080006040001") + HOST + sender + bytes(6) + wanted


def echo(number, source, destination):
    """An ICMP echo request."""
    said = bytes.fromhex("0800000000010001") + bytes(range(16))
    return packet(number, ICMP, source, destination, said[:2] + struct.pack(">H", inputs.checksum(said)) + said[4:])


def frames():
    return [
        web(0, INSIDE),
        packet(1, TCP, INSIDE, SHELL, tcp(INSIDE, SHELL, 23)),
        who_has(INSIDE, bytes([10, 1, 0, 1])),
        packet(3, UDP, INSIDE, NAMES, udp(INSIDE, NAMES, 53, QUESTION)),
        web(4, INSIDE),
        echo(5, STRANGER, WEB),
        web(6, INSIDE),
        web(7, BESIDE),
    ]


def capture():
    """The frames, half a second apart, each captured whole."""
    records = [captures.Frame(NOON + number // 2, number % 2 * 500000, len(data), data)
               for number, data in enumerate(frames())]
    return captures.written_head(FORM) + b"".join(captures.written(FORM, record) for record in records)


def changes(setup, routes):
    """All routes are announced first; the firewall's goes before frame 4 and comes again before frame 6."""
    segments = inputs.announcement(setup, 1, routes)
    segments.append(controls.Segment(controls.BYTES, 1, 2000000, 4, inputs.withdrawn(routes[0])))
    segments.append(controls.Segment(controls.BYTES, 1, 3000000, 6, inputs.announced(setup, 1, routes[0])))
    return b"".join(controls.written(segment) for segment in segments)


def text(name, folder=FOLDER):
    with open(os.path.join(folder, name)) as file:
        return file.read()


def make(folder):
    """Writes both files beside the setup and the routes of a folder."""
    setup, routes = setups.read(text("setup.txt", folder)), setups.read_routes(text("routes.txt", folder))
    for name, data in (("frames.pcap", capture()), ("changes.control", changes(setup, routes))):
        with open(os.path.join(folder, name), "wb") as file:
            file.write(data)
