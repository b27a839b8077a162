"""Cases worked by hand from the formats, and whether the model says the same."""
import struct

import bgp
import captures
import controls
import inputs
import runs
import setups

# The setup of generated inputs with three instances of one kind at one forwarder in place of its own.
THREE = inputs.SETUP.replace("forwarder f1 10.0.0.2\n", "").split("instance")[0] + """instance p 0000fde800000004 44 aware pass
instance q 0000fde800000005 44 aware pass
instance r 0000fde800000006 44 aware pass
rule * * * * * path 42 255 63 md2
"""
CHAIN_FRAME = bytes.fromhex(
    "0200000000020200000000010800"
    "450005dc123440004006eea70a010005c6336407"
    "c00001bb000000010000000050" "10ffff1c460000") + bytes(42)
NANO = bytes.fromhex("a1b23c4d000200040000000000000000" "0004000000000001")


def counted_capture(count):
    """A capture of so many frames of the 60 bytes 00, 01 .. 3B, at second 1 and microsecond 2."""
    head = bytes.fromhex("d4c3b2a1020004000000000000000000" "0000040001000000")
    return head + (struct.pack("<IIII", 1, 2, 60, 60) + bytes(range(60))) * count


def chain_capture(port=443, size=96, original=1514):
    data = CHAIN_FRAME[:36] + struct.pack(">H", port) + CHAIN_FRAME[38:] + bytes(size - 96)
    return NANO + struct.pack(">IIII", 0, 0, size, original) + data


def chain_control():
    setup = setups.read(inputs.SETUP)
    return inputs.announcement(setup, 1, setups.read_routes(inputs.ROUTES))


def joined(segments):
    return b"".join(controls.written(segment) for segment in segments)


def single(setup, capture, segments):
    return runs.Single(setups.read(setup), capture, joined(segments))


def said(run):
    return run.lines().decode().splitlines()


def updates(lines, position=0):
    """The UPDATEs of routes of peer 1, as segments."""
    setup = setups.read(THREE)
    return [controls.Segment(controls.BYTES, 1, 0, position, inputs.announced(setup, 1, route))
            for route in setups.read_routes(lines)]


def opened():
    return inputs.announcement(setups.read(THREE), 1, [])


def instances(names):
    return "".join(f"sfir 0000fde80000000{name} 44 10.0.0.1 -\n" for name in names)


def announces():
    segments = chain_control()
    yield [len(controls.written(segment)) for segment in segments], [23, 66, 42, 85, 85, 85, 140]
    yield segments[1].data.hex(), "ff" * 16 + "002b0104fde9005a000000010e020c010400" "1f00094104" "0000fde9"
    yield segments[3].data.hex(), (
        "ff" * 16 + "003e02000000274001010040020602010000fde9800e17001f09040a00000200"
        "0001000a0000fde8000000010029")
    yield segments[6].data[16:18].hex(), "0075"


def versions():
    path = "sfpr 0000fde80000002a 42 - 255=44:0000000000000000\n"
    segments = opened() + updates(instances("456") + path)
    gone = inputs.withdrawn(setups.read_routes(instances("4"))[0])
    segments.append(controls.Segment(controls.BYTES, 1, 0, 0, gone))
    text, fault = runs.paths(setups.read(THREE), joined(segments))
    yield fault, None
    yield text.splitlines(), [
        "version 0", "version 1", "version 2", "version 3",
        "version 4", "path 42 255=p@f0", "version 5", "path 42 255=r@f0"]


def a_chain():
    run = single(inputs.SETUP, chain_capture(), chain_control())
    yield said(run), ["0 worker=0 path=42 versions=4,4,4,4,4 visits=vlan,nat,fw end=egress"]
    egress = run.egress()
    yield (len(egress), struct.unpack(">II", egress[32:40])), (140, (100, 1518))
    yield (egress[52:58].hex(), egress[68:70].hex(), egress[70:74].hex(), egress[94:96].hex()), (
        "810000070800", "36a4", "c0000209", "6442")
    yield len(run.reply_file()), 108
    packets = run.packets()
    yield (len(packets), struct.unpack(">II", packets[32:40])), (24 + 16 + 122, (122, 1540))
    yield packets[40:62].hex(), "020000000001020000000000894f" "0f02020300002afd"
    yield packets[62:], egress[40:]
    yield said(single(inputs.SETUP, chain_capture(port=23), chain_control())), [
        "0 worker=0 path=42 versions=4,4,4,4 visits=vlan,nat,fw end=drop:denied(fw)"]
    yield said(single(inputs.SETUP, chain_capture(size=262144, original=262144), chain_control())), [
        "0 worker=0 path=42 versions=4 visits=vlan end=drop:too-long(vlan)"]


def at_positions():
    announced = chain_control()
    late = [*announced[:3], controls.Segment(controls.BYTES, 1, 0, 3, announced[6].data)]
    none = [f"{number} worker=0 path=42 versions=0 visits=- end=drop:no-path" for number in range(3)]
    missing = [f"{number} worker=0 path=42 versions=1 visits=- end=drop:no-instance(255)" for number in range(3, 10)]
    yield said(single(inputs.SETUP, counted_capture(10), late)), none + missing
    late.append(controls.Segment(controls.BYTES, 1, 0, 7, announced[5].data))
    tagged = [f"{number} worker=0 path=42 versions=2,2 visits=vlan end=drop:no-instance(254)" for number in range(7, 10)]
    yield said(single(inputs.SETUP, counted_capture(10), late)), none + missing[:4] + tagged


def on_workers():
    """The run on several workers is the single run but for the workers, where no frame that asks a table has a round that changes it."""
    by_hand = {3: "0000111222", 4: "0001112233", 16: "0123456789"}
    for workers, shared in by_hand.items():
        run = runs.Threaded(setups.read(inputs.SETUP), counted_capture(10), joined(chain_control()), workers)
        yield "".join(str(record.worker) for record in run.records), shared
        alone = single(inputs.SETUP, counted_capture(10), chain_control())
        yield (run.egress(), run.reply_file()), (alone.egress(), alone.reply_file())
        yield [line.split(" ", 2)[2] for line in said(run)], [line.split(" ", 2)[2] for line in said(alone)]
    late = [*chain_control()[:3], controls.Segment(controls.BYTES, 1, 0, 3, chain_control()[6].data)]
    try:
        found = runs.Threaded(setups.read(inputs.SETUP), counted_capture(10), joined(late), 1).version
    except runs.Undetermined as fault:
        found = str(fault)
    yield found, "frame 3 may meet any of the versions 0 to 1"


def told(lines, workers, setup, count, segments):
    """None where the lines are those of a run, else what differs."""
    text = "".join(f"{number} {line}\n" for number, line in enumerate(lines)).encode()
    try:
        runs.Told(setups.read(setup), counted_capture(count), joined(segments), text, workers)
    except runs.Differs as what:
        return str(what)
    return None


def of_some_run():
    """Routes at positions on threads: what a round makes, its frames may meet or not; what rounds before made, they meet."""
    line = "worker={} path=42 versions={} visits={} end={}".format
    none = [line(worker, 0, "-", "drop:no-path") for worker in range(2)]
    missing = [line(worker, 1, "-", "drop:no-instance(255)") for worker in range(2)]
    tagged = [line(worker, "2,2", "vlan", "drop:no-instance(254)") for worker in range(2)]
    late = [*chain_control()[:3], controls.Segment(controls.BYTES, 1, 0, 3, chain_control()[6].data)]
    for lines, workers, wanted in (
            ([none[0]] * 10, 1, None), ([none[0]] * 3 + [missing[0]] * 7, 1, None), ([none[0]] * 5 + [missing[0]] * 5, 1, None),
            ([none[0]] * 3 + [missing[0]] * 3 + [none[1]] * 4, 2, None), ([none[0]] * 3 + [missing[0]] * 3 + [none[0]] * 4, 1, "line 6"),
            ([none[0]] * 2 + [missing[0]] * 8, 1, "line 2"), ([none[0]] * 9 + [none[1]], 1, "line 9"), ([none[0]] * 9, 1, "line 9"),
            ([none[0]] * 11, 1, "line 10"), ([none[0]] * 9 + [line(0, 1, "-", "drop:no-path")], 1, "line 9"),
            ([none[0]] * 9 + [line(0, "0,0", "-", "drop:no-path")], 1, "line 9"), ([none[0]] * 9 + [line(0, "00", "-", "drop:no-path")], 1, "line 9")):
        yield told(lines, workers, inputs.SETUP, 10, late), wanted
    later = late + [controls.Segment(controls.BYTES, 1, 0, 7, chain_control()[5].data)]
    for lines, wanted in (
            ([none[0]] * 7 + [missing[0]] * 3, None), ([none[0]] * 7 + [missing[0]] + [tagged[0]] * 2, None), ([none[0]] * 7 + [tagged[0]] * 2 + [missing[1]], None),
            ([none[0]] * 8 + [missing[0]] * 2, "line 7"), ([none[0]] * 7 + [tagged[0]] * 2 + [missing[0]], "line 9"),
            ([none[0]] * 6 + [tagged[0]] * 4, "line 6"), ([none[0]] * 7 + [line(0, "1,2", "vlan", "drop:no-instance(254)")] * 3, "line 7")):
        yield told(lines, 2, inputs.SETUP, 10, later), wanted
    path = "sfpr 0000fde80000002a 42 - 255=44:0000fde800000004 250=44:0000fde800000004\n"
    again = opened() + updates(instances("4") + path) + updates(path, position=1) * 2
    passed = "worker=0 path=42 versions={} visits=p,p end=egress".format
    for versions, wanted in (("2,2,2", None), ("2,3,4", None), ("2,4,4", None), ("4,4,4", None), ("3,2,4", "line 1"), ("1,2,3", "line 1"), ("4,4,5", "line 1")):
        yield told([passed("2,2,2"), passed(versions)], 1, THREE, 2, again), wanted


def two_hops():
    path = "sfpr 0000fde80000002a 42 - 255=44:0000fde800000004 250=44:0000fde800000004\n"
    segments = opened() + updates(instances("4") + path)
    first = "0 worker=0 path=42 versions=2,2,2 visits=p,p end=egress"
    yield said(single(THREE, counted_capture(1), segments)), [first]
    turned = path.replace("255=44:0000fde800000004 250", "250=44:0000fde800000004 255")
    segments += updates(turned, position=1)
    yield said(single(THREE, counted_capture(2), segments)), [
        first, "1 worker=0 path=42 versions=3 visits=- end=drop:no-path"]


def sessions():
    pieces = [b"\xff"] * 16 + [b"\x00", b"\x13", b"\x04", bgp.MARKER + b"\x00\x12"]
    segments = opened() + [controls.Segment(controls.BYTES, 1, 0, 0, piece) for piece in pieces]
    run = single(THREE, counted_capture(0), segments)
    yield (run.replies[-1].data.hex(), run.version), ("ff" * 16 + "001703010200" + "12", 1)
    content = bytes.fromhex("0000" "0014" "800f11001f090001000a0000fde8000000090029")
    run = single(THREE, counted_capture(0), opened() + [controls.Segment(controls.BYTES, 1, 0, 0, bgp.message(bgp.UPDATE, content))])
    yield (len(run.replies), run.version), (2, 1)
    quiet = opened() + [controls.Segment(controls.BYTES, 1, 89999999, 0)]
    yield single(THREE, counted_capture(0), quiet).replies[-1].data, bgp.message(bgp.KEEPALIVE)
    late = opened() + [controls.Segment(controls.BYTES, 1, 90000000, 0)]
    run = single(THREE, counted_capture(0), late)
    yield (run.replies[-1].data.hex(), run.version), ("ff" * 16 + "0015030400", 1)
    many = "".join(f"sfir {number:016x} 44 10.0.0.1 -\n" for number in range(1025))
    run = single(THREE, counted_capture(0), opened() + updates(many))
    yield (run.replies[-1].data.hex(), run.version), ("ff" * 16 + "0015030601", 1025)


def faults():
    capture = counted_capture(3)
    yield captures.read(capture[:206])[2], (206, "short")
    yield captures.read(b"")[2], (0, "short")
    control = bytearray(joined(chain_control()))
    control[2] = 9
    run = runs.Single(setups.read(inputs.SETUP), counted_capture(1), bytes(control))
    yield (run.fault, run.egress(), run.lines(), run.reply_file()), (
        ("control", 1, "peer"), counted_capture(0), b"", b"")


def summaries():
    yield inputs.summary(0, 1), "frames=1 egress=1 dropped=0 last-version=4"
    words = inputs.summary(7, 65).split()
    yield (words[0], words[-1]), ("frames=65", "last-version=5")


CASES = (announces, versions, a_chain, at_positions, on_workers, of_some_run, two_hops, sessions, faults, summaries)


def check():
    wrong = 0
    for case in CASES:
        for number, (found, wanted) in enumerate(case(), start=1):
            if found != wanted:
                wrong += 1
                print(f"{case.__name__} {number}: {found} in place of {wanted}")
    print(f"{len(CASES)} cases, {wrong} wrong")
    return 1 if wrong else 0
