"""Rows of the commands `to-pcapng` and `from-pcapng`, and what each must print."""
import struct

FRAME = bytes(range(60))
SECTION = bytes.fromhex("0a0d0d0a 1c000000 4d3c2b1a 01000000 ffffffffffffffff 1c000000")
MICROSECONDS = bytes.fromhex("01000000 20000000 01000000 00000400 09000100 06000000 00000000 20000000")
NANOSECONDS = MICROSECONDS[:20] + b"\x09" + MICROSECONDS[21:]
NO_ETHERNET = bytes.fromhex("01000000 14000000 65000000 00000400 14000000")
HEAD = bytes.fromhex("4d3cb2a1 02000400 00000000 00000000 00000400 01000000")
BIG_NANOSECONDS = bytes.fromhex("a1b23c4d 00020004 00000000 00000000 00040000 00000001")


def enhanced(interface, time, data, original=None):
    """A packet block of a little-endian section."""
    padding = bytes(-len(data) % 4)
    size = 32 + len(data) + len(padding)
    fields = (6, size, interface, time >> 32, time & 0xffffffff, len(data), len(data) if original is None else original)
    return struct.pack("<7I", *fields) + data + padding + struct.pack("<I", size)


def packet(seconds, nanos, data):
    return struct.pack("<4I", seconds, nanos, len(data), len(data)) + data


def big_packet(seconds, fraction, original, data):
    return struct.pack(">4I", seconds, fraction, len(data), original) + data


def ends(rows, status, made=b"", report=None):
    rows.printed.append(f"  {status}")
    if made:
        rows.printed.append(f"  made {made.hex()}")
    if report is not None:
        rows.printed += [f"  report {len(report) + 1} bytes", f"  | {report}"]


def call(rows, words, *ended, piece=65536):
    rows.show(f"desk {piece} 1000")
    rows.show(f"sfc {words}")
    ends(rows, *ended)


def both_ways(rows):
    rows.say("# A capture of one frame as a pcapng file and back, in reads of any size; a frame of an interface that is not asked for.")
    one = SECTION + MICROSECONDS + enhanced(0, 1000002, FRAME)
    rows.file("ng-one", one)
    for piece in (65536, 7, 1):
        call(rows, "to-pcapng K out", "ok 0", one, piece=piece)
        call(rows, "from-pcapng ng-one * out", "ok 0", HEAD + packet(1, 2000, FRAME), "frames=1 skipped=0", piece=piece)
    for word, count in (("0", 1), ("1", 0), ("4294967295", 0)):
        call(rows, f"from-pcapng ng-one {word} out", "ok 0", HEAD + packet(1, 2000, FRAME) * count, f"frames={count} skipped={1 - count}")


def interfaces(rows):
    rows.say("# Three interfaces, of which the second is no Ethernet and the third counts nanoseconds.")
    blocks = enhanced(0, 1000002, FRAME[:5]) + enhanced(1, 1000003, FRAME[:6]) + enhanced(2, 3 * 10**9 + 5, FRAME[:7])
    rows.file("ng-three", SECTION + MICROSECONDS + NO_ETHERNET + NANOSECONDS + blocks)
    first, third = packet(1, 2000, FRAME[:5]), packet(3, 5, FRAME[:7])
    for word, packets, count in (("*", first + third, 2), ("0", first, 1), ("1", b"", 0), ("2", third, 1), ("3", b"", 0)):
        call(rows, f"from-pcapng ng-three {word} out", "ok 0", HEAD + packets, f"frames={count} skipped={3 - count}")


def times(rows):
    rows.say("# No frame; a capture in nanoseconds with its highest byte first, whose fraction passes a second; one that passes the last second.")
    call(rows, "to-pcapng K0 out", "ok 0", SECTION + MICROSECONDS)
    carried = BIG_NANOSECONDS + big_packet(5, 1999999999, 4, b"\1\2\3")
    made = SECTION + NANOSECONDS + enhanced(0, 5 * 10**9 + 1999999999, b"\1\2\3", 4)
    rows.file("ng-carried", carried)
    call(rows, "to-pcapng ng-carried out", "ok 0", made)
    rows.file("ng-past", carried + big_packet(4294967295, 1000000000, 1, b"\7"))
    call(rows, "to-pcapng ng-past out", f"capture {len(carried) + 4} time 5", made)


def refusals(rows):
    rows.say("# What is refused, with its place and the frames before it; Report gets nothing then.")
    one = rows.files["ng-one"]
    cases = {"last": (one[:-1] + b"\1", "148 block", HEAD), "cut": (one[:150], "150 short", HEAD), "parts": (one[:48] + b"\x14" + one[49:], "44 resolution", HEAD),
             "behind": (one + b"\6\0\0\0\x0b", "157 short", HEAD + packet(1, 2000, FRAME)), "first": (one[:9] + b"\0" + one[10:], "8 magic", b""), "none": (b"", "0 short", b"")}
    for name, (data, fault, made) in cases.items():
        rows.file(f"ng-{name}", data)
        call(rows, f"from-pcapng ng-{name} * out", f"pcapng {fault} 12", made)
    call(rows, "from-pcapng K * out", "pcapng 0 magic 12")
    call(rows, "to-pcapng ng-one out", "capture 0 magic 5")


def words(rows):
    rows.say("# Words.")
    for row in ("to-pcapng", "to-pcapng K", "to-pcapng K K", "to-pcapng K out x", "to-pcapng \"\" out", "from-pcapng ng-one out", "from-pcapng ng-one * ng-one",
                "from-pcapng ng-one x out", "from-pcapng ng-one 00 out", "from-pcapng ng-one 4294967296 out", "from-pcapng ng-one \"\" out"):
        call(rows, row, "words 2")


def failing_calls(rows):
    rows.say("# Each call fails in turn.")
    for row, ports in (("to-pcapng K out", ("capture", "made")), ("from-pcapng ng-one * out", ("source", "made", "report"))):
        rows.show(f"fails 7 1000 {row}")
        rows.printed += [f"  file {port} 3" for port in ports] + ["  ok 0"]


def converted(rows):
    for part in (both_ways, interfaces, times, refusals, words, failing_calls):
        part(rows)
