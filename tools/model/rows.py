"""Rows of the commands `single`, `generate` and `run`, and of both for pcapng files, for crates/command_rows, and what each must print."""
import pathlib
import re

import bgp
import captures
import checks
import controls
import example
import inputs
import pcapngs
import runs
import setups

ROOM = 1000000
TABLES = pathlib.Path(__file__).parents[2] / "crates" / "conformance_vectors" / "src"

# One instance for each reason to drop a frame: rules send frames by their port to a path of its own.
REASONS = """local 65000 192.0.2.1 90
peer 1 65001
forwarder f0 10.0.0.1
ingress f0
instance wall 0000fde800000001 41 aware firewall tcp 23 23
instance hop 0000fde800000001 42 proxy hoplimit
instance need 0000fde800000001 43 aware require-meta 0123 4
instance stamp 0000fde800000001 44 aware stamp 0123 4 1122334455
instance full 0000fde800000001 45 aware stamp 0123 5 """ + "ab" * 124 + """
instance full2 0000fde800000002 45 aware stamp 0123 6 """ + "cd" * 124 + """
rule * * * tcp 23-23 path 1 255 63 md2
rule * * * tcp 24-24 path 2 255 63 md2
rule * * * tcp 25-25 path 3 255 63 md2
rule * * * tcp 26-26 path 4 255 63 md1:00112233445566778899aabbccddeeff
rule * * * tcp 27-27 path 5 255 63 md2
rule * * * tcp 28-28 path 6 255 63 md2
rule * * * tcp 29-29 path 7 255 63 md2
rule * * * tcp 30-30 path 6 255 1 md2
rule * * * tcp 31-31 refuse
rule * 10.0.0.0/8 * * * bypass
"""
REASON_ROUTES = """sfir 0000fde800000001 41 10.0.0.1 -
sfir 0000fde800000001 42 10.0.0.1 -
sfir 0000fde800000001 43 10.0.0.1 -
sfir 0000fde800000001 44 10.0.0.1 -
sfir 0000fde800000001 45 10.0.0.1 -
sfir 0000fde800000002 45 10.0.0.1 -
sfpr 0000fde800000001 1 - 255=41:0000000000000000
sfpr 0000fde800000001 2 - 255=42:0000000000000000
sfpr 0000fde800000001 3 - 255=43:0000000000000000
sfpr 0000fde800000001 4 - 255=44:0000000000000000
sfpr 0000fde800000001 5 - 255=45:0000fde800000001 254=45:0000fde800000002
sfpr 0000fde800000001 6 - 255=44:0000000000000000 254=43:0000000000000000
"""


class Rows:
    """Rows, and what they print."""

    def __init__(self):
        self.rows, self.printed, self.files = [], [], {}

    def say(self, line):
        self.rows.append(line)

    def file(self, name, data):
        self.files[name] = data
        self.say(f"file {name} {data.hex()}" if data else f"file {name}")

    def text(self, name, text):
        self.files[name] = text.encode()
        for line in text.splitlines():
            self.say(f"text {name} {line}")

    def show(self, row):
        self.say(row)
        self.printed.append(row)

    def refused(self, row, status):
        self.show(f"desk 65536 {ROOM}")
        self.show(row)
        self.printed.append(f"  {status}")

    def single(self, setup, capture, control, piece=65536):
        self.show(f"desk {piece} {ROOM}")
        self.show(f"sfc single {setup} {capture} {control} e l r")
        self.told(runs.Single(setups.read(self.files[setup].decode()), self.files[capture], self.files[control]))

    def run(self, setup, capture, control, workers, piece=65536):
        self.show(f"desk {piece} {ROOM}")
        self.show(f"sfc run {setup} {capture} {control} e l r {workers}")
        self.told(runs.Threaded(setups.read(self.files[setup].decode()), self.files[capture], self.files[control], workers))

    def told(self, run):
        status = "ok 0" if run.fault is None else " ".join(map(str, run.fault)) + f" {5 if run.fault[0] == 'capture' else 6}"
        self.printed.append(f"  {status}")
        for name, data in (("egress", run.egress()), ("lines", run.lines()), ("replies", run.reply_file())):
            if data:
                self.printed.append(f"  {name} {data.hex()}")

    def generate(self, seed, count):
        self.show(f"desk 65536 {ROOM}")
        self.show(f"sfc generate {seed} {count}")
        line = inputs.summary(seed, count)
        self.printed += ["  ok 0", f"  report {len(line) + 1} bytes", f"  | {line}"]


def segment(position, data, kind=controls.BYTES, moment=0, peer=1):
    return controls.Segment(kind, peer, moment, position, data)


def reason_frames():
    """One frame for each port, one that a rule lets by, one with a hop limit of 1, one with NSH."""
    frames = [example.packet(port, example.TCP, example.INSIDE, example.WEB, example.tcp(example.INSIDE, example.WEB, port))
              for port in range(23, 33)]
    spent = bytearray(frames[1])
    spent[22] = 1
    return frames + [bytes(spent), frames[0][:12] + b"\x89\x4f" + frames[0][14:]]


def capture_of(frames):
    records = [captures.Frame(number, 0, len(data), data) for number, data in enumerate(frames)]
    return captures.written_head(example.FORM) + b"".join(captures.written(example.FORM, record) for record in records)


def story(rows):
    rows.say("# The example: an instance is withdrawn in mid-capture and announced again.")
    setup, routes = setups.read(example.text("setup.txt")), setups.read_routes(example.text("routes.txt"))
    rows.text("single-chain", example.text("setup.txt"))
    rows.file("single-frames", example.capture())
    rows.file("single-changes", example.changes(setup, routes))
    for piece in (65536, 7, 1):
        rows.single("single-chain", "single-frames", "single-changes", piece)


def chain(rows):
    rows.say("# A chain of two forwarders in nanoseconds with the highest byte first, 96 bytes captured of 1514; to a denied port.")
    rows.text("single-s1", inputs.SETUP)
    rows.file("single-a1", checks.joined(checks.chain_control()))
    rows.file("single-nano", checks.chain_capture())
    rows.file("single-telnet", checks.chain_capture(port=23))
    rows.single("single-s1", "single-nano", "single-a1")
    rows.single("single-s1", "single-telnet", "single-a1")


def positions(rows):
    rows.say("# Routes that come at positions: a path without its instances, then with one of them; a hop of a path that is in disorder.")
    announced = checks.chain_control()
    late = [*announced[:3], segment(3, announced[6].data)]
    rows.file("single-k10", checks.counted_capture(10))
    rows.file("single-late", checks.joined(late))
    rows.file("single-later", checks.joined(late + [segment(7, announced[5].data)]))
    rows.file("single-beyond", checks.joined(late + [segment(11, announced[5].data), segment(300, announced[4].data)]))
    for control in ("single-late", "single-later", "single-beyond"):
        rows.single("single-s1", "single-k10", control)
    path = "sfpr 0000fde80000002a 42 - 255=44:0000fde800000004 250=44:0000fde800000004\n"
    turned = path.replace("255=44:0000fde800000004 250", "250=44:0000fde800000004 255")
    rows.text("single-s2", checks.THREE)
    two = checks.opened() + checks.updates(checks.instances("4") + path)
    rows.file("single-k1", checks.counted_capture(1))
    rows.file("single-k2", checks.counted_capture(2))
    rows.file("single-two", checks.joined(two))
    rows.file("single-turned", checks.joined(two + checks.updates(turned, position=1)))
    rows.single("single-s2", "single-k1", "single-two")
    rows.single("single-s2", "single-k2", "single-turned")


def reasons(rows):
    rows.say("# One frame for each reason to drop one, and one that a rule lets by.")
    setup = setups.read(REASONS)
    announced = inputs.announcement(setup, 1, setups.read_routes(REASON_ROUTES))
    rows.text("single-reasons", REASONS)
    rows.file("single-ports", capture_of(reason_frames()))
    rows.file("single-all", checks.joined(announced))
    rows.single("single-reasons", "single-ports", "single-all")


def empty(rows):
    rows.say("# No frame, no segment, neither.")
    rows.file("single-none", b"")
    rows.file("single-k0", checks.counted_capture(0))
    rows.single("single-s1", "single-k0", "single-none")
    rows.single("single-s1", "single-k2", "single-none")
    rows.single("single-s1", "single-k0", "single-a1")


def cuts(rows):
    rows.say("# A capture that is cut, and fields of it that are refused.")
    whole = checks.counted_capture(2)
    bad = {"magic": (0, b"\0"), "version": (5, b"\3"), "link": (20, b"\2"), "length": (24 + 76 + 11, b"\1"), "original": (24 + 76 + 12, b"\1")}
    for size in (0, 3, 4, 8, 23, 24, 25, 39, 40, 99, 100, 101, 175):
        rows.file(f"single-cut-{size}", whole[:size])
        rows.single("single-s1", f"single-cut-{size}", "single-a1")
    for name, (at, byte) in bad.items():
        rows.file(f"single-bad-{name}", whole[:at] + byte + whole[at + 1:])
        rows.single("single-s1", f"single-bad-{name}", "single-a1")


def both_bad(rows):
    rows.say("# Segments behind and at the end of a capture that is cut in its third frame; a control file that is refused; both.")
    cut = checks.counted_capture(3)[:206]
    announced = checks.chain_control()
    rows.file("single-k3-cut", cut)
    rows.file("single-k3", checks.counted_capture(3))
    for at in (1, 2, 3):
        late = checks.joined([*announced[:3], segment(at, announced[6].data)])
        rows.file(f"single-at-{at}", late)
        rows.file(f"single-at-{at}-bad", late + b"\4")
        rows.single("single-s1", "single-k3-cut", f"single-at-{at}")
        rows.single("single-s1", "single-k3", f"single-at-{at}-bad")
        rows.single("single-s1", "single-k3-cut", f"single-at-{at}-bad")
    rows.file("single-peer-9", checks.joined(checks.chain_control())[:2] + b"\x09")
    rows.single("single-s1", "single-k1", "single-peer-9")
    rows.single("single-s1", "single-bad-magic", "single-peer-9")
    falls = checks.joined([*announced[:3], segment(2, b"")]) + controls.written(segment(1, b""))
    rows.file("single-falls", falls)
    rows.single("single-s1", "single-k3", "single-falls")


def groups(rows):
    rows.say("# 256 and 257 good segments before the first frame, the last one of the first group a connection, and a bad byte behind them.")
    closed = [segment(0, b"", controls.CLOSE)] * 255 + [segment(0, b"", controls.CONNECT)]
    rows.file("single-256", checks.joined(closed) + b"\4")
    rows.file("single-257", checks.joined(closed + [segment(0, b"", controls.CLOSE)]) + b"\4")
    rows.single("single-s1", "single-k1", "single-256")
    rows.single("single-s1", "single-k1", "single-257")


def peers(rows):
    rows.say("# A peer that sends bytes one by one, is refused, is late; one that sends what is no route.")
    opened = checks.opened()
    pieces = [segment(0, piece) for piece in [b"\xff"] * 16 + [b"\0", b"\x13", b"\4", bgp.MARKER + b"\0\x12"]]
    rows.file("single-pieces", checks.joined(opened + pieces))
    rows.file("single-quiet", checks.joined(opened + [segment(1, b"", moment=89999999)]))
    rows.file("single-expired", checks.joined(opened + [segment(1, b"", moment=90000000)]))
    unread = bytes.fromhex("0000" "0014" "800f11001f090001000a0000fde8000000090029")
    rows.file("single-unread", checks.joined(opened + [segment(1, bgp.message(bgp.UPDATE, unread))]))
    for control in ("single-pieces", "single-quiet", "single-expired", "single-unread"):
        rows.single("single-s2", "single-k2", control)


def cuts_of_the_chain(rows):
    rows.say("# The capture of the chain, cut behind each of its bytes, and its control file, which is cut by one.")
    whole = checks.chain_capture()
    for size in range(len(whole)):
        rows.file(f"single-nano-{size}", whole[:size])
        rows.single("single-s1", f"single-nano-{size}", "single-a1")
    rows.file("single-a1-cut", rows.files["single-a1"][:-1])
    rows.single("single-s1", "single-nano", "single-a1-cut")


def refused_inputs(table):
    """The inputs of a table of crates/conformance_vectors that are refused."""
    text = (TABLES / table).read_text()
    numbers = lambda digits: bytes(int(number, 0) for number in re.findall(r"0x[0-9A-Fa-f]+|\d+", digits))
    statics = {name: numbers(digits) for name, digits in re.findall(r"static ([A-Z_]+): \[u8; \d+\] = \[([^\]]*)\]", text)}
    for form, digits, name, answer in re.findall(r'": (?:(marked!|&)\[([^\]]*)\]|&([A-Z_]+)) => ([A-Za-z:]+)', text):
        if answer != "Expected::Accepted":
            yield statics[name] if name else (bgp.MARKER if form == "marked!" else b"") + numbers(digits)


def hostile(rows):
    rows.say("# Peer 2 announces the chain; peer 1 sends each stream of messages that is refused, each behind a connection, and each refused UPDATE in a session.")
    text = inputs.SETUP.replace("peer 1 65001", "peer 1 65001\npeer 2 65001")
    setup = setups.read(text)
    announced = inputs.announcement(setup, 2, setups.read_routes(inputs.ROUTES))
    streams = [[segment(0, b"", controls.CONNECT), segment(0, data)] for data in refused_inputs("bgp.rt")]
    contents = [[*checks.opened(), segment(0, bgp.message(bgp.UPDATE, content))] for content in refused_inputs("updates.rt")]
    rows.text("single-two-peers", text)
    rows.file("single-hostile", checks.joined(announced + sum(streams + contents, [])))
    rows.single("single-two-peers", "single-nano", "single-hostile")


def failing_calls(rows):
    rows.say("# Each call on the desk fails in turn: first one on the setup, at last one on the replies; no output holds more than a front.")
    rows.show(f"fails 7 {ROOM} single single-s1 single-nano single-a1 e l r")
    rows.printed += [f"  file {port} 3" for port in ("setup", "capture", "control", "egress", "lines", "replies")] + ["  ok 0"]


def streams(rows):
    rows.say("# 600 frames, of which 512 are told before the last read of the capture, which fails: the calls are a bind and two reads of the setup, five binds,")
    rows.say("# a read of the capture and of the control file, the writes of a round (file header and lines), those of the next (lines), and that read.")
    rows.say("frames single-k600 600")
    capture = rows.files["single-k600"] = checks.counted_capture(600)
    rows.show(f"desk 65536 {ROOM} 13")
    rows.show("sfc single single-s2 single-k600 single-none e l r")
    two_rounds(rows, runs.Single(setups.read(rows.files["single-s2"].decode()), capture, b""))


def two_rounds(rows, run):
    """The file header and the lines of two rounds, and that the capture's port failed."""
    lines = b"".join(run.lines().splitlines(keepends=True)[:512])
    rows.printed += ["  file capture 3", f"  egress {rows.files['single-k600'][:24].hex()}", f"  lines {lines.hex()}"]


def words(rows):
    rows.say("# Words, and files that are not there.")
    for row in ("single single-s1 single-k1 single-a1 e l", "single single-s1 single-k1 single-a1 e l r x", "single single-s1 single-k1 single-a1 e e r",
                "single single-s1 single-k1 single-a1 e l single-a1", "single single-s1 single-k1 single-a1 e single-s1 r", "single single-s1 single-k1 single-a1 \"\" l r"):
        rows.refused(f"sfc {row}", "words 2")
    rows.refused("sfc single nothing single-k1 single-a1 e l r", "file setup 3")
    rows.refused("sfc single single-s1 nothing single-a1 e l r", "file capture 3")
    rows.refused("sfc single single-s1 single-k1 nothing e l r", "file control 3")
    rows.refused("sfc single single-k0 nothing nothing e l r", "setup 1 byte 4")


def generated(rows):
    rows.say("# Generated inputs: one frame, up to a change and past it, a seed of 64 bits, cuts at 256 and 512.")
    for seed, count in ((0, 1), (7, 64), (7, 65), (2**64 - 1, 129), (1, 600)):
        rows.generate(seed, count)
    rows.say("# The write of the line fails, by its number and for want of room.")
    for desk in (f"65536 {ROOM} 0", "65536 10"):
        rows.show(f"desk {desk}")
        rows.show("sfc generate 7 65")
        rows.printed.append("  file report 3")
    rows.say("# Words.")
    for row in ("generate", "generate 7", "generate 7 65 e", "generate 07 65", "generate 7 065", "generate 7 0", "generate 7 65537", "generate 18446744073709551616 1", "generate -7 1", "generate \"\" 1"):
        rows.refused(f"sfc {row}", "words 2")


def settled(segments, count):
    """The same segments and, behind those of each cut between the first frame and the end, 256 of no bytes: so no frame's round has one of the first."""
    for number, said in enumerate(segments):
        yield said
        last_of_cut = number + 1 == len(segments) or segments[number + 1].position != said.position
        if last_of_cut and 0 < said.position < count:
            yield from [segment(said.position, b"", moment=said.moment)] * runs.ROUND


def run_story(rows):
    rows.say("# `run` over the example. Behind each change stand 256 segments of no bytes, so that it is made in a round before that of its frames, and which version")
    rows.say("# a lookup meets does not hang on the threads. The single run over the same files, and the run on 1, 2, 3 and 16 workers: but for the workers they are one.")
    segments, _ = controls.read(rows.files["single-changes"], {1})
    rows.file("run-changes", checks.joined(settled(segments, 8)))
    rows.single("single-chain", "single-frames", "run-changes")
    for workers in (1, 2, 3, 16):
        rows.run("single-chain", "single-frames", "run-changes", workers)
    rows.run("single-chain", "single-frames", "run-changes", 3, piece=7)


def run_shares(rows):
    rows.say("# Shares of ten frames, of a round of 256 frames and one of 2; one frame for many workers, none; a frame for each reason to drop one.")
    rows.say("frames run-k258 258")
    rows.files["run-k258"] = checks.counted_capture(258)
    for capture, control, counts in (("single-k10", "single-a1", (3, 4)), ("run-k258", "single-none", (3,)), ("single-nano", "single-a1", (2,)),
                                     ("single-telnet", "single-a1", (16,)), ("single-k0", "single-none", (1,)), ("single-k0", "single-a1", (16,))):
        for workers in counts:
            rows.run("single-s1", capture, control, workers)
    rows.run("single-reasons", "single-ports", "single-all", 4)
    rows.run("single-two-peers", "single-nano", "single-hostile", 2)


def run_faults(rows):
    rows.say("# A capture that is cut in its third frame, a control file that is refused, both; a capture and a control file without a front; a setup that is none.")
    announced = checks.chain_control()
    for at in (1, 2):
        changes = checks.joined(settled([*announced[:3], segment(at, announced[6].data)], 3))
        rows.file(f"run-at-{at}", changes)
        rows.file(f"run-at-{at}-bad", changes + b"\4")
        rows.run("single-s1", "single-k3-cut", f"run-at-{at}", 2)
        rows.run("single-s1", "single-k3", f"run-at-{at}-bad", 2)
        rows.run("single-s1", "single-k3-cut", f"run-at-{at}-bad", 2)
    rows.run("single-s1", "single-k3-cut", "single-at-3-bad", 2)
    rows.run("single-s1", "single-bad-magic", "single-a1", 2)
    rows.run("single-s1", "single-k1", "single-peer-9", 2)
    rows.run("single-s1", "single-bad-magic", "single-peer-9", 2)
    rows.refused("sfc run single-k0 nothing nothing e l r 2", "setup 1 byte 4")
    rows.say("# Each call fails in turn, on one worker.")
    rows.show("fails 7 600 run single-s1 single-nano single-a1 e l r 1")
    rows.printed += [f"  file {port} 3" for port in ("setup", "capture", "control", "egress", "lines", "replies")] + ["  ok 0"]


def run_words(rows):
    rows.say("# Words of `run`, and files that are not there.")
    for workers in ("", " 0", " 17", " 01", " \"\"", " 1 x", " one", " -1", " 4294967297", " 18446744073709551617"):
        rows.refused(f"sfc run single-s1 single-k1 single-a1 e l r{workers}", "words 2")
    for files in ("single-s1 single-k1 single-a1 e e r", "single-s1 single-k1 single-a1 e l single-a1", "single-s1 single-k1 single-a1 \"\" l r"):
        rows.refused(f"sfc run {files} 1", "words 2")
    rows.refused("sfc run", "words 2")
    for files, port in (("nothing single-k1 single-a1", "setup"), ("single-s1 nothing single-a1", "capture"), ("single-s1 single-k1 nothing", "control")):
        rows.refused(f"sfc run {files} e l r 1", f"file {port} 3")


def run_streams(rows):
    rows.say("# The same 600 frames on 3 workers: two rounds are told before the last read of the capture, which fails.")
    rows.show(f"desk 65536 {ROOM} 13")
    rows.show("sfc run single-s2 single-k600 single-none e l r 3")
    two_rounds(rows, runs.Threaded(setups.read(rows.files["single-s2"].decode()), rows.files["single-k600"], b"", 3))


def run_groups(rows):
    rows.say("# Groups of 256 segments: before the first frame, with a bad byte behind them; at the frames 3 and 7, with a change in the first. And changes beyond the capture.")
    for control in ("single-256", "single-257"):
        rows.run("single-s1", "single-k1", control, 2)
    announced = checks.chain_control()
    late = [*announced[:3], segment(3, announced[6].data), segment(7, announced[5].data), segment(11, announced[4].data), segment(300, announced[3].data)]
    rows.file("run-beyond", checks.joined(settled(late, 10)))
    rows.run("single-s1", "single-k10", "run-beyond", 4)


PARTS = (story, chain, positions, reasons, empty, cuts, both_bad, groups, peers, cuts_of_the_chain, hostile, failing_calls, streams, words, generated, pcapngs.converted)
RUN_PARTS = (run_story, run_shares, run_faults, run_words, run_streams, run_groups)


def all_rows():
    """All rows; those of `run` stand behind rows of the crate that are written by hand."""
    rows = Rows()
    for part in PARTS + RUN_PARTS:
        part(rows)
    return rows
