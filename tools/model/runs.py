"""Runs on one thread or on several: the rounds of a capture and a control file, what counts of them, and what is written."""
import re

import captures
import controls
import sessions
import tables
import walks

ROUND = 256
LINE = re.compile(rb"[0-9]+ worker=([0-9]+) path=[^ ]+ versions=([0-9]+(?:,[0-9]+)*|-) ")


def rounds(count, segments):
    """The rounds over so many frames: of each its segments, the first frame and the one behind its last."""
    at = {}
    for segment in segments:
        at.setdefault(min(segment.position, count), []).append(segment)
    cuts = sorted({0, count, *range(0, count, ROUND), *at})
    for cut, behind in zip(cuts, cuts[1:] + [count]):
        groups = at.get(cut, [])
        groups = [groups[begin:begin + ROUND] for begin in range(0, len(groups), ROUND)]
        with_frames = [] if cut in (0, count) else groups[-1:]
        for group in groups[:len(groups) - len(with_frames)]:
            yield group, cut, cut
        if cut < count:
            yield with_frames[0] if with_frames else [], cut, behind


class Counted:
    """What counts of two inputs: the fault that is answered, and the rounds that are run."""

    def __init__(self, capture, control, peers):
        self.form, self.frames, bad_capture = captures.read(capture)
        segments, bad_control = controls.read(control, peers)
        count, last = len(self.frames), segments[-1].position if segments else 0
        self.fault = None
        if bad_capture and (not bad_control or count <= last):
            self.fault = "capture", *bad_capture
            segments = [segment for segment in segments if segment.position < count]
            self.rounds = list(rounds(count, segments)) if self.form else []
        elif bad_control:
            self.fault = "control", *bad_control
            self.rounds = before_last(list(rounds(count, segments)), segments)
        else:
            self.rounds = list(rounds(count, segments))


def before_last(all_rounds, segments):
    """The rounds before the one that holds the last good segment."""
    if not segments:
        return []
    holds = next(number for number, (group, _, _) in enumerate(all_rounds) if group and group[-1] is segments[-1])
    return all_rounds[:holds]


class Controller:
    """The sessions with the peers, the table of each version so far, and the replies."""

    def __init__(self, setup):
        self.setup, self.sessions, self.routes = setup, sessions.Sessions(setup), tables.Routes()
        self.version, self.tables, self.replies = 0, [{}], []

    def take(self, segment, told=lambda version, table: None):
        reply, changes = self.sessions.step(segment)
        if reply:
            self.replies.append(reply)
        for change in changes:
            self.routes.apply(change)
            self.version += 1
            self.tables.append(tables.table_of(self.setup, self.routes))
            told(self.version, self.tables[-1])


class Undetermined(Exception):
    """A frame whose record the formats alone do not say."""


class Differs(Exception):
    """What is the record of no run."""


class Single:
    """The single run: a record for each frame, and what goes out."""

    def __init__(self, setup, capture, control):
        counted = Counted(capture, control, setup.peers)
        self.form, self.fault = counted.form, counted.fault
        self.records, self.left, self.trace = [], [], []
        controller = Controller(setup)
        for segments, begin, end in counted.rounds:
            opening = controller.version
            for segment in segments:
                controller.take(segment)
            for worker, frame in zip(self.workers_of(end - begin), counted.frames[begin:end]):
                record, left = self.forward(controller, opening, worker, frame)
                self.records.append(record)
                self.left.append(left)
        self.replies, self.version = controller.replies, controller.version

    def workers_of(self, count):
        """The worker of each frame of a round."""
        return [0] * count

    def forward(self, controller, opening, worker, frame):
        """The record of a frame, which names the last version of its round, and the frame as its walk leaves it."""
        record, left = walks.forward(controller.setup, lambda: (controller.version, controller.tables[-1]), frame, self.trace)
        record.worker = worker
        return record, left

    def of_frames(self, frames):
        if self.form is None:
            return b""
        return captures.written_head(self.form) + b"".join(captures.written(self.form, frame) for frame in frames)

    def egress(self):
        return self.of_frames([frame for record, frame in zip(self.records, self.left) if record.end in ("egress", "bypass")])

    def lines(self):
        return "".join(record.line(number) for number, record in enumerate(self.records)).encode()

    def reply_file(self):
        return b"".join(controls.written(reply) for reply in self.replies)

    def packets(self):
        return self.of_frames(self.trace)


class Threaded(Single):
    """The run on several workers, where there is one: no frame that asks a table has a round that changes the table.

    The first workers have the longer shares. The formats say only that sizes differ by at most 1, so the worker's number is this one choice of theirs.
    """

    def __init__(self, setup, capture, control, workers):
        self.workers = workers
        super().__init__(setup, capture, control)

    def workers_of(self, count):
        each, longer = divmod(count, self.workers)
        return [worker for worker in range(self.workers) for _ in range(each + (worker < longer))]

    def forward(self, controller, opening, worker, frame):
        record, left = super().forward(controller, opening, worker, frame)
        if record.versions and opening != controller.version:
            raise Undetermined(f"frame {len(self.records)} may meet any of the versions {opening} to {controller.version}")
        return record, left


class Told(Single):
    """The run on so many workers that lines tell: each frame walks over the versions that its line names. A line that no run has differs."""

    def __init__(self, setup, capture, control, lines, workers):
        self.told, self.workers, self.seen = lines.splitlines(keepends=True), workers, {}
        super().__init__(setup, capture, control)
        if len(self.told) != len(self.records):
            raise Differs(f"line {len(self.records)}")

    def forward(self, controller, opening, worker, frame):
        number = len(self.records)
        said = LINE.match(self.told[number]) if number < len(self.told) else None
        if said is None:
            raise Differs(f"line {number}")
        worker, versions = int(said[1]), [int(version) for version in said[2].split(b",") if version != b"-"]
        climb = [max(opening, self.seen.get(worker, 0)), *versions, controller.version]
        if worker >= self.workers or (versions and climb != sorted(climb)):
            raise Differs(f"line {number}")
        named = [(version, controller.tables[version]) for version in versions]
        record, left = walks.forward(controller.setup, lambda: named.pop(0) if named else (controller.version, {}), frame)
        record.worker = worker
        if record.line(number).encode() != self.told[number]:
            raise Differs(f"line {number}")
        if versions:
            self.seen[worker] = versions[-1]
        return record, left


def paths(setup, control):
    """Every version of the table as text, and the refusal of the control file or None."""
    segments, fault = controls.read(control, setup.peers)
    told = [tables.text(setup, 0, {})]
    controller = Controller(setup)
    for segment in segments:
        controller.take(segment, lambda version, table: told.append(tables.text(setup, version, table)))
    return "".join(told), fault and ("control", *fault)
