#!/usr/bin/env python3
"""A second program, written from the formats alone, that says what some commands of sfc must write.

usage: python3 tools/model single SETUP CAPTURE CONTROL EGRESS LINES REPLIES
       python3 tools/model run SETUP CAPTURE CONTROL EGRESS LINES REPLIES WORKERS
       python3 tools/model told SETUP CAPTURE CONTROL EGRESS LINES REPLIES WORKERS
       python3 tools/model trace SETUP CAPTURE CONTROL TRACE
       python3 tools/model paths SETUP CONTROL
       python3 tools/model announce SETUP PEER ROUTES MADE
       python3 tools/model generate SEED FRAMES
       python3 tools/model example FOLDER
       python3 tools/model rows ROWS PRINTED
       python3 tools/model check

For people, not for the gate. It shares no code with the program: where both agree, either is right or both were
misled by the same sentence. Stored outputs of rows are taken from it, never from the program. It reads whole
files, works on whole lists and is slow. A setup and a routes text are taken to be right, and words are not checked.

What `run` writes hangs on how its threads meet wherever a frame that asks a table has a round that changes the table; there the model says so and
writes nothing. `told` reads all six files, and says whether the last three are what some run on so many workers writes that comes to its end, or what is
not: a line by its number, the egress or the replies. Then the status is 9.

`example` makes the capture and the control file of a folder with a setup and routes, as `examples/chain`. `rows` writes rows of
`single`, `generate`, the conversions of pcapng files and `run` for crates/command_rows, and what they must print. `check` tries the model on cases that were worked by hand. The exit status is that of the command that it speaks for, and behind a
refused capture or control file the place and the reason stand on standard error.
"""
import sys

sys.dont_write_bytecode = True

import checks
import controls
import example
import inputs
import rows
import runs
import setups

STATUS = {"capture": 5, "control": 6}
UNDETERMINED, DIFFERS = 1, 9


def read(name):
    with open(name, "rb") as file:
        return file.read()


def text(name):
    return read(name).decode("ascii")


def write(name, data):
    with open(name, "wb") as file:
        file.write(data)


def ended(fault):
    if fault is None:
        return 0
    print("model:", *fault, file=sys.stderr)
    return STATUS[fault[0]]


def write_run(run, egress, lines, replies):
    write(egress, run.egress())
    write(lines, run.lines())
    write(replies, run.reply_file())
    return ended(run.fault)


def single(setup, capture, control, egress, lines, replies):
    return write_run(runs.Single(setups.read(text(setup)), read(capture), read(control)), egress, lines, replies)


def threaded(setup, capture, control, egress, lines, replies, workers):
    try:
        run = runs.Threaded(setups.read(text(setup)), read(capture), read(control), int(workers))
    except runs.Undetermined as fault:
        print("model:", fault, file=sys.stderr)
        return UNDETERMINED
    return write_run(run, egress, lines, replies)


def told(setup, capture, control, egress, lines, replies, workers):
    try:
        run = runs.Told(setups.read(text(setup)), read(capture), read(control), read(lines), int(workers))
        for name, file, data in (("egress", egress, run.egress()), ("replies", replies, run.reply_file())):
            if read(file) != data:
                raise runs.Differs(name)
    except runs.Differs as what:
        print("model: differs", what, file=sys.stderr)
        return DIFFERS
    return ended(run.fault)


def trace(setup, capture, control, packets):
    run = runs.Single(setups.read(text(setup)), read(capture), read(control))
    write(packets, run.packets())
    return ended(run.fault)


def paths(setup, control):
    told, fault = runs.paths(setups.read(text(setup)), read(control))
    print(told, end="")
    return ended(fault)


def announce(setup, peer, routes, made):
    segments = inputs.announcement(setups.read(text(setup)), int(peer), setups.read_routes(text(routes)))
    write(made, b"".join(controls.written(segment) for segment in segments))
    return 0


def generate(seed, frames):
    print(inputs.summary(int(seed), int(frames)))
    return 0


def make_example(folder):
    example.make(folder)
    return 0


def make_rows(name, printed):
    made = rows.all_rows()
    write(name, "".join(line + "\n" for line in made.rows).encode())
    write(printed, "".join(line + "\n" for line in made.printed).encode())
    return 0


COMMANDS = {
    "single": single, "run": threaded, "told": told, "trace": trace, "paths": paths, "announce": announce, "generate": generate, "example": make_example,
    "rows": make_rows, "check": checks.check,
}


def main(words):
    if words == ["--help"]:
        print(__doc__.strip())
        return 0
    if not words or words[0] not in COMMANDS:
        print(__doc__.strip(), file=sys.stderr)
        return 2
    return COMMANDS[words[0]](*words[1:])


if __name__ == "__main__":
    sys.exit(main(sys.argv[1:]))
