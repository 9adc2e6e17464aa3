#!/usr/bin/env python3
"""Times one poll of many frames, all of whose events come late: behind one shape, and behind a shape that was moved very often.
Prints a table. See README.md."""

import argparse
import os
import socket
import sys
import tempfile
from pathlib import Path
from struct import pack

sys.dont_write_bytecode = True
sys.path[:0] = [str(Path(__file__).resolve().parent), str(Path(__file__).resolve().parent.parent / "examples")]
from make_examples import STROKE, crc32c, delete, group, log, move, restyle, stamp
from make_log import VERSION, square
from node_process import SESSION, Node, add_program, free_addresses, program_of

# So many frames lie at a socket at once, and each has so many events.
FRAMES, EVENTS = 64, 8
# The moves of the own site have clocks from here on, and the late events those from 3 on.
LATER = 100_000
# What the own site made first, and what the late events do to it.
SHAPES = [(1, 1), (2, 1)]
LATE = {
    "recolours": lambda at: restyle(*SHAPES[0], STROKE, at),
    "moves": lambda at: move(*SHAPES[0], at, at),
    "groups": lambda at: group(*SHAPES),
    "deletes": lambda at: delete(*SHAPES[0]),
}
# A poll may take so many times that of the same frames over nothing, and so many seconds of the processor a step.
TIMES, STEP = 10, 0.7e-6


def frame_of(first, deed):
    """A frame of site 2 to site 1 with its events from `first` on."""
    numbers = range(first, first + EVENTS)
    made = [stamp(2 + number, 2) + pack(">H", number) + deed(number) for number in range(1, FRAMES * EVENTS + 1)]
    head = b"GDOF" + bytes([VERSION]) + pack(">I", SESSION) + bytes([2, 1]) + pack(">HH", 0, FRAMES * EVENTS)
    head += (2 + FRAMES * EVENTS).to_bytes(6, "big") + pack("<I", crc32c(b"".join(made))) + bytes(2 + 7 + 1) + bytes([EVENTS])
    body = head + b"".join(made[number - 1] for number in numbers)
    return body + pack("<I", crc32c(body))


def processor_of(process):
    """The seconds of the processor that a process has had."""
    return int(Path(f"/proc/{process.pid}/schedstat").read_text().split()[0]) / 1e9


def steps_of(answer):
    """The steps of a poll, by its echoes."""
    words = [line.split() for line in answer if line.startswith("echo ")]
    if len(words) != FRAMES * EVENTS:
        sys.exit(f"a poll had {len(words)} echoes: {answer[-1]}")
    return sum({"applied": 1, "dropped": 0}.get(word[2], 1 + 2 * int(word[3] if word[2] == "reworked" else 0)) for word in words)


def poll_of(program, moves, deed, room):
    """The steps of a poll of late events behind so many moves, and the seconds of the processor that it took."""
    addresses, journal = free_addresses(2), room / "one.log"
    events = [square(*shape) for shape in SHAPES] + [(LATER + at, 1, move(*SHAPES[0], at % 1000, 5)) for at in range(moves)]
    journal.write_bytes(log(SESSION, 1, 2, events, VERSION))
    node = Node.__new__(Node)
    node.program, node.site, node.addresses, node.journal = program, 1, addresses, journal
    node.resume()
    host, port = addresses[1].split(":")
    with socket.socket(socket.AF_INET, socket.SOCK_DGRAM) as other:
        other.bind((host, int(port)))
        for at in range(FRAMES):
            other.sendto(frame_of(1 + at * EVENTS, deed), (host, int(addresses[0].split(":")[1])))
        before = processor_of(node.process)
        answer = node.ask("poll")
        took = processor_of(node.process) - before
    node.quit()
    return steps_of(answer), took


def main():
    parser = argparse.ArgumentParser(prog="bench/measure_forged.py", description=__doc__)
    parser.add_argument("moves", metavar="MOVES", type=int, nargs="?", default=60_000, help="how often the shape was moved")
    add_program(parser)
    words = parser.parse_args()
    program = program_of(words)
    print("| Late events | Over nothing | Over moves | Steps | Bar |\n|---|---|---|---|---|")
    memory = "/dev/shm" if os.path.isdir("/dev/shm") else None
    for kind, deed in LATE.items():
        with tempfile.TemporaryDirectory(dir=memory) as room:
            _, least = poll_of(program, 0, deed, Path(room))
        with tempfile.TemporaryDirectory(dir=memory) as room:
            steps, took = poll_of(program, words.moves, deed, Path(room))
        most = TIMES * least + STEP * steps
        print(f"| {kind} | {least * 1000:.1f} ms | {took * 1000:.1f} ms | {steps:,} | {took / most:.2f} |", flush=True)


if __name__ == "__main__":
    main()
