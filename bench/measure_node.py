#!/usr/bin/env python3
"""Times a node: edits that are typed at it, and polls of another one that takes them. Prints a table. See README.md."""

import argparse
import os
import socket
import subprocess
import sys
import tempfile
import time
from pathlib import Path
from random import Random
from statistics import median

sys.dont_write_bytecode = True
sys.path.insert(0, str(Path(__file__).resolve().parent))
from node_process import Node, add_program, free_addresses, node_words, program_of

# In a turn the first site makes so many edits, the other one polls, and then the first one does.
EDITS = 8
# One shape for so many edits: the others move one of these.
NEW = 10
# A gesture has as many moves as a node takes as one, rounded down, and so many gestures are measured.
TOGETHER, GESTURES = 500, 20
# So many moves are made while another site is away, which may catch up in so many polls of each and so many seconds.
AWAY, POLLS, SECONDS = 10_000, 250, 2.0
# The bytes of a frame without events and without a note, of a create without a label, and of a move.
FRAME, CREATE, MOVE = 36, 28, 25
SEED = 7
MEMORY = Path("/dev/shm")


def edits_of(count):
    """The lines of so many edits, and the bytes of the event of each."""
    draw, made = Random(SEED), []
    for number in range(1, count + 1):
        x, y = draw.randrange(1000), draw.randrange(1000)
        if number % NEW == 1:
            made.append(f"{number}.1")
            yield f"create rect {x} {y} 10 10", CREATE
        else:
            yield f"move {draw.choice(made)} {x} {y}", MOVE


def sizes_of(edits):
    """The bytes of the frame behind each edit: it has the events of its turn so far."""
    sizes = []
    for at, (_, size) in enumerate(edits):
        sizes.append(size + (sizes[-1] if at % EDITS else FRAME))
    return sizes


def timed(work, *given):
    start = time.perf_counter_ns()
    answer = work(*given)
    return answer, time.perf_counter_ns() - start


def times_of_nodes(program, edits, room):
    """What each edit took, each poll of the other site, which takes eight, and each poll of the first one."""
    addresses = free_addresses(2)
    first, other = [Node(program, site, addresses, room / f"{site}.log") for site in (1, 2)]
    typed, taken, heard = [], [], []
    for at, (line, _) in enumerate(edits, start=1):
        answer, took = timed(first.ask, line)
        typed.append(took)
        if answer != [f"ok {at}.1"]:
            sys.exit(f"the edit {line!r} was answered by {answer}")
        if at % EDITS == 0:
            # An edit is answered before its frame is sent, and the next line is answered behind that.
            first.ask("status")
            answer, took = timed(other.ask, "poll")
            taken.append(took)
            if len(answer) != EDITS + 1 or not all(" applied " in line for line in answer[:-1]):
                sys.exit(f"the other site answered {answer} to a poll")
            heard.append(timed(first.ask, "poll")[1])
    if first.ask("show") != other.ask("show"):
        sys.exit("the two sites show different drawings")
    for node in (first, other):
        node.quit()
    return typed, taken, heard


def time_at_once(program, edits, room):
    """The nanoseconds of all edits where a node that is alone is handed a file of them, from its start to its end."""
    (room / "lines").write_text("".join(f"{line}\n" for line, _ in edits))
    words = node_words(1, free_addresses(1), room / "alone.log")
    with open(room / "lines", "rb") as given:
        done, took = timed(lambda: subprocess.run([program, *words], stdin=given, capture_output=True, check=True))
    if done.stdout.count(b"ok ") != len(edits):
        sys.exit(f"of {len(edits)} edits at once {done.stdout.count(b'ok ')} were accepted")
    return took


def processor_time(process):
    """The nanoseconds of a processor that a process has had."""
    return int(Path(f"/proc/{process.pid}/schedstat").read_text().split()[0])


def times_of_gestures(program, room):
    """What a move alone took, a gesture of many moves, and as many moves one after the other; and of the last two the time of a
    processor. The node is alone."""
    node = Node(program, 1, free_addresses(1), room / "gestures.log")
    draw = Random(SEED)
    made = node.ask("\n".join(["begin", *["create rect 0 0 10 10"] * TOGETHER, "end"]))[:-1]
    ids = [line.removeprefix("ok ") for line in made]
    lone, together, apart, processor = [], [], [], [0, 0]
    for _ in range(GESTURES):
        moves = [f"move {each} {draw.randrange(1000)} {draw.randrange(1000)}" for each in ids]
        lone.append(timed(node.ask, moves[0])[1])
        for at, (times, typed) in enumerate([(together, ["\n".join(["begin", *moves, "end"])]), (apart, moves)]):
            before = processor_time(node.process)
            times.append(sum(timed(node.ask, line)[1] for line in typed))
            processor[at] += processor_time(node.process) - before
    node.quit()
    return lone, together, apart, [each / GESTURES for each in processor]


def catch_up(program, room):
    """How many polls of each site it took until one that comes held all moves that were made while it was away, how many seconds,
    and how many of these its own polls took: each site polls as soon as the other one has."""
    addresses = free_addresses(2)
    first = Node(program, 1, addresses, room / "there.log")
    first.ask("create rect 0 0 10 10")
    for start in range(0, AWAY, TOGETHER):
        first.ask("\n".join(["begin", *(f"move 1.1 {at} 0" for at in range(start, start + TOGETHER)), "end"]))
    other = Node(program, 2, addresses, room / "away.log")
    polls, taking, start = 0, 0, time.perf_counter()
    while other.held() <= AWAY:
        if polls == AWAY:
            sys.exit(f"behind {polls} polls the site that was away holds {other.held()} events")
        first.poll()
        taking += timed(other.poll)[1]
        polls += 1
    took = time.perf_counter() - start
    if first.ask("show") != other.ask("show"):
        sys.exit("the two sites show different drawings")
    for node in (first, other):
        node.quit()
    return polls, took, taking


def echo(port):
    """Sends back what comes, in a process of its own."""
    with socket.socket(socket.AF_INET, socket.SOCK_DGRAM) as here:
        here.bind(("127.0.0.1", port))
        print("ready", flush=True)
        while True:
            datagram, sender = here.recvfrom(65_536)
            here.sendto(datagram, sender)


def times_of_echo(sizes):
    """What a datagram of each of these sizes took to another process and back."""
    port = int(free_addresses(1)[0].rpartition(":")[2])
    other = subprocess.Popen([sys.executable, __file__, "--echo", str(port)], stdout=subprocess.PIPE)
    other.stdout.readline()
    times = []
    with socket.socket(socket.AF_INET, socket.SOCK_DGRAM) as here:
        here.settimeout(5)
        here.connect(("127.0.0.1", port))
        for size in sizes:
            datagram = bytes(size)
            start = time.perf_counter_ns()
            here.send(datagram)
            here.recv(65_536)
            times.append(time.perf_counter_ns() - start)
    other.kill()
    other.wait()
    return times


def times_of_syncs(edits, room):
    """What the four calls of an append took, as any program makes them: two writes and two syncs of a file."""
    times = []
    file = os.open(room / "plain", os.O_CREAT | os.O_RDWR)
    place = 0
    for _, size in edits:
        # The event, its check and a closed gate.
        record = bytes(size + 5)
        start = time.perf_counter_ns()
        os.pwrite(file, record, place + 1)
        os.fsync(file)
        os.pwrite(file, b"\xC3", place)
        os.fsync(file)
        times.append(time.perf_counter_ns() - start)
        place += size + 5
    os.close(file)
    return times


def row(name, times, each=1):
    """The least and the median of the times, in microseconds, and how many there are in a second."""
    print(f"{name:52}{min(times) / 1e3:11.1f}{median(times) / 1e3:11.1f}{len(times) * each / sum(times) * 1e9:14,.0f}", flush=True)


def measure(program, count, where):
    edits = list(edits_of(count))
    with tempfile.TemporaryDirectory(dir=where) as room:
        room = Path(room)
        print(f"journals in {where}:")
        print(f"{'':52}{'least us':>11}{'median us':>11}{'a second':>14}")
        typed, taken, heard = times_of_nodes(program, edits, room)
        echoes = times_of_echo(sizes_of(edits))
        syncs = times_of_syncs(edits, room)
        row("an edit typed at a node, to its answer", typed)
        row("a poll of the other node, which takes eight edits", taken, EDITS)
        row("a poll of the first one, which hears of that", heard)
        row("a datagram of such a size, there and back in Python", echoes)
        row("two writes and two syncs of a file in Python", syncs)
        print(f"{'all edits at once, to a node that is alone':74}{count / time_at_once(program, edits, room) * 1e9:14,.0f}")
        lone, together, apart, (as_one, alone) = times_of_gestures(program, room)
        row("a move, to its answer, where the node is alone", lone)
        row(f"a gesture of {TOGETHER} moves", together, TOGETHER)
        row(f"{TOGETHER} moves, one after the other", apart, TOGETHER)
        print(f"a gesture of {TOGETHER} moves takes {median(together) / median(lone):.1f} times as long as a move, and "
              f"{as_one / 1e6:.2f} ms of a processor; as many moves alone {alone / 1e6:.2f} ms")
        polls, took, taking = catch_up(program, room)
        met = "is met" if polls <= POLLS and took <= SECONDS else "is not met"
        print(f"{AWAY:,} moves that were made while it was away come to a site in {polls} polls of each and {took:.2f} s: the bar, at most "
              f"{POLLS} and {SECONDS} s, {met}")
        print(f"its own polls took {taking / AWAY / 1e3:.1f} us a move, and those that take eight edits, each in a datagram of its own, "
              f"{median(taken) / EDITS * AWAY / taking:.1f} times as long")
        print(f"an edit to its answer takes {median(typed) / median(echoes):.1f} times as long as a datagram there and back")
        print(f"and {median(typed) / median(syncs):.1f} times as long as the writes and syncs; an edit of a poll of eight "
              f"{median(taken) / EDITS / median(syncs):.1f} times")


def asked():
    parser = argparse.ArgumentParser(prog="bench/measure_node.py", description=__doc__)
    add_program(parser)
    parser.add_argument("--edits", metavar="N", type=int, default=20_000, help="how many edits are typed, rounded down to eights")
    parser.add_argument("--room", metavar="FOLDER", type=Path, help="where the journals are; otherwise in memory, and then on disk")
    parser.add_argument("--echo", metavar="PORT", type=int, help=argparse.SUPPRESS)
    return parser.parse_args()


def main():
    words = asked()
    if words.echo:
        return echo(words.echo)
    program = program_of(words)
    folders = [words.room] if words.room else [*filter(Path.is_dir, [MEMORY]), Path(tempfile.gettempdir())]
    for folder in folders:
        measure(program, words.edits // EDITS * EDITS, folder)


if __name__ == "__main__":
    main()
