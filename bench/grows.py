"""Measures how each cost of the running server grows, and draws it.

    python3 grows.py FOLDER FTPD LOAD PICTURE [RUNS]

FOLDER lies in a file system in memory, and PICTURE is the SVG file that is written. Each point has a server of its own, and is the least of
so many runs (3) where the clients do something. Processor times are of the server alone. An exponent is the slope of a cost over its number,
both as logarithms: 1 is growth in proportion, 0 is none; over all points, and over the last two.
"""

import contextlib
import math
import os
import signal
import statistics
import subprocess
import sys
import time

from clock import QUICK, in_time, tell
from picture import Line, draw, short
from serve import MEGABYTE, Running, loaded, make_file, make_folder

KIBIBYTE, ROUND = 1_024, 65_536
SETTLED, COUNTED = (1, 2) if QUICK else (5, 20)
# How many octets, entries and transfers a point moves in all, or at most how often.
OCTETS, ENTRIES, TRANSFERS, MOST = (MEGABYTE, 40, 4, 10) if QUICK else (512 * MEGABYTE, 20_000, 64, 1_000)
LONE, SHARE = ("1024", "256") if QUICK else ("262144", "16384")


def idle(folder, program, load, number):
    """Sessions that do nothing: MB of memory, and milliseconds of the processor in a minute."""
    with Running(folder, program, False) as server, contextlib.ExitStack() as held:
        clients = held.enter_context(subprocess.Popen([load, str(server.port), "hold", str(number)], stdin=subprocess.PIPE, stdout=subprocess.PIPE))
        if clients.stdout.readline() != b"held\n":
            sys.exit(f"bench: {number} sessions are not let in")
        time.sleep(SETTLED)
        before = server.seconds()
        time.sleep(COUNTED)
        return server.memory(), (server.seconds() - before) / COUNTED * 60_000


def clients_of(folder, program, load, words, users=(("ann", ""),)):
    """What the clients moved, and the server's microseconds of the processor."""
    with Running(folder, program, False, "", users) as server:
        octets, _, used = loaded(load, server, words)
    return octets, used * 1e6


def together(folder, program, load, number):
    """Downloads at once, as many in all for each number: microseconds for each 64 KiB."""
    octets, used = clients_of(folder, program, load, ["down", str(number), str(TRANSFERS // number), SHARE])
    return (used / octets * ROUND,)


def among(folder, program, load, number):
    """A download beside users with rates who do nothing: microseconds for each 64 KiB."""
    users = [("ann", ""), *((f"user{it}", "down_rate = 1000000") for it in range(number))]
    octets, used = clients_of(folder, program, load, ["down", "1", "1", LONE], users)
    return (used / octets * ROUND,)


def among_guaranteed(folder, program, load, number):
    """The same beside users whose sessions have a guarantee."""
    users = [("ann", ""), *((f"user{it}", "session_down_floor = 1000") for it in range(number))]
    octets, used = clients_of(folder, program, load, ["down", "1", "1", LONE], users)
    return (used / octets * ROUND,)


def listing(folder, program, load, number):
    """Microseconds for a listing of so many entries."""
    times, used = clients_of(folder, program, load, ["list", "1", str(min(MOST, ENTRIES // number)), f"entries{number}"])
    return (used / times,)


def download(folder, program, load, number):
    """Microseconds for a download of so many KiB."""
    times = min(MOST, max(1, OCTETS // (number * KIBIBYTE)))
    _, used = clients_of(folder, program, load, ["down", "1", str(times), str(number)])
    return (used / times,)


# what grows: its numbers, what measures at one of them, and each cost that this gives with its unit
GROWTHS = {
    "idle sessions": ([1, 8] if QUICK else [1, 8, 64, 510], idle, [("memory", "MB"), ("processor time a minute", "ms")]),
    "downloads at once": ([1, 4] if QUICK else [1, 4, 16, 64], together, [("processor time per 64 KiB", "us")]),
    "users with rates": ([1, 10] if QUICK else [1, 10, 100, 1_000], among, [("a lone download's processor time per 64 KiB", "us")]),
    "users with guarantees": ([1, 10] if QUICK else [1, 10, 100, 1_000], among_guaranteed, [("a lone download's processor time per 64 KiB", "us")]),
    "entries of a folder": ([10, 20] if QUICK else [10, 100, 1_000, 10_000], listing, [("a listing's processor time", "us")]),
    "KiB of a file": ([1, 256, 1_024] if QUICK else [1, 16, 256, 4_096, 65_536, 262_144], download, [("a download's processor time", "us")]),
}


def make_all(folder):
    """Makes the folders that are listed, and the files that are downloaded: their names are their numbers of entries and of KiB."""
    for number in GROWTHS["entries of a folder"][0]:
        make_folder(f"{folder}/files/entries{number}", number)
    for name in {str(it) for it in GROWTHS["KiB of a file"][0]} | {LONE, SHARE}:
        make_file(f"{folder}/files/{name}", int(name) * KIBIBYTE)


def exponent(points):
    """The slope of the logarithms of these points, or a dash if there is none."""
    if len(points) < 2:
        return "-"
    slope, _ = statistics.linear_regression(*zip(*((math.log(number), math.log(cost)) for number, cost in points)))
    return f"{slope:.2f}"


def rows(folder, program, load, runs, lines):
    """A row of each cost. Adds its line of the picture to `lines`."""
    for name, (numbers, measure, costs) in GROWTHS.items():
        found = []
        for number in in_time(numbers, f"{name}, "):
            each = [measure(folder, program, load, number) for _ in range(1 if measure is idle else runs)]
            found.append((number, [min(it) for it in zip(*each)]))
        for at, (cost, unit) in enumerate(costs):
            points = [(number, max(values[at], 1e-3)) for number, values in found]
            if points:
                lines.append(Line(f"{name}: {cost}", unit, points))
            each = ", ".join(f"{number:,}: {short(value)}" for number, value in points)
            yield [name, f"{cost} ({unit})", each or "-", exponent(points), exponent(points[-2:])]


def main(folder, program, load, picture, runs="3"):
    signal.signal(signal.SIGTERM, signal.default_int_handler)
    make_all(folder)
    lines = []
    try:
        tell(["what grows", "cost", "at each number", "exponent", "of the last step"], rows(folder, program, load, int(runs), lines))
    finally:
        if lines:
            draw(picture, "How each cost of ftpd grows", lines)
            print(f"The picture of it is {os.path.abspath(picture)}\n", flush=True)


if __name__ == "__main__":
    main(*sys.argv[1:])
