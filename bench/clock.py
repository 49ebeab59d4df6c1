"""Runs programs and tells the time of the processor that they took, and what `valgrind` counts.

`BENCH_UNTIL` is the moment by the machine's clock (`time.monotonic`) from which on a part of the bench begins no further row, and `QUICK`
asks the parts `peers` and `grows` for their smallest sizes, by which only the bench itself is tried. `BUSY=N` has so many programs beside
the parts `pace` and `office` that do nothing but keep a processor busy.
"""

import contextlib
import os
import re
import shutil
import statistics
import subprocess
import sys
import time
from collections import namedtuple

UNTIL = float(os.environ.get("BENCH_UNTIL", "inf"))
QUICK = bool(os.environ.get("QUICK"))
BUSY = int(os.environ.get("BUSY") or 0)
LEFT_OUT = []


@contextlib.contextmanager
def beside_busy():
    """So many programs as `BUSY` says that never wait, until this is left, or this program is gone."""
    spin = f"import os\nwhile os.getppid() == {os.getpid()}: pass"
    with contextlib.ExitStack() as held:
        for _ in range(BUSY):
            one = subprocess.Popen([sys.executable, "-c", spin])
            held.callback(one.wait)
            held.callback(one.kill)
        yield


def is_calm():
    """Whether the machine has a processor for each program that wants one, as far as its load of the last minute and `BUSY` say."""
    return max(BUSY, os.getloadavg()[0]) < os.cpu_count()


def in_time(items, what=""):
    """Each of these, until the part's time is over. `tell` names below its table those that were not done."""
    items = list(items)
    LEFT_OUT.extend(f"{what}{it}" for it in items)
    for it in items:
        if time.monotonic() < UNTIL:
            yield it
            LEFT_OUT.remove(f"{what}{it}")


def seconds_of(process):
    """What a process that runs has taken of the processor with all its threads, those that have ended too, by its own clock (clock_getcpuclockid(3))."""
    return time.clock_gettime(~process << 3 | 2)


def run(words, output):
    """Returns the milliseconds of the processor, and the most memory in MB, which is at least that of this program."""
    # (posix_spawn(3) copies no pages of this program, whose copy the child would have paid for)
    to = [(os.POSIX_SPAWN_OPEN, 1, output, os.O_WRONLY | os.O_CREAT | os.O_TRUNC, 0o600)]
    child = os.posix_spawn(words[0], words, os.environ, file_actions=to)
    _, status, used = os.wait4(child, 0)
    if os.waitstatus_to_exitcode(status):
        sys.exit(f"bench: {' '.join(words)}: status {os.waitstatus_to_exitcode(status)}")
    return (used.ru_utime + used.ru_stime) * 1_000, used.ru_maxrss / 1_024


def least(words, output, runs):
    """The least milliseconds of so many runs, and the most memory."""
    found = [run(words, output) for _ in range(runs)]
    return min(time for time, _ in found), max(memory for _, memory in found)


def median(words, output, runs):
    """The median of the milliseconds of so many runs."""
    return statistics.median(run(words, output)[0] for _ in range(runs))


def counted(words, output, tool, what):
    """The number that `valgrind` tells behind these words, as the instructions of a run, or nothing where there is none."""
    if not shutil.which("valgrind"):
        return None
    more = ["--cache-sim=no", "--cachegrind-out-file=/dev/null"] if tool == "cachegrind" else []
    with open(output, "wb") as to:
        ran = subprocess.run(["valgrind", f"--tool={tool}", *more, *words], stdout=to, stderr=subprocess.PIPE, text=True)
    found = re.search(rf"{what}: +([0-9,]+)", ran.stderr)
    if ran.returncode or not found:
        sys.exit(f"bench: valgrind {' '.join(words)}: {ran.stderr[-500:]}")
    return int(found.group(1).replace(",", ""))


def tell(head, rows):
    """Prints a table, and the rows that it lacks, also if it is interrupted."""
    print("| " + " | ".join(head) + " |")
    print("|---|" + "---:|" * (len(head) - 1))
    try:
        for row in rows:
            print("| " + " | ".join(row) + " |", flush=True)
    finally:
        print()
        if LEFT_OUT:
            print(f"Left out: {'; '.join(LEFT_OUT)}.\n", flush=True)
            LEFT_OUT.clear()


# What rows are to have, at least or at most. `value` is called with a row's name and with what was found in it, and has what of it is meant, or nothing if the goal is not of that row.
Goal = namedtuple("Goal", "name value least most", defaults=(None, None))


def judge(goals, found):
    """Prints for each goal and server the row that is furthest from it, and whether it is met. What was found has a row for each name and server."""
    rows = []
    for goal in goals:
        for server in dict.fromkeys(of for _, of, _ in found):
            values = [(goal.value(row, it), row) for row, of, it in found if of == server]
            values = [it for it in values if it[0] is not None]
            if values:
                worst, row = min(values) if goal.most is None else max(values)
                wanted, is_met = (f"at least {goal.least}", worst >= goal.least) if goal.most is None else (f"at most {goal.most}", worst <= goal.most)
                rows.append([goal.name, server, wanted, f"{worst:.4f}", row, "met" if is_met else "missed"])
    if rows:
        tell(["goal", "server", "wanted", "measured", "the furthest of its rows", "met or missed"], rows)
