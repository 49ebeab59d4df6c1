"""Runs the parts of the bench one after the other, an hour at most in all, and writes what they print into one file.

    python3 all.py RUN FOLDER

RUN is `bench/run`. FOLDER gets DATE-COMMIT.md, with the commit, the machine, how each part ended and its tables; beside it are the picture of
the part `grows` (.svg) and what parts say besides (.log). A part has its share of the hour: then it begins no further row (`in_time` of
`clock.py`), and what it left out is in the file. GRACE seconds later it is stopped. With QUICK each part has a sixth of its share, and with
MINUTES=N all of them together that many minutes.
"""

import contextlib
import datetime
import hashlib
import os
import platform
import re
import signal
import subprocess
import sys
import threading
import time

from clock import QUICK

TOP = os.path.dirname(os.path.dirname(os.path.abspath(__file__)))
# part: its share in seconds, and the variables that name its programs. With the grace of each this is less than an hour.
PARTS = {
    "sheets": (300, ["SHEETS", "BENCH_WORK"]),
    "moves": (120, ["BENCH_WORK"]),
    "rounds": (240, ["BENCH_WORK"]),
    "desk": (300, ["BENCH_DESK"]),
    "serve": (360, ["FTPD"]),
    "shown": (240, ["FTPD"]),
    "waits": (180, ["FTPD"]),
    "pace": (450, ["FTPD"]),
    "office": (120, ["FTPD"]),
    "peers": (540, ["FTPD"]),
    "grows": (480, ["FTPD"]),
}
GRACE, KILLED = 20, 10


def said(*words):
    """What a command prints, or nothing if it fails."""
    return subprocess.run(words, cwd=TOP, capture_output=True, text=True, check=False).stdout.strip()


def first_of(path, pattern):
    """The first group of the pattern in a file."""
    with open(path, encoding="utf-8") as it:
        found = re.search(pattern, it.read())
    return found[1] if found else "unknown"


def load():
    """The load of the machine over the last 1, 5 and 15 minutes."""
    return " ".join(f"{it:.2f}" for it in os.getloadavg())


def program_of(path):
    """A program's path, the day it was made, and the beginning of its sum, since it may be of another commit."""
    if not os.access(path, os.X_OK):
        return "not there"
    with open(path, "rb") as it:
        total = hashlib.sha256(it.read()).hexdigest()
    made, of = datetime.datetime.fromtimestamp(os.path.getmtime(path), datetime.timezone.utc), ""
    with contextlib.suppress(OSError), open(f"{path}.txt", encoding="utf-8") as it:
        of = f", {it.read().strip()}"
    return f"`{path}`, made {made:%Y-%m-%d %H:%M} UTC, SHA-256 {total[:16]}..{of}"


def machine():
    """What was measured, and on which machine."""
    changed = " and changes that are not committed" if said("git", "status", "--porcelain") else ""
    yield "commit", said("git", "rev-parse", "HEAD") + changed
    for name in ("FTPD", "SHEETS", "BENCH_WORK", "BENCH_DESK", "BEFORE", "SHEETS_BEFORE"):
        if name in os.environ or "BEFORE" not in name:
            yield name, program_of(os.environ.get(name, ""))
    yield "processors", f"{os.cpu_count()}, {first_of('/proc/cpuinfo', r'model name[^:]*: (.*)')}"
    yield "memory", f"{int(first_of('/proc/meminfo', r'MemTotal: *([0-9]+)')) / 1_048_576:.0f} GB"
    yield "system", f"{platform.platform()}, {platform.freedesktop_os_release().get('PRETTY_NAME', '')}"
    yield "compiler of the yardsticks", said("rustc", "--version") or "none"
    yield "sizes", "the smallest, so the figures mean nothing (QUICK)" if QUICK else "all"


class Report:
    """The file of a run: it is written anew whenever a part has ended."""

    def __init__(self, path):
        self.path, self.begun = path, datetime.datetime.now(datetime.timezone.utc)
        self.facts = [*machine(), ("load before", load())]
        self.ends, self.texts = [], []

    def add(self, part, seconds, end, text):
        """Adds how a part ended, and what it printed."""
        left_out = sum(it.count("; ") + 1 for it in re.findall(r"^Left out: (.*)", text, re.M))
        more = f"; {left_out} rows left out, named below" if left_out else ""
        self.ends.append((part, f"{seconds / 60:.1f}", f"{share_of(part) / 60:.1f}", end + more))
        if text.strip():
            self.texts.append(f"## {part}\n\n{text.strip()}\n")
        self.write()

    def write(self):
        """Writes the file, with the load of now as that after the run."""
        picture = f"{os.path.basename(self.path)[:-3]}.svg"
        shown = f"![How each cost grows]({picture})\n" if os.path.exists(f"{self.path[:-3]}.svg") else ""
        facts = [*self.facts, ("load after", load())]
        with open(self.path, "w", encoding="utf-8") as it:
            it.write(f"# Bench of {self.begun:%d %B %Y, %H:%M} UTC\n\n| What | |\n|---|---|\n")
            it.writelines(f"| {name} | {value} |\n" for name, value in facts)
            it.write("\n| Part | Minutes | Of | Its end |\n|---|---:|---:|---|\n")
            it.writelines(f"| {' | '.join(row)} |\n" for row in self.ends)
            it.write("\n" + "\n".join([*self.texts, shown]))


def share_of(part):
    """How many seconds a part has."""
    share = PARTS[part][0] / (6 if QUICK else 1)
    if "MINUTES" not in os.environ:
        return share
    whole = sum(seconds for seconds, _ in PARTS.values())
    return PARTS[part][0] / whole * (float(os.environ["MINUTES"]) * 60 - GRACE * len(PARTS))


def stop(process):
    """Interrupts a part and all that it has begun in its group, as Ctrl-C does, and kills them if that is not enough."""
    for number in (signal.SIGINT, signal.SIGKILL):
        with contextlib.suppress(ProcessLookupError, subprocess.TimeoutExpired):
            if process.poll() is None:
                os.killpg(process.pid, number)
                process.wait(KILLED)


def run(words, until, log, lines):
    """Runs a part in a group of its own, adds what it prints to `lines`, and returns its status. It is stopped some time after a moment, or with this program."""
    process = subprocess.Popen(words, stdout=subprocess.PIPE, stderr=log, text=True, env={**os.environ, "BENCH_UNTIL": str(until)}, start_new_session=True)
    timer = threading.Timer(until + GRACE - time.monotonic(), stop, [process])
    timer.start()
    try:
        for line in process.stdout:
            print(line, end="", flush=True)
            lines.append(line)
        return process.wait()
    finally:
        timer.cancel()
        stop(process)
        lines.extend(process.stdout)


def run_part(part, program, report, log):
    """Runs a part, and adds it to the report however it ends."""
    missing = [it for it in PARTS[part][1] if not os.access(os.environ.get(it, ""), os.X_OK)]
    if missing:
        report.add(part, 0, f"not measured: there is no program {' and '.join(missing)}", "")
        return
    begun, lines, end = time.monotonic(), [], "stopped by hand"
    until = begun + share_of(part)
    print(f"\n## {part}\n", flush=True)
    try:
        status = run([program, part], until, log, lines)
        end = f"failed with status {status}: see the log" if status else "ended by itself"
        if time.monotonic() > until + GRACE:
            end = "stopped, since its time was over; its tables after the last one are left out"
    finally:
        report.add(part, time.monotonic() - begun, end, "".join(lines))


def main(program, folder):
    # (a part's own way to end is that of Ctrl-C, which a shell may have had this program ignore)
    signal.signal(signal.SIGINT, signal.default_int_handler)
    signal.signal(signal.SIGTERM, signal.default_int_handler)
    os.makedirs(folder, exist_ok=True)
    now = datetime.datetime.now(datetime.timezone.utc)
    base = os.path.abspath(f"{folder}/{now:%Y-%m-%d-%H%M}-{said('git', 'rev-parse', '--short', 'HEAD')}")
    os.environ["PICTURE"] = f"{base}.svg"
    report = Report(f"{base}.md")
    try:
        with open(f"{base}.log", "wb") as log:
            for part in PARTS:
                run_part(part, program, report, log)
    except KeyboardInterrupt:
        sys.exit("bench: stopped by hand")
    finally:
        report.write()
        print(f"The tables are in {report.path}", flush=True)


if __name__ == "__main__":
    main(*sys.argv[1:])
