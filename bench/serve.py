"""Measures the running server beside a plain server that reads and writes with the same threads and buffers.

    python3 serve.py FOLDER YARDSTICK LOAD RUNS NAME=FTPD [NAME=FTPD ..]

FOLDER lies in a file system in memory. Each row is made with one server after the other, the plain one last, so many times, and tells the best:
octets or files a second, seconds of the processor of the server alone, its own and the system's for it, and how often its threads left a
processor of themselves (getrusage(2)). Then come the idle server, its memory, the division of rates, and how long others wait for the listing of
a large directory. Only ratios of one run say anything.

`CASES=TEXT` makes only the rows of transfers whose names have that text, of several by `|` any of them.
"""

import contextlib
import os
import signal
import socket
import subprocess
import sys
import threading
import time

from clock import Goal, in_time, judge, seconds_of, tell

MEGABYTE = 1_048_576
BIG, MIDDLE, SMALL = 512, 32, 1_000
LANES, CLIENTS = 64, 16
LONGEST_RELOAD = 10
SESSIONS = 64
RATE = 4 * MEGABYTE
ENTRIES, LISTINGS = 10_000, 3
BLOCK = 65_536
# row: what the clients do, and in what it is counted
ROWS = {
    "1 download of 512 MB": (["down", "1", "1", "big"], MEGABYTE, "MB/s"),
    "16 downloads, 4 of 32 MB each": (["down", str(CLIENTS), "4", "middle"], MEGABYTE, "MB/s"),
    "64 downloads of 32 MB each": (["down", str(LANES), "1", "middle"], MEGABYTE, "MB/s"),
    "1 upload of 512 MB": (["up", "1", "1", str(BIG * MEGABYTE)], MEGABYTE, "MB/s"),
    "16 uploads of 32 MB each": (["up", str(CLIENTS), "1", str(MIDDLE * MEGABYTE)], MEGABYTE, "MB/s"),
    "1 KB files, 1 client": (["down", "1", "2000", "small"], 1_024, "files/s"),
    "1 KB files, 16 clients": (["down", str(CLIENTS), "250", "small"], 1_024, "files/s"),
}
# The processor time of a row, over that of the plain server, is at most this.
MOST = {
    "1 download of 512 MB": 1.08,
    "16 downloads, 4 of 32 MB each": 1.15,
    "64 downloads of 32 MB each": 1.2,
    "1 upload of 512 MB": 1.06,
    "16 uploads of 32 MB each": 1.1,
}


def ports(count):
    """So many ports in a row that nothing listens on, below those that the machine takes by itself."""
    for first in range(12000 + os.getpid() % 5000, 31000, count):
        with contextlib.ExitStack() as held:
            try:
                for port in range(first, first + count):
                    one = held.enter_context(socket.socket())
                    one.setsockopt(socket.SOL_SOCKET, socket.SO_REUSEADDR, 1)
                    one.bind(("127.0.0.1", port))
                return first
            except OSError:
                pass
    sys.exit("bench: no free ports")


class Running:
    """A server that runs. `rates` are lines of its table, `users` its users: (name, more lines), `groups` the tables of its groups, and `words` more words of its command line."""

    def __init__(self, folder, program, is_plain, rates="", users=(("ann", ""),), groups="", words=()):
        self.folder, self.program, self.is_plain = folder, program, is_plain
        self.port = ports(1_000)
        if is_plain:
            self.words = [program, str(self.port), f"{folder}/files", str(LANES), str(self.port + 1), str(self.port + 999)]
            return
        self.write(rates, users, groups)
        self.words = [program, "serve", f"{folder}/ftpd.toml", *words]

    def write(self, rates, users, groups):
        """Writes the configuration."""
        at = f"port = {self.port}\npassive_first = {self.port + 1}\npassive_last = {self.port + 999}"
        head = f'version = 2\n[server]\nroot = "{self.folder}/files"\n{at}\nmax_cons = 512\nlanes = {LANES}\n{rates}\n'
        text = head + groups + "".join(f'[[user]]\nname = "{name}"\npassword = "secret"\nhome = "/"\nperms = "elradfmw"\n{more}\n' for name, more in users)
        with open(f"{self.folder}/new.toml", "w", encoding="utf-8") as it:
            it.write(text)
        os.rename(f"{self.folder}/new.toml", f"{self.folder}/ftpd.toml")

    def reload(self, rates, users, groups=""):
        """Has the server, whose words have this reload file, take another configuration; returns once it notes that."""
        self.write(rates, users, groups)
        with open(f"{self.folder}/reload", "wb"):
            pass
        until = time.monotonic() + LONGEST_RELOAD
        while time.monotonic() < until:
            with open(f"{self.folder}/log", encoding="utf-8") as it:
                if "configuration reloaded" in it.read():
                    return
            time.sleep(0.005)
        sys.exit("bench: no configuration was reloaded")

    def __enter__(self):
        self.log = open(f"{self.folder}/log", "wb")
        self.process = subprocess.Popen(self.words, stdout=subprocess.PIPE, stderr=self.log)
        with contextlib.ExitStack() as held:
            # (it is ended if it does not serve, or if this is interrupted)
            held.callback(Running.__exit__, self)
            if self.process.stdout.readline() != b"ready\n":
                sys.exit(f"bench: {' '.join(self.words)} does not serve")
            held.pop_all()
        return self

    def __exit__(self, *_):
        os.kill(self.process.pid, signal.SIGKILL)
        _, status, used = os.wait4(self.process.pid, 0)
        self.process.returncode, self.switched = os.waitstatus_to_exitcode(status), used.ru_nvcsw
        self.process.stdout.close()
        self.log.close()

    def seconds(self):
        """What it has taken of the processor."""
        return seconds_of(self.process.pid)

    def switches(self):
        """How often the threads that it has left a processor of themselves; `switched` has that of all its threads once it has ended."""
        total = 0
        for thread in os.listdir(f"/proc/{self.process.pid}/task"):
            # (one may end meanwhile)
            with contextlib.suppress(OSError), open(f"/proc/{self.process.pid}/task/{thread}/status", encoding="utf-8") as it:
                total += next(int(line.split()[1]) for line in it if line.startswith("voluntary_ctxt"))
        return total

    def memory(self):
        """What it holds, in MB."""
        with open(f"/proc/{self.process.pid}/status", encoding="utf-8") as it:
            return next(int(line.split()[1]) for line in it if line.startswith("VmRSS")) / 1_024


def make_file(path, octets):
    """A file of this length, of one random block again and again."""
    block = os.urandom(min(octets, MEGABYTE))
    with open(path, "wb") as it:
        for _ in range(octets // len(block)):
            it.write(block)


def make_folder(path, entries):
    """A folder of so many empty files."""
    os.makedirs(path)
    for number in range(entries):
        with open(f"{path}/entry{number}", "wb"):
            pass


def make_files(folder):
    make_folder(f"{folder}/files/many", ENTRIES)
    for name, octets in (("big", BIG * MEGABYTE), ("middle", MIDDLE * MEGABYTE), ("small", 1_024)):
        make_file(f"{folder}/files/{name}", octets)


def loaded(load, server, words):
    """Octets and seconds as the clients tell them, and the server's seconds of the processor."""
    before = server.seconds()
    found = subprocess.run([load, str(server.port), *words], capture_output=True, text=True)
    if found.returncode:
        sys.exit(f"bench: load {' '.join(words)}: {found.stderr[-500:]}")
    octets, took = found.stdout.split()
    return int(octets), float(took), server.seconds() - before


PLAIN = "plain"


def is_wanted(name):
    """Whether a row is to be made."""
    return any(it in name for it in os.environ.get("CASES", "").split("|"))


def throughput(folder, servers, load, runs, found):
    """A row of each kind of transfers. What each server took of the processor, over the plain one, is added to `found`."""
    for row in in_time(filter(is_wanted, ROWS)):
        words, unit, what = ROWS[row]
        best, least, left = {}, {}, {}
        for _ in range(runs):
            for name, program in servers:
                with Running(folder, program, name == PLAIN) as server:
                    before = server.switches()
                    octets, took, used = loaded(load, server, words)
                best[name] = max(best.get(name, 0), octets / unit / took)
                least[name] = min(least.get(name, used), used)
                switches = (server.switched - before) / (octets / min(unit, BLOCK))
                left[name] = min(left.get(name, switches), switches)
        names = [name for name, _ in servers]
        over = lambda of: {name: of[name] / max(of[PLAIN], 0.01) for name in names if name != PLAIN}
        found += [(row, name, it) for name, it in over(least).items()]
        ratios = lambda of: [f"{it:.2f}" for it in over(of).values()]
        yield [row, *(f"{best[it]:,.0f} {what}" for it in names), *ratios(best), *(f"{least[it]:.2f}" for it in names), *ratios(least), *(f"{left[it]:.2f}" for it in names)]


def idle(folder, servers, load):
    programs = dict(servers)
    for name in in_time(programs, "idle "):
        with Running(folder, programs[name], name == PLAIN) as server:
            row = [name]
            for sessions in (0, SESSIONS):
                with contextlib.ExitStack() as held:
                    if sessions:
                        clients = subprocess.Popen([load, str(server.port), "hold", str(sessions)], stdin=subprocess.PIPE, stdout=subprocess.PIPE)
                        held.callback(clients.wait)
                        held.callback(clients.stdin.close)
                        clients.stdout.readline()
                    time.sleep(1)
                    before = server.seconds()
                    time.sleep(10)
                    row += [f"{(server.seconds() - before) * 10:.1f} %", f"{server.memory():.1f}"]
            yield row


# row: lines of the server's table, its users, the clients, and what each ought to have of RATE
DIVISIONS = {
    "server's rate: three fast readers and a slow one": (f"rate = {RATE}", (("ann", ""),), ["ann:0", "ann:0", "ann:0", f"ann:{RATE // 16}"], [0.3125, 0.3125, 0.3125, 0.0625]),
    "server's rate, alone": (f"rate = {RATE}", (("ann", ""),), ["ann:0"], [1]),
    "user's rate, alone": ("", (("ann", f"down_rate = {RATE}"),), ["ann:0"], [1]),
    "session's rate, alone": ("", (("ann", f"session_down_rate = {RATE}"),), ["ann:0"], [1]),
    "a session with a guarantee of half, and three without": (f"rate = {RATE}", (("ann", f"session_down_floor = {RATE // 2}"), ("bob", "")), ["ann:0", "bob:0", "bob:0", "bob:0"], [0.5, 1 / 6, 1 / 6, 1 / 6]),
    "downloads' rate: a guarantee of a quarter, a limit of an eighth, and five without": (
        f"down_rate = {RATE}",
        (("ann", f"session_down_floor = {RATE // 4}"), ("bob", f"down_rate = {RATE // 8}"), ("carol", "")),
        ["ann:0", "bob:0", *["carol:0"] * 5],
        [0.25, *[0.125] * 6],
    ),
    "a limited user (of RATE), and one without a limit": ("", (("ann", f"down_rate = {RATE}"), ("bob", "")), ["ann:0", "bob:0"], [1, None]),
}
SKIPPED, COUNTED = 12, 10


def divisions(folder, program, load):
    for name in in_time(DIVISIONS):
        rates, users, clients, parts = DIVISIONS[name]
        with Running(folder, program, False, rates, users) as server:
            before = server.seconds()
            words = [load, str(server.port), "rates", str(SKIPPED), str(COUNTED), "big", *clients]
            found = [float(it) for it in subprocess.run(words, capture_output=True, text=True, check=True).stdout.split()]
            used = server.seconds() - before
        ratios = ["-" if part is None else f"{had / (part * RATE):.3f}" for had, part in zip(found, parts)]
        total = "-" if None in parts else f"{sum(found) / RATE:.3f}"
        yield [name, " ".join(f"{it / MEGABYTE:.2f}" for it in found), " ".join(ratios), total, f"{used / (SKIPPED + COUNTED) * 100:.1f} %"]


class Talk:
    """A control connection of the bench itself."""

    def __init__(self, port):
        self.socket = socket.create_connection(("127.0.0.1", port))
        self.socket.setsockopt(socket.IPPROTO_TCP, socket.TCP_NODELAY, 1)
        self.text = self.socket.makefile("rb")
        self.text.readline()
        for line in ("USER ann", "PASS secret", "TYPE I"):
            self.says(line)

    def says(self, line):
        self.socket.sendall(f"{line}\r\n".encode())
        return self.text.readline()


def listing(folder, program):
    """How long another session waits, at most, while one lists a directory of many entries some times."""
    with Running(folder, program, False) as server:
        lister, other = Talk(server.port), Talk(server.port)
        waits, took = [], []

        def lists():
            for _ in range(LISTINGS):
                begun = time.monotonic()
                lister.socket.sendall(b"STAT /many\r\n")
                while not lister.text.readline().startswith(b"213 "):
                    pass
                took.append(time.monotonic() - begun)

        thread = threading.Thread(target=lists)
        thread.start()
        while thread.is_alive():
            asked = time.monotonic()
            other.says("SIZE small")
            waits.append(time.monotonic() - asked)
            time.sleep(0.002)
        return [f"STAT of {ENTRIES} entries", f"{min(took) * 1_000:.0f}", f"{max(waits) * 1_000:.1f}"]


def main(folder, plain, load, runs, *words):
    make_files(folder)
    named = [it.split("=", 1) for it in words]
    servers, ftpd, found = [*named, (PLAIN, plain)], named[0][1], []
    names = [name for name, _ in servers]
    over = [f"{name} / {PLAIN}" for name in names if name != PLAIN]
    head = ["what", *names, *over, *(f"{name}: processor s" for name in names), *over, *(f"{name}: switches for 64 KB or a file" for name in names)]
    tell(head, throughput(folder, servers, load, int(runs), found))
    judge([Goal(f"processor time over the plain server: {row}", lambda name, it, row=row: it if name == row else None, most=most) for row, most in MOST.items()], found)
    if os.environ.get("CASES"):
        return
    tell(["idle", "no session", "MB", f"{SESSIONS} sessions", "MB"], idle(folder, servers, load))
    tell(["division of 4 MiB/s", "MiB/s each", "of what each ought to have", "of the rate", "processor"], divisions(folder, ftpd, load))
    tell(["a long listing", "it takes (ms)", "others wait at most (ms)"], (listing(folder, ftpd) for _ in in_time(["a long listing"])))


if __name__ == "__main__":
    main(*sys.argv[1:])
