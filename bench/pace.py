"""Measures how a server divides its rates: segments and what an Ethernet carries, the shares of equal transfers, processor time.

    python3 pace.py FOLDER NAME=FTPD [NAME=FTPD ..]

FOLDER lies in a file system in memory. Each case is made with one server after the other, so that servers are compared in one run. The
segments are the kernel's count of the server's data connections (`ss -ti`); an Ethernet carries 90 octets beside each (66 of heads, 24
of preamble, sum and gap). Shares are over what each transfer ought to have, of some as `ftpd plan` says of the same configuration; Jain's index
of them is 1 if they are equal. Where one session has a guarantee, its own share is told by itself. A case with a reload has two rows: the
second is of the seconds from the moment on at which the server notes it. A second table has what a lone download without a limit costs beside
users who do nothing. Below each are the goals, with the row that is furthest from each.

`CASES=TEXT` makes only the cases whose names have that text, of several by `|` any of them. A server whose command line lacks an option of a case has no such row.
"""

import json
import os
import re
import socket
import subprocess
import sys
import threading
import time
from collections import namedtuple

from clock import Goal, beside_busy, in_time, is_calm, judge, tell
from serve import MEGABYTE, Running, is_wanted

WARM, COUNTED = 2.5, 6
LONE_WARM, LONE_COUNTED = 1, 2
BESIDE = 90
BLOCK = bytes(65_536)
DOWN, UP = "RETR big", "STOR upload"


class Transfer:
    """A transfer of a user. It reads as fast as it can, or `speed` octets a second; it sends as fast, or `piece` octets each `pause` seconds."""

    def __init__(self, server, user, line, speed=0, piece=0, pause=0.0):
        self.line, self.speed, self.piece, self.pause = line, speed, piece, pause
        self.control = socket.create_connection(("127.0.0.1", server.port))
        self.text = self.control.makefile("rb")
        self.text.readline()
        for said in (f"USER {user}", "PASS secret", "TYPE I"):
            self.says(said)
        numbers = re.search(rb"(\d+),(\d+)\)", self.says("PASV"))
        self.data = socket.socket()
        if speed:
            self.data.setsockopt(socket.SOL_SOCKET, socket.SO_RCVBUF, 8_192)
        self.data.connect(("127.0.0.1", int(numbers[1]) * 256 + int(numbers[2])))
        self.got = 0
        self.file = f"{server.folder}/files/upload{id(self)}"
        self.says(line if line == DOWN else f"STOR upload{id(self)}")

    def says(self, line):
        self.control.sendall(f"{line}\r\n".encode())
        return self.text.readline()

    def moved(self):
        return self.got if self.line == DOWN else os.path.getsize(self.file)

    def run(self):
        """Moves octets until the connection is closed."""
        begun, sent, room = time.monotonic(), 0, bytearray(MEGABYTE)
        try:
            while True:
                if self.line != DOWN and self.piece:
                    self.data.send(BLOCK[: self.piece])
                    sent += 1
                    time.sleep(max(0, begun + sent * self.pause - time.monotonic()))
                elif self.line != DOWN:
                    self.data.send(BLOCK)
                elif self.speed and self.speed * (time.monotonic() - begun) < self.got + 2_000:
                    time.sleep(0.01)
                else:
                    self.got += self.data.recv_into(room, 4_096 if self.speed else 0)
        except OSError:
            pass

    def close(self):
        for it in (self.data, self.control):
            it.close()


def read_all(transfers, is_over):
    """Reads all fast downloads in one thread, so that the clients cost little."""
    room = bytearray(MEGABYTE)
    for it in transfers:
        it.data.setblocking(False)
    while not is_over.is_set():
        for it in transfers:
            try:
                while count := it.data.recv_into(room):
                    it.got += count
            except OSError:
                pass
        time.sleep(0.004)


def segments(server):
    """The octets and the segments that the server's data connections have sent."""
    listed = subprocess.run(["ss", "-tinOH", "state", "established"], capture_output=True, text=True, check=True).stdout
    octets = count = 0
    for line in listed.splitlines():
        words = line.split()
        if len(words) > 3 and server.port < int(words[2].rpartition(":")[2]) < server.port + 1_000:
            for name in ("bytes_sent", "data_segs_out"):
                found = re.search(rf"\b{name}:(\d+)", line)
                octets += int(found[1]) if found and name == "bytes_sent" else 0
                count += int(found[1]) if found and name == "data_segs_out" else 0
    return octets, count


# Lines of the server's table, users, transfers (user, command, and how it reads or sends), what each ought to have (or nothing, if `plan` says
# it), more words of the command line, the tables of groups, and the lines, users and groups that a reload puts in force.
Case = namedtuple("Case", "rates users clients due words groups then", defaults=((), "", None))


def planned(server, case):
    """What each transfer ought to have, as `plan` says of the server's configuration now."""
    asked = dict.fromkeys((user, line) for user, line, *_ in case.clients)
    count = {it: sum(client[:2] == it for client in case.clients) for it in asked}
    word = ",".join(f"{user}:{'down' if line == DOWN else 'up'}={count[user, line]}" for user, line in asked)
    found = subprocess.run([server.program, "plan", f"{server.folder}/ftpd.toml", word, "--json", *case.words], capture_output=True, text=True, check=True)
    octets = {it: [] for it in asked}
    for it in json.loads(found.stdout)["transfers"]:
        octets[it["user"], DOWN if it["direction"] == "down" else UP].append(it["octets"])
    return [octets[client[:2]].pop(0) for client in case.clients]


def window(server, transfers):
    """For some seconds: the octets a second of each transfer, the segments a second, their octets a second, and the server's share of a core."""
    begun, used, sent = time.monotonic(), server.seconds(), segments(server)
    before = [it.moved() for it in transfers]
    time.sleep(COUNTED)
    took = time.monotonic() - begun
    shares = [(it.moved() - had) / took for it, had in zip(transfers, before)]
    octets, count = (now - then for now, then in zip(segments(server), sent))
    return shares, count / took, octets / took, (server.seconds() - used) / took


def measured(folder, program, case):
    """What each transfer ought to have, with what `window` has: once, and again after a reload."""
    words = (*case.words, *(("--reload-file", f"{folder}/reload") if case.then else ()))
    with Running(folder, program, False, case.rates, case.users, case.groups, words) as server:
        transfers = [Transfer(server, *it) for it in case.clients]
        fast = [it for it in transfers if it.line == DOWN and not it.speed]
        is_over = threading.Event()
        threads = [threading.Thread(target=read_all, args=(fast, is_over))]
        threads += [threading.Thread(target=it.run) for it in transfers if it not in fast]
        for it in threads:
            it.start()
        time.sleep(WARM)
        found = [(case.due or planned(server, case), *window(server, transfers))]
        if case.then:
            server.reload(*case.then)
            found.append((planned(server, case), *window(server, transfers)))
        is_over.set()
        for it in transfers:
            it.close()
        for it in threads:
            it.join()
    return found


def serves(program, words):
    """Whether a server's command line has this option."""
    return not words or words[0] in subprocess.run([program, "serve", "--help"], capture_output=True, text=True, check=True).stdout


def equal(rate, number, line):
    """So many transfers of one user under the server's rate."""
    return f"rate = {rate}", (("ann", ""),), [("ann", line)] * number, [rate / number] * number


def session(rate):
    """One transfer under the rate of each session of a user."""
    return "", (("ann", f"session_down_rate = {rate}"),), [("ann", DOWN)], [rate]


def unlimited_beside(users):
    """A transfer without a limit beside one of a user with a rate, who is one of this many."""
    rated = [(f"user{number}", "down_rate = 1000000") for number in range(users)]
    return "", (("ann", ""), *rated), [("user0", DOWN), ("ann", DOWN)], [1_000_000, None]


def guaranteed(rate, number, floor, words=(), key="down_rate"):
    """So many downloads under one rate, of which one is of a session with a guarantee; the others share the rest."""
    rest = min((rate - floor) / (number - 1), rate / number)
    users = (("ann", f"session_down_floor = {floor}"), ("bob", ""))
    return f"{key} = {rate}", users, [("ann", DOWN)] + [("bob", DOWN)] * (number - 1), [rate - rest * (number - 1)] + [rest] * (number - 1), words


def office(downs, ups):
    """A line of 50 Mbit/s down and 10 up: a guarantee of 1,000,000 beside so many downloads and uploads of others."""
    due = [1_000_000] + [5_250_000 / downs] * downs + [1_250_000 / ups] * ups
    users = (("ann", "session_down_floor = 1000000"), ("bob", ""))
    return "down_rate = 6250000\nup_rate = 1250000", users, [("ann", DOWN)] + [("bob", DOWN)] * downs + [("bob", UP)] * ups, due


LINE = 4 * MEGABYTE
DRIBBLES = [("ann", UP, 0, 1_400, 0.014)] * 5
# Words of a server whose line is shared among users, of whom two share it here.
AMONG_USERS = ("--share-by", "users")
PAIR = (("ann", ""), ("bob", ""))
# An office among users: a group with a guarantee in it, sessions with a rate, and a user with nothing.
OFFICE = [("ann", DOWN)] + [("bob", DOWN)] * 8 + [("cem", DOWN)] * 4 + [("dora", DOWN)] * 2


def office_of(rate, group, own, floor):
    """The lines, users and tables of groups of that office, by these rates."""
    users = (("ann", f'group = "sales"\nsession_down_floor = {floor}'), ("bob", 'group = "sales"'), ("cem", f"session_down_rate = {own}"), ("dora", ""), ("eva", ""))
    return f"rate = {rate}", users, f'[[group]]\nname = "sales"\ndown_rate = {group}\n'


def planned_office(first, then=None, more=()):
    """Its case: by these rates, from a reload on by others, and with more transfers."""
    rates, users, groups = office_of(*first)
    return rates, users, [*OFFICE, *more], None, AMONG_USERS, groups, then and office_of(*then)


FIRST, THEN = (LINE, LINE // 2, LINE // 64, LINE * 3 // 8), (LINE // 2, LINE // 3, LINE // 32, LINE // 8)
# Each is a `Case`.
CASES = {
    "64 downloads at 2,000,000": equal(2_000_000, 64, DOWN),
    "64 downloads at 200,000": equal(200_000, 64, DOWN),
    "64 downloads at 10,000": equal(10_000, 64, DOWN),
    "8 downloads at 1,000": equal(1_000, 8, DOWN),
    "100 a second: two of a user with 40, and another": ("rate = 100", (("ann", "down_rate = 40"), ("bob", "")), [("ann", DOWN), ("ann", DOWN), ("bob", DOWN)], [20, 20, 60]),
    "1 download at 2,000,000": equal(2_000_000, 1, DOWN),
    "16 downloads at 20,000,000": equal(20_000_000, 16, DOWN),
    "16 uploads at 2,000,000": equal(2_000_000, 16, UP),
    "1 upload at 4 MiB": equal(LINE, 1, UP),
    "4 MiB: three fast readers and a slow one": (f"rate = {LINE}", (("ann", ""),), [("ann", DOWN)] * 3 + [("ann", DOWN, LINE // 16)], [LINE * 5 / 16] * 3 + [LINE / 16]),
    "8 of a user with 1,000, beside one of a user with 4 MiB": ("", (("ann", "down_rate = 1000"), ("bob", f"down_rate = {LINE}")), [("ann", DOWN)] * 8 + [("bob", DOWN)], [125] * 8 + [LINE]),
    "4 MiB: 60 of a user with 10,000, and two others": (f"rate = {LINE}", (("ann", "down_rate = 10000"), ("bob", "")), [("ann", DOWN)] * 60 + [("bob", DOWN)] * 2, [10_000 / 60] * 60 + [(LINE - 10_000) / 2] * 2),
    "a session's rate of 2 MB alone": session(2_000_000),
    "a session's rate of 15 MB alone": session(15_000_000),
    "a session's rate of 30 MB alone": session(30_000_000),
    "64 sessions' rates of 31,250": ("", (("ann", "session_down_rate = 31250"),), [("ann", DOWN)] * 64, [31_250] * 64),
    "four sessions' rates of 2 MB": ("", (("ann", "session_down_rate = 2000000"),), [("ann", DOWN)] * 4, [2_000_000] * 4),
    "a guarantee of 1 MiB in 4 MiB, under 12 others": (f"rate = {LINE}", (("ann", f"session_down_floor = {MEGABYTE}"), ("bob", "")), [("ann", DOWN)] + [("bob", DOWN)] * 12, [MEGABYTE] + [MEGABYTE / 4] * 12),
    "20, 20 and 60 of a group with 100": (
        'rate = 1000\n[[group]]\nname = "all"\ndown_rate = 100',
        (("ann", 'group = "all"\ndown_rate = 40'), ("bob", 'group = "all"')),
        [("ann", DOWN), ("ann", DOWN), ("bob", DOWN)],
        [20, 20, 60],
    ),
    "1,000: 16, one guaranteed 1": guaranteed(1_000, 16, 1),
    "1,000: 16, one guaranteed 500": guaranteed(1_000, 16, 500),
    "8,000: 16, one guaranteed 499": guaranteed(8_000, 16, 499),
    "8,000: 16, one guaranteed 999": guaranteed(8_000, 16, 999),
    "8,000: 16, one guaranteed 1,499": guaranteed(8_000, 16, 1_499),
    "5,000: 24, one guaranteed 10": guaranteed(5_000, 24, 10),
    "200,000: 64, one guaranteed 5,000": guaranteed(200_000, 64, 5_000),
    "2,000,000: 64, one guaranteed 50,000": guaranteed(2_000_000, 64, 50_000),
    "2,000,000: 64, each guaranteed 31,250": ("down_rate = 2000000", (("ann", "session_down_floor = 31250"),), [("ann", DOWN)] * 64, [31_250] * 64),
    "1,000,000: 4, one guaranteed 249,999": guaranteed(1_000_000, 4, 249_999),
    "6,250,000 down, 1,250,000 up: 38 and 4 beside one guaranteed 1,000,000": office(38, 4),
    "10,000,000: 32, one guaranteed 5,000,000": guaranteed(10_000_000, 32, 5_000_000),
    "4,000,000: 16, one guaranteed 3,000,000": guaranteed(4_000_000, 16, 3_000_000, key="rate"),
    "4,000,000 among users: 16, one guaranteed 3,000,000": guaranteed(4_000_000, 16, 3_000_000, AMONG_USERS, key="rate"),
    "4,000,000: four sessions' rates of 300,000 beside four others": (
        "down_rate = 4000000",
        (("ann", "session_down_rate = 300000"), ("bob", "")),
        [("ann", DOWN)] * 4 + [("bob", DOWN)] * 4,
        [300_000] * 4 + [700_000] * 4,
    ),
    "4 MiB among users: one download, and eight of another": (f"rate = {LINE}", PAIR, [("ann", DOWN)] + [("bob", DOWN)] * 8, [LINE / 2] + [LINE / 16] * 8, AMONG_USERS),
    "4 MiB among users: one download, and 60 of another": (f"rate = {LINE}", PAIR, [("ann", DOWN)] + [("bob", DOWN)] * 60, [LINE / 2] + [LINE / 120] * 60, AMONG_USERS),
    "4 MiB among users: one download, and eight sessions' rates of 128 KiB": (
        f"rate = {LINE}",
        (("ann", ""), ("bob", f"session_down_rate = {LINE // 32}")),
        [("ann", DOWN)] + [("bob", DOWN)] * 8,
        [LINE * 3 / 4] + [LINE / 32] * 8,
        AMONG_USERS,
    ),
    "4 MiB among users: a guarantee of 3 MiB, and eight of another": (
        f"rate = {LINE}",
        (("ann", f"session_down_floor = {3 * MEGABYTE}"), ("bob", "")),
        [("ann", DOWN)] + [("bob", DOWN)] * 8,
        [3 * MEGABYTE] + [MEGABYTE / 8] * 8,
        AMONG_USERS,
    ),
    "4 MiB: a guarantee of 3 MiB, and 60 others": (
        f"rate = {LINE}",
        (("ann", f"session_down_floor = {3 * MEGABYTE}"), ("bob", "")),
        [("ann", DOWN)] + [("bob", DOWN)] * 60,
        [3 * MEGABYTE] + [MEGABYTE / 60] * 60,
    ),
    "4 MiB among users: one download, 20 of another, and one of a user with 10,000": (
        f"rate = {LINE}",
        (("ann", ""), ("bob", ""), ("cem", "down_rate = 10000")),
        [("ann", DOWN)] + [("bob", DOWN)] * 20 + [("cem", DOWN)],
        [(LINE - 10_000) / 2] + [(LINE - 10_000) / 40] * 20 + [10_000],
        AMONG_USERS,
    ),
    "among users, as planned: a group, a guarantee in it, and sessions' rates": planned_office(FIRST),
    "among users, as planned: the same, and two uploads": planned_office(FIRST, more=[("eva", UP)] * 2),
    "among users, as planned, with a reload in the middle": planned_office(FIRST, THEN),
    "among users, as planned, one download beside 60, with a reload in the middle": (
        f"rate = {LINE}", PAIR, [("ann", DOWN)] + [("bob", DOWN)] * 60, None, AMONG_USERS, "", (f"rate = {LINE // 2}", PAIR),
    ),
    "1 MB: a download beside five uploads that dribble": ("rate = 1000000", (("ann", ""), ("bob", "")), [("bob", DOWN), *DRIBBLES], [500_000] + [100_000] * 5),
    "a user without a limit, and 1 user with a rate": unlimited_beside(1),
    "a user without a limit, and 400 users with rates": unlimited_beside(400),
    "a user without a limit beside 60 of a user with 10,000": ("", (("ann", "down_rate = 10000"), ("bob", "")), [("ann", DOWN)] * 60 + [("bob", DOWN)], [10_000 / 60] * 60 + [None]),
}


# What was found in a row: octets over the rates for each transfer that has one, Jain's index of these, the octets on an Ethernet over those sent, and the share of a core.
Found = namedtuple("Found", "parts jain wire used")
RATED = re.compile(r"sessions?'s? rates? ")
GUARANTEED = re.compile(r"guaranteed ([\d,]+)|a guarantee of ")
# (one without a limit, or who reads or sends slowly, has no share that could be kept to the thousandth)
UNEVEN = re.compile("a slow one|dribble|without a limit")
CROWDED = re.compile("64 downloads at 2,000,000|2,000,000: 64, ")


def of(pattern, value):
    """The value of what was found in a row whose name has this pattern."""
    return lambda name, found: value(found) if re.search(pattern, name) else None


def promised(name, found):
    """The share of a session that is guaranteed 100 octets or more: the first, or each."""
    given = GUARANTEED.search(name)
    if not given or given[1] and int(given[1].replace(",", "")) < 100:
        return None
    return min(found.parts) if "each guaranteed" in name else found.parts[0]


def goals():
    """What is wanted of the rows. On a busy machine a guarantee may be 0.97."""
    return (
        Goal("a guarantee of 100 octets and more", promised, least=0.99 if is_calm() else 0.97),
        Goal("sessions' rates", of(RATED, lambda it: min(it.parts)), least=0.99),
        Goal("Jain's index", lambda name, it: None if UNEVEN.search(name) else it.jain, least=0.999),
        Goal("64 downloads at 2,000,000, on an Ethernet", of(CROWDED, lambda it: it.wire), most=1.06),
        Goal("64 downloads at 2,000,000, of a core", of(CROWDED, lambda it: it.used), most=0.1),
        Goal("64 limited downloads, of a core", of("^64 downloads at 2,000,000", lambda it: it.used), most=0.045),
        Goal("among users, as planned: the least", of("among users", lambda it: min(it.parts)), least=0.99),
        Goal("among users, as planned: the greatest", of("among users", lambda it: max(it.parts)), most=1.01),
        Goal("among users, one download beside 60, on an Ethernet", of("among users: one download, and 60 ", lambda it: it.wire), most=1.06),
    )


def row_of(name, server, due, shares, count, octets, used, found):
    """The row of a case; what was found is added."""
    parts = [had / it for had, it in zip(shares, due) if it]
    jain = sum(parts) ** 2 / (len(parts) * sum(it * it for it in parts)) if any(parts) else 0
    wire = (octets + count * BESIDE) / octets if octets else None
    found.append((name, server, Found(parts, jain, wire, used)))
    total = f"{sum(had for had, it in zip(shares, due) if it) / sum(it for it in due if it):.3f}"
    free = [f", {had / 1e6:.0f} MB/s" for had, it in zip(shares, due) if not it]
    each = f"{octets / count:.0f}" if count else "-"
    first = f"{parts[0]:.3f}" if GUARANTEED.search(name) and "each guaranteed" not in name else "-"
    on_wire = f"{wire:.2f}" if wire else "-"
    return [name, server, f"{count:,.0f} of {each}", on_wire, f"{jain:.4f}", f"{min(parts):.3f} to {max(parts):.3f}", first, total + "".join(free), f"{used * 100:.1f} %"]


def rows(folder, servers, found):
    for name in in_time(filter(is_wanted, CASES)):
        case = Case(*CASES[name])
        for server, program in servers:
            if serves(program, case.words):
                for number, it in enumerate(measured(folder, program, case)):
                    yield row_of(name + (", after it" if number else ""), server, *it, found)


# What a lone download costs: beside so many users, each with these lines.
LONE = {
    "nobody": (0, ""),
    "1,000 users with a rate each": (1_000, "down_rate = 1000000"),
    "1,000 users with a guarantee each": (1_000, "session_down_floor = 1000"),
    "1,000 users with both": (1_000, "down_rate = 1000000\nsession_down_floor = 1000"),
}


def lone_cost(folder, program, number, lines):
    """Microseconds of the processor for each 64 KiB of a download without a limit, beside users who do nothing."""
    users = [("ann", ""), *((f"user{it}", lines) for it in range(number))]
    with Running(folder, program, False, "", users) as server:
        one = Transfer(server, "ann", DOWN)
        thread = threading.Thread(target=one.run)
        thread.start()
        time.sleep(LONE_WARM)
        before, had = server.seconds(), one.moved()
        time.sleep(LONE_COUNTED)
        used, moved = server.seconds() - before, one.moved() - had
        one.close()
        thread.join()
    return used * 1e6 / moved * 65_536


def lone_rows(folder, servers, runs, found):
    """The least of so many runs, in turn, and over that beside nobody, which is added to what was found."""
    least = {}
    for _ in range(runs):
        for name, (number, lines) in LONE.items():
            for server, program in servers:
                cost = lone_cost(folder, program, number, lines)
                least[name, server] = min(least.get((name, server), cost), cost)
    for name in in_time(LONE, "a lone download beside "):
        for server, _ in servers:
            over = least[name, server] / least["nobody", server]
            found.append((name, server, over))
            yield [name, server, f"{least[name, server]:.1f}", f"{over:.2f}"]


def main(folder, *servers):
    os.makedirs(f"{folder}/files")
    with open(f"{folder}/files/big", "wb") as it:
        it.truncate(1 << 40)
    named, lone, found = [it.split("=", 1) for it in servers], [], []
    wanted = goals()
    with beside_busy():
        if not os.environ.get("CASES"):
            tell(["a lone download beside", "server", "processor us for 64 KiB", "over nobody"], lone_rows(folder, named, int(os.environ.get("RUNS") or 3), lone))
            judge([Goal("a lone download among users with guarantees, over nobody", of("with (a guarantee|both)", lambda it: it), most=1.12)], lone)
        tell(["case", "server", "segments a second, of octets", "on an Ethernet", "Jain's index", "shares", "the guaranteed one", "of the rates", "processor"], rows(folder, named, found))
        judge(wanted, found)


if __name__ == "__main__":
    main(*sys.argv[1:])
