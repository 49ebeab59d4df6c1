"""A soak of the running server: honest clients and hostile ones at once, for minutes; and the waits that take a minute each.

    python3 soak.py FTPD [SECONDS] [CLIENTS]

So many clients (120, half of them hostile) use two servers for so long (120 seconds): one over a folder with rates, one in memory without. What an honest
client stores has to come back octet for octet, and each of its replies to be the right one. At the end nobody is left: the threads and open
files of each server are those of its start, its memory is about that of a third of the time, each line of its log has the form of a note, the
octets of its notes are those moved, each line of its transfer log is read by its published form, and its settled line adds up. Beside them run the waits: a client that never comes to its port, one that stores and sends nothing, one that never reads, one that
sends an octet a second, and one that says nothing at all. What failed is told, and the status is then 1.
"""

import contextlib
import os
import random
import re
import socket
import sys
import threading
import time
from collections import Counter

sys.dont_write_bytecode = True
os.environ["FTPD"] = sys.argv[1]
sys.path.insert(0, os.path.join(os.path.dirname(os.path.abspath(__file__)), "..", "tools"))

import xferlog_reading  # noqa: E402
from serving_kit import STAMP, Client, Data, Refused, Server, same, want  # noqa: E402

# Passive ports: fewer than there may be clients, and so many that sessions keep theirs.
PASSIVE, KEPT = 400, 520
BIG = 8_000_000
LONGEST = 300_000
USERS = """
[[user]]
name = "ann"
password = "secret"
home = "/"
perms = "elradfmw"
{rates}
[[user]]
name = "mal"
password = "m"
home = "/"
perms = "elradfmw"
down_rate = 40000000
"""
TABLES = "max_cons = 512\nlanes = 16\ncapacity = 300000000"
RATES = "rate = 200000000\ndown_rate = 150000000"
FLOOR = "session_down_floor = 100000"
WORDS = ["--login-delay", "0", "--transfer-log", "xferlog"]
# What a server may hold more at the end than at a third of the time, in MB.
GROWTH = 12
# A wait of a minute, in seconds: at least and at most.
MINUTE = (55, 130)


class Soak:
    """What the clients share."""

    def __init__(self, seconds):
        self.end = time.monotonic() + seconds
        self.counts, self.faults, self.lock = Counter(), [], threading.Lock()

    def goes_on(self):
        return time.monotonic() < self.end

    def count(self, what, number=1):
        with self.lock:
            self.counts[what] += number

    def repeat(self, part, *words):
        """Makes a part again and again till the end."""
        while self.goes_on():
            self.once(part, *words)

    def once(self, part, *words):
        try:
            part(self, *words)
        except Exception as fault:
            with self.lock:
                self.faults.append(f"{part.__name__}: {type(fault).__name__}: {fault}")


def honest(soak, server, number, chance):
    """A session of some files, each of which comes back as it was stored."""
    client = Client(server)
    for place in range(chance.randrange(1, 6)):
        name, octets = f"h{number}_{place}", chance.randbytes(chance.randrange(LONGEST))
        client.store(name, octets)
        more = chance.randbytes(chance.randrange(1000))
        client.store(name, more, "APPE")
        octets += more
        want(client.retrieve(name) == octets, f"{name}: other octets")
        start = chance.randrange(1, len(octets) + 2)
        if start <= len(octets):
            client.says(f"REST {start}", f"350 Restart at {start}")
            want(client.retrieve(name) == octets[start:], f"{name}: other octets from {start}")
        same(client.length_of(name), len(octets), "its length")
        client.says(f"RNFR {name}", "350 Send RNTO")
        client.says(f"RNTO {name}x", "250 Renamed")
        want(f"{name}x" in client.listed("NLST"), "its name in the list")
        client.says(f"DELE {name}x", "250 File removed")
        soak.count("honest files")
        soak.count("honest octets", 2 * len(octets) - start)
    client.quit()
    soak.count("honest sessions")


def leave(client, chance):
    chance.choice([Client.reset, Client.close])(client)


def cuts(server, chance):
    """Loses its control connection in a transfer."""
    client = Client(server, "mal", "m")
    data = client.passive()
    if chance.random() < 0.5:
        client.says("RETR big", "150 Opening data connection")
        data.read()
    else:
        client.says(f"STOR c{chance.randrange(9)}", "150 Opening data connection")
        with contextlib.suppress(OSError):
            data.socket.sendall(bytes(chance.randrange(LONGEST)))
    leave(client, chance)
    if chance.random() < 0.5:
        data.reset()
    data.close()


def stalls(server, chance):
    """Neither reads nor sends for a while, and then resets its data connection."""
    client = Client(server, "mal", "m")
    data = client.passive(room=4096)
    client.says(chance.choice(["RETR big", "STOR s"]), "150 Opening data connection")
    time.sleep(chance.random() * 3)
    data.reset()
    client.says(None, "426 Connection lost")
    client.quit()


def aborts(server, chance):
    client = Client(server, "mal", "m")
    for _ in range(3):
        data = client.passive()
        client.says("RETR big", "150 Opening data connection")
        if chance.random() < 0.5:
            data.read()
        urgent = chance.choice([0, socket.MSG_OOB])
        client.socket.sendall(b"ABOR\r\n", urgent)
        client.says(None, "426 Transfer aborted", "226 Abort done")
        data.close()
    client.quit()


def floods(server, chance):
    """Lines without end, whose replies it does not read."""
    client = Client(server, "mal", "m")
    client.socket.settimeout(1)
    with contextlib.suppress(OSError):
        for _ in range(chance.randrange(30)):
            client.socket.sendall(chance.choice([b"NOOP\r\n", b"STAT /\r\n", b"PASV\r\n", b"x" * 99]) * 1000)
    leave(client, chance)


def guesses(server, chance):
    client = Client(server, name=None)
    client.says(None, "220 Ready")
    for end in ("530 Login incorrect", "530 Login incorrect", "421 Too many login attempts"):
        client.says(f"USER {chance.choice(['ann', 'root', 'x'])}", "331 Password required")
        client.says(f"PASS {chance.random()}", end)
    client.at_end()


def rubbish(server, chance):
    client = Client(server, name=None)
    with contextlib.suppress(OSError):
        client.socket.sendall(chance.randbytes(chance.randrange(20_000)))
    leave(client, chance)


def takes_ports(server, chance):
    client = Client(server, "mal", "m")
    for _ in range(chance.randrange(1, 6)):
        client.says(chance.choice(["PASV", "EPSV"]), "22...")
    leave(client, chance)


def comes_uninvited(server, chance):
    """Connects to a port that may be another's."""
    for _ in range(20):
        with contextlib.suppress(OSError):
            data = Data(server.port + 1 + chance.randrange(PASSIVE), source="127.0.0.9")
            chance.choice([Data.reset, Data.close])(data)


def holds_too_many_lines(server, chance):
    client = Client(server, "mal", "m")
    data = client.passive(room=4096)
    client.says("RETR big", "150 Opening data connection")
    client.socket.sendall(b"PWD\r\n" * 17)
    client.says(None, "421 Too many held lines")
    client.close()
    data.close()


HOSTILE = [cuts, stalls, aborts, floods, guesses, rubbish, takes_ports, comes_uninvited, holds_too_many_lines]


def hostile(soak, server, number, chance):
    part = HOSTILE[(number + chance.randrange(2)) % len(HOSTILE)]
    try:
        part(server, chance)
    except Exception as fault:
        fault.add_note(part.__name__)
        raise Refused(f"{part.__name__}: {type(fault).__name__}: {fault}") from None
    soak.count(part.__name__)


def is_a_minute(begun, what, least=MINUTE[0]):
    took = time.monotonic() - begun
    print(f"{what} after {took:.0f} seconds", flush=True)
    want(least < took < MINUTE[1], f"{what} after {took:.0f} seconds")


def never_comes(soak, server):
    """A client that never comes to its passive port."""
    client = Client(server)
    client.passive_port()
    begun = time.monotonic()
    client.says("RETR big", "150 Opening data connection")
    client.tries *= 3
    client.says(None, "425 No data connection")
    is_a_minute(begun, "425")
    client.quit()
    soak.count("minutes waited for a client")


def never_sends(soak, server):
    client = Client(server)
    data = client.passive()
    begun = time.monotonic()
    client.says("STOR n", "150 Opening data connection")
    client.tries *= 3
    client.says(None, "426 Connection lost")
    is_a_minute(begun, "426 of an upload")
    data.close()
    client.quit()
    soak.count("minutes waited for an upload")


def never_reads(soak, server):
    """A write waits a third of a minute; one that moved a part before counts as one that moved."""
    client = Client(server)
    data = client.passive(room=4096)
    begun = time.monotonic()
    client.says("RETR big", "150 Opening data connection")
    client.tries *= 3
    client.says(None, "426 Connection lost")
    is_a_minute(begun, "426 of a download", least=15)
    data.close()
    client.quit()
    soak.count("minutes waited for a reader")


def an_octet_a_second(soak, server):
    client = Client(server)
    client.socket.setsockopt(socket.IPPROTO_TCP, socket.TCP_NODELAY, 1)
    for octet in b"NOOP\r\nRETR f\r\n":
        client.socket.sendall(bytes([octet]))
        time.sleep(1)
    client.says(None, "200 OK", "425 Use PASV, EPSV, PORT or EPRT first")
    client.quit()
    soak.count("lines of an octet a second", 2)


def says_nothing(soak, server):
    """A control connection has no time limit."""
    client = Client(server)
    time.sleep(80)
    client.says("NOOP", "200 OK")
    client.quit()
    soak.count("minutes of silence")


WAITS = [never_comes, never_sends, never_reads, an_octet_a_second, says_nothing]


def memory(server):
    with open(f"/proc/{server.process.pid}/status", encoding="utf-8") as it:
        return next(int(line.split()[1]) for line in it if line.startswith("VmRSS")) / 1_024


def is_quiet(server, before):
    for _ in range(1200):
        if (server.threads(), server.open_files()) == before:
            return True
        time.sleep(0.05)
    return False


def end_of(server, before, held, soak):
    """What a server has left, once its clients are gone."""
    faults = []
    if not is_quiet(server, before):
        faults.append(f"threads and open files: {(server.threads(), server.open_files())}, at the start {before}")
    now = memory(server)
    if now > held + GROWTH:
        faults.append(f"it holds {now:.1f} MB, and held {held:.1f} at a third of the time")
    client = Client(server)
    ports = {client.passive_port() for _ in range(PASSIVE)}
    want(len(ports) > PASSIVE // 2, f"only {len(ports)} ports are left")
    client.quit()
    server.stop()
    issued, moved, back = server.ended()
    forged = [it for it in server.noted().splitlines() if not STAMP.match(it)]
    if forged:
        faults.append(f"lines of the log that are no notes: {forged[:3]}")
    noted = sum(int(it) for it in re.findall(r": user \"[^\"]*\", (\d+) octets, \d+\.\d{3} s", server.noted()))
    if noted != moved:
        faults.append(f"the notes of transfers have {noted} octets, and {moved} were moved")
    with open(f"{server.place}/xferlog", encoding="utf-8") as log:
        files = xferlog_reading.read_text(log.read())
    print(f"{len(files)} lines of the transfer log with {sum(it.octets for it in files)} octets")
    print(f"settled issued {issued} moved {moved} back {back}; {held:.1f} MB at a third, {now:.1f} at the end; {len(server.noted().splitlines())} notes")
    return faults


def main(ftpd, seconds="120", clients="120"):
    soak, seed = Soak(float(seconds)), random.randrange(10**9)
    print(f"seed {seed}")
    with (
        Server(sessions=0, root="folder", files={"big": BIG, "f": b"a\nb"}, users=USERS, server=f"{TABLES}\n{RATES}", rates=FLOOR, passive=PASSIVE, stop=True, words=WORDS) as first,
        Server(sessions=0, users=USERS, server=TABLES, passive=KEPT, stop=True, words=WORDS) as second,
    ):
        servers = [first, second]
        before = [(it.threads(), it.open_files()) for it in servers]
        loader = Client(second)
        loader.store("big", bytes(BIG))
        loader.quit()
        threads = []
        for number in range(int(clients)):
            part = honest if number % 4 < 2 else hostile
            words = (part, servers[number % 2], number, random.Random(seed + number))
            threads.append(threading.Thread(target=soak.repeat, args=words))
        threads += [threading.Thread(target=soak.once, args=(part, server)) for part in WAITS for server in servers]
        for it in threads:
            it.start()
        time.sleep(float(seconds) / 3)
        held = [memory(it) for it in servers]
        for it in threads:
            it.join()
        for server, *words in zip(servers, before, held):
            soak.faults += end_of(server, *words, soak)
    for what, number in sorted(soak.counts.items()):
        print(f"{what}: {number}")
    for it in soak.faults[:20]:
        print(f"FAULT {it}")
    print(f"{len(soak.faults)} faults")
    return 1 if soak.faults else 0


if __name__ == "__main__":
    sys.exit(main(*sys.argv[1:]))
