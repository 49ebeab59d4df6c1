"""Soaks of a server that its machine denies something: descriptors, memory, or its process's time.

    python3 starved.py FTPD [SECONDS] [CLIENTS]

Three servers after one another, each for so long (30 seconds) under so many clients (60, half of them hostile): one with 64 descriptors,
one with an address space of 30 MB, and one whose process is stopped and continued some times a second. What a client is told there is its
own affair, since any call may be refused. At the end the clients are gone: the server is at rest (as many threads and open files as at its
start), serves a file, and ends by its stop file, settled. A server that does not start in so little memory is told as such.
"""

import contextlib
import os
import random
import signal
import sys
import threading
import time

sys.dont_write_bytecode = True
sys.argv[1:2] = [os.path.abspath(sys.argv[1])]
folder = os.path.dirname(os.path.abspath(__file__))
sys.path.insert(0, folder)
from soak import BIG, HOSTILE, PASSIVE, USERS, Soak, honest, is_quiet  # noqa: E402

from serving_kit import Client, Refused, Server, same  # noqa: E402

TABLES = "max_cons = 200\nlanes = 16\nrate = 200000000"
# way: what the shell does that starts the server, and whether its process is stopped and continued
WAYS = {"64 descriptors": ("ulimit -n 64", False), "an address space of 30 MB": ("ulimit -v 30000", False), "stopped and continued": (None, True)}


def tolerant(part):
    """The same part, whose refusals are counted and are no faults."""

    def made(soak, *words):
        try:
            part(soak, *words)
        except Exception as fault:
            soak.count(f"refused: {type(fault).__name__}")

    return made


def hostile(soak, server, number, chance):
    HOSTILE[number % len(HOSTILE)](server, chance)
    soak.count("hostile")


def stops(soak, server):
    """Stops the process for a moment, and continues it."""
    os.kill(server.process.pid, signal.SIGSTOP)
    time.sleep(random.random() / 10)
    os.kill(server.process.pid, signal.SIGCONT)
    time.sleep(random.random() / 5)
    soak.count("stops")


def serves(server):
    for _ in range(100):
        with contextlib.suppress(Exception):
            client = Client(server, tries=200)
            same(client.retrieve("f"), b"a\nb", "the file")
            client.quit()
            return
        time.sleep(0.1)
    raise Refused("it serves nobody any more")


def soaked(way, seconds, clients):
    before, is_stopped = WAYS[way]
    soak, chance = Soak(seconds), random.Random()
    files = {"big": BIG, "f": b"a\nb"}
    with Server(sessions=0, root="folder", files=files, users=USERS, server=TABLES, passive=PASSIVE, stop=True, before=before) as server:
        at_rest = server.threads(), server.open_files()
        threads = [
            threading.Thread(target=soak.repeat, args=(tolerant(honest if number % 2 else hostile), server, number, random.Random(chance.random())))
            for number in range(clients)
        ]
        threads += [threading.Thread(target=soak.repeat, args=(stops, server))] if is_stopped else []
        for it in threads:
            it.start()
        for it in threads:
            it.join()
        if not is_quiet(server, at_rest):
            soak.faults.append(f"threads and open files: {(server.threads(), server.open_files())}, at the start {at_rest}")
        serves(server)
        server.stop()
        settled = server.ended()
    counts = ", ".join(f"{what} {number}" for what, number in sorted(soak.counts.items()))
    print(f"{way}: issued, moved, back {settled}; {counts}; {soak.faults or 'at rest'}", flush=True)
    return len(soak.faults)


def main(_, seconds="30", clients="60"):
    faults = 0
    for way in WAYS:
        try:
            faults += soaked(way, float(seconds), int(clients))
        except Refused as fault:
            print(f"{way}: {fault} {getattr(fault, '__notes__', '')}", flush=True)
            faults += 1
    print(f"{faults} faults")
    return 1 if faults else 0


if __name__ == "__main__":
    sys.exit(main(*sys.argv[1:]))
