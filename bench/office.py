"""An office of forty at one line: what each transfer gets of its plan, and how long somebody else waits for a listing.

    python3 office.py FOLDER NAME=FTPD [NAME=FTPD ..]

Forty users in three groups share 6,250,000 octets a second down and 1,250,000 up (50 and 10 Mbit/s), over as many lanes as there may be, 64.
One of them, ann, is guaranteed 1,000,000 down. In each row she downloads beside so many downloads and uploads of others, each as fast as
it goes, for COUNTED seconds after WARM in which buffers fill. A share is over what `ftpd plan` says of just these transfers by the same
configuration. Meanwhile one who has no transfer lists the folder again and again: the longest of these waits is told. Each row is made with
one server after the other.
"""

import ftplib
import json
import os
import subprocess
import sys
import threading
import time

from clock import Goal, beside_busy, in_time, is_calm, judge, tell
from pace import DOWN, UP, Transfer, read_all
from serve import Running

WARM, COUNTED, PAUSE = 3, 8, 0.2
DOWN_RATE, UP_RATE, FLOOR = 6_250_000, 1_250_000, 1_000_000
GROUPS = {"sales": 3_000_000, "works": 4_000_000, "press": 0}
OTHERS = [f"user{number}" for number in range(1, 39)]
LISTER = "lister"
# How many downloads and uploads of others there are beside ann's download.
CASES = {"8 and 0": (8, 0), "8 and 4": (8, 4), "20 and 4": (20, 4), "38 and 0": (38, 0), "38 and 4": (38, 4)}


def users():
    groups = list(GROUPS)
    more = [(name, f'group = "{groups[at % len(groups)]}"') for at, name in enumerate([*OTHERS, LISTER])]
    return [("ann", f'group = "works"\nsession_down_floor = {FLOOR}'), *more]


def tables():
    return "".join(f'[[group]]\nname = "{name}"\ndown_rate = {rate}\n' for name, rate in GROUPS.items())


def planned(server, downs, ups):
    """What the plan says: ann's share, and the least of other downloads and of uploads."""
    word = ",".join(["ann=1", *(f"{name}=1" for name in OTHERS[:downs]), *(f"{name}:up=1" for name in OTHERS[:ups])])
    found = subprocess.run([server.program, "plan", f"{server.folder}/ftpd.toml", word, "--json"], capture_output=True, text=True, check=True)
    rows = json.loads(found.stdout)["transfers"]
    ann = next(it["octets"] for it in rows if it["user"] == "ann")
    others = [it["octets"] for it in rows if it["user"] != "ann" and it["direction"] == "down"]
    return ann, min(others), min((it["octets"] for it in rows if it["direction"] == "up"), default=0)


def list_often(server, is_over, waits):
    """Lists until it is over, and adds the seconds that each listing took."""
    client = ftplib.FTP()
    client.connect("127.0.0.1", server.port, timeout=60)
    client.login(LISTER, "secret")
    while not is_over.is_set():
        begun = time.monotonic()
        client.nlst()
        waits.append(time.monotonic() - begun)
        time.sleep(PAUSE)
    client.quit()


def measured(server, downs, ups):
    """The octets a second of each transfer in the order of the case, the longest wait for a listing, and the server's share of a core."""
    down = [Transfer(server, name, DOWN) for name in ["ann", *OTHERS[:downs]]]
    up = [Transfer(server, name, UP) for name in OTHERS[:ups]]
    is_over, waits = threading.Event(), []
    threads = [threading.Thread(target=read_all, args=(down, is_over)), *(threading.Thread(target=it.run) for it in up)]
    threads.append(threading.Thread(target=list_often, args=(server, is_over, waits)))
    for it in threads:
        it.start()
    time.sleep(WARM)
    begun, used = time.monotonic(), server.seconds()
    before = [it.moved() for it in (*down, *up)]
    time.sleep(COUNTED)
    took = time.monotonic() - begun
    shares = [(it.moved() - had) / took for it, had in zip((*down, *up), before)]
    used = (server.seconds() - used) / took
    is_over.set()
    for it in (*down, *up):
        it.close()
    for it in threads:
        it.join()
    return shares, max(waits), used


def of(shares, due):
    return f"{min(shares) / due:.3f} to {max(shares) / due:.3f}" if shares else "-"


def rows(folder, servers, found):
    rates = f"down_rate = {DOWN_RATE}\nup_rate = {UP_RATE}"
    for name in in_time(CASES):
        downs, ups = CASES[name]
        for called, program in servers:
            with Running(folder, program, False, rates, users(), tables()) as server:
                ann, other, upload = planned(server, downs, ups)
                shares, wait, used = measured(server, downs, ups)
            down, up = shares[: downs + 1], shares[downs + 1 :]
            found.append((name, called, down[0] / ann))
            line = f"{sum(down) / DOWN_RATE:.3f}" + (f", {sum(up) / UP_RATE:.3f}" if up else "")
            yield [name, called, f"{down[0] / ann:.3f}", of(down[1:], other), of(up, upload), line, f"{wait * 1e3:.0f} ms", f"{used * 100:.1f} %"]


def main(folder, *servers):
    os.makedirs(f"{folder}/files")
    with open(f"{folder}/files/big", "wb") as it:
        it.truncate(1 << 40)
    head = ["downloads and uploads of others", "server", "the guaranteed one, of 1,000,000", "other downloads", "uploads", "of the line", "a listing, at most", "processor"]
    least, found = 0.99 if is_calm() else 0.97, []
    with beside_busy():
        tell(head, rows(folder, [it.split("=", 1) for it in servers], found))
    judge([Goal("a guarantee in an office of forty", lambda _, it: it, least=least)], found)


if __name__ == "__main__":
    main(*sys.argv[1:])
