"""Guarantees and rates of sessions beside transfers that have none: rows of `tools/serving`, each with a server of its own."""
import select
import time

from serving_kit import Client, Late, Server, slack, want
from serving_pace import read_until

MUCH = 80_000_000
PIECE = bytes(65_536)
LOW, HALF = 1_000, 500
DOWN, UP, GUARANTEE = 6_250_000, 1_250_000, 1_000_000
LINE, OWN = 3_000_000, 300_000


def served(rates, users, transfers):
    """A server with these rates, and a table for each user, for so many transfers at once."""
    tables = "".join(f'[[user]]\nname = "{name}"\npassword = "secret"\nhome = "/"\nperms = "elradfmw"\n{lines}\n' for name, lines in users.items())
    return Server(sessions=transfers, root="folder", files={"big": MUCH}, server=f"{rates}\nlanes = {transfers}", users=tables, passive=16)


def begun(server, names, verb="RETR big"):
    """A transfer for each of these names: the clients, and their data connections."""
    clients, datas = [Client(server, name) for name in names], []
    for number, client in enumerate(clients):
        datas.append(client.passive())
        client.says(verb.format(number), "150 Opening data connection")
    return clients, datas


def read_and_send(downs, ups, seconds):
    """Reads from all downloads and sends on all uploads for some seconds. Returns how many octets each download had."""
    had, end = {it.socket: 0 for it in downs}, time.monotonic() + seconds
    sending = [it.socket for it in ups]
    for it in sending:
        it.setblocking(False)
    while (rest := end - time.monotonic()) > 0:
        readable, writable, _ = select.select([*had], sending, [], rest)
        for it in readable:
            had[it] += len(it.recv(65_536))
        for it in writable:
            try:
                it.send(PIECE)
            except BlockingIOError:
                pass
    return [*had.values()]


def a_guarantee_among_sixteen_at_a_thousand():
    """One of sixteen downloads under 1,000 octets a second is guaranteed half of them: it has them, and each other as much as each."""
    with served(f"rate = {LOW}", {"ann": f"session_down_floor = {HALF}", "bob": ""}, 16) as server:
        clients, datas = begun(server, ["ann"] + ["bob"] * 15)
        read_until(datas, 2 * LOW)
        first, *others = read_until(datas, 10 * LOW)
        mean = sum(others) / len(others)
        if first < 10 * HALF * 0.94 / slack():
            raise Late(f"half of {LOW} a second is guaranteed: {first} in ten seconds, and {others}")
        want(0.7 * mean < min(others) and max(others) < 1.3 * mean, f"even shares of the rest: {others}")
        for it in [*datas, *clients]:
            it.close()


def a_guarantee_beside_many_both_ways():
    """One download is guaranteed 1,000,000 octets a second beside 38 others and four uploads, and has them."""
    with served(f"down_rate = {DOWN}\nup_rate = {UP}", {"ann": f"session_down_floor = {GUARANTEE}", "bob": ""}, 43) as server:
        clients, downs = begun(server, ["ann"] + ["bob"] * 38)
        senders, ups = begun(server, ["bob"] * 4, "STOR up{}")
        read_and_send(downs, ups, 2)
        first, *others = read_and_send(downs, ups, 4)
        if first < 4 * GUARANTEE * 0.9 / slack():
            raise Late(f"{GUARANTEE} a second is guaranteed: {first} in four seconds, and {others}")
        want(first > 4 * max(others), f"more than the others have: {first}, {others}")
        for it in [*ups, *downs, *senders, *clients]:
            it.close()


def four_rated_sessions_beside_others():
    """Each of four sessions has the rate of its own, a tenth of the line, and four without one share the rest."""
    with served(f"rate = {LINE}", {"ann": "", "bob": f"session_down_rate = {OWN}"}, 8) as server:
        clients, datas = begun(server, ["ann"] * 4 + ["bob"] * 4)
        read_until(datas, LINE)
        had = read_until(datas, 4 * LINE)
        parts = [it / sum(had) for it in had]
        want(all(abs(it - 0.15) < 0.03 for it in parts[:4]) and all(abs(it - 0.1) < 0.02 for it in parts[4:]), f"parts of the line: {parts}")
        for it in [*datas, *clients]:
            it.close()


ROWS = [
    a_guarantee_among_sixteen_at_a_thousand,
    a_guarantee_beside_many_both_ways,
    four_rated_sessions_beside_others,
]
