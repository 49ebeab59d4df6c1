"""How a rate is divided over time: rows of `tools/serving`, each with servers of its own."""
import os
import select
import socket
import time

from serving_kit import SECONDS, Client, Server, in_time, same, want

# Where the kernel's account of a connection has the number of segments with data that came (struct tcp_info, tcpi_data_segs_in).
SEGMENTS_IN = 152
MUCH = 24_000_000
# A bound in seconds of what no rate holds back, and takes some milliseconds.
SOON = 4
LINE = 1_000_000
# The octets that an upload sends at a time, and the seconds between two times: 100,000 a second.
PIECE, PAUSE = 1_400, 0.014


def started(server, count):
    """So many downloads of one user, with their control connections."""
    clients = [Client(server) for _ in range(count)]
    datas = [client.passive() for client in clients]
    for client in clients:
        client.says("RETR big", "150 Opening data connection")
    return clients, datas


def read_until(datas, octets):
    """Reads from all until this many octets have come in all. Returns how many each had."""
    had = {it.socket: 0 for it in datas}
    begun = time.monotonic()
    while sum(had.values()) < octets:
        in_time(begun, SECONDS, f"{sum(had.values())} of {octets} octets have come")
        for it in select.select([*had], [], [], 1)[0]:
            had[it] += len(it.recv(65_536))
    return [*had.values()]


def a_low_rate_is_divided_evenly():
    """Eight downloads under 1,000 octets a second: what does not divide evenly goes to no transfer for ever."""
    with Server(sessions=8, root="folder", files={"big": MUCH}, server="rate = 1000\nlanes = 8") as server:
        clients, datas = started(server, 8)
        read_until(datas, 1_000)
        had = read_until(datas, 5_000)
        want(min(had) > 0.6 * sum(had) / 8 and max(had) < 1.5 * sum(had) / 8, f"even shares: {had}")
        for it in [*datas, *clients]:
            it.close()


def three_transfers_under_a_hundred():
    """Two downloads of a user with 40 octets a second, and one of another, under 100: 20, 20 and 60."""
    users = "".join(f'[[user]]\nname = "{name}"\npassword = "secret"\nhome = "/"\n{rate}\n' for name, rate in (("ann", "down_rate = 40"), ("bob", "")))
    with Server(sessions=3, root="folder", files={"big": MUCH}, server="rate = 100\nlanes = 3", users=users) as server:
        clients = [Client(server, name) for name in ("ann", "ann", "bob")]
        datas = [client.passive() for client in clients]
        for client in clients:
            client.says("RETR big", "150 Opening data connection")
        had = read_until(datas, 1_000)
        want(100 < had[0] < 300 and 100 < had[1] < 300 and 500 < had[2] < 700, f"20, 20 and 60 of a hundred: {had}")
        for it in [*datas, *clients]:
            it.close()


def segments_are_whole():
    """Sixteen downloads under 200,000 octets a second, or under 12,500 of each session, send hundreds of octets in a segment, and not some dozens."""
    for server_rate, user_rate in (("rate = 200000\n", ""), ("", "session_down_rate = 12500")):
        with Server(sessions=16, root="folder", files={"big": MUCH}, server=f"{server_rate}lanes = 16", rates=user_rate, passive=32) as server:
            clients, datas = started(server, 16)
            had = read_until(datas, 600_000)
            count = 0
            for it in datas:
                told = it.socket.getsockopt(socket.IPPROTO_TCP, socket.TCP_INFO, 256)
                count += int.from_bytes(told[SEGMENTS_IN : SEGMENTS_IN + 4], "little")
            want(0 < count < sum(had) / 150, f"segments: {count} for {sum(had)} octets")
            for it in [*datas, *clients]:
                it.close()


def stored(server):
    """The octets of all uploads so far."""
    return sum(os.path.getsize(f"{server.folder}/{name}") for name in os.listdir(server.folder) if name.startswith("up"))


def send_and_read(uploads, data, seconds):
    """Reads a download for this many seconds, while each upload sends 1,400 octets each 14 ms."""
    begun, sent = time.monotonic(), 0
    while (took := time.monotonic() - begun) < seconds:
        if sent * PAUSE <= took:
            for it in uploads:
                it.socket.send(bytes(PIECE))
            sent += 1
        if select.select([data.socket], [], [], PAUSE / 4)[0]:
            data.socket.recv(65_536)


def uploads_that_dribble_take_what_they_send():
    """A download beside five uploads of 100,000 octets a second each, under a million: what they do not send is the download's."""
    with Server(sessions=6, root="folder", files={"big": MUCH}, server=f"rate = {LINE}\nlanes = 6", passive=16, stop=True) as server:
        clients = [Client(server) for _ in range(6)]
        data, *uploads = [client.passive() for client in clients]
        clients[0].says("RETR big", "150 Opening data connection")
        for number, client in enumerate(clients[1:]):
            client.says(f"STOR up{number}", "150 Opening data connection")
        send_and_read(uploads, data, 2.5)
        server.stop()
        # (of what was issued: a machine that is busy with other things holds some rounds late, and that is lost to all)
        issued, moved, _ = server.ended()
        came = stored(server)
        want(moved - came > 0.9 * (issued - came), f"of {issued} octets, {came} are uploaded and {moved - came} are sent")
        for it in [data, *uploads, *clients]:
            it.close()


def an_upload_under_a_rate_loses_nothing():
    """A lone upload under four million octets a second, whose client sends as fast as it can, reads what it is granted."""
    with Server(root="folder", server=f"rate = {4 * LINE}\nlanes = 2", stop=True) as server:
        client = Client(server)
        data = client.passive()
        client.says("STOR up", "150 Opening data connection")
        while stored(server) < 8 * LINE:
            data.socket.send(bytes(65_536))
        server.stop()
        issued, _, back = server.ended()
        want(back < 0.02 * issued, f"of {issued} octets {back} are given back")
        for it in (data, client):
            it.close()


def an_upload_at_a_low_rate_is_aborted():
    """ABOR, and the server's stop, end an upload although much has come that its rate has not let it read."""
    with Server(sessions=2, root="folder", server="rate = 1000\nlanes = 2", stop=True) as server:
        clients = [Client(server) for _ in range(2)]
        datas = [client.passive() for client in clients]
        for client, data in zip(clients, datas):
            client.says("STOR up", "150 Opening data connection")
            data.socket.setblocking(False)
            data.socket.send(bytes(MUCH))
        begun = time.monotonic()
        clients[0].says("ABOR", "426 Transfer aborted", "226 Abort done")
        in_time(begun, SOON, "the abort")
        begun = time.monotonic()
        server.stop()
        issued, moved, back = server.ended()
        in_time(begun, SOON, "the stop")
        same(issued, moved + back, "octets issued")
        for it in [*datas, *clients]:
            it.close()


def an_abort_at_a_rate_that_is_used_up():
    """Twelve downloads under an octet a second are aborted: the line behind each ABOR is answered, and each lane takes another."""
    with Server(sessions=12, root="folder", files={"big": MUCH}, server="rate = 1\nlanes = 12", passive=24, stop=True) as server:
        clients, datas = started(server, 12)
        begun = time.monotonic()
        for client in clients:
            client.says("ABOR", "426 Transfer aborted", "226 Abort done")
            client.says("NOOP", "200 OK")
        in_time(begun, SOON, "the aborts")
        for it in datas:
            it.close()
        datas = [client.passive() for client in clients]
        for client in clients:
            client.says("RETR big", "150 Opening data connection")
        read_until(datas, 2)
        begun = time.monotonic()
        server.stop()
        server.ended()
        in_time(begun, SOON, "the stop")
        for it in [*datas, *clients]:
            it.close()


ROWS = [
    three_transfers_under_a_hundred,
    a_low_rate_is_divided_evenly,
    segments_are_whole,
    uploads_that_dribble_take_what_they_send,
    an_upload_under_a_rate_loses_nothing,
    an_upload_at_a_low_rate_is_aborted,
    an_abort_at_a_rate_that_is_used_up,
]
