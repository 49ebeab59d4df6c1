"""A server that drains: nobody is admitted any more, transfers that run have their end, and then it ends."""
import os
import re
import socket
import time

from serving_ends import MUCH, promptly
from serving_kit import SECONDS, Client, Server, same, until, want

# A rate at which a file of `LONG` octets takes some seconds, of which no part is waited for but its end.
SLOW = "down_rate = 400000\nup_rate = 400000"
LONG = 1_000_000
ENDS = "421 Server is ending"


def is_drained(server):
    """Whether the server turns clients away."""
    with socket.create_connection(("127.0.0.1", server.port), SECONDS) as stranger:
        stranger.settimeout(SECONDS)
        return stranger.recv(100).decode().startswith(ENDS)


def drained(server):
    """Asks the server to drain, and waits until it does."""
    server.drain()
    until(lambda: is_drained(server), "a client that is turned away")


def transfers_have_their_end():
    """Whoever has no transfer is told at once, and the others once theirs has ended, with each octet; nobody is admitted meanwhile."""
    files = {"long": bytes(range(250)) * (LONG // 250)}
    with Server(sessions=0, root="folder", files=files, rates=SLOW, drain=True) as server:
        idle, reading, storing, nobody = Client(server), Client(server), Client(server), Client(server, name=None)
        nobody.says(None, "220 Ready")
        download, upload = reading.passive(room=4096), storing.passive()
        reading.says("RETR long", "150 Opening data connection")
        first = download.read()
        storing.says("STOR up", "150 Opening data connection")
        upload.socket.sendall(b"u" * 1000)
        until(lambda: server.get("up"), "some octets of the upload")
        drained(server)
        with promptly("the end of sessions without a transfer"):
            for client in (idle, nobody):
                client.says(None, ENDS)
                client.at_end()
        upload.socket.sendall(b"v" * 50000)
        upload.close()
        for client in (storing, reading):
            if client is reading:
                want(first + download.whole() == files["long"], "the whole file")
            client.says(None, "226 Transfer complete", ENDS)
            client.at_end()
        server.ended()
        same(server.get("up"), b"u" * 1000 + b"v" * 50000, "the upload")
        notes = server.noted()
        # (the one that asked whether the server drains may have been among them)
        want(re.search("ends once all transfers have ended; clients that are connected: [45]\n", notes), notes)
        want("127.0.0.1 refused: the server ends" in notes, notes)


def a_client_that_waits_has_its_transfer():
    """A transfer that waits for a lane when the server is to drain is run; a line that its session held is told of the end."""
    with Server(sessions=0, root="folder", files={"long": b"l" * LONG, "f": b"a\nb"}, server="lanes = 1", rates=SLOW, drain=True) as server:
        reading, waiting = Client(server), Client(server)
        download = reading.passive()
        reading.says("RETR long", "150 Opening data connection")
        want(download.read(), "some octets")
        data = waiting.passive()
        waiting.says("RETR f", "150 Opening data connection")
        waiting.send("SIZE f")
        drained(server)
        download.whole()
        reading.says(None, "226 Transfer complete", ENDS)
        same(data.whole(), b"a\nb", "the file")
        waiting.says(None, "226 Transfer complete", ENDS)
        waiting.at_end()
        server.ended()


def lines_sent_ahead_begin_nothing():
    """Whoever sends PASV and RETR ahead, and changes, has the end of the transfer that runs, and begins none after it."""
    with Server(sessions=0, root="folder", files={"long": b"l" * LONG, "f": b"a\nb"}, rates=SLOW, drain=True) as server:
        client = Client(server)
        data = client.passive()
        client.says("RETR long", "150 Opening data connection")
        want(data.read(), "some octets")
        for line in ("PASV", "RETR f", "MKD made", "DELE f"):
            client.send(line)
        drained(server)
        data.whole()
        client.says(None, "226 Transfer complete", ENDS)
        client.at_end()
        server.ended()
        want(not os.path.exists(f"{server.folder}/made") and server.get("f") == b"a\nb", "nothing is changed")


def a_drain_of_nobody():
    """A server without clients ends at once, and so does one whose clients have no transfer."""
    with Server(sessions=0, drain=True) as server:
        server.drain()
        same(server.ended(), (0, 0, 0), "settled")
    with Server(sessions=0, drain=True) as server:
        client = Client(server)
        same(client.retrieve("f"), b"a\nb", "the file")
        server.drain()
        client.says(None, ENDS)
        client.at_end()
        same(server.ended(), (3, 3, 0), "settled")


def a_drain_that_takes_too_long():
    """After its seconds the server tells all clients, and cuts their transfers; the book balances."""
    with Server(sessions=0, root="folder", files={"big": MUCH}, rates=SLOW, drain=True, words=["--drain-seconds", "1"]) as server:
        reading = Client(server)
        download = reading.passive(room=4096)
        reading.says("RETR big", "150 Opening data connection")
        want(download.read(), "some octets")
        begun = time.monotonic()
        drained(server)
        reading.says(None, ENDS)
        want(time.monotonic() - begun > 0.9, "the seconds that it has")
        reading.at_end()
        server.ended()
        download.close()
        want("ends, and cuts transfers: the time for them is over; clients that are connected: 1" in server.noted(), server.noted())


def a_stop_ends_a_drain():
    """The stop file ends a server that drains at once."""
    with Server(sessions=0, root="folder", files={"big": MUCH}, rates=SLOW, stop=True, drain=True) as server:
        reading = Client(server)
        download = reading.passive(room=4096)
        reading.says("RETR big", "150 Opening data connection")
        want(download.read(), "some octets")
        drained(server)
        with promptly("the end by the stop file"):
            server.stop()
            reading.says(None, ENDS)
            reading.at_end()
            server.ended()
        download.close()


def a_drain_file_at_the_start():
    """It is told by its path, and nobody is served."""
    server = Server(sessions=0, drain=True)
    server.drain()
    same(server.run(), (1, "", "drain is there already: remove it\nftpd: Stopped\n"), "a drain file that is there")
    server.room.cleanup()
    server = Server(sessions=0, words=["--drain-file", "gone/drain"])
    lines = "the drain file gone/drain could not be noticed: No such file or directory (os error 2)\nftpd: Stopped\n"
    same(server.run(), (1, "", lines), "a drain file in no folder")
    server.room.cleanup()


def a_time_without_a_drain_file():
    """A time for draining without a drain file would have no effect, and is refused; 0 is no time."""
    server = Server(words=["--drain-seconds", "5"])
    wanted = "--drain-seconds has no effect without --drain-file: state one, or leave it out\nftpd: DrainSeconds\n"
    same(server.run(), (1, "", wanted), "its end")
    server.room.cleanup()
    with Server(sessions=0, words=["--drain-seconds", "0", "--stop-file", "stop"]) as server:
        server.stop()
        server.ended()


def options_without_effect():
    """A configuration from standard input cannot be read again; what has no effect with a configuration is noted, and nothing else is."""
    server = Server(words=["--reload-file", "reload"])
    wanted = "--reload-file has no effect with a configuration from standard input, which is read once: state a file, or leave it out\nftpd: ReloadFile\n"
    for name in ("-", "/dev/stdin"):
        same(server.run(config=name), (1, "", wanted), f"the end of a configuration from {name}")
    server.room.cleanup()
    notes = ["--sync has no effect on a store in memory", "--user-sessions 64 has no effect: max_cons is 64"]
    with Server(sessions=0, stop=True, words=["--sync", "--user-sessions", "64"]) as server:
        server.stop()
        server.ended()
        same([note for note in notes if f" {note}\n" in server.all_noted()], notes, "the notes")
    with Server(sessions=0, stop=True, root="folder", words=["--sync", "--user-sessions", "63"]) as server:
        server.stop()
        server.ended()
        want("no effect" not in server.all_noted(), server.all_noted())


ROWS = [
    transfers_have_their_end,
    a_client_that_waits_has_its_transfer,
    options_without_effect,
    lines_sent_ahead_begin_nothing,
    a_drain_of_nobody,
    a_drain_that_takes_too_long,
    a_stop_ends_a_drain,
    a_drain_file_at_the_start,
    a_time_without_a_drain_file,
]
