"""What a server says of itself: the status file, its page, its metrics, and the table of `ftpd top`."""
import contextlib
import json
import os
import re
import signal
import socket
import subprocess
import threading
import time

from serving_kit import PORTS_TO_HAND_OUT, SERVER, Client, Server, in_time, same, until, want

# More octets than a row moves.
MUCH = 200_000_000
# The octets that lie between what a round has granted and what a client has read: buffers of both ends.
ON_THE_WAY = 262_144
# Users with limits of each kind, below a line that limits them all together.
LINE = "rate = 3_000_000\nlanes = 8"
HELD = """
[[group]]
name = "two"
down_rate = 200_000
[[user]]
name = "ann"
password = "a"
home = "/"
perms = "elradfmw"
down_rate = 100_000
[[user]]
name = "bob"
password = "b"
home = "/"
session_down_rate = 150_000
[[user]]
name = "cem"
password = "c"
home = "/"
group = "two"
[[user]]
name = "dan"
password = "d"
home = "/"
session_down_floor = 500_000
"""


def status_of(server):
    """The status that the file has now."""
    with open(f"{server.place}/status.json", encoding="utf-8") as it:
        return json.load(it)


def next_status(server):
    """The status of the next look, and one more, so that what happened before is in it."""
    for _ in range(2):
        seen = status_of(server)["micros"] if os.path.exists(f"{server.place}/status.json") else -1
        until(lambda: os.path.exists(f"{server.place}/status.json") and status_of(server)["micros"] > seen, "the next status")
    return status_of(server)


def row_of(status, user):
    rows = [it for it in status["transfers"] if it["user"] == user]
    same(len(rows), 1, f"rows of {user}")
    return rows[0]


def is_balanced(status):
    """All octets issued are those of its transfers and of those that have ended."""
    same(status["ended_granted"] + sum(it["granted"] for it in status["transfers"]), status["issued"], "octets issued")


@contextlib.contextmanager
def watched(server="", port=None, **more):
    words = ["--login-delay", "0", "--status", "status.json", *(["--status-port", str(port)] if port else [])]
    with Server(sessions=0, root="folder", files={"big": MUCH, "f": b"a\nb"}, server=server, stop=True, words=words, passive=16, **more) as it:
        yield it


def reader(data, seconds):
    """Reads what comes in this time."""
    count, until_then = 0, time.monotonic() + seconds
    data.socket.settimeout(0.2)
    while time.monotonic() < until_then:
        with contextlib.suppress(TimeoutError):
            count += len(data.socket.recv(65536))
    return count


def a_status_file():
    """Each second a whole text replaces the one before: what is connected, who transfers what, and what has ended."""
    rates = "down_rate = 2_600_000\nsession_down_rate = 2_500_000\nsession_down_floor = 100_000\nup_rate = 2_400_000\nsession_up_rate = 2_300_000\nsession_up_floor = 90_000\n"
    with watched(f"{LINE}\ndown_rate = 2_900_000\nup_rate = 2_800_000", rates=rates) as server:
        status = next_status(server)
        same((status["version"], status["unit"], status["sessions"], status["transfers"]), (1, "octets", 0, []), "the first status")
        same(status["line"], {"both": 3_000_000, "down": 2_900_000, "up": 2_800_000}, "its rates")
        same(status["shared_among"], "sessions", "among whom it is shared")
        same(os.stat(f"{server.place}/status.json").st_mode & 0o777, 0o640, "its mode")
        client = Client(server)
        same(client.retrieve("f"), b"a\nb", "a file")
        data = client.passive(room=65536)
        client.says("RETR big", "150 Opening data connection")
        want(data.read(), "some octets")
        status = next_status(server)
        row = row_of(status, "ann")
        same((row["path"], row["size"], row["direction"], row["peer"], row["waiting"]), ("/big", MUCH, "down", "127.0.0.1", False), "the row")
        same((row["guaranteed"], row["session_rate"], row["user_rate"]), (100_000, 2_500_000, 2_600_000), "its guarantee and rates")
        want(0 < row["moved"] <= row["granted"], f"granted {row['granted']}, moved {row['moved']}")
        same((status["ended"], status["ended_moved"], status["sessions"]), (1, 3, 1), "what has ended")
        is_balanced(status)
        data.close()
        client.says(None, "426 ...")
        status = next_status(server)
        same((status["ended"], status["transfers"]), (2, []), "after the end")
        same((status["endings"]["whole"], status["endings"]["lost"]), (1, 1), "how they ended")
        account = status["accounts"][0]
        same((account["user"], account["group"], account["granted_up"], len(status["accounts"])), ("ann", None, 0, 1), "the account")
        want(row["granted"] <= account["granted_down"] <= status["issued"], f"{account} of {status['issued']}, and {row['granted']} before")
        is_balanced(status)
        data = client.passive()
        client.says("STOR g", "150 Opening data connection")
        data.socket.sendall(b"a")
        row = row_of(next_status(server), "ann")
        same((row["path"], row["direction"]), ("/g", "up"), "the row of an upload")
        same((row["guaranteed"], row["session_rate"], row["user_rate"]), (90_000, 2_300_000, 2_400_000), "its guarantee and rates")
        data.close()
        client.says(None, "226 Transfer complete")
        client.says("USER bob", "331 Password required")
        client.says("PASS wrong", "530 ...")
        same(next_status(server)["failed_logins"], 1, "wrong passwords")
        client.quit()
        last = next_status(server)
        server.stop()
        issued, moved, _ = server.ended()
        same((last["issued"], last["ended_moved"]), (issued, moved), "the last status, and the settled line")
        want(not os.path.exists(f"{server.place}/status.json"), "the file is still there")


def each_transfer_has_its_own_grants():
    """An upload by the lane that has sent a million octets is shown with what it was granted itself, and so is its user."""
    most = 65_536
    with watched("rate = 4_000_000\nlanes = 1") as server:
        client = Client(server)
        data, come = client.passive(), 0
        client.says("RETR big", "150 Opening data connection")
        while come < 1_000_000:
            come += len(data.read())
        client.says("ABOR", "426 Transfer aborted", "226 Abort done")
        data.close()
        until(lambda: next_status(server)["ended"] == 1, "the end of the download")
        data = client.passive()
        client.says("STOR up", "150 Opening data connection")
        data.socket.sendall(b"octets")
        status = next_status(server)
        row = row_of(status, "ann")
        want(6 <= row["granted"] <= most, f"the octets granted to an upload of 6: {row['granted']}")
        want(status["ended_granted"] >= come, f"those granted to the download: {status['ended_granted']} of {come}")
        is_balanced(status)
        data.close()
        client.says(None, "226 Transfer complete")
        account = next_status(server)["accounts"][0]
        want(6 <= account["granted_up"] <= most, f"the octets granted to uploads of the user: {account}")
        client.quit()
        server.stop()
        server.ended()


@contextlib.contextmanager
def held_server(server=LINE, users=HELD, passive=16, files=()):
    """A server with these users, of a configuration in version 2."""
    it = Server(root="folder", files={"big": MUCH, **dict(files)}, stop=True, words=["--login-delay", "0", "--status", "status.json"])
    it.port = PORTS_TO_HAND_OUT.take(passive + 1)
    head = f'version = 2\n[server]\nroot = "{it.folder}"\nport = {it.port}\npassive_first = {it.port + 1}\npassive_last = {it.port + passive}\n'
    it.text = f"{head}{server}\n{users}"
    with it:
        yield it


def what_holds_transfers_back():
    """The limit that holds a transfer back has most of its rounds, and a client that reads slowly is held by nothing."""
    with held_server() as server:
        kinds = {"ann": "user", "bob": "session", "cem": "group", "dan": "server"}
        clients = {name: Client(server, name, name[0]) for name in kinds}
        datas = {name: client.passive(room=65536) for name, client in clients.items()}
        for client in clients.values():
            client.says("RETR big", "150 Opening data connection")
        threads = [reader_thread(datas[name], 6) for name in ("ann", "bob", "cem", "dan")]
        time.sleep(1.5)
        before = next_status(server)
        time.sleep(2)
        after = next_status(server)
        for it in threads:
            it.join()
        for name, kind in kinds.items():
            was, now = row_of(before, name)["held"], row_of(after, name)["held"]
            gained = {it: now[it] - was[it] for it in now}
            want(gained[kind] >= 0.9 * sum(gained.values()) > 0, f"{name} is held by {gained}, and not by {kind}")
        row = row_of(after, "dan")
        same((row["guaranteed"], row["group"], row_of(after, "cem")["group"]), (500_000, None, "two"), "guarantee and groups")
        same((row_of(after, "ann")["user_rate"], row_of(after, "bob")["session_rate"]), (100_000, 150_000), "limits of their own")
        is_balanced(after)
        for it in [*datas.values(), *clients.values()]:
            it.close()
        server.stop()
        server.ended()


# Ten users, of whom one has three transfers: groups, limits of users and sessions, a guarantee, and a client that reads slowly.
TEN = """
[[group]]
name = "sales"
down_rate = 1_500_000
[[group]]
name = "build"
down_rate = 2_000_000
[[user]]
name = "ann"
password = "a"
home = "/"
group = "sales"
session_down_floor = 600_000
[[user]]
name = "bob"
password = "b"
home = "/"
group = "sales"
[[user]]
name = "cem"
password = "c"
home = "/"
group = "sales"
down_rate = 200_000
[[user]]
name = "dan"
password = "d"
home = "/"
group = "build"
[[user]]
name = "eva"
password = "e"
home = "/"
group = "build"
session_down_rate = 400_000
[[user]]
name = "fay"
password = "f"
home = "/"
[[user]]
name = "gus"
password = "g"
home = "/"
down_rate = 300_000
[[user]]
name = "hal"
password = "h"
home = "/"
session_down_rate = 250_000
[[user]]
name = "ida"
password = "i"
home = "/"
[[user]]
name = "slow"
password = "s"
home = "/"
"""
TRANSFERS = ["ann", "bob", "cem", "dan", "dan", "dan", "eva", "fay", "gus", "hal", "ida", "slow"]
# Octets a second that the slow client reads, and the looks at it, three seconds apart, within which a limit no longer holds it back.
SLOWLY, LOOKS = 50_000, 15


class Reader:
    """A client's side of a download, which counts what it reads, and reads at most so many octets a second if that is stated."""

    def __init__(self, data, most=None):
        self.data, self.most, self.count, self.ends = data, most, 0, False
        self.thread = threading.Thread(target=self.run)
        self.thread.start()

    def run(self):
        self.data.socket.settimeout(0.2)
        begun = time.monotonic()
        while not self.ends:
            if self.most and self.count > self.most * (time.monotonic() - begun):
                time.sleep(0.01)
                continue
            with contextlib.suppress(TimeoutError, OSError):
                self.count += len(self.data.socket.recv(4096 if self.most else 65536))

    def end(self):
        self.ends = True
        self.thread.join()


def note_of(server, user):
    """What the note of the end of a user's file has after its octets and its seconds; nothing while there is none."""
    found = re.search(rf'\] \S+ 127\.0\.0\.1 #\d+ sent "/\w+": user "{user}", \d+ octets, \d+\.\d{{3}} s(.*)\n', server.all_noted())
    return found and found[1]


def notes_of_what_held_transfers_back():
    """The note of a transfer's end has the limits that held it back, the outer one first, by the names of a plan, with their parts of its rounds."""
    of = {"ann": ("to_ann", r'user "ann" down', 300_000), "bob": ("to_bob", r"session down", 450_000), "cem": ("to_cem", r'group "two" down', 600_000)}
    with held_server(files={name: octets for name, _, octets in of.values()}) as server:
        clients = {name: Client(server, name, name[0]) for name in of}
        datas = {name: client.passive() for name, client in clients.items()}
        for name, client in clients.items():
            client.says(f"RETR {of[name][0]}", "150 Opening data connection")
        threads = [threading.Thread(target=data.whole) for data in datas.values()]
        for it in threads:
            it.start()
        for it in threads:
            it.join()
        for name, (_, limit, _) in of.items():
            clients[name].says(None, "226 Transfer complete")
            until(lambda it=name: note_of(server, it) is not None, f"the note of {name}")
            told = note_of(server, name)
            found = re.fullmatch(rf", held by {limit} (\d+) %(?:, client (\d+) %)?", told)
            want(found and int(found[1]) >= 80, f"the note of {name}: {told}")
        for it in clients.values():
            it.quit()
        server.stop()
        server.ended()


def notes_of_a_guarantee_that_was_not_met():
    """The note of a transfer whose guarantee was not met has it, and for how long: here the server was stopped most of the time, and earns a tenth of a second at most meanwhile."""
    with held_server(server="rate = 600_000\nlanes = 8", files={"to_dan": 2_000_000}) as server:
        client = Client(server, "dan", "d")
        data = client.passive()
        begun = time.monotonic()
        client.says("RETR to_dan", "150 Opening data connection")
        reading = threading.Thread(target=data.whole)
        reading.start()
        # Of each half second two tenths are earned at most: that in which it runs, and the tenth that is kept.
        while time.monotonic() - begun < 5:
            server.process.send_signal(signal.SIGSTOP)
            time.sleep(0.4)
            server.process.send_signal(signal.SIGCONT)
            time.sleep(0.1)
        reading.join()
        taken = time.monotonic() - begun
        client.says(None, "226 Transfer complete")
        until(lambda: note_of(server, "dan") is not None, "the note")
        told = note_of(server, "dan")
        found = re.fullmatch(r", held by server (\d+) %(?:, client \d+ %)?, guarantee of 500000 not met for (\d+) s", told)
        want(found and int(found[1]) >= 50 and 2 <= int(found[2]) <= taken, f"the note of dan, after {taken:.1f} s: {told}")
        status = next_status(server)
        unmet = next(it["unmet_down"] for it in status["accounts"] if it["user"] == "dan")
        same(unmet // 1_000_000, int(found[2]), "the seconds of the account")
        client.quit()
        server.stop()
        server.ended()


def kind_of(held_by):
    """The kind of limit by the words of a plan."""
    return {"server": "server", "server down": "direction", "group": "group", "user": "user", "session": "session"}[held_by if held_by.startswith("server") else held_by.split()[0]]


def limited(status, user):
    """In how many rounds a limit held a user's transfer back, by its kind."""
    return {kind: rounds for kind, rounds in row_of(status, user)["held"].items() if kind != "nothing"}


def the_division_is_shown():
    """Of twelve transfers the status says what their clients count, and that what a plan says holds them back."""
    with held_server(server="down_rate = 6_000_000\nlanes = 16\nmax_cons = 32", users=TEN, passive=32) as server:
        words = [SERVER, "plan", "--json", "ftpd.toml", ",".join(f"{it}={TRANSFERS.count(it)}" for it in dict.fromkeys(TRANSFERS) if it != "slow")]
        plan = json.loads(subprocess.run(words, cwd=server.place, capture_output=True, check=True, timeout=60).stdout)
        clients = [Client(server, name, name[0]) for name in TRANSFERS]
        datas = [client.passive(room=65536) for client in clients]
        for client in clients:
            client.says("RETR big", "150 Opening data connection")
        readers = [Reader(data, SLOWLY if name == "slow" else None) for name, data in zip(TRANSFERS, datas)]
        time.sleep(2)
        before = next_status(server)
        counted = [it.count for it in readers]
        time.sleep(5)
        # The machine takes megabytes for the slow client at first, like any transfer's, and the longer the busier it is; from then on no limit holds it back.
        looks = [next_status(server)]
        while len(looks) < 2 or limited(looks[-1], "slow") != limited(looks[-2], "slow") and len(looks) < LOOKS:
            time.sleep(3)
            looks.append(next_status(server))
        after = looks[-1]
        counted = [it.count - was for it, was in zip(readers, counted)]
        for it in readers:
            it.end()
        is_balanced(after)
        kinds = {}
        for it in plan["transfers"]:
            kinds.setdefault(it["user"], kind_of(it["held_by"]))
        rows = dict(zip((it["session"] for it in after["transfers"]), after["transfers"]))
        same(limited(after, "slow"), limited(looks[-2], "slow"), "rounds in which a limit held the slow client back")
        for was in before["transfers"]:
            now, name = rows[was["session"]], was["user"]
            if name == "slow":
                continue
            moved = now["moved"] - was["moved"]
            found = counted[was["session"]]
            want(abs(moved - found) <= ON_THE_WAY, f"{name}: moved {moved}, and its client counted {found}")
            gained = {it: now["held"][it] - was["held"][it] for it in now["held"]}
            kind = kinds[name]
            # (a machine that is late with its ticks leaves some of the line unused, and then the line is what holds back)
            want(max(gained, key=gained.get) == kind and gained[kind] > 0, f"{name} is held by {gained}, and by the plan by {kind}")
            if os.environ.get("TIMES"):
                print(f"{name}: {kind} {100 * gained[kind] // sum(gained.values())} %, moved {moved}, counted {found}")
        for it in [*datas, *clients]:
            it.close()
        until(lambda: not status_of(server)["transfers"], "the end of all transfers")
        last = next_status(server)
        is_balanced(last)
        server.stop()
        same(last["issued"], server.ended()[0], "the octets issued, and those of the settled line")


# A line of Prometheus' text format: a comment, or a sample with its labels and its value.
METRIC = re.compile(r'# HELP [a-z_]+ .+|# TYPE [a-z_]+ (counter|gauge)|[a-z_]+(\{([a-z_]+="([^"\\\n]|\\["\\n])*",?)+\})? [0-9.e+-]+')


def reader_thread(data, seconds):
    it = threading.Thread(target=reader, args=(data, seconds))
    it.start()
    return it


def request(port, text, wait=10):
    """What the page answers to a request."""
    with socket.create_connection(("127.0.0.1", port), wait) as it:
        it.sendall(text)
        pieces = []
        with contextlib.suppress(ConnectionResetError):
            while piece := it.recv(65536):
                pieces.append(piece)
    head, _, body = b"".join(pieces).partition(b"\r\n\r\n")
    return head.decode(), body


def get(path, method="GET"):
    return f"{method} {path} HTTP/1.1\r\nHost: localhost\r\n\r\n".encode()


def a_status_page():
    """The page, the JSON and the metrics; other paths and methods; and peers who send nothing, half, or drip hold up nobody for long."""
    port = PORTS_TO_HAND_OUT.take(1)
    with watched(LINE, port=port) as server:
        next_status(server)
        head, body = request(port, get("/"))
        want(head.startswith("HTTP/1.1 200 ") and b"<html" in body.lower(), f"the page: {head}")
        want("text/html" in head, f"its type: {head}")
        head, body = request(port, get("/status.json"))
        same(json.loads(body)["version"], 1, "its version")
        want("application/json" in head, f"its type: {head}")
        head, body = request(port, get("/metrics"))
        want("text/plain; version=0.0.4" in head, f"its type: {head}")
        want(re.search(rb"^ftpd_sessions 0$", body, re.MULTILINE), f"the metrics: {body[:400]!r}")
        for line in body.decode().splitlines():
            want(METRIC.fullmatch(line), f"a line of the metrics: {line!r}")
        head, body = request(port, get("/", "HEAD"))
        want(head.startswith("HTTP/1.1 200 ") and not body, f"HEAD: {head} {body[:40]!r}")
        want(request(port, get("/other"))[0].startswith("HTTP/1.1 404 "), "another path")
        want(request(port, get("/", "POST"))[0].startswith("HTTP/1.1 405 "), "another method")
        with contextlib.ExitStack() as rest:
            for octets in (b"", b"GET / HT", b"\x00\xff" * 100, b"GET " + b"a" * 100_000):
                peer = rest.enter_context(socket.create_connection(("127.0.0.1", port)))
                with contextlib.suppress(OSError):
                    peer.sendall(octets)
            begun = time.monotonic()
            want(request(port, get("/metrics"), 60)[0].startswith("HTTP/1.1 200 "), "behind peers who do not end")
            in_time(begun, 12, "the answer behind three peers of two seconds each")
        with Client(server).socket:
            pass
        server.stop()
        server.ended()
        with contextlib.suppress(ConnectionRefusedError):
            request(port, get("/"), 5)
            raise AssertionError("the page outlives its server")


def a_status_that_cannot_be_written():
    """A start says why there is no status file, or no page."""
    with watched() as server:
        taken = server.port
        it = Server(words=["--status", "no/where/status.json"])
        status, told, noted = it.run()
        same((status, told), (1, ""), "its end")
        same(noted, "the status file no/where/status.json could not be written: No such file or directory (os error 2)\nftpd: StatusFile\n", "its fault")
        it.room.cleanup()
        it = Server(words=["--status-port", str(taken)])
        status, told, noted = it.run()
        same((status, told), (1, ""), "its end")
        same(noted, f"the status page cannot listen on 127.0.0.1:{taken}: Address already in use (os error 98)\nftpd: StatusPort\n", "its fault")
        it.room.cleanup()
        server.stop()
        server.ended()


def a_status_whose_folder_goes():
    """That the status cannot be written any more is noted once, until it can; then the next one is there."""
    server = Server(sessions=0, stop=True, words=["--status", "shown/status.json"])
    folder, unwritten = f"{server.place}/shown", '[WARN ] the status file "shown/status.json" cannot be written: No such file or directory (os error 2)'
    os.mkdir(folder)
    with server:
        for times in (1, 2):
            until(lambda: os.path.exists(f"{folder}/status.json"), "a status")
            os.rename(folder, f"{folder}.{times}")
            until(lambda: server.noted().splitlines().count(unwritten) == times, "the note of a folder that is gone")
            # (two looks more)
            time.sleep(2.5)
            same(server.noted().splitlines().count(unwritten), times, "the notes")
            os.mkdir(folder)
        until(lambda: os.path.exists(f"{folder}/status.json"), "a status")
        server.stop()
        server.ended()
        want(not os.path.exists(f"{folder}/status.json"), "the status is removed at the end")


def a_path_of_another_file():
    """One path for two files, a status where something else is, and a log that goes on with something else are refused at the start; nothing is changed."""
    for words, reason, name in (
        (["--status", "ftpd.toml"], "ftpd.toml is stated for two files: state a path of its own for each", "OnePath"),
        (["--transfer-log", "link"], "ftpd.toml is stated for two files: state a path of its own for each", "OnePath"),
        (["--stop-file", "gone", "--ready-file", "gone"], "gone is stated for two files: state a path of its own for each", "OnePath"),
        (["--status", "text"], "text is no status of a server: move it away, or state another path", "StatusFile"),
        (["--stop-file", "gone", "--drain-file", "gone"], "gone is stated for two files: state a path of its own for each", "OnePath"),
        (["--status", "/dev/null"], "/dev/null is no status of a server: move it away, or state another path", "StatusFile"),
        (["--status", "folder"], "folder is no status of a server: move it away, or state another path", "StatusFile"),
        (["--transfer-log", "folder"], "folder is no transfer log: move it away, or state another path", "TransferLog"),
        (["--transfer-log", "text"], "text is no transfer log: move it away, or state another path", "TransferLog"),
        (["--transfer-log", "pipe"], "pipe is no transfer log: move it away, or state another path", "TransferLog"),
    ):
        it = Server(words=words)
        it.configure()
        with open(f"{it.place}/text", "w", encoding="utf-8") as text:
            text.write("version = 1\n")
        os.link(f"{it.place}/ftpd.toml", f"{it.place}/link")
        os.mkfifo(f"{it.place}/pipe")
        os.mkdir(f"{it.place}/folder")
        same(it.run(), (1, "", f"{reason}\nftpd: {name}\n"), f"the end of {words}")
        with open(f"{it.place}/text", encoding="utf-8") as text:
            same(text.read(), "version = 1\n", "the text")
        same(os.listdir(f"{it.place}/folder"), [], "the folder")
        it.room.cleanup()


def a_table_of_the_status():
    """`ftpd top --once` shows a transfer, its user and what holds it back."""
    with watched("rate = 100_000\nlanes = 2") as server:
        client = Client(server)
        data = client.passive()
        client.says("RETR big", "150 Opening data connection")
        reader(data, 1.5)
        next_status(server)
        found = subprocess.run([SERVER, "top", "--once", f"{server.place}/status.json"], capture_output=True, text=True, timeout=60)
        same((found.returncode, found.stderr), (0, ""), "its end")
        lines = found.stdout.splitlines()
        want(all(len(it) <= 80 for it in lines), f"wide lines: {found.stdout}")
        at = next((place for place, it in enumerate(lines) if re.match(r"#\d+ +ann ", it)), None)
        held = at is not None and re.search(r"server (\d+)%", lines[at + 1])
        want(held and int(held[1]) >= 80 and lines[at + 1].endswith("/big"), f"the table: {found.stdout}")
        data.close()
        client.close()
        server.stop()
        server.ended()


def who_is_inside():
    """A session that transfers nothing is shown, with what is guaranteed to it, until it ends."""
    with held_server() as server:
        nobody, dan, cem = Client(server, None), Client(server, "dan", "d"), Client(server, "cem", "c")
        nobody.says(None, "220 Ready")
        status = next_status(server)
        inside = {it["user"]: it for it in status["sessions_now"]}
        same((len(status["sessions_now"]), sorted(inside, key=str)), (3, [None, "cem", "dan"]), "who is inside")
        same((inside["dan"]["guaranteed_down"], inside["dan"]["guaranteed_up"], inside["cem"]["group"]), (500_000, None, "two"), "guarantee and group")
        same((status["guaranteed_down"], status["groups"][0]["guaranteed_down"], status["logins"]), (500_000, None, 2), "in all")
        want(all(it["begun"] <= it["active"] < status["micros"] for it in status["sessions_now"]), f"idle: {status['sessions_now']}")
        shown = subprocess.run([SERVER, "top", "--once", f"{server.place}/status.json"], capture_output=True, text=True, timeout=60).stdout
        want("\n3 idle   guaranteed down 500.00K" in shown, f"the table: {shown}")
        want(re.search(r"\n#\d+ +dan +127\.0\.0\.1 +0:00:\d\d +0:00:\d\d +500\.00K +-\n", shown), f"the table: {shown}")
        data = cem.passive(room=65536)
        cem.says("RETR big", "150 Opening data connection")
        status = next_status(server)
        active = next(it for it in status["sessions_now"] if it["user"] == "cem")
        same(active["active"], status["micros"], "who transfers is not idle")
        dan.says("REIN", "220 ...")
        same(next_status(server)["guaranteed_down"], None, "who has left holds nothing")
        dan.quit()
        until(lambda: len(status_of(server)["sessions_now"]) == 2, "two sessions")
        for it in (data, cem, nobody):
            it.close()
        until(lambda: status_of(server)["sessions_now"] == [], "nobody inside")
        server.stop()
        server.ended()


ROWS = [a_status_file, each_transfer_has_its_own_grants, who_is_inside, what_holds_transfers_back, notes_of_what_held_transfers_back, notes_of_a_guarantee_that_was_not_met, the_division_is_shown, a_status_page, a_status_that_cannot_be_written, a_status_whose_folder_goes, a_path_of_another_file, a_table_of_the_status]
