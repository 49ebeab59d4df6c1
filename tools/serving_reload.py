"""A configuration that is read again while the server runs: nobody is cut, and whoever comes afterwards meets the new one."""
import contextlib
import os
import select
import socket
import subprocess
import threading
import time

from serving_drain import drained
from serving_kit import SECONDS, SERVER, Client, Server, near, same, until, want
from serving_limits import is_served
from serving_status import next_status, row_of

RATE = 2_000_000
MUCH = 400_000_000
USERS = {"ann": "", "bob": ""}


def text_of(server, rate=RATE, users=None, more="", head=""):
    """The text of a configuration for a server: its own address, ports and folder, with a rate and users."""
    table = f'version = {2 if more else 1}\n[server]\nroot = "{server.folder}"\nport = {server.port}\nsessions = 0\nlanes = 16\nrate = {rate}\n'
    ports = f"passive_first = {server.port + 1}\npassive_last = {server.port + server.passive}\n"
    rows = "".join(
        f'[[user]]\nname = "{name}"\npassword = "secret"\nhome = "/"\nperms = "elradfmw"\n{lines}\n' for name, lines in (USERS if users is None else users).items()
    )
    return head + table + ports + more + rows


def served(rate=RATE, users=None, more="", **words):
    """A server of such a configuration, with a big file, that is to be reloaded."""
    server = Server(sessions=0, root="folder", files={"big": MUCH, "f": b"a\nb"}, reload=True, passive=16, **words)
    server.made_text()
    server.text = text_of(server, rate, users, more)
    return server


def begun(server, count, name="ann"):
    """So many downloads that run, as pairs of connections."""
    found = []
    for _ in range(count):
        client = Client(server, name)
        data = client.passive()
        client.says("RETR big", "150 Opening data connection")
        found.append((client, data))
    return found


def moved_in(pairs, seconds):
    """The octets that come on data connections in some seconds."""
    had, end = 0, time.monotonic() + seconds
    sockets = [data.socket for _, data in pairs]
    while (rest := end - time.monotonic()) > 0:
        for it in select.select(sockets, [], [], rest)[0]:
            piece = it.recv(65_536)
            want(piece, "a transfer that ended")
            had += len(piece)
    return had


def closed(pairs):
    for client, data in pairs:
        data.close()
        client.close()


def rate_over(pairs, seconds):
    """The octets a second that come on data connections, over the time that reading them took: a busy machine may hold the reader up."""
    begun_at = time.monotonic()
    had = moved_in(pairs, seconds)
    return had / (time.monotonic() - begun_at)


def changes_noted(server):
    """What the reloads so far have changed, as it was noted."""
    return [line.split("configuration: ")[1] for line in server.all_noted().splitlines() if "[INFO ]" in line and "configuration: " in line]


def a_rate_is_halved_and_a_user_added():
    """Twelve downloads run on under half the rate, and the new user logs in. What the reload changes is noted, and the second time that it changes nothing more."""
    rate = 4 * RATE
    with served(rate=rate, stop=True) as server:
        pairs = begun(server, 12)
        moved_in(pairs, 1.5)
        text = text_of(server, rate // 2, {**USERS, "carol": ""})
        server.reloaded(text)
        until(lambda: len(changes_noted(server)) == 3, "the notes of what has changed")
        changed = changes_noted(server)
        same(changed[0], "user carol is added", "the first change")
        want(changed[1].startswith("octets a second "), changed)
        same(changed[2].split(), ["server", "rate", "8000000", "4000000", "64.00", "32.00"], "the rate, and the same in Mbit/s")
        server.reloaded(text)
        same(changes_noted(server), changed, "the lines of changes")
        moved_in(pairs, 1)
        # (of each download one grant may be on its way as the reading begins)
        near(rate_over(pairs, 3), rate // 2, 0.03 * rate / 2 + len(pairs) * 65_536 / 3, f"octets a second under {rate // 2}")
        carol = Client(server, "carol")
        carol.quit()
        closed(pairs)
        server.stop()
        server.ended()


def what_is_refused_changes_nothing():
    """A faulty file, a key that cannot change, and a guarantee that would break: each is noted with its reason."""
    with served(users={"ann": "session_down_floor = 500000", "bob": ""}, stop=True) as server:
        ann, bob = Client(server), Client(server, "bob")
        good = server.text
        for text, reason in (
            ("version = 1\n[server]\nrot = 1\n", "configuration not reloaded: ftpd.toml: line 2: [server]: rot: no such key; a similar key is root"),
            (good.replace("lanes = 16", "lanes = 15"), "`lanes` cannot change while the server runs"),
            (good.replace(f"rate = {RATE}", "rate = 400000"), "the sessions inside are promised 500000, and `rate` of the server would be 400000"),
        ):
            note = server.reloaded(text, taken=False)
            want(reason in note, note)
        same(ann.retrieve("f"), b"a\nb", "the file")
        server.reloaded(good)
        for client in (ann, bob):
            client.quit()
        server.stop()
        server.ended()


def fewer_connections_than_there_are():
    """A limit below what is connected, in all or from one address, is taken: nobody is cut, and nobody comes until enough have left."""
    for key, reply in (("max_cons", "421 Too many connections"), ("max_cons_per_address", "421 Too many connections from this address")):
        with served(stop=True) as server:
            clients = [Client(server) for _ in range(3)]
            server.reloaded(server.text.replace("sessions = 0", f"sessions = 0\n{key} = 2"))
            for _ in range(2):
                stranger = Client(server, name=None)
                stranger.says(None, reply)
                stranger.at_end()
                stranger.close()
                same(clients[-1].retrieve("f"), b"a\nb", "a client who was there")
                clients.pop().quit()
                until(lambda: server.noted().count("disconnect\n") >= 3 - len(clients), "one who has left")
            until(lambda: is_served(server), "a place")
            for client in clients:
                client.quit()
            server.stop()
            server.ended()


def each_fixed_key_is_refused_by_name():
    """What cannot change while the server runs: each key is named, with its value at the start and what to do."""
    with served(stop=True) as server:
        good, first, last = server.text, server.port + 1, server.port + server.passive
        for old, new, reason in (
            (f"port = {server.port}", f"port = {server.port}\naddress = \"127.0.0.2\"", "`address` cannot change while the server runs: it is 127.0.0.1; restart the server to listen on 127.0.0.2"),
            (f"port = {server.port}", "port = 65000", f"`port` cannot change while the server runs: it is {server.port}; restart the server to serve on 65000"),
            (f'root = "{server.folder}"', 'root = "memory"', f"`root` cannot change while the server runs: it is {server.folder}; restart the server to serve memory"),
            (f"passive_first = {first}", f"passive_first = {first + 1}", f"`passive_first` cannot change while the server runs: it is {first}; restart the server for ports from {first + 1}"),
            (f"passive_last = {last}", f"passive_last = {last - 1}", f"`passive_last` cannot change while the server runs: it is {last}; restart the server for ports up to {last - 1}"),
            ("lanes = 16", "lanes = 17", "`lanes` cannot change while the server runs: it is 16; restart the server for 17"),
            ("sessions = 0", "sessions = 0\nmax_cons = 65", "`max_cons` cannot be above 64 while the server runs: restart the server to take 65 connections"),
        ):
            note = server.reloaded(good.replace(old, new), taken=False)
            want(note.endswith(f"configuration not reloaded: {reason}"), note)
        same(Client(server).retrieve("f"), b"a\nb", "the file")
        server.stop()
        server.ended()
    with Server(sessions=0, reload=True, stop=True, server="capacity = 4096") as server:
        with open(f"{server.place}/ftpd.toml", encoding="utf-8") as it:
            text = it.read()
        note = server.reloaded(text.replace("capacity = 4096", "capacity = 4097"), taken=False)
        want(note.endswith("not reloaded: `capacity` cannot change while the server runs: it is 4096; restart the server for 4097"), note)
        server.reloaded(text)
        server.stop()
        server.ended()


def a_user_is_taken_out():
    """Their session ends once its transfer has, and nobody logs in by that name; a renamed user is another."""
    with served(stop=True) as server:
        idle, reading = Client(server, "bob"), Client(server, "bob")
        data = reading.passive()
        reading.says("RETR f", "150 Opening data connection")
        server.reloaded(text_of(server, users={"ann": "", "robert": ""}))
        same(data.whole(), b"a\nb", "the file")
        want("[WARN ] users that the new configuration has no longer: 1\n" in server.all_noted(), "a note of their number")
        reading.says(None, "226 Transfer complete", "421 User is not served any more")
        idle.says(None, "421 User is not served any more")
        for client in (reading, idle):
            client.at_end()
        stranger = Client(server, name=None)
        stranger.says(None, "220 Ready")
        stranger.says("USER bob", "331 Password required")
        stranger.says("PASS secret", "530 Login incorrect")
        stranger.close()
        Client(server, "robert").quit()
        server.stop()
        server.ended()


def who_is_taken_out_keeps_their_rates():
    """A download that runs keeps the rate of its user and that of the group, which is gone too; put back, the user is the same, whose rate is one for both sessions."""
    limits = {"ann": 'group = "staff"', "bob": 'down_rate = 100000', "cleo": ""}
    group = '[[group]]\nname = "staff"\ndown_rate = 200000\n'
    with served(rate=0, users=limits, more=group, stop=True) as server:
        pairs = {name: begun(server, 1, name) for name in ("ann", "bob")}
        both = pairs["ann"] + pairs["bob"]
        moved_in(both, 1.5)
        server.reloaded(text_of(server, 0, {"cleo": ""}))
        for name, rate in (("ann", 200_000), ("bob", 100_000)):
            # (what waits is read first)
            moved_in(both, 1)
            had = moved_in(pairs[name], 3)
            want(had < 3 * rate * 1.1 + 131_072, f"{had} octets of {name} in three seconds, out of the file, under {rate}")
        server.reloaded(text_of(server, 0, limits, group))
        again = begun(server, 1, "bob")
        moved_in(both + again, 1)
        had = moved_in(pairs["bob"] + again, 3)
        want(had < 3 * 100_000 * 1.1 + 131_072, f"{had} octets of both sessions in three seconds, back in the file")
        closed(both + again)
        server.stop()
        server.ended()


def who_sends_ahead_is_taken_out():
    """Lines that were held, or sent ahead, when the user was taken out are not carried out."""
    with served(stop=True) as server:
        client = Client(server, "bob")
        data = client.passive()
        client.says("RETR big", "150 Opening data connection")
        for line in ("PASV", "RETR big", "MKD made", "DELE f"):
            client.send(line)
        server.reloaded(text_of(server, users={"ann": ""}))
        client.says("ABOR", "426 Transfer aborted", "226 Abort done", "421 User is not served any more")
        client.at_end()
        data.close()
        want(not os.path.exists(f"{server.folder}/made") and server.get("f") == b"a\nb", "nothing is changed")
        server.stop()
        server.ended()


def sessions_keep_the_terms_of_their_login():
    """Letters and messages are those of the login until the next one."""
    with served(stop=True) as server:
        client, waiting = Client(server), Client(server, name=None)
        waiting.says(None, "220 Ready")
        waiting.says("USER ann", "331 Password required")
        text = text_of(server).replace("elradfmw", "el").replace('password = "secret"', 'password = "other"')
        server.reloaded(text)
        client.store("up", b"x")
        waiting.says("PASS other", "230 Welcome")
        waiting.says("DELE up", "550 ...")
        client.says("USER ann", "331 Password required")
        client.says("PASS secret", "530 Login incorrect")
        for it in (client, waiting):
            it.close()
        server.stop()
        server.ended()


def ten_reloads_under_load():
    """Each is taken once the one before it was; no transfer ends, and the rate of the last is kept."""
    with served(stop=True) as server:
        pairs = begun(server, 6)
        for number in range(10):
            server.reloaded(text_of(server, RATE // (1 + number % 2), {**USERS, f"u{number}": ""}))
            moved_in(pairs, 0.2)
        had = moved_in(pairs, 2)
        want(had < 2 * RATE // 2 * 1.1 + 200_000, f"{had} octets in two seconds under {RATE // 2}")
        closed(pairs)
        server.stop()
        server.ended()


@contextlib.contextmanager
def moving(down, up):
    """Reads one data connection and writes another all the time, in a thread of its own. Gives the counts of octets so far, as a list."""
    counts, zeros, ends = [0, 0], bytes(65_536), threading.Event()

    def move():
        up.socket.setblocking(False)
        while not ends.is_set():
            ready, free, _ = select.select([down.socket], [up.socket], [], 0.1)
            if ready:
                counts[0] += len(down.socket.recv(65_536))
            if free:
                counts[1] += up.socket.send(zeros)

    thread = threading.Thread(target=move)
    thread.start()
    try:
        yield counts
    finally:
        ends.set()
        thread.join()


def who_is_charged_after_reloads():
    """One user downloads and one uploads, each under a rate of theirs; so it stays by reloads that put a user before both, turn their order, and exchange their rates. The status counts each transfer for its user."""
    rates = {"ann": "down_rate = 400_000\nup_rate = 50_000", "bob": "down_rate = 60_000\nup_rate = 250_000"}
    turned = {"bob": "down_rate = 60_000\nup_rate = 500_000", "ann": "down_rate = 200_000\nup_rate = 50_000"}
    with served(rate=4_000_000, users=rates, stop=True, words=["--login-delay", "0", "--status", "status.json"]) as server:
        ann, bob = Client(server), Client(server, "bob")
        down, up = ann.passive(room=65_536), bob.passive()
        up.socket.setsockopt(socket.SOL_SOCKET, socket.SO_SNDBUF, 65_536)
        ann.says("RETR big", "150 Opening data connection")
        bob.says("STOR up", "150 Opening data connection")
        with moving(down, up) as counts:
            for users, wanted in ((None, (400_000, 250_000)), ({"aaron": "down_rate = 10_000", **rates}, (400_000, 250_000)), ({"aaron": "", **turned}, (200_000, 500_000))):
                if users:
                    server.reloaded(text_of(server, 4_000_000, users))
                # what lies in buffers at both ends is of the rates before
                time.sleep(3)
                before, begun_at, had = next_status(server), time.monotonic(), list(counts)
                time.sleep(4)
                after, seconds, had = next_status(server), time.monotonic() - begun_at, [last - first for first, last in zip(had, counts)]
                looked = (after["micros"] - before["micros"]) / 1e6
                for user, way, count, rate in zip(("ann", "bob"), ("down", "up"), had, wanted):
                    near(count, seconds * rate, 0.1 * seconds * rate + 262_144, f"octets of {user} in {seconds:.1f} seconds at {rate}")
                    first, last = row_of(before, user), row_of(after, user)
                    same(last["direction"], way, f"the way of {user}")
                    moved = last["moved"] - first["moved"]
                    near(moved, looked * rate, 0.1 * looked * rate + 65_536, f"octets of {user} by the status in {looked:.1f} seconds at {rate}")
        for it in (down, up):
            it.close()
        for it in (ann, bob):
            it.close()
        server.stop()
        server.ended()


def a_reload_and_then_a_drain():
    """A server that was reloaded drains as any other."""
    with served(drain=True) as server:
        client = Client(server)
        server.reloaded(text_of(server, RATE // 2))
        drained(server)
        client.says(None, "421 Server is ending")
        client.at_end()
        server.ended()


RUNNING = ["--login-delay", "0", "--running-file"]


def kept(server, path="running.toml"):
    """The octets of the running file; none if it is not there."""
    try:
        with open(f"{server.place}/{path}", "rb") as it:
            return it.read()
    except FileNotFoundError:
        return None


def judged(server, *words):
    """The status and the first line of `check-config` of the server's configuration as its file has it now."""
    found = subprocess.run([SERVER, "check-config", "ftpd.toml", *words], cwd=server.place, capture_output=True, env={}, timeout=SECONDS)
    return found.returncode, found.stdout.decode().split("\n")[0]


def the_running_file_has_what_is_in_force():
    """Its octets are those of the start, and then of each reload that is taken; one that is refused leaves them, and so does the file of the configuration. Its owner alone may read it, and the end removes it."""
    with served(stop=True, words=[*RUNNING, "running.toml"]) as server:
        first, path = server.text.encode(), f"{server.place}/running.toml"
        until(lambda: kept(server) == first, "the text of the start")
        same(oct(os.stat(path).st_mode & 0o7777), "0o600", "its permissions")
        second = text_of(server, RATE // 2)
        server.reloaded(second)
        until(lambda: kept(server) == second.encode(), "the text of a reload that was taken")
        same(oct(os.stat(path).st_mode & 0o7777), "0o600", "its permissions")
        for text in (second.replace("lanes = 16", "lanes = 15"), "version = 1\n[server]\nrot = 1\n"):
            server.reloaded(text, taken=False)
            time.sleep(0.5)
            same(kept(server), second.encode(), "the text after a reload that was refused")
        server.reloaded(second)
        with open(f"{server.place}/ftpd.toml", "w", encoding="utf-8") as it:
            it.write(second.replace("lanes = 16", "lanes = 15"))
        why = "a reload would be refused: `lanes` cannot change while the server runs: it is 16; restart the server for 15"
        same(judged(server, "--against", "running.toml"), (1, why), "against what is in force")
        want(not os.path.exists(f"{path}.new"), "the new file has taken its name")
        server.stop()
        server.ended()
        same(kept(server), None, "the text after the end")


def without_a_reload_file_the_running_file_is_that_of_the_start():
    """It needs no reload file, and a start replaces what a server that was killed has left."""
    with Server(sessions=0, stop=True, words=[*RUNNING, "running.toml"]) as server:
        with open(f"{server.place}/ftpd.toml", "rb") as it:
            text = it.read()
        until(lambda: kept(server) == text, "the text of the start")
        server.process.kill()
        server.process.wait()
        same(kept(server), text, "the text after the server was killed")
        with open(f"{server.place}/running.toml", "wb") as it:
            it.write(b"earlier")
        server.begin_again()
        until(lambda: kept(server) == text, "the text of the next start")
        server.stop()
        server.ended()


def a_running_file_that_cannot_be_written_is_noted():
    """The server serves on, tries again after the next reload that it takes, and removes nothing that it did not write."""
    with served(stop=True, words=[*RUNNING, "later/running.toml"]) as server:
        note = '[WARN ] the running file "later/running.toml" cannot be written: No such file or directory (os error 2)\n'
        until(lambda: note in server.all_noted(), "a note")
        client = Client(server)
        same(client.retrieve("f"), b"a\nb", "the file")
        os.mkdir(f"{server.place}/later")
        text = text_of(server, RATE // 2)
        server.reloaded(text)
        until(lambda: kept(server, "later/running.toml") == text.encode(), "the text of a reload that was taken")
        client.quit()
        server.stop()
        server.ended()
    with served(stop=True, words=[*RUNNING, "files"]) as server:
        until(lambda: '[WARN ] the running file "files" cannot be written: ' in server.all_noted(), "a note of a folder")
        Client(server).quit()
        server.stop()
        server.ended()
        want(os.path.isdir(server.folder), "the folder is still there")


def a_running_file_of_another_path_is_refused():
    """The path of the configuration is not that of its running file, nor of the new file beside it."""
    for path, taken in (("ftpd.toml", "ftpd.toml"), ("stop", "stop")):
        server = Server(sessions=0, stop=True, words=[*RUNNING, path])
        same(server.run(), (1, "", f"{taken} is stated for two files: state a path of its own for each\nftpd: OnePath\n"), "its end")
        server.room.cleanup()


ROWS = [
    the_running_file_has_what_is_in_force,
    without_a_reload_file_the_running_file_is_that_of_the_start,
    a_running_file_that_cannot_be_written_is_noted,
    a_running_file_of_another_path_is_refused,
    a_rate_is_halved_and_a_user_added,
    what_is_refused_changes_nothing,
    fewer_connections_than_there_are,
    each_fixed_key_is_refused_by_name,
    a_user_is_taken_out,
    who_is_taken_out_keeps_their_rates,
    who_sends_ahead_is_taken_out,
    sessions_keep_the_terms_of_their_login,
    ten_reloads_under_load,
    who_is_charged_after_reloads,
    a_reload_and_then_a_drain,
]
