"""Names, files and numbers at their bounds: what is served at each, and what is told one past it."""
import re
import select
import socket
import subprocess
import time

from serving_kit import SECONDS, SERVER, Client, Server, same, want

# The longest name and path, in octets, and the longest line without its end.
NAME, PATH, LINE = 255, 4_096, 4_096
# The most lanes, and the greatest rate.
LANES, RATE = 64, 2**40
MUCH = 400_000_000
# The octets of a read.
PIECE = 4_000_000


def table(name, password="secret", more=""):
    return f'[[user]]\nname = "{name}"\npassword = "{password}"\nhome = "/"\nperms = "elradfmw"\n{more}'


def names_and_passwords():
    """Users with names up to the longest, and with the longest password that a line can have, log in, and stay inside through a reload: they are the same users."""
    users = {"u" * 32: "p" * 1_000, "v" * 33: "p" * 1_001, "w" * NAME: "p" * (LINE - len("PASS "))}
    tables = "".join(table(*it) for it in users.items())
    with Server(sessions=len(users), root="folder", files={"f": b"a\nb"}, users=tables, reload=True, words=["--login-delay", "0", "--transfer-log", "log"]) as server:
        clients = {name: Client(server, name, password) for name, password in users.items()}
        for _ in range(2):
            server.reloaded()
            for client in clients.values():
                client.says("NOOP", "200 OK")
        for client in clients.values():
            same(client.retrieve("f"), b"a\nb", "the file")
            client.quit()
        server.ended()
        for name in users:
            want(f'user "{name}"' in server.noted(), f"a note of {name}")
        with open(f"{server.place}/log", encoding="ascii") as it:
            same([line.split()[13] for line in it], [*users], "the users of the transfer log")


def a_name_at_its_bound():
    """A name of 255 octets is stored, listed, sent, renamed and removed; with one octet more it is no name. So in a folder and in memory."""
    name, other, long = "n" * NAME, "o" * NAME, "n" * (NAME + 1)
    for root in ("memory", "folder"):
        with Server(root=root, files={}) as server:
            client = Client(server)
            client.store(name, b"octets")
            client.says(f"STOR {long}", "553 Name too long")
            client.says(f"MKD {long}", "553 Name too long")
            want(name in client.listed("NLST"), "the name among the names")
            want(any(it.endswith(f" {name}") for it in client.listed("LIST")), "the name in a listing")
            same(client.length_of(name), 6, "its length")
            client.says(f"RNFR {name}", "350 ...")
            client.says(f"RNTO {long}", "553 Name too long")
            client.says(f"RNFR {name}", "350 ...")
            client.says(f"RNTO {other}", "250 ...")
            same(client.retrieve(other), b"octets", "the file")
            client.says(f"DELE {other}", "250 ...")
            client.says(f"MKD {name}", "257 ...")
            client.says(f"RMD {name}", "250 ...")
            client.quit()
            server.ended()


def a_path_at_its_bound():
    """A file whose path has 4,096 octets is stored, listed and sent; a path of one octet more is none."""
    directory, last = "d" * 254, "f" * 15
    with Server(server="capacity = 2_000_000") as server:
        client = Client(server)
        for _ in range(16):
            client.says(f"MKD {directory}", "257 ...")
            client.says(f"CWD {directory}", "250 ...")
        where = 16 * f"/{directory}"
        same(len(where) + len(f"/{last}"), PATH, "the octets of the path")
        client.says("PWD", f'257 "{where}"...')
        client.store(last, b"octets")
        client.says(f"STOR {last}g", "553 Name too long")
        same(client.listed("NLST"), [last], "the names")
        same(client.retrieve(last), b"octets", "the file")
        client.quit()
        server.ended()
        want(f'received "{where}/{last}"' in server.noted(), "the note has the whole path")


def a_file_of_a_terabyte():
    """Its length is told, its end is sent and continued, and so is a file's just below and above 2^32 octets."""
    for length in (2**32 - 1, 2**32, 2**40 + 5):
        with Server(root="folder", files={"big": length - 3}) as server:
            with open(f"{server.folder}/big", "ab") as it:
                it.write(b"end")
            client = Client(server)
            same(client.length_of("big"), length, "SIZE")
            want(re.search(rf"\s{length} ", client.listed("LIST")[0]), "the length in a listing")
            want(f"size={length};" in client.listed("MLSD")[0].lower(), "the length in MLSD")
            for offset, wanted in ((length - 5, b"\0\0end"), (length, b"")):
                data = client.passive()
                client.says(f"REST {offset}", "350 ...")
                client.says("RETR big", "150 Opening data connection")
                same(data.whole(), wanted, f"what follows {offset}")
                client.says(None, "226 Transfer complete")
            client.store("big", b"more", verb="APPE")
            same(client.length_of("big"), length + 4, "SIZE after APPE")
            with open(f"{server.folder}/big", "rb") as it:
                it.seek(length - 3)
                same(it.read(), b"endmore", "the end of the file")
            client.quit()
            server.ended()


def a_transfer_beyond_four_gigabytes():
    """A download of 2^32 + 1,000 octets is counted whole: in the note, in the transfer log, and in what was issued and moved."""
    length = 2**32 + 1_000
    with Server(root="folder", files={"big": length}, words=["--login-delay", "0", "--transfer-log", "log"]) as server:
        client = Client(server)
        data, come = client.passive(room=PIECE), 0
        client.says("RETR big", "150 Opening data connection")
        # (tcp(7): with this flag what has come is dropped, and only counted)
        while octets := len(data.socket.recv(PIECE, socket.MSG_TRUNC)):
            come += octets
        data.close()
        same(come, length, "octets that have come")
        client.says(None, "226 Transfer complete")
        client.quit()
        same(server.ended(), (length, length, 0), "settled")
        want(f'sent "/big": user "ann", {length} octets' in server.noted(), f"the note: {server.noted()}")
        with open(f"{server.place}/log", encoding="ascii") as it:
            same(it.read().split()[7:9], [f"{length}", "/big"], "the line of the transfer log")


def come_to_all(datas):
    """Reads from all connections until octets have come on each."""
    left, begun = {it.socket for it in datas}, time.monotonic()
    while left:
        want(time.monotonic() - begun < SECONDS, f"{len(left)} of {len(datas)} have nothing")
        for it in select.select([data.socket for data in datas], [], [], 1)[0]:
            want(it.recv(65_536), "a transfer that ended")
            left.discard(it)


def rounds_of_each_size():
    """From one download to 64 at once, of 33 users with rates of their own: with each that begins all go on."""
    users, rates = 33, "down_rate = 3_000_000\nsession_down_rate = 2_000_000\n"
    tables = "".join(table(f"u{number}", more=rates) for number in range(users))
    more = f"max_cons = {LANES}\nlanes = {LANES}\nrate = 40_000_000"
    with Server(sessions=LANES, root="folder", files={"big": MUCH}, server=more, users=tables, passive=LANES, stop=True) as server:
        clients, datas = [], []
        for number in range(LANES):
            client = Client(server, f"u{number % users}")
            datas.append(client.passive(room=65_536))
            client.says("RETR big", "150 Opening data connection")
            clients.append(client)
            come_to_all(datas)
        server.stop()
        server.ended()
        same(server.noted().count('not sent whole "/big"'), LANES, "transfers that were aborted")
        for it in (*clients, *datas):
            it.close()


def the_greatest_rate():
    """Rates and a guarantee of 2^40 octets a second, the greatest: one session has the guarantee, a second one is told that it has none; an octet more is no rate."""
    rates = f"down_rate = {RATE}\nsession_down_rate = {RATE}\n"
    tables = table("ann", more=f"{rates}session_down_floor = {RATE}\n") + table("bob", more=rates)
    with Server(sessions=3, root="folder", files={"big": 3_000_000}, server=f"rate = {RATE}\ndown_rate = {RATE}", users=tables) as server:
        ann, bob = Client(server), Client(server, "bob")
        other = Client(server, name=None)
        other.says(None, "220 Ready")
        other.says("USER ann", "331 Password required")
        other.says("PASS secret", "421 Guaranteed rate not available")
        other.at_end()
        for client in (ann, bob):
            same(len(client.retrieve("big")), 3_000_000, "the file")
            client.quit()
        server.ended()
    beyond = Server(root="folder", files={}, server=f"rate = {RATE + 1}")
    same((beyond.run()[0], str(RATE) in beyond.run()[2]), (1, True), "a rate that is none")


def words_that_are_no_text():
    """A word of the command line that is not UTF-8 is told as that, and not as lack of memory."""
    for words in ([b"\xff"], [b"serve", b"\xc3("], [b"plan", b"a", b"\xff=1"], [b"serve", b"ftpd.toml", b"--stop-file", b"\xfe"]):
        found = subprocess.run([SERVER.encode(), *words], stdin=subprocess.DEVNULL, capture_output=True, env={}, timeout=SECONDS)
        same((found.returncode, found.stdout, found.stderr), (2, b"", b"error: a word is not UTF-8\n"), f"of {words}")


ROWS = [
    names_and_passwords,
    a_name_at_its_bound,
    a_path_at_its_bound,
    a_file_of_a_terabyte,
    a_transfer_beyond_four_gigabytes,
    rounds_of_each_size,
    the_greatest_rate,
    words_that_are_no_text,
]
