"""What no client may do, however hostile: rows of `tools/serving`, each with servers of its own."""
import contextlib
import os
import random
import resource
import select
import socket
import threading
import time

from serving_ends import promptly
from serving_limits import is_served
from serving_kit import STAMP, Client, Data, Server, in_time, same, together, until, want
from serving_rows import MUCH, greeted, size

IAC, SB, SE = b"\xff", b"\xfa", b"\xf0"
MILLION = 1_000_000


def line_faults():
    """A million octets 255, a subnegotiation without end, a line of 4,097 octets and one of 4,096: each has its reply, once."""
    with Server() as server:
        client = Client(server)
        client.socket.sendall(IAC * MILLION + b"\n")
        client.says(None, "500 Line too long")
        client.socket.sendall(IAC + SB + b"x" * MILLION)
        client.socket.sendall(IAC + SE)
        client.says("NOOP", "200 OK")
        client.says("CWD " + "x" * 4093, "500 Line too long")
        client.says("CWD " + "x" * 4092, "553 Name too long")
        client.says(b"CWD \xff\xff\xff\xff", "501 Bad argument")
        client.says("CWD a\x1bb", "501 Bad argument")
        client.says("CWD a\rb", "501 Bad argument")
        client.says("", "500 Empty line")
        client.says("\x00\x00", "500 Unknown command")
        client.says(" NOOP", "500 Empty line")
        client.says("NOOP", "200 OK")
        client.quit()
        server.ended()


def octet_by_octet():
    """A session whose lines come in segments of one octet, and one that comes in one segment."""
    with Server(sessions=3) as server:
        client = Client(server, name=None)
        client.socket.setsockopt(socket.IPPROTO_TCP, socket.TCP_NODELAY, 1)
        client.says(None, "220 Ready")
        for octet in b"USER ann\r\nPASS secret\r\nTYPE I\r\nNOOP\r\nQUIT\r\n":
            client.socket.sendall(bytes([octet]))
        client.says(None, "331 Password required", "230 Welcome", "200 Type is I", "200 OK", "221 Goodbye")
        client.at_end()
        client = Client(server)
        client.socket.sendall(b"NOOP\r\n" * 500)
        client.says(None, *["200 OK"] * 500)
        data = client.passive()
        client.socket.sendall(b"RETR f\r\nSTAT\r\nPWD\r\nTYPE A\r\n")
        client.says(None, "150 Opening data connection")
        same(data.whole(), b"a\nb", "the file")
        found = sorted(client.line() for _ in range(4))
        want(found in (sorted(it) for it in STATES), f"the replies {found}")
        client.quit()
        client = Client(server, name=None)
        client.socket.sendall(b"NOOP\r\nQUIT\r\n")
        client.socket.shutdown(socket.SHUT_WR)
        client.says(None, "220 Ready", "200 OK", "221 Goodbye")
        client.at_end()
        server.ended()


def one_octet_a_second():
    """A line of which one octet comes a second is answered, and others are served meanwhile."""
    with Server(sessions=2) as server:
        slow, other = Client(server), Client(server)
        for octet in b"NOOP\r\n":
            slow.socket.sendall(bytes([octet]))
            same(other.retrieve("f"), b"a\nb", "the file")
            time.sleep(1)
        slow.says(None, "200 OK")
        slow.quit()
        other.quit()
        same(server.ended(), (18, 18, 0), "settled")


def aborts_without_end():
    """ABOR again before an aborted transfer has ended, and after: there is none to abort."""
    with Server(root="folder", files={"big": MUCH}) as server:
        client = Client(server)
        data = client.passive(room=4096)
        client.says("RETR big", "150 Opening data connection")
        client.socket.sendall(b"ABOR\r\n" * 20)
        client.says(None, "426 Transfer aborted", "226 Abort done", *["225 No transfer"] * 19)
        data.close()
        client.quit()
        server.ended()


# (STAT may come before or behind the end of the transfer)
COMMON = ["226 Transfer complete", '257 "/"', "200 Type is A"]
STATES = [["211 Transfer in progress", *COMMON], ["211 No transfer", *COMMON], ["213-Status", *COMMON]]


def five_hundred_and_twelve():
    """As many clients as may be, and one more, which is told why; all download at once, and leave nothing behind."""
    most = 512
    with Server(sessions=0, server=f"max_cons = {most}\nlanes = 64", passive=600, stop=True) as server:
        threads, files = server.threads(), server.open_files()
        clients = [Client(server, name=None) for _ in range(most)]
        for client in clients:
            client.says(None, "220 Ready")
        last = Client(server, name=None)
        last.says(None, "421 Too many connections")
        last.at_end()
        for line, reply in (("USER ann", "331 Password required"), ("PASS secret", "230 Welcome"), ("TYPE I", "200 Type is I")):
            for client in clients:
                client.send(line)
            for client in clients:
                client.says(None, reply)
        open_data = [client.passive() for client in clients]
        for client in clients:
            client.send("RETR f")
        for client, data in zip(clients, open_data):
            client.says(None, "150 Opening data connection")
            same(data.whole(), b"a\nb", "the file")
            client.says(None, "226 Transfer complete")
        for place, client in enumerate(clients):
            (Client.reset, Client.close, Client.quit)[place % 3](client)
        until(lambda: (server.threads(), server.open_files()) == (threads, files), "threads and files of none")
        client = Client(server)
        same(client.retrieve("f"), b"a\nb", "the file")
        client.quit()
        server.stop()
        same(server.ended(), (3 * most + 3, 3 * most + 3, 0), "settled")


def few_open_files():
    """A server that may open few files: who finds none waits or is told so, and all goes on once others have left."""
    with Server(sessions=0, root="folder", files={"f": b"a\nb"}, server="max_cons = 100", passive=100, stop=True) as server:
        files = server.open_files()
        # (seven clients, one passive port, and the place that whoever accepts keeps for the next)
        resource.prlimit(server.process.pid, resource.RLIMIT_NOFILE, (files + 9, files + 9))
        clients = [Client(server) for _ in range(7)]
        same({client.says("PASV", "...")[:3] for client in clients}, {"227", "425"}, "the replies to PASV")
        for client in clients:
            client.says("CWD /", "...")
        late = [Client(server, name=None) for _ in range(20)]
        for client in clients:
            client.close()
        for client in late[:7]:
            client.says(None, "220 Ready")
        for client in late:
            client.close()
        # (those that were let in late may still hold their files)
        until(lambda: is_served(server), "a client that is served")
        server.stop()
        server.ended()


def connected(client, line):
    """Begins a transfer over a connection to a port of the client's. Returns that."""
    with socket.create_server(("127.0.0.1", 0)) as listener:
        port = listener.getsockname()[1]
        client.says(f"PORT 127,0,0,1,{port // 256},{port % 256}", "200 OK")
        client.says(line, "150 Opening data connection")
        return listener.accept()[0]


def transfers_without_a_bell():
    """A session for which no descriptor is left for a bell moves whole files both ways and answers an ABOR, by its own looks; once there is a descriptor it has a bell."""
    octets = random.Random(30).randbytes(3_000_000)
    with Server(sessions=0, root="folder", files={"big": MUCH}, server="max_cons = 4", stop=True) as server:
        client, hard = Client(server), resource.prlimit(server.process.pid, resource.RLIMIT_NOFILE)[1]
        files = server.open_files()
        # (one for the file, and one for the data connection: both are taken before the session wants a bell)
        resource.prlimit(server.process.pid, resource.RLIMIT_NOFILE, (files + 2, hard))
        for path, wanted in (("up", octets), ("big", bytes(MUCH))):
            with connected(client, "STOR up") as data:
                data.sendall(octets)
            client.says(None, "226 Transfer complete")
            with connected(client, f"RETR {path}") as data:
                same(b"".join(iter(lambda it=data: it.recv(65_536), b"")) == wanted, True, f"the octets of {path}")
            client.says(None, "226 Transfer complete")
        for line in ("RETR big", "STOR other"):
            with connected(client, line):
                client.says("NOOP", "200 OK")
                begun = time.monotonic()
                client.says("ABOR", "426 Transfer aborted", "226 Abort done")
                in_time(begun, 2, "the answer to ABOR")
        same(server.bells(), 0, "bells without a descriptor for one")
        resource.prlimit(server.process.pid, resource.RLIMIT_NOFILE, (hard, hard))
        with connected(client, "RETR big"):
            until(lambda: server.bells() == 1, "a bell")
            client.says("ABOR", "426 Transfer aborted", "226 Abort done")
        client.quit()
        server.stop()
        server.ended()


def ports_that_are_left():
    """Clients that open ports and leave, in each way, take none with them."""
    passive, ways = 4, (Client.reset, Client.close, Client.quit)
    with Server(sessions=0, passive=passive, stop=True) as server:
        files = server.open_files()
        for number in range(24):
            client = Client(server)
            port = client.passive_port()
            if number % 2:
                data = Data(port)
            ways[number % 3](client)
            if number % 2:
                (data.close, data.reset)[number % 4 == 1]()
        until(lambda: server.open_files() == files, "files of none")
        clients = [Client(server) for _ in range(passive)]
        same({it.passive_port() for it in clients}, set(range(server.port + 1, server.port + 1 + passive)), "the ports")
        for client in clients:
            client.quit()
        server.stop()
        server.ended()


def a_peer_that_never_reads():
    """Neither its replies nor its data: others are served meanwhile, and nothing of it is left once it has gone."""
    with Server(sessions=0, root="folder", files={"big": MUCH, "f": b"a\nb"}, server="lanes = 2", stop=True) as server:
        threads = server.threads()
        deaf = Client(server)
        deaf.socket.setblocking(False)
        eye = select.poll()
        eye.register(deaf.socket, select.POLLOUT)
        with contextlib.suppress(BlockingIOError):
            # (its replies fill what the sockets hold; then its lines do)
            while eye.poll(1000):
                deaf.socket.send(b"STAT /\r\n" * 1000)
        stuck = Client(server)
        data = stuck.passive(room=4096)
        stuck.says("RETR big", "150 Opening data connection")
        other = Client(server)
        for _ in range(20):
            same(other.retrieve("f"), b"a\nb", "the file")
        deaf.reset()
        stuck.reset()
        data.close()
        other.quit()
        until(lambda: server.threads() == threads, "threads of none")
        server.stop()
        server.ended()


# A folder of which one listing is some hundred thousand octets.
MANY = {f"{number:04}-{'x' * 40}": b"" for number in range(3000)}


def lines_sent_ahead_hold_up_no_end():
    """Whoever sends many dear lines in one segment is told of the server's end in the place of the next answer."""
    with Server(sessions=0, root="folder", files=MANY, stop=True) as server:
        client = Client(server)
        client.socket.sendall(b"STAT /\r\n" * 500)
        want(client.more(), "some of the replies")
        with promptly("the end of a server that answers many lines"):
            server.stop()
            while client.more():
                pass
            server.ended()
        # (a listing that is being made is left)
        want(client.text.endswith((b"213 End\r\n421 Server is ending\r\n", b"213 End\r\n451 Local fault\r\n421 Server is ending\r\n")), client.text[-100:])
        want(client.text.count(b"213 End\r\n") < 500, "lines that were not carried out")
        client.close()


def a_slow_reader_holds_up_no_end():
    """Once the server ends, a reply has two waits in all, also for a client that takes a little of it in each of them."""
    with Server(sessions=0, root="folder", files=MANY, stop=True) as server:
        client = Client(server)
        client.socket.setsockopt(socket.SOL_SOCKET, socket.SO_RCVBUF, 4096)
        client.socket.sendall(b"STAT /\r\n" * 500)
        want(client.more(), "some of the replies")
        # (its replies fill what the sockets hold)
        time.sleep(2)
        server.stop()
        for _ in range(50):
            if server.process.poll() is not None:
                break
            client.socket.recv(4096)
            time.sleep(0.2)
        server.ended()
        client.close()


# At which moment of a transfer a client resets what it has.
MOMENTS = ["prepared", "asked", "connected", "begun", "under way", "sent", "ended"]


def resets_at(server, way, moment, whose):
    """A client that resets its control connection, its data connection or both at a moment of a transfer."""
    client, data = Client(server), None
    port = client.passive_port()
    for now in MOMENTS:
        if now == "asked":
            client.send({"down": "RETR big", "up": "STOR up", "list": "LIST"}[way])
        elif now == "connected":
            data = Data(port)
        elif now == "begun":
            client.says(None, "150 Opening data connection")
        elif now == "under way":
            data.socket.sendall(b"u" * 1000) if way == "up" else data.read()
        elif now == "sent":
            with contextlib.suppress(OSError):
                data.socket.shutdown(socket.SHUT_WR) if way == "up" else data.whole()
        elif now == "ended":
            client.line()
        if now == moment:
            break
    if data and whose != "data" or not data:
        client.reset()
    if data and whose != "control":
        with contextlib.suppress(OSError):
            # (it is closed where all was read)
            data.reset()
    if data and whose == "data":
        # (what it is told of the transfer differs with the moment; the session goes on, and QUIT waits for the transfer's end)
        client.send("QUIT")
        while client.line() != "221 Goodbye":
            pass
        client.at_end()
    elif data:
        data.close()


def resets_at_each_moment():
    """Of a download, an upload and a listing: the server goes on, and no thread, port, file or octet is lost."""
    # (the upload's file is there: of two sessions that make one file at the same moment, one is told that it exists)
    with Server(sessions=0, root="folder", files={"big": 200_000, "f": b"a\nb", "up": b""}, passive=4, server="lanes = 2", stop=True) as server:
        threads, files = server.threads(), server.open_files()
        for way in ("down", "up", "list"):
            together(*(lambda moment=moment: [resets_at(server, way, moment, whose) for whose in ("control", "data", "both")] for moment in MOMENTS[:4]))
            together(*(lambda moment=moment: [resets_at(server, way, moment, whose) for whose in ("control", "data", "both")] for moment in MOMENTS[4:]))
        until(lambda: (server.threads(), server.open_files()) == (threads, files), "threads and files of none")
        clients = [Client(server) for _ in range(4)]
        for client in clients:
            client.passive_port()
        for client in clients:
            same(client.retrieve("f"), b"a\nb", "the file")
            client.quit()
        server.stop()
        server.ended()


def a_flood_of_wrong_passwords():
    """Each is refused, and noted without its password; a user is served meanwhile."""
    clients, times = 12, 4
    with Server(sessions=0, server="max_cons = 64", stop=True) as server:

        def flood():
            for _ in range(times):
                client = greeted(server)
                client.socket.sendall(b"USER ann\r\nPASS sesam\r\n" * 3)
                for end in ("530 Login incorrect", "530 Login incorrect", "421 Too many login attempts"):
                    client.says(None, "331 Password required", end)
                client.at_end()

        def serve():
            client = Client(server)
            for _ in range(20):
                same(client.retrieve("f"), b"a\nb", "the file")
            client.quit()

        together(serve, *[flood] * clients)
        server.stop()
        server.ended()
        notes = server.notes_made()
        same(notes.count('login failed "ann"'), clients * times * 3, "refused logins that were noted")
        want("sesam" not in server.noted(), "a password is noted")


def two_sessions_store_one_file():
    """Both are told that they have; what stands there is of them alone, and the house goes on."""
    first_text, second_text = b"1" * 100_000, b"2" * 100_000
    for root in ("memory", "folder"):
        with Server(sessions=2, root=root) as server:
            first, second = Client(server), Client(server)
            one = first.passive()
            first.says("STOR x", "150 Opening data connection")
            two = second.passive()
            second.says("STOR x", "150 Opening data connection")
            one.socket.sendall(first_text)
            two.socket.sendall(second_text)
            one.close()
            first.says(None, "226 Transfer complete")
            two.close()
            second.says(None, "226 Transfer complete")
            found = first.retrieve("x")
            if root == "memory":
                same(found, second_text, "the later one's file")
            want(len(found) == 100_000 and set(found) <= set(b"12"), f"{len(found)} octets of {set(found)}")
            first.quit()
            second.quit()
            server.ended()


def a_file_that_is_cut_while_it_is_sent():
    """It is not told as whole."""
    with Server(root="folder", files={"big": MUCH, "f": b"a\nb"}) as server:
        client = Client(server)
        data = client.passive(room=4096)
        client.says("RETR big", "150 Opening data connection")
        want(data.read(), "some octets")
        os.truncate(f"{server.folder}/big", 1000)
        want(len(data.whole()) < MUCH, "fewer octets")
        client.says(None, "451 Local fault")
        same(client.retrieve("f"), b"a\nb", "the next file")
        client.quit()
        server.ended()
        want('not sent whole "/big": the file could not be read or written' in server.notes_made(), "a note")


def a_folder_that_is_swapped_for_a_link():
    """Nothing outside is read, listed or written, however often a link takes the folder's place and gives it back."""
    with Server(root="folder", files={"d": None, "d/f": b"inside"}) as server:
        outside = f"{server.place}/outside"
        os.mkdir(outside)
        with open(f"{outside}/f", "wb") as it:
            it.write(b"secret")
        inner, aside = f"{server.folder}/d", f"{server.place}/aside"
        client = Client(server)
        client.says("CWD d", "250 Directory changed")

        def swap():
            os.rename(inner, aside)
            os.symlink(outside, inner)

        def swap_back():
            os.unlink(inner)
            os.rename(aside, inner)

        swap()
        client.passive_port()
        for line in ("RETR f", "STOR g", "LIST", "DELE f", "MKD h", "RNFR f", "SIZE f", "CWD /d"):
            client.says(line, "550 No such file or directory")
        swap_back()
        same(client.retrieve("f"), b"inside", "the file that is back")
        is_over = threading.Event()

        def swaps():
            while not is_over.is_set():
                swap()
                swap_back()

        def reads():
            try:
                for number in range(150):
                    reads_once(client, number)
            finally:
                is_over.set()

        together(swaps, reads)
        client.quit()
        server.ended()
        same(os.listdir(outside), ["f"], "what is outside")
        with open(f"{outside}/f", "rb") as it:
            same(it.read(), b"secret", "the file outside")


def reads_once(client, number):
    data = client.passive()
    client.send("RETR f" if number % 2 else "NLST")
    line = client.line()
    if line.startswith("150"):
        want(data.whole() in (b"inside", b"f\r\n", b""), "what was sent")
        client.line()
    else:
        data.close()
        want(line[:3] in ("550", "451"), line)


# A name and a path that would be lines of their own where they were written as they are.
FORGED = "x\u2028[INFO ] 2026-01-01T00:00:00Z login \"root\"\u2029\u0085 \\n \u202e\u200b é"


def nothing_forges_a_line():
    """No name and no path that a client sends, and no file's name, makes a line of the log or of a reply."""
    with Server(sessions=2, root="folder", files={"226 Done\r\n226 x": b"", "a\nb": b"", "tab\t": b"", "226 ok": b"x"}) as server:
        client = Client(server, name=None)
        client.says(None, "220 Ready")
        for name, reply in ((FORGED, "530 Login incorrect"), ('"%s{name}', "530 Login incorrect"), ("\\", "421 Too many login attempts")):
            client.says(f"USER {name}", "331 Password required")
            client.says("PASS x", reply)
        client.at_end()
        client = Client(server)
        client.says(f"MKD {FORGED}", '257 "/' + FORGED.replace('"', '""') + '"')
        client.store(f"{FORGED}/{FORGED}", b"1")
        same(client.listed("NLST"), ["226 ok", FORGED], "the names")
        client.send("STAT /")
        lines = []
        while not lines or not lines[-1].startswith("213 "):
            lines.append(client.line())
        same((lines[0], len(lines), lines[-1]), ("213-Status", 4, "213 End"), "a listing in a reply")
        client.says('MKD a"b', '257 "/a""b"')
        client.quit()
        server.ended()
        text = server.noted()
        want(text.endswith("\n") and all(it.isprintable() for it in text.split("\n")), f"what is no plain letter: {text!r}")
        want(all(map(STAMP.match, text.splitlines())), f"a line of another form: {text!r}")
        same(len(server.notes_made()), 13, "how many notes")


ROWS = [
    line_faults,
    octet_by_octet,
    one_octet_a_second,
    aborts_without_end,
    five_hundred_and_twelve,
    few_open_files,
    transfers_without_a_bell,
    ports_that_are_left,
    a_peer_that_never_reads,
    lines_sent_ahead_hold_up_no_end,
    a_slow_reader_holds_up_no_end,
    resets_at_each_moment,
    a_flood_of_wrong_passwords,
    two_sessions_store_one_file,
    a_file_that_is_cut_while_it_is_sent,
    a_folder_that_is_swapped_for_a_link,
    nothing_forges_a_line,
]
