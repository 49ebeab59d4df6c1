"""What clients may rely on: rows of `tools/serving`, each with servers of its own."""
import contextlib
import ftplib
import io
import os
import re
import resource
import socket
import stat
import threading
import time

from serving_kit import SECONDS, STEP, Client, Data, Refused, Server, is_unread, same, together, until, want

# How often each read and each look of the first two rows is tried, at STEP seconds each.
FEW = 400
# More than the sockets of a connection hold, both sides together.
MUCH = 24_000_000


def two_downloads():
    """Two clients read three octets each, from memory and from a folder."""
    for root in ("memory", "folder"):
        with Server(sessions=2, root=root, files={"f": b"a\nb"}) as server:

            def one():
                client = Client(server, tries=FEW)
                data = client.passive()
                client.says("RETR f", "150 Opening data connection")
                same(data.whole(FEW), b"a\nb", "the file")
                client.says(None, "226 Transfer complete")
                client.quit()

            together(one, one)
            server.ended()
            same(server.told(), "ready\nsettled issued 6 moved 6 back 0\n", "what it told")


def an_upload_that_brings_nothing():
    """A client that stores waits with an open data connection until another has read its three octets."""
    for root in ("memory", "folder"):
        with Server(sessions=2, root=root, files={"f": b"a\nb"}) as server:
            stores, has_read = threading.Event(), threading.Event()

            def look(event):
                want(any(event.wait(STEP) for _ in range(FEW)), "how far the other is")

            def first():
                client = Client(server, tries=FEW)
                data = client.passive()
                client.says("STOR g", "150 Opening data connection")
                stores.set()
                look(has_read)
                data.close()
                client.says(None, "226 Transfer complete")
                client.quit()

            def second():
                look(stores)
                client = Client(server, tries=FEW)
                data = client.passive()
                client.says("RETR f", "150 Opening data connection")
                same(data.whole(FEW), b"a\nb", "the file")
                has_read.set()
                client.says(None, "226 Transfer complete")
                client.quit()

            together(first, second)
            server.ended()
            same(server.told(), "ready\nsettled issued 65539 moved 3 back 65536\n", "what it told")


def what_is_stored_comes_back():
    """Whole, from an offset, appended to, cut, as text, and in listings."""
    octets = bytes(range(256)) * 1024
    for root in ("memory", "folder"):
        files = {"f": b"a\nb", "in": None}
        with Server(root=root, files=files, server="capacity = 1000000" if root == "memory" else "") as server:
            client = Client(server)
            client.store("g", octets)
            same(client.retrieve("g"), octets, "what came back")
            client.says("REST 262000", "350 Restart at 262000")
            same(client.retrieve("g"), octets[262000:], "from an offset")
            client.store("g", b"end", "APPE")
            same(client.length_of("g"), len(octets) + 3, "its length, appended to")
            client.says("REST 2", "350 Restart at 2")
            client.store("g", b"xy")
            same(client.retrieve("g"), octets[:2] + b"xy", "cut")
            client.store("empty", b"")
            same(client.retrieve("empty"), b"", "an empty file")
            same(client.listed("NLST"), ["empty", "f", "g", "in"], "the names")
            same(client.listed("NLST in"), [], "an empty directory")
            client.says("TYPE A", "200 Type is A")
            same(client.retrieve("f"), b"a\r\nb", "as text")
            client.store("t", b"x\r\ny\r\n")
            client.says("TYPE I", "200 Type is I")
            same(client.retrieve("t"), b"x\ny\n", "text that was stored")
            client.quit()
            server.ended()


def three_hundred_megabytes():
    """A file of 300,000,000 octets, stored, read back, and continued from its middle: no octet is lost, added or moved."""
    size, step = 300_000_000, 65_521
    # (no two pieces are alike, so that one in another's place shows)
    piece = lambda number: number.to_bytes(8, "big") * (step // 8) + bytes(step % 8)

    def written(data):
        for number in range(size // step + 1):
            data.socket.sendall(piece(number)[: size - number * step])
        data.close()

    def read(data, begin):
        at = begin
        while octets := data.read():
            number, skip = divmod(at, step)
            wanted = (piece(number) + piece(number + 1) + piece(number + 2))[skip : skip + len(octets)]
            want(octets == wanted, f"octets from {at} on")
            at += len(octets)
        data.close()
        same(at, size, "the octets")

    with Server(root="folder") as server:
        client = Client(server)
        client.says("TYPE I", "200 Type is I")
        for verb, begin in (("STOR", 0), ("RETR", 0), ("RETR", size // 2)):
            if begin:
                client.says(f"REST {begin}", f"350 Restart at {begin}")
            data = client.passive()
            client.says(f"{verb} large", "150 Opening data connection")
            if verb == "STOR":
                written(data)
            else:
                read(data, begin)
            client.says(None, "226 Transfer complete")
        client.quit()
        same(server.ended()[1], size * 5 // 2, "octets moved")


def a_folder_has_what_was_stored():
    """Files and directories that clients make are those of the machine."""
    with Server(root="folder") as server:
        client = Client(server)
        client.says("MKD new", '257 "/new"')
        client.store("new/g", b"x" * 100000)
        same(server.get("new/g"), b"x" * 100000, "the file")
        client.says("RNFR new/g", "350 Send RNTO")
        client.says("RNTO h", "250 Renamed")
        client.says("RMD new", "250 Directory removed")
        same(os.listdir(server.folder), ["h"], "the folder")
        client.says("DELE h", "250 File removed")
        client.quit()
        server.ended()
        same(os.listdir(server.folder), [], "the folder at the end")


def a_file_is_opened_for_reading_alone():
    """A file that is sent is open for reading alone, so that it may be executed meanwhile."""
    with Server(root="folder", files={"big": MUCH}) as server:
        client = Client(server)
        data = client.passive(room=4096)
        client.says("RETR big", "150 Opening data connection")
        want(data.read(), "some octets")
        same(server.ways_open("big"), [os.O_RDONLY], "how the file is open")
        client.says("ABOR", "426 Transfer aborted", "226 Abort done")
        data.close()
        client.quit()
        server.ended()


def a_store_that_is_full():
    """An upload that passes the capacity is told so, and leaves the file as it was opened; the session goes on."""
    with Server(server="capacity = 1000") as server:
        client = Client(server)
        data = client.passive()
        client.says("STOR g", "150 Opening data connection")
        data.socket.sendall(b"x" * 998)
        data.close()
        client.says(None, "552 Storage is full")
        same(client.length_of("g"), 0, "its length")
        client.store("g", b"x" * 997)
        same(client.retrieve("g"), b"x" * 997, "what fits")
        client.quit()
        server.ended()
        # (all of it came, and the store refused it at its end)
        wanted = ['the storage is full: user "ann"', 'not received whole "/g": the store refused it at its end', 'received "/g"', 'sent "/g"']
        same(server.notes_made()[2:6], wanted, "the notes")


def resident_most(process):
    """The most octets of memory that a process ever had resident."""
    with open(f"/proc/{process.pid}/status", encoding="ascii") as it:
        return next(int(line.split()[1]) * 1024 for line in it if line.startswith("VmHWM:"))


def an_upload_takes_no_more_than_the_capacity():
    """An upload of 50,000 times the capacity is read to its end and told 552, takes no memory, and leaves the file as it was opened."""
    with Server(server="capacity = 1000") as server:
        client = Client(server)
        client.store("g", b"x" * 900)
        before = resident_most(server.process)
        data = client.passive()
        client.says("APPE g", "150 Opening data connection")
        for _ in range(500):
            data.socket.sendall(bytes(100_000))
        data.close()
        client.says(None, "552 Storage is full")
        more = resident_most(server.process) - before
        want(more < 10_000_000, f"{more} octets more than before")
        same(client.retrieve("g"), b"x" * 900, "the file")
        client.says("DELE g", "250 File removed")
        client.store("g", b"x" * 997)
        client.quit()
        server.ended()


def a_long_listing():
    """Each entry of a directory of some thousands, of each length, in the order of their octets, over data and in a reply."""
    lengths = {f"entry{number}": number for number in range(5000)}
    names = sorted(lengths)
    with Server(root="folder", files=lengths) as server:
        client = Client(server)
        same(client.listed("NLST"), names, "the names")
        same([int(it.split()[4]) for it in client.listed("LIST")], [lengths[name] for name in names], "the lengths")
        client.send("STAT /")
        client.says(None, "213-Status")
        lines = [client.line() for _ in names]
        same([it.split()[-1] for it in lines], names, "the names in a reply")
        client.says(None, "213 End")
        client.quit()
        server.ended()


def greeted(server, source=None):
    """A client that is admitted, as soon as there is room."""
    while True:
        client = Client(server, name=None, source=source)
        line = client.line()
        if line == "220 Ready":
            return client
        want(line.startswith("421 Too many"), line)
        client.at_end()
        until(lambda: True, "")


def refused_connections():
    """A client too many is told why, and closed; once another has left there is room."""
    with Server(sessions=3, server="max_cons = 2") as server:
        first, second = Client(server), Client(server)
        third = Client(server, name=None)
        third.says(None, "421 Too many connections")
        third.at_end()
        first.quit()
        greeted(server).quit()
        second.quit()
        server.ended()
        notes = server.notes_made(heads=True)
        want("127.0.0.1 refused: too many connections" in notes, f"a note of it: {notes}")
        want({"127.0.0.1 #0 connect", "127.0.0.1 #1 connect"} <= set(notes), f"notes of both sessions: {notes}")
    with Server(sessions=3, server="max_cons_per_address = 1") as server:
        first = Client(server)
        second = Client(server, name=None)
        second.says(None, "421 Too many connections from this address")
        second.at_end()
        Client(server, source="127.0.0.2").quit()
        first.quit()
        greeted(server).quit()
        server.ended()
        notes = server.notes_made(heads=True)
        want("127.0.0.1 refused: too many connections from this address" in notes, f"a note of it: {notes}")
        want('127.0.0.2 #1 login "ann"' in notes, f"a note of the other address: {notes}")


def memory_of(process):
    """The octets of addresses that a process has."""
    with open(f"/proc/{process.pid}/status", encoding="ascii") as it:
        return next(int(line.split()[1]) * 1024 for line in it if line.startswith("VmSize:"))


def greeted_or_none(server):
    """A client that is greeted, or none."""
    client = Client(server, name=None)
    if client.line() == "220 Ready":
        return client
    client.close()
    return None


def a_session_without_a_thread():
    """A client whose session the machine gives no thread is told so, and closed; once there is room the next one is served, in its place."""
    with Server(sessions=2, server="max_cons = 2") as server:
        first = Client(server)
        resource.prlimit(server.process.pid, resource.RLIMIT_AS, (memory_of(server.process) + 65536, resource.RLIM_INFINITY))
        second = Client(server, name=None)
        second.says(None, "421 No thread for a session")
        second.at_end()
        resource.prlimit(server.process.pid, resource.RLIMIT_AS, (resource.RLIM_INFINITY, resource.RLIM_INFINITY))
        found = []
        until(lambda: found.append(greeted_or_none(server)) or found[-1], "the place of a client that was turned away")
        first.quit()
        found[-1].quit()
        server.ended()
        notes = server.notes_made(heads=True)
        want("127.0.0.1 refused: no thread could be started" in notes, f"a note of it: {notes}")


def refused_sessions():
    """Wrong passwords, a guarantee that does not fit, and lines without end while a transfer runs: 421, and the end."""
    with Server(sessions=3, root="folder", files={"big": MUCH}, server="rate = 100", rates="session_down_floor = 120") as server:
        client = Client(server, name=None)
        client.says(None, "220 Ready")
        for reply in ("530 Login incorrect", "530 Login incorrect", "421 Too many login attempts"):
            client.says("USER ann", "331 Password required")
            client.says("PASS wrong", reply)
        client.at_end()
        client = Client(server, name=None)
        client.says(None, "220 Ready")
        client.says("USER ann", "331 Password required")
        client.says("PASS secret", "421 Guaranteed rate not available")
        client.at_end()
        client = Client(server, "bob", "b")
        data = client.passive()
        client.says("RETR big", "150 Opening data connection")
        client.socket.sendall(b"PWD\r\n" * 16 + b"NOOP\r\nCWD /\r\n")
        client.says(None, "200 OK", "421 Too many held lines")
        client.at_end()
        data.close()
        server.ended()


def a_guarantee_comes_back():
    """Where just one session's guarantee fits, the next is let in once the first has left, in whatever way."""

    def ends_at_user(client):
        client.says("USER bob", "331 Password required")
        client.says("PASS b", "230 Welcome")

    ways = [Client.quit, Client.close, Client.reset, ends_at_user]
    with Server(sessions=0, server="rate = 100", rates="session_down_floor = 80", stop=True) as server:
        for way in ways:
            first, second = Client(server), Client(server, name=None)
            second.says(None, "220 Ready")
            second.says("USER ann", "331 Password required")
            second.says("PASS secret", "421 Guaranteed rate not available")
            second.at_end()
            way(first)
            until(lambda: is_let_in(server), "the guarantee")
            first.close()
        server.stop()
        server.ended()


def is_let_in(server):
    client = Client(server, name=None)
    client.says(None, "220 Ready")
    client.says("USER ann", "331 Password required")
    client.send("PASS secret")
    line = client.line()
    if line.startswith("230 "):
        client.quit()
    return line.startswith("230 ")


def no_port():
    """All ports in use, or taken by another program: 425. A session that ends gives its port back, however it ends."""
    with Server(sessions=4, passive=2) as server:
        first, second, third = Client(server), Client(server), Client(server)
        same({first.passive_port(), second.passive_port()}, {server.port + 1, server.port + 2}, "the ports")
        third.says("PASV", "425 No passive port is free")
        third.says("EPSV", "425 No passive port is free")
        first.reset()
        until(lambda: third.send("EPSV") or third.line().startswith("229 "), "a port")
        second.quit()
        until(lambda: third.send("PASV") or third.line().startswith("227 "), "a port")
        for _ in range(20):
            same(third.retrieve("f"), b"a\nb", "the file")
        third.quit()
        client = Client(server)
        client.says("EPSV ALL", "200 EPSV ALL is in force")
        with socket.create_server(("127.0.0.1", server.port + 1)):
            for _ in range(2):
                client.says("EPSV", f"229 Entering Extended Passive Mode (|||{server.port + 2}|)")
            client.says("EPSV 1", f"229 Entering Extended Passive Mode (|||{server.port + 2}|)")
        client.quit()
        server.ended()


def a_transfer_is_aborted():
    """ABOR ends a download that nobody reads, an upload, and a transfer whose client has not come; the session goes on."""
    with Server(root="folder", files={"big": MUCH}) as server:
        client = Client(server)
        client.says("ABOR", "225 No transfer")
        data = client.passive()
        client.says("RETR big", "150 Opening data connection")
        client.says("ABOR", "426 Transfer aborted", "226 Abort done")
        data.close()
        client.says("NOOP", "200 OK")
        data = client.passive()
        client.says("STOR up", "150 Opening data connection")
        data.socket.sendall(b"u" * 50000)
        until(lambda: size(server, "up") == 50000, "the octets in the file")
        client.says("ABOR", "426 Transfer aborted", "226 Abort done")
        data.close()
        same(client.retrieve("up"), b"u" * 50000, "what came before")
        port = client.passive_port()
        client.says("RETR big", "150 Opening data connection")
        client.says("ABOR", "426 Transfer aborted", "226 Abort done")
        try:
            Data(port).close()
            raise Refused("the port is still listened on")
        except ConnectionRefusedError:
            pass
        same(client.retrieve("up"), b"u" * 50000, "what comes next")
        client.quit()
        server.ended()


def size(server, path):
    try:
        return os.stat(f"{server.folder}/{path}").st_size
    except FileNotFoundError:
        return None


def urgent_data():
    """What two clients send as urgent data: the LF of ABOR, and the second IAC before DM. Neither octet can be read in its place."""

    def of_ftplib(control):
        control.sendall(b"ABOR\r\n", socket.MSG_OOB)

    def of_tnftp(control):
        control.sendall(b"\xff\xf4\xff", socket.MSG_OOB)
        control.sendall(b"\xf2ABOR\r\n")

    with Server(root="folder", files={"big": MUCH}) as server:
        client = Client(server)
        for abort in (of_ftplib, of_tnftp, of_ftplib):
            data = client.passive()
            client.says("RETR big", "150 Opening data connection")
            abort(client.socket)
            client.says(None, "426 Transfer aborted", "226 Abort done")
            data.close()
            abort(client.socket)
            client.says(None, "225 No transfer")
            client.says("NOOP", "200 OK")
        client.quit()
        server.ended()


def a_quit_waits():
    """QUIT in a transfer is answered behind its end; the file is whole."""
    octets = os.urandom(3_000_000)
    with Server(sessions=2, root="folder", files={"big": octets}) as server:
        client = Client(server)
        data = client.passive()
        client.says("RETR big", "150 Opening data connection")
        client.send("QUIT")
        client.send("NOOP")
        same(data.whole(), octets, "the file")
        client.says(None, "226 Transfer complete", "221 Goodbye")
        client.at_end()
        client = Client(server)
        data = client.passive()
        client.says("STOR up", "150 Opening data connection")
        client.send("QUIT")
        data.socket.sendall(octets)
        data.close()
        client.says(None, "226 Transfer complete", "221 Goodbye")
        client.at_end()
        server.ended()
        same(server.get("up"), octets, "the file that was stored")


def a_lost_control_connection():
    """It ends the transfer at once: what came of an upload is in its file, and no client is waited for."""
    for end in (Client.close, Client.reset):
        with Server(sessions=3, root="folder", files={"big": MUCH}) as server:
            first = Client(server)
            upload = first.passive()
            first.says("STOR cut", "150 Opening data connection")
            upload.socket.sendall(b"z" * 100000)
            until(lambda: size(server, "cut") == 100000, "the octets in the file")
            second = Client(server)
            download = second.passive()
            second.says("RETR big", "150 Opening data connection")
            want(download.read(), "some octets")
            third = Client(server)
            third.passive_port()
            third.says("RETR big", "150 Opening data connection")
            for it in (first, second, third):
                end(it)
            server.ended()
            same(server.get("cut"), b"z" * 100000, "the file")
            upload.close()
            download.close()


def a_lost_data_connection():
    """A transfer whose data connection is reset is told as lost, and the session goes on; what came of an upload is in its file."""
    with Server(root="folder", files={"big": MUCH}) as server:
        client = Client(server)
        data = client.passive()
        client.says("RETR big", "150 Opening data connection")
        want(data.read(), "some octets")
        data.reset()
        client.says(None, "426 Connection lost")
        data = client.passive()
        client.says("STOR up", "150 Opening data connection")
        data.socket.sendall(b"u" * 50000)
        until(lambda: size(server, "up") == 50000, "the octets in the file")
        data.reset()
        client.says(None, "426 Connection lost")
        same(client.retrieve("up"), b"u" * 50000, "what came before")
        client.quit()
        server.ended()
        reset_by_peer = "the data connection failed: Connection reset by peer (os error 104)"
        same(server.notes_made()[2:4], [f'not sent whole "/big": {reset_by_peer}', f'not received whole "/up": {reset_by_peer}'], "the notes")


def crowds_of_strangers_on_a_passive_port():
    """As many strangers as are refused in one look, one fewer, one more, and many: the client that comes after them gets its file, and they get nothing."""
    with Server(sessions=1, root="folder", files={"f": b"a\nb"}) as server:
        client = Client(server)
        for count in (1, 15, 16, 17, 40):
            port = client.passive_port()
            strangers = [Data(port, source="127.0.0.2") for _ in range(count)]
            client.says("RETR f", "150 Opening data connection")
            same(Data(port).whole(), b"a\nb", f"the file after {count} strangers")
            client.says(None, "226 Transfer complete")
            for stranger in strangers:
                want(is_unread(stranger), "a stranger got octets")
        client.quit()
        server.ended()


def a_crowd_before_the_transfer():
    """Two hundred strangers at a passive port do not keep its client out, whose connection comes before its transfer is begun; and the transfer takes it."""
    with Server(sessions=1, root="folder", files={"f": b"a\nb"}) as server, contextlib.ExitStack() as crowd:
        client = Client(server)
        for _ in range(2):
            port = client.passive_port()
            for _ in range(200):
                stranger = crowd.enter_context(socket.socket())
                stranger.setblocking(False)
                stranger.bind(("127.0.0.2", 0))
                stranger.connect_ex(("127.0.0.1", port))
            data = Data(port)
            time.sleep(3)
            client.says("RETR f", "150 Opening data connection")
            same(data.whole(), b"a\nb", "the file")
            client.says(None, "226 Transfer complete")
        client.quit()
        server.ended()


def a_client_that_drips():
    """A client that reads its replies and sends its lines an octet at a time is served as any other."""
    with Server(sessions=1, root="folder", files={"f": b"a\nb"}) as server:
        client = Client(server)
        port = client.passive_port()
        for octet in b"RETR f\r\n":
            client.socket.sendall(bytes([octet]))
            time.sleep(0.02)
        client.says(None, "150 Opening data connection")
        same(Data(port).whole(), b"a\nb", "the file")
        client.says(None, "226 Transfer complete")
        client.quit()
        server.ended()


def a_stranger_on_a_passive_port():
    """A connection of another address is closed, and the client's own is waited for; a permitted one is taken."""
    with Server() as server:
        client = Client(server)
        port = client.passive_port()
        stranger = Data(port, source="127.0.0.2")
        client.says("RETR f", "150 Opening data connection")
        same(stranger.whole(), b"", "what a stranger gets")
        same(Data(port).whole(), b"a\nb", "the file")
        client.says(None, "226 Transfer complete")
        client.quit()
        same(server.ended(), (3, 3, 0), "settled")
    with Server(server="permit_foreign_addresses = true") as server:
        client = Client(server)
        stranger = Data(client.passive_port(), source="127.0.0.2")
        client.says("RETR f", "150 Opening data connection")
        same(stranger.whole(), b"a\nb", "the file")
        client.says(None, "226 Transfer complete")
        client.quit()
        server.ended()


def active_connections():
    """PORT and EPRT: the server connects to its client, and tells where nobody listens."""
    with Server() as server:
        client = Client(server)
        for form in ("PORT 127,0,0,1,{high},{low}", "EPRT |1|127.0.0.1|{port}|"):
            with socket.create_server(("127.0.0.1", 0)) as listener:
                listener.settimeout(SECONDS)
                port = listener.getsockname()[1]
                client.says(form.format(port=port, high=port // 256, low=port % 256), "200 OK")
                client.says("RETR f", "150 Opening data connection")
                data, _ = listener.accept()
                with data, data.makefile("rb") as text:
                    same(text.read(), b"a\nb", "the file")
                client.says(None, "226 Transfer complete")
            with socket.socket() as nobody:
                # (held, so that no other row listens there meanwhile)
                nobody.bind(("127.0.0.1", 0))
                port = nobody.getsockname()[1]
                client.says(form.format(port=port, high=port // 256, low=port % 256), "200 OK")
                client.says("RETR f", "150 Opening data connection", "425 No data connection")
        client.says("PORT 127,0,0,2,200,0", "501 Foreign address")
        client.says("PORT 127,0,0,1,0,22", "501 Privileged port")
        client.says("RETR f", "425 Use PASV, EPSV, PORT or EPRT first")
        client.quit()
        same(server.ended(), (6, 6, 0), "settled")


def a_stop_file():
    """It ends the server: each session is told, whatever it does, and what came of an upload is in its file."""
    with Server(sessions=0, root="folder", files={"big": MUCH}, stop=True) as server:
        idle, reading, storing, waiting, nobody = Client(server), Client(server), Client(server), Client(server), Client(server, name=None)
        download = reading.passive()
        reading.says("RETR big", "150 Opening data connection")
        want(download.read(), "some octets")
        upload = storing.passive()
        storing.says("STOR up", "150 Opening data connection")
        upload.socket.sendall(b"u" * 50000)
        until(lambda: size(server, "up") == 50000, "the octets in the file")
        waiting.passive_port()
        waiting.says("RETR big", "150 Opening data connection")
        nobody.says(None, "220 Ready")
        server.stop()
        for client in (idle, reading, storing, waiting, nobody):
            client.says(None, "421 Server is ending")
            client.at_end()
        server.ended()
        same(server.get("up"), b"u" * 50000, "the file")
        download.close()
        upload.close()


def a_stop_file_and_nobody():
    """It ends a server that waits for its first client, at one address or at all of them, and one whose clients have left."""
    for address in ("127.0.0.1", "0.0.0.0"):
        with Server(sessions=0, server=f'address = "{address}"\nmasquerade_address = "127.0.0.1"', stop=True) as server:
            server.stop()
            same(server.ended(), (0, 0, 0), "settled")
        with Server(sessions=0, server=f'address = "{address}"\nmasquerade_address = "127.0.0.1"', stop=True) as server:
            client = Client(server)
            same(client.retrieve("f"), b"a\nb", "the file")
            client.quit()
            server.stop()
            same(server.ended(), (3, 3, 0), "settled")


def an_end_by_number():
    """After its sessions the server takes no more clients, and ends once those that there are have ended, with a stop file too."""
    for stop in (False, True):
        with Server(sessions=1, stop=stop) as server:
            client = Client(server)
            until(lambda: is_refused(server.port), "the end of listening", tries=400)
            same(client.retrieve("f"), b"a\nb", "the file")
            client.quit()
            same(server.ended(), (3, 3, 0), "settled")


def is_refused(port):
    try:
        socket.create_connection(("127.0.0.1", port), SECONDS).close()
        return False
    except OSError:
        return True


def another_start():
    """A server that has ended may be started again at once, on the same port and with the same passive ports."""
    server = Server(passive=1)
    for number in range(3):
        server.begin() if number == 0 else server.begin_again()
        client = Client(server)
        same(client.retrieve("f"), b"a\nb", "the file")
        client.quit()
        same(server.ended(), (3, 3, 0), "settled")
    server.__exit__(None, None, None)


def what_cannot_be_served():
    """A folder that is not there, a stop file that is, an output that takes nothing, and a configuration that is none."""
    server = Server(root="folder")
    os.rmdir(server.folder)
    same(server.run(), (1, "", f"{server.folder}: No such file or directory (os error 2)\nftpd: Store\n"), "a folder that is not there")
    with open(server.folder, "w", encoding="utf-8"):
        same(server.run(), (1, "", f"{server.folder}: Not a directory (os error 20)\nftpd: Store\n"), "a file for a folder")
    os.remove(server.folder)
    server = Server(stop=True)
    server.stop()
    same(server.run(), (1, "", "stop is there already: remove it\nftpd: Stopped\n"), "a stop file that is there before")
    server = Server()
    server.words = ["--stop-file", "gone/stop"]
    same(server.run(), (1, "", "the stop file gone/stop could not be noticed: No such file or directory (os error 2)\nftpd: Stopped\n"), "a stop file without its folder")
    server.words = ["--ready-file", "ready"]
    with open(f"{server.place}/ready", "wb") as ready:
        ready.write(b"mine")
    same(server.run(), (1, "", "ready is there already: remove it\nftpd: ReadyFile\n"), "a ready file that is there before")
    with open(f"{server.place}/ready", "rb") as ready:
        same(ready.read(), b"mine", "the file that was there before")
    server.words = ["--ready-file", "gone/ready"]
    same(server.run(), (1, "", "the ready file gone/ready could not be made: No such file or directory (os error 2)\nftpd: ReadyFile\n"), "a ready file without its folder")
    server.words = ["--ready-file", "/proc/ready"]
    status, output, noted = server.run()
    same((status, output, noted.splitlines()[-1]), (1, "", "ftpd: ReadyFile"), "a ready file that cannot be made")
    want(noted.startswith("the ready file /proc/ready could not be made: "), f"what it noted: {noted!r}")
    with open("/dev/full", "wb") as full:
        server = Server()
        server.words = ["--ready-file", "ready"]
        same(server.run(stdout=full), (1, None, "ftpd: WriteFault\n"), "an output that takes nothing, with a ready file")
        want(not os.path.exists(f"{server.place}/ready"), "the ready file is gone")
        same(Server().run(stdout=full), (1, None, "ftpd: WriteFault\n"), "an output that takes nothing")
    same(Server(text="version = 3\n").run(), (1, "", "ftpd.toml: line 1: top: version: out of range; it must be a number from 1 to 2\nftpd: OutOfRange\n"), "a configuration of a later version")


def more_transfers_than_lanes():
    """They wait for a lane: it is free once a transfer has ended, or was aborted, or its client is gone."""
    with Server(sessions=3, root="folder", files={"big": MUCH, "f": b"a\nb"}, server="lanes = 1") as server:
        first, second, third = Client(server), Client(server), Client(server)
        stuck = first.passive(room=4096)
        first.says("RETR big", "150 Opening data connection")
        want(stuck.read(), "some octets")
        data = second.passive()
        second.says("RETR f", "150 Opening data connection")
        other = third.passive()
        third.says("RETR f", "150 Opening data connection")
        second.says("STAT", "211 Transfer in progress")
        first.says("ABOR", "426 Transfer aborted", "226 Abort done")
        stuck.close()
        same(data.whole(), b"a\nb", "the second")
        same(other.whole(), b"a\nb", "the third")
        for client in (second, third):
            client.says(None, "226 Transfer complete")
            client.quit()
        first.quit()
        server.ended()


def a_rate_is_kept():
    """No second has more than the rate and a tenth of it, of downloads and uploads, of a user, a session and the server."""
    rate = 2_000_000
    for server_rate, user_rate in ((f"rate = {rate}", ""), ("", f"down_rate = {rate}\nup_rate = {rate}"), ("", f"session_down_rate = {rate}\nsession_up_rate = {rate}")):
        with Server(root="folder", files={"big": 2 * rate}, server=server_rate, rates=user_rate) as server:
            client = Client(server)
            begun = time.monotonic()
            same(len(client.retrieve("big")), 2 * rate, "the octets")
            took = time.monotonic() - begun
            want(took > 1.7, f"two seconds' octets came in {took:.2f} seconds")
            client.quit()
            same(server.ended()[1], 2 * rate, "octets moved")


def rates_of_two_users():
    """Four sessions with small files on two lanes: each user's octets take as long as their own rate wants, down and up. The first user of the configuration has no rate."""
    rates, size = {"ann": 200_000, "bob": 400_000}, 20_000
    users = '[[user]]\nname = "eve"\npassword = "secret"\nhome = "/"\n' + "".join(f'[[user]]\nname = "{name}"\npassword = "secret"\nhome = "/"\nperms = "elradfmw"\ndown_rate = {rate}\nup_rate = {rate}\n'
                    for name, rate in rates.items())
    took, faults = {}, []

    def work(server, name, number):
        try:
            client = Client(server, name)
            for _ in range(rates[name] // size):
                same(len(client.retrieve("small")), size, "the octets")
                client.store(f"{name}{number}", bytes(size))
            took[name] = max(took.get(name, 0), time.monotonic() - begun)
            client.quit()
        except Exception as fault:
            faults.append(fault)

    with Server(sessions=4, root="folder", files={"small": size}, server="lanes = 2", users=users) as server:
        begun = time.monotonic()
        threads = [threading.Thread(target=work, args=(server, name, number)) for name in rates for number in range(2)]
        for thread in threads:
            thread.start()
        for thread in threads:
            thread.join()
        if faults:
            raise faults[0]
        for name in rates:
            want(took[name] > 1.7, f"two seconds' octets of {name} came and went in {took[name]:.2f} seconds")
        same(server.ended()[1], 4 * sum(rates.values()), "octets moved")


def notes():
    """Who logged in, sent, stored, and left; no password, and no text of a line that was refused."""
    with Server(sessions=2, root="folder", files={"f": b"a\nb", "big": MUCH}) as server:
        client = Client(server)
        client.retrieve("f")
        client.store("g", b"x")
        data = client.passive()
        client.says("RETR big", "150 Opening data connection")
        client.says("ABOR", "426 Transfer aborted", "226 Abort done")
        data.close()
        client.says("SITE sekret", "502 Command not served")
        client.listed("LIST")
        client.quit()
        client = Client(server, name=None)
        client.says(None, "220 Ready")
        client.says("USER ann", "331 Password required")
        client.says("PASS wrong", "530 Login incorrect")
        client.quit()
        server.ended()
        inside = ["connect", 'login "ann"', 'sent "/f"', 'received "/g"', 'not sent whole "/big": aborted by the client', 'logout "ann"', "disconnect"]
        # (the second may come before the place of the first is given back)
        wanted = [*inside, "connect", 'login failed "ann"', "disconnect"]
        same([re.sub(r"#\d+ ", "#0 ", it) for it in server.notes_made(heads=True)], [f"127.0.0.1 #0 {it}" for it in wanted], "the notes")
        few_ports = f"64 connections have fewer passive ports, {server.port + 1} to {server.port + 8}"
        same(server.warned(), [few_ports, "64 connections have fewer lanes, 16: while as many transfers run, listings and transfers of others wait"], "the warnings")
        want(not re.search("secret|wrong|sekret", server.noted()), "what is not to be noted")


HOMES = """
[[user]]
name = "ann"
password = "secret"
home = "/a"
[[user]]
name = "bob"
password = "b"
home = "/b"
[[user]]
name = "cem"
password = "c"
home = "/f"
[[user]]
name = "dan"
password = "d"
home = "/l"
"""


def warnings_of_the_machine_are_noted():
    """At the start a server warns of homes that its folder does not have, and of passwords that everybody may read."""
    server = Server(root="folder", files={"a": None, "f": b""}, users=HOMES, passive=64, mode=0o604, server="lanes = 64")
    os.symlink("a", f"{server.folder}/l")
    with server:
        public = "everybody on this machine may read the passwords of this file; make it readable by its owner and group alone"
        missed = [f"{home}, the home of user {name}, is no directory" for name, home in (("bob", "/b"), ("cem", "/f"), ("dan", "/l"))]
        # (a thread of its own writes them)
        until(lambda: len(server.warned()) == 1 + len(missed), "the warnings")
        same(server.warned(), [public, *missed], "the warnings")
        Client(server).quit()
        server.ended()
    with Server(root="folder", files={"a": None, "b": None, "f": None, "l": None}, users=HOMES, passive=64, mode=0o640, server="lanes = 64") as server:
        same(server.warned(), [], "the warnings of one of which nothing is to be warned")
        Client(server).quit()
        server.ended()


def ftplib_as_it_is():
    """Python's client: passive and active, storing and reading, lists, and its own abort."""
    with Server(server="capacity = 50000000") as server:
        client = ftplib.FTP(timeout=SECONDS)
        client.connect("127.0.0.1", server.port)
        client.login("ann", "secret")
        octets = os.urandom(200_000)
        for is_passive in (True, False):
            client.set_pasv(is_passive)
            client.storbinary("STOR g", io.BytesIO(octets))
            found = []
            client.retrbinary("RETR g", found.append, rest=1000)
            same(b"".join(found), octets[1000:], "what came back")
            same([name for name, _ in client.mlsd()], ["f", "g", "in"], "the names")
        client.set_pasv(True)
        client.storbinary("STOR big", io.BytesIO(bytes(MUCH)))
        data = client.transfercmd("RETR big")
        same(client.abort()[:3], "426", "the end of the transfer")
        same(client.getresp()[:3], "226", "the reply to ABOR")
        data.close()
        same(client.size("g"), len(octets), "its size")
        client.quit()
        server.ended()


ROWS = [
    two_downloads,
    an_upload_that_brings_nothing,
    what_is_stored_comes_back,
    three_hundred_megabytes,
    a_folder_has_what_was_stored,
    a_file_is_opened_for_reading_alone,
    a_store_that_is_full,
    an_upload_takes_no_more_than_the_capacity,
    a_long_listing,
    refused_connections,
    a_session_without_a_thread,
    refused_sessions,
    a_guarantee_comes_back,
    no_port,
    a_transfer_is_aborted,
    urgent_data,
    a_quit_waits,
    a_lost_control_connection,
    a_lost_data_connection,
    crowds_of_strangers_on_a_passive_port,
    a_crowd_before_the_transfer,
    a_client_that_drips,
    a_stranger_on_a_passive_port,
    active_connections,
    a_stop_file,
    a_stop_file_and_nobody,
    an_end_by_number,
    another_start,
    what_cannot_be_served,
    more_transfers_than_lanes,
    a_rate_is_kept,
    rates_of_two_users,
    notes,
    warnings_of_the_machine_are_noted,
    ftplib_as_it_is,
]
