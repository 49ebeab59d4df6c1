"""What the calls on sockets, clocks and locks are made with: the address that is listened on, the time of a file, time-outs, what is given back and charged.

No contract says what a call does to the machine. Each row here is refused by a server in which such a call is made otherwise.
"""
import contextlib
import ctypes
import os
import random
import socket
import struct
import threading
import time

from serving_kit import PORTS_TO_HAND_OUT, SECONDS, Client, Data, Late, Server, in_time, is_unread, same, slack, until, want

# The second address of this machine's loop.
OTHER = "127.0.0.2"
# The calls by which a process takes a socket of another (pidfd_open(2), pidfd_getfd(2)): their numbers are the same on each machine.
PIDFD_OPEN, PIDFD_GETFD = 434, 438
# More than the sockets of a connection hold, both sides together.
MUCH = 24_000_000
# The time in which an ABOR is answered, in seconds, of a third of some tries, and of most on a machine that is calm. A server that
# looks each 50 milliseconds answers one in ten so soon.
AT_ONCE = 0.005
# How far two clocks of one machine may be apart in seconds: that of the store counts whole ones.
APART = 2


def is_closed(address, port):
    """Whether nobody listens at a port of an address. Where connect(2) is reset, the listener is just being closed."""
    try:
        socket.create_connection((address, port), 5).close()
        return False
    except ConnectionRefusedError:
        return True
    except ConnectionResetError:
        return False


def it_listens_at_its_address_alone():
    """Its port and its passive ports are those of the stated address, and of no other of the machine."""
    with Server(root="folder", files={"f": b"a\nb"}) as server:
        want(is_closed(OTHER, server.port), "the port at another address")
        client = Client(server)
        port = client.passive_port()
        want(is_closed(OTHER, port), "a passive port at another address")
        same(client.retrieve("f"), b"a\nb", "the file")
        client.quit()
        server.ended()


def listened_at(server):
    """The addresses and ports at which a server listens."""
    inodes, found, at = set(), set(), f"/proc/{server.process.pid}/fd"
    for number in os.listdir(at):
        with contextlib.suppress(OSError):
            inodes.add(os.readlink(f"{at}/{number}"))
    for table in ("tcp", "tcp6"):
        with open(f"/proc/{server.process.pid}/net/{table}", encoding="ascii") as rows:
            for row in list(rows)[1:]:
                words = row.split()
                if words[3] == "0A" and f"socket:[{words[9]}]" in inodes:
                    address, port = words[1].split(":")
                    found.add((".".join(str(it) for it in reversed(bytes.fromhex(address))), int(port, 16)))
    return found


def it_listens_nowhere_else():
    """All sockets at which the process listens are those of the configuration and its words: its port, that of its page, and one passive port for each session that has asked for one."""
    page = PORTS_TO_HAND_OUT.take(1)
    with Server(sessions=0, stop=True, words=["--status-port", str(page)]) as server:
        own = {("127.0.0.1", server.port), ("127.0.0.1", page)}
        same(listened_at(server), own, "before the first client")
        one, two = Client(server), Client(server)
        ports = {("127.0.0.1", one.passive_port()), ("127.0.0.1", two.passive_port())}
        same(listened_at(server), own | ports, "with two passive ports")
        one.quit()
        two.quit()
        until(lambda: listened_at(server) == own, "the passive ports are closed")
        server.stop()
        server.ended()


def is_let_in(server):
    """A client whose login is accepted, or none."""
    client = Client(server, name=None)
    client.says(None, "220 Ready")
    client.says("USER ann", "331 Password required")
    client.send("PASS secret")
    if client.line() == "230 Welcome":
        return client
    client.close()
    return None


def one_guarantee_comes_back_once():
    """Of two guarantees that fit, one that is given back makes room for one, and for no second."""
    with Server(sessions=0, server="rate = 200", rates="session_down_floor = 80", stop=True) as server:
        first, second = Client(server), Client(server)
        want(not is_let_in(server), "a third guarantee")
        first.quit()
        found = []
        until(lambda: found.append(is_let_in(server)) or found[-1], "the guarantee of one who left")
        for _ in range(3):
            want(not is_let_in(server), "a guarantee that was not given back")
        for client in (second, found[-1]):
            client.close()
        server.stop()
        server.ended()


def a_stop_waits_for_no_reader():
    """A client that reads no reply holds its session for some seconds at most once the server is to end."""
    names = {f"{number}-{'n' * 200}": b"" for number in range(2000)}
    with Server(sessions=0, root="folder", files=names, stop=True) as server:
        deaf = Client(server)
        deaf.socket.sendall(b"STAT /\r\n" * 40)
        until(lambda: is_stuck(server), "a session that waits for its reader", tries=400)
        begun = time.monotonic()
        server.stop()
        server.ended()
        in_time(begun, 4, "the end")
        deaf.close()


def waiting_octets(server):
    """The octets that the server's side of its control connections holds, since their clients do not take them."""
    found = 0
    with open("/proc/net/tcp", encoding="ascii") as table:
        for line in table.readlines()[1:]:
            fields = line.split()
            if int(fields[1].split(":")[1], 16) == server.port:
                found += int(fields[4].split(":")[0], 16)
    return found


def is_stuck(server):
    """Whether such octets are held, and for half a second no more of them."""
    before = waiting_octets(server)
    time.sleep(0.5)
    return before > 100_000 and before == waiting_octets(server)


def a_listing_of_thirty_thousand():
    """Each entry, of a listing of more than two megabytes."""
    count = 30_000
    with Server(root="folder", files={f"an-entry-of-many-{number:05}": b"" for number in range(count)}) as server:
        client = Client(server)
        lines = client.listed("LIST")
        same(len(lines), count, "the entries")
        want(sum(len(it) + 2 for it in lines) > 2_000_000, "the octets of the listing")
        same([it.split()[-1] for it in lines], [f"an-entry-of-many-{number:05}" for number in range(count)], "the names")
        client.quit()
        server.ended()


def an_upload_is_of_now():
    """The time of a file is that of its upload, in memory and in a folder."""
    for root in ("memory", "folder"):
        with Server(root=root, files={} if root == "folder" else None) as server:
            client = Client(server)
            before = time.time()
            client.store("up", b"u")
            text = client.says("MDTM up", "213 ...")
            found = time.mktime(time.strptime(text[4:18], "%Y%m%d%H%M%S")) - time.timezone
            want(before - APART <= found <= time.time() + APART, f"{text} of an upload at {before:.0f}")
            client.quit()
            server.ended()


def timed(*calls):
    """The seconds that calls take, each in a thread of its own."""
    threads = [threading.Thread(target=it) for it in calls]
    begun = time.monotonic()
    for it in threads:
        it.start()
    for it in threads:
        it.join()
    return time.monotonic() - begun


def a_small_rate_of_many():
    """Many sessions with small files keep a small rate together, each octet of it."""
    with Server(sessions=20, root="folder", files={"small": 2_000}, rates="down_rate = 20000", passive=40) as server:
        clients = [Client(server) for _ in range(20)]
        took = timed(*[lambda it=it: same(len(it.retrieve("small")), 2_000, "the octets") for it in clients])
        want(took > 1.7, f"two seconds' octets came in {took:.2f} seconds")
        for client in clients:
            client.quit()
        same(server.ended()[1], 40_000, "octets moved")


def an_upload_keeps_its_rate():
    """What is received is charged to the rate of uploads, and what is sent to that of downloads."""
    rates = "down_rate = 100000000\nup_rate = 1000000"
    with Server(sessions=1, root="folder", files={"big": 4_000_000}, rates=rates) as server:
        client = Client(server)
        took = timed(lambda: client.store("up", bytes(2_000_000)))
        want(took > 1.7, f"two seconds' octets went in {took:.2f} seconds")
        same(len(client.retrieve("big")), 4_000_000, "the octets of the download")
        client.quit()
        same(server.ended()[1], 6_000_000, "octets moved")


def lent_sockets(process):
    """The sockets of a process that the machine lends to this one, which began it."""
    libc = ctypes.CDLL(None)
    whole, found = libc.syscall(PIDFD_OPEN, process.pid, 0), []
    if whole < 0:
        return found
    for number in os.listdir(f"/proc/{process.pid}/fd"):
        if os.readlink(f"/proc/{process.pid}/fd/{number}").startswith("socket:"):
            one = libc.syscall(PIDFD_GETFD, whole, int(number), 0)
            if one >= 0:
                found.append(socket.socket(fileno=one))
    os.close(whole)
    return found


def seconds_of(connection, option):
    """The seconds after which calls on a connection fail; 0 for never."""
    seconds, micros = struct.unpack("ll", connection.getsockopt(socket.SOL_SOCKET, option, 16))
    return seconds + micros / 1_000_000


def time_outs(server, port):
    """The seconds of a write and of a read on each connection that came to a port of a server."""
    found = []
    for it in lent_sockets(server.process):
        with it:
            try:
                it.getpeername()
            except OSError:
                continue
            if it.getsockname()[1] == port:
                found.append((seconds_of(it, socket.SO_SNDTIMEO), seconds_of(it, socket.SO_RCVTIMEO)))
    return found


def time_outs_are_set():
    """A peer that moves nothing holds a data connection for a minute at most, and one that reads no reply a session for seconds: the sockets have these time-outs, if the machine lets them be seen."""
    with Server(root="folder", files={"big": MUCH}) as server:
        client = Client(server)
        if time_outs(server, server.port):
            same([write for write, _ in time_outs(server, server.port)], [1], "a write of a reply")
            port = client.passive_port()
            data = Data(port, 4096)
            client.says("RETR big", "150 Opening data connection")
            want(data.read(), "some octets")
            until(lambda: [write for write, _ in time_outs(server, port)] == [20], "the time-out of a download")
            client.says("ABOR", "426 Transfer aborted", "226 Abort done")
            data.close()
            port = client.passive_port()
            data = Data(port)
            client.says("STOR up", "150 Opening data connection")
            until(lambda: [read for _, read in time_outs(server, port)] == [60], "the time-out of an upload")
            data.close()
            client.says(None, "226 Transfer complete")
        client.quit()
        server.ended()


def a_kept_passive_port():
    """With a port for each connection a session keeps its port for the next transfer. A connection that was made to it before is closed and not taken. A port of the client's own, and the end, give it back."""
    with Server(sessions=0, server="max_cons = 2", passive=2, stop=True) as server:
        files, client = server.open_files(), Client(server)
        port = client.passive_port()
        first, second = Data(port), Data(port)
        client.says("RETR f", "150 Opening data connection")
        same(first.whole(), b"a\nb", "the file")
        client.says(None, "226 Transfer complete")
        same(client.passive_port(), port, "the port of the next transfer")
        want(is_unread(second), "a second connection to the port of the transfer before got octets")
        client.says("STOR up", "150 Opening data connection")
        third = Data(port)
        third.socket.sendall(b"new")
        third.close()
        client.says(None, "226 Transfer complete")
        crowd = [Data(port) for _ in range(20)]
        other = client.passive_port()
        want(other != port, "a port at which many wait was taken for the next transfer")
        want(all([is_unread(it) for it in crowd]), "a connection of the transfer before got octets")
        client.says("RETR up", "150 Opening data connection")
        same(Data(other).whole(), b"new", "the file")
        client.says(None, "226 Transfer complete")
        with socket.create_server(("127.0.0.1", 0)) as listener:
            listener.settimeout(SECONDS)
            own = listener.getsockname()[1]
            client.says(f"PORT 127,0,0,1,{own // 256},{own % 256}", "200 OK")
            until(lambda: is_closed("127.0.0.1", other), "the end of the kept port")
            client.says("RETR f", "150 Opening data connection")
            data, _ = listener.accept()
            with data, data.makefile("rb") as text:
                same(text.read(), b"a\nb", "the file")
            client.says(None, "226 Transfer complete")
        another = Client(server)
        for _ in range(3):
            same(another.retrieve("f"), b"a\nb", "the file of another")
            same(client.retrieve("f"), b"a\nb", "the file")
        client.reset()
        another.quit()
        until(lambda: server.open_files() == files, "no port is open")
        server.stop()
        server.ended()
    with Server(server="max_cons = 3", passive=2) as server:
        client = Client(server)
        port = client.passive_port()
        client.says("RETR f", "150 Opening data connection")
        same(Data(port).whole(), b"a\nb", "the file")
        client.says(None, "226 Transfer complete")
        want(is_closed("127.0.0.1", port), "a port that another session may need is kept")
        client.quit()
        server.ended()


def a_kept_port_of_a_silent_client():
    """Who connects to a port that is kept is closed within seconds, while the client is silent; after ten seconds the port is closed."""
    with Server(sessions=1, server="max_cons = 2", passive=2) as server:
        client = Client(server)
        port = client.passive_port()
        client.says("RETR f", "150 Opening data connection")
        same(Data(port).whole(), b"a\nb", "the file")
        client.says(None, "226 Transfer complete")
        strangers = [Data(port) for _ in range(10)]
        begun = time.monotonic()
        for stranger in strangers:
            want(is_unread(stranger), "a stranger got octets")
        in_time(begun, 4, "strangers were closed")
        want(not is_closed("127.0.0.1", port), "the port is closed while its client may still want it")
        time.sleep(12)
        until(lambda: is_closed("127.0.0.1", port), "the end of the kept port")
        same(client.retrieve("f"), b"a\nb", "the file")
        client.quit()
        server.ended()


def a_listing_delays_nobody():
    """While a session lists many entries of a folder, another has its own calls answered."""
    with Server(sessions=2, root="folder", files={"f": b"abc", "big": None}) as server:
        for number in range(30_000):
            server.put(f"big/an-entry-of-many-{number:05}", b"")
        one, two, asked = Client(server), Client(server), []
        data = one.passive()
        begun = time.monotonic()
        one.send("LIST big")
        over = threading.Event()

        def ask():
            while not over.is_set():
                since = time.monotonic()
                same(two.length_of("f"), 3, "the length")
                asked.append((since - begun, time.monotonic() - begun))

        asking = threading.Thread(target=ask)
        asking.start()
        one.says(None, "150 Opening data connection")
        took = time.monotonic() - begun
        over.set()
        asking.join()
        same(len(data.whole().splitlines()), 30_000, "the entries")
        one.says(None, "226 Transfer complete")
        meanwhile = sum(since > took / 5 and until < took * 4 / 5 for since, until in asked)
        want(meanwhile >= 5, f"{meanwhile} calls were answered in the middle of a listing of {took:.2f} seconds")
        for client in (one, two):
            client.quit()
        server.ended()


def sleeps(process):
    """How often each thread of a server has slept so far, by its number."""
    found = {}
    for task in os.listdir(f"/proc/{process}/task"):
        try:
            with open(f"/proc/{process}/task/{task}/status") as it:
                found[task] = int(it.read().split("voluntary_ctxt_switches:")[1].split()[0])
        except OSError:
            pass
    return found


def a_brief_download_wakes_no_lane():
    """A session runs it itself: besides the session and the thread of the log, no thread sleeps and wakes for each of many. One that a rate may hold back is run by a lane."""
    many, files = 200, {"f": b"brief" * 200}
    for rates, own in (("", True), ("down_rate = 1000000", False)):
        with Server(root="folder", files=files, rates=rates) as server:
            client = Client(server)
            client.retrieve("f")
            before = sleeps(server.process.pid)
            for _ in range(many):
                same(client.retrieve("f"), files["f"], "a file")
            after = sleeps(server.process.pid)
            slept = sorted((after[it] - before.get(it, 0) for it in after), reverse=True)
            want((sum(slept[2:]) < many) == own, f"sleeps of the threads: {slept}")
            client.quit()
            server.ended()


def processor_seconds(server):
    """The seconds that a server has used processors, of its own and in calls of the machine, by proc(5)."""
    with open(f"/proc/{server.process.pid}/stat", encoding="ascii") as it:
        fields = it.read().rpartition(")")[2].split()
    return (int(fields[11]) + int(fields[12])) / os.sysconf("SC_CLK_TCK")


def who_waits_for_a_lane_sleeps():
    """Forty sessions behind one lane, whose transfer nobody reads, use next to no processor."""
    waiting = 40
    with Server(sessions=0, root="folder", files={"big": 100_000_000}, server=f"max_cons = {waiting + 1}\nlanes = 1", passive=waiting + 1, stop=True) as server:
        clients = [Client(server) for _ in range(waiting + 1)]
        datas = [client.passive(room=65_536) for client in clients]
        for client in clients:
            client.says("RETR big", "150 Opening data connection")
        time.sleep(1)
        before = processor_seconds(server)
        time.sleep(4)
        used = processor_seconds(server) - before
        want(used < 1, f"{used:.2f} seconds of a processor in four")
        server.stop()
        server.ended()
        for it in (*clients, *datas):
            it.close()


def stalled(server, count):
    """Clients with a download each that nobody reads, and their data connections."""
    clients = [Client(server) for _ in range(count)]
    datas = [client.passive(room=65_536) for client in clients]
    for client in clients:
        client.says("RETR big", "150 Opening data connection")
    return clients, datas


def a_transfer_that_moves(server, client):
    """A download that nobody reads: its lane waits for its data connection."""
    data = client.passive(room=65_536)
    client.says("RETR big", "150 Opening data connection")
    return data


def an_upload_that_moves(server, client):
    """An upload of which nothing comes: its lane waits for its data connection."""
    data = client.passive()
    client.says("STOR up", "150 Opening data connection")
    return data


def a_transfer_without_a_client(server, client):
    """A transfer that waits for its client at a passive port."""
    client.passive_port()
    client.says("RETR big", "150 Opening data connection")


def a_transfer_without_an_answer(server, client):
    """A transfer that waits for the answer of its client's port: one whose queue is full, of which the machine drops what comes."""
    listener = socket.socket()
    listener.bind(("127.0.0.1", 0))
    listener.listen(0)
    waiting = [socket.socket() for _ in range(4)]
    for it in waiting:
        it.setblocking(False)
        it.connect_ex(listener.getsockname())
    port = listener.getsockname()[1]
    client.says(f"PORT 127,0,0,1,{port // 256},{port % 256}", "200 OK")
    client.says("RETR big", "150 Opening data connection")
    return listener, waiting


def a_transfer_without_a_lane(server, client):
    """A download while another, which nobody reads, has the only lane."""
    holder = Client(server)
    return holder, a_transfer_that_moves(server, holder), a_transfer_that_moves(server, client)


def a_transfer_without_a_rate(server, client):
    """A download under an octet a second: its lane waits for a grant."""
    return a_transfer_that_moves(server, client)


# What a transfer waits for, and the lines of the server that has it wait.
WAITS = {
    a_transfer_that_moves: "",
    an_upload_that_moves: "",
    a_transfer_without_a_client: "",
    a_transfer_without_an_answer: "",
    a_transfer_without_a_lane: "lanes = 1",
    a_transfer_without_a_rate: "rate = 1",
}


def an_abort_is_answered_at_once():
    """ABOR is answered at once whatever its transfer waits for: a session waits for its client and for its transfer at the same time. The times are printed, with the load."""
    tries, told, slow = 11, [], []
    for begin, lines in WAITS.items():
        with Server(sessions=0, root="folder", files={"big": 100_000_000}, passive=40, server=f"max_cons = {tries + 1}\n{lines}", stop=True) as server:
            client, taken = Client(server), []
            for number in range(tries):
                kept = begin(server, client)
                # (by now the session waits)
                time.sleep(0.22 + number / 100)
                begun = time.monotonic()
                client.says("ABOR", "426 Transfer aborted", "226 Abort done")
                taken.append(time.monotonic() - begun)
                del kept
            client.quit()
            soon = sorted(taken)[tries // 3]
            told.append(f"{begin.__name__} {1000 * soon:.1f}")
            slow += [told[-1]] if soon > AT_ONCE * slack() else []
            server.stop()
            server.ended()
    print(f"an_abort_is_answered_at_once: milliseconds, with a load of {os.getloadavg()[0]:.1f}: {', '.join(told)}", flush=True)
    if slow:
        raise Late(f"two thirds of the replies to ABOR came later than after {1000 * AT_ONCE:.0f} milliseconds: {', '.join(slow)}")


def a_session_with_a_transfer_rests():
    """While a transfer moves its session sleeps, until its client or the end wakes it: a second has few of its own looks."""
    with Server(sessions=0, root="folder", files={"big": 100_000_000}, server="max_cons = 9", passive=9, stop=True) as server:
        clients, datas = stalled(server, 8)
        time.sleep(1)
        before, used = sleeps(server.process.pid), processor_seconds(server)
        time.sleep(3)
        after = sleeps(server.process.pid)
        used = processor_seconds(server) - used
        slept = sorted((after[it] - before.get(it, 0) for it in after), reverse=True)
        # (a wait and a read each 200 milliseconds; besides the sessions the server has threads that look ten times a second)
        want(sum(it > 50 for it in slept) <= 3, f"sleeps of the threads in three seconds: {slept}")
        want(used < 0.5, f"{used:.2f} seconds of a processor in three")
        same(server.bells(), 8, "a bell for each session with a transfer")
        server.stop()
        server.ended()
        for it in (*clients, *datas):
            it.close()


def a_bell_for_a_place():
    """The place of a connection keeps the bell that was made with the first transfer there that a lane ran: none is made before, and no further one after."""
    with Server(sessions=0, root="folder", files={"big": 1_000_000}, server="max_cons = 1", passive=4, stop=True) as server:
        for number in range(3):
            threads, client = server.threads(), Client(server)
            same(server.bells(), min(number, 1), "bells before a transfer")
            for _ in range(3):
                client.store("up", bytes(500_000))
                same(len(client.retrieve("big")), 1_000_000, "the file")
            same(server.bells(), 1, "bells after it")
            client.quit()
            until(lambda: server.threads() == threads, "the end of the session")
        server.stop()
        server.ended()


def a_reply_comes_with_its_end():
    """The session is woken by the end of a transfer that a lane runs: half of the replies come sooner than by its own looks, 50 milliseconds apart."""
    taken = []
    with Server(root="folder", files={"f": bytes(1_000)}, rates="down_rate = 100_000_000") as server:
        client = Client(server)
        for _ in range(100):
            data = client.passive()
            client.says("RETR f", "150 Opening data connection")
            data.whole()
            begun = time.monotonic()
            client.says(None, "226 Transfer complete")
            taken.append(time.monotonic() - begun)
        client.quit()
        server.ended()
    median = sorted(taken)[50]
    if median > 0.015 * slack():
        raise Late(f"half of the replies came after {1000 * median:.1f} milliseconds")


def files_of_any_length():
    """Files of random lengths, and of those at the edges of buffers, are stored and come back, as octets and as text, in memory and in a folder."""
    chance = random.Random(60)
    lengths = [0, 1, 4095, 4096, 4097, 32767, 32768, 60_001, 65_535, 65_536, 65_537, 131_072] + [chance.randrange(200_000) for _ in range(30)]
    for root in ("memory", "folder"):
        with Server(root=root, files={} if root == "folder" else None, server="capacity = 1000000" if root == "memory" else "", passive=40) as server:
            client = Client(server)
            for number, length in enumerate(lengths):
                octets = chance.randbytes(length)
                client.store("up", octets)
                same(client.length_of("up"), length, "the length")
                want(client.retrieve("up") == octets, f"other octets of {length}")
                begin = chance.randrange(length + 1)
                client.says(f"REST {begin}", f"350 Restart at {begin}")
                want(client.retrieve("up") == octets[begin:], f"other octets of {length} from {begin} on")
                if number % 4 == 0:
                    text = octets.replace(b"\r", b"").replace(b"\n", b"\r\n")
                    client.says("TYPE A", "200 Type is A")
                    client.store("up", text)
                    want(client.retrieve("up") == text, f"another text of {length}")
                    client.says("TYPE I", "200 Type is I")
            client.quit()
            server.ended()


def four_thousand_users_are_served():
    """A server with 4,000 users in 200 groups, each with rates and guarantees, begins, and moves the files of the first, of the last and of one between."""
    rates = "down_rate = 20000000\nup_rate = 20000000\n"
    groups = "".join(f'[[group]]\nname = "g{number}"\n{rates}' for number in range(200))
    row = 'password = "secret"\nhome = "/"\nperms = "elradfmw"\nsession_down_floor = 1\n'
    users = "".join(f'[[user]]\nname = "u{number}"\ngroup = "g{number % 200}"\n{row}{rates}' for number in range(4000))
    server = Server(sessions=3, root="folder", files={"f": b"a\nb"}, users=groups + users)
    server.text = server.made_text().replace("version = 1", "version = 2", 1)
    with server:
        clients = [Client(server, f"u{number}") for number in (0, 2017, 3999)]
        for client in clients:
            client.store("up", bytes(100_000))
            same(client.retrieve("up"), bytes(100_000), "what came back")
        for client in clients:
            client.quit()
        same(server.ended()[1], 600_000, "octets moved")


def closed_streams_are_the_null_device():
    """A server whose standard streams were closed has the null device in the place of each, so that none of its files or sockets is one of them."""
    with Server(sessions=1, root="folder", before="exec <&- >&- 2>&-", words=["--login-delay", "0", "--ready-file", "started"]) as server:
        for number in range(3):
            same(os.readlink(f"/proc/{server.process.pid}/fd/{number}"), "/dev/null", f"the stream {number}")
        client = Client(server)
        client.store("up", b"abc")
        client.quit()
        until(lambda: server.process.poll() is not None, "the server's end")
        same(server.process.returncode, 0, "its status")
        same(server.get("up"), b"abc", "the file")


ROWS = [
    it_listens_at_its_address_alone,
    it_listens_nowhere_else,
    time_outs_are_set,
    a_kept_passive_port,
    a_kept_port_of_a_silent_client,
    a_listing_delays_nobody,
    a_brief_download_wakes_no_lane,
    who_waits_for_a_lane_sleeps,
    a_reply_comes_with_its_end,
    an_abort_is_answered_at_once,
    a_session_with_a_transfer_rests,
    a_bell_for_a_place,
    files_of_any_length,
    four_thousand_users_are_served,
    one_guarantee_comes_back_once,
    a_stop_waits_for_no_reader,
    a_listing_of_thirty_thousand,
    an_upload_is_of_now,
    a_small_rate_of_many,
    an_upload_keeps_its_rate,
    closed_streams_are_the_null_device,
]
