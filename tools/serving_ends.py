"""How transfers end: whoever waits, and in whichever state they are.

A transfer waits for a lane, for its client's port, for octets that a rate does not give, or for a peer that takes nothing. In each of these
states it is aborted, or its session is lost, or the server is ended: the next line is answered and the place is free soon.
"""
import contextlib
import os
import socket
import time

from serving_kit import Client, Refused, Server, in_time, same, until, wait_for, want

# More octets than the sockets between a server and a client hold.
MUCH = 200_000_000
# A bound in seconds of an answer that takes some milliseconds.
PROMPT = 5.0


@contextlib.contextmanager
def promptly(what):
    """Wants that something is done within the bound."""
    begun = time.monotonic()
    yield
    if os.environ.get("TIMES"):
        print(f"{what}: {1000 * (time.monotonic() - begun):.0f} ms")
    in_time(begun, PROMPT, what)


@contextlib.contextmanager
def deaf_port():
    """A port that answers nobody: the queue of those who have connected to it is full."""
    with socket.socket() as listener, contextlib.ExitStack() as rest:
        listener.bind(("127.0.0.1", 0))
        listener.listen(0)
        for _ in range(4):
            filler = rest.enter_context(socket.socket())
            filler.setblocking(False)
            with contextlib.suppress(BlockingIOError):
                filler.connect(listener.getsockname())
        yield listener.getsockname()[1]


def wants(client, state, port):
    """Begins a transfer that stays in a state. Returns what the client has to keep open."""
    data = None
    if state == "its port":
        client.says(f"PORT 127,0,0,1,{port // 256},{port % 256}", "200 OK")
    else:
        data = client.passive(room=4096)
    client.says("RETR big" if state != "a lane" else "RETR f", "150 Opening data connection")
    if state == "its peer":
        want(data.read(), "some octets")
    return data


STATES = {
    # the lines of the server, how many clients hold all lanes, and what is waited for
    "a lane": ("lanes = 1", 1),
    "its port": ("lanes = 1", 0),
    "its rate": ("rate = 1\nlanes = 1", 0),
    "its peer": ("lanes = 1", 0),
}


@contextlib.contextmanager
def stuck_server(state, most):
    """A server with a transfer of its last client in this state, and those who hold its lanes."""
    lines, holders = STATES[state]
    lines += f"\nmax_cons = {most + holders}"
    with contextlib.ExitStack() as rest:
        port = rest.enter_context(deaf_port())
        server = rest.enter_context(Server(sessions=0, root="folder", files={"big": MUCH, "f": b"a\nb"}, server=lines, stop=True, passive=12))
        held = [Client(server) for _ in range(holders)]
        kept = [wants(it, "its peer", port) for it in held]
        client = Client(server)
        kept.append(wants(client, state, port))
        try:
            yield server, client, port
        finally:
            for it in [*held, *filter(None, kept)]:
                it.close()


def aborted_in_each_state():
    """ABOR is answered, and the lines behind it; the next transfer of the session begins, and is aborted too."""
    for state in STATES:
        with stuck_server(state, 1) as (server, client, port):
            for again in (False, True):
                with promptly(f"the abort of a transfer that waits for {state}"):
                    client.says("NOOP", "200 OK")
                    client.says("ABOR", "426 Transfer aborted", "226 Abort done")
                    client.says("NOOP", "200 OK")
                if not again:
                    data = wants(client, state, port)
            if data:
                data.close()
            client.quit()
            server.stop()
            server.ended()


def lost_in_each_state():
    """A client that is gone leaves its place, its lane and its port."""
    for state in STATES:
        with stuck_server(state, 1) as (server, client, port):
            client.reset()
            with promptly(f"the loss of a client whose transfer waits for {state}"):
                next_one = admitted(server)
            data = wants(next_one, state, port)
            next_one.says("ABOR", "426 Transfer aborted", "226 Abort done")
            next_one.quit()
            if data:
                data.close()
            server.stop()
            server.ended()


def admitted(server):
    """A client that has logged in, once the server has a place for it."""
    for _ in range(200):
        client = Client(server, name=None)
        with contextlib.suppress(OSError):
            if client.line() == "220 Ready":
                client.says("USER ann", "331 Password required")
                client.send("PASS secret")
                if client.line() == "230 Welcome":
                    client.says("TYPE I", "200 Type is I")
                    return client
        client.close()
        time.sleep(0.05)
    raise Refused("no place for a client")


def quits_in_each_state():
    """QUIT waits for the end of the transfer; a client that does not wait for it leaves its place."""
    for state in STATES:
        with stuck_server(state, 1) as (server, client, _):
            client.says("NOOP", "200 OK")
            client.send("QUIT")
            time.sleep(0.2)
            client.close()
            with promptly(f"the loss of a client that quits while its transfer waits for {state}"):
                admitted(server).quit()
            server.stop()
            server.ended()


def ended_in_each_state():
    """The server ends, whatever its transfers wait for."""
    for state in STATES:
        with stuck_server(state, 1) as (server, client, _):
            with promptly(f"the end of a server with a transfer that waits for {state}"):
                server.stop()
                server.ended()
            client.close()


GUARANTEED = """
[[user]]
name = "ann"
password = "secret"
home = "/"
session_down_floor = 600
"""


def a_guarantee_is_given_back():
    """A session with a guarantee is gone while its transfer waits for a lane: the guarantee is free for the next."""
    with Server(sessions=0, root="folder", files={"big": MUCH, "f": b"a\nb"}, server="rate = 1000\nlanes = 1", users=GUARANTEED, stop=True) as server:
        first = Client(server)
        stuck = wants(first, "its peer", 0)
        second = Client(server, name=None)
        second.says(None, "220 Ready")
        second.says("USER ann", "331 Password required")
        second.says("PASS secret", "421 ...")
        second.close()
        first.reset()
        stuck.close()
        with promptly("the guarantee of a client that is gone"):
            admitted(server).close()
        server.stop()
        server.ended()


def aborts_as_transfers_end():
    """An ABOR that meets the end of its transfer: one end for each, and the next line is answered."""
    with Server(sessions=4, root="folder", files={"f": b"a\nb" * 1000}, server="lanes = 2", passive=24) as server:
        clients = [Client(server) for _ in range(4)]
        for number in range(200):
            client = clients[number % 4]
            data = client.passive()
            client.send("RETR f")
            if number % 3:
                client.says(None, "150 Opening data connection")
            client.send("ABOR")
            client.send("NOOP")
            with promptly("an abort at the end of a transfer"):
                while (line := client.line()) != "200 OK":
                    want(line[:3] in ("150", "226", "426", "225", "425"), f"a reply: {line}")
            data.close()
        for client in clients:
            client.quit()
        server.ended()


def a_port_that_does_not_answer():
    """Who waits for its client's port is served meanwhile, and in the end the port has not answered."""
    with deaf_port() as port, Server(root="folder", files={"f": b"a\nb"}) as server:
        client = Client(server)
        client.says(f"PORT 127,0,0,1,{port // 256},{port % 256}", "200 OK")
        client.says("RETR f", "150 Opening data connection")
        for _ in range(5):
            with promptly("a line while the port does not answer"):
                client.says("NOOP", "200 OK")
                client.says("STAT", "211 Transfer in progress")
        wait_for(client.socket, "the end of the wait")
        client.says(None, "425 No data connection")
        with socket.socket() as listener:
            listener.bind(("127.0.0.1", 0))
            listener.listen(1)
            at = listener.getsockname()[1]
            client.says(f"PORT 127,0,0,1,{at // 256},{at % 256}", "200 OK")
            client.says("RETR f", "150 Opening data connection")
            data = listener.accept()[0]
            with data:
                want(data.recv(100) == b"a\nb", "the file")
            client.says(None, "226 Transfer complete")
        client.quit()
        server.ended()


def is_up(space):
    """A server in an address space of so many KiB, once it is ready; none if it does not begin."""
    server = Server(sessions=0, root="folder", files={"f": b"a\nb"}, server="lanes = 2\nmax_cons = 4", stop=True, before=f"ulimit -v {space}")
    try:
        server.__enter__()
    except Refused:
        server.__exit__(None, None, None)
        return None
    return server


def least_space():
    """The least address space in which a server begins, to 32 KiB."""
    few, enough = 2_000, 200_000
    while enough - few > 32:
        middle = (few + enough) // 2
        server = is_up(middle)
        if server:
            server.__exit__(None, None, None)
            enough = middle
        else:
            few = middle
    return enough


def rounds_without_memory():
    """In each address space from the least on in which a server begins, a client's transfer has an end, and so has the server."""
    least = least_space()
    for space in range(least, least + 700, 48):
        server = is_up(space)
        if server is None:
            continue
        try:
            with promptly(f"a transfer in {space} KiB"):
                client = None
                with contextlib.suppress(Refused, OSError):
                    client = Client(server, tries=80)
                    data = client.passive()
                    client.send("RETR f")
                    while client.line()[:3] in ("150",):
                        pass
                    data.close()
            with promptly(f"the end of a server in {space} KiB"):
                server.stop()
                until(lambda: server.process.poll() is not None, f"its end in {space} KiB", tries=200)
            if client:
                client.close()
        finally:
            server.__exit__(None, None, None)


def a_last_reply_before_lines_unread():
    """A client that has sent more lines than its session reads gets the last reply and the end, and no reset (RFC 1122, section 4.2.2.13)."""
    with Server() as server:
        client = Client(server)
        # a session reads at most 512 octets at once, and four times 4,096 at most once it has said its last reply
        client.socket.sendall(b"QUIT\r\n" + b"NOOP\r\n" * 900)
        server.ended()
        # once the server has closed it, a reset has come, if there was one: it may take what was not read yet with it
        same(client.socket.getsockopt(socket.SOL_SOCKET, socket.SO_ERROR), 0, "the error of the connection (errno(3))")
        client.says(None, "221 Goodbye")
        want(not client.more(), "nothing follows the last reply")
        client.close()


ROWS = [
    a_last_reply_before_lines_unread,
    rounds_without_memory,
    aborted_in_each_state,
    lost_in_each_state,
    quits_in_each_state,
    ended_in_each_state,
    a_guarantee_is_given_back,
    aborts_as_transfers_end,
    a_port_that_does_not_answer,
]
