"""What the end of a server does not wait for: an address that is gone, the owner's paths, readers, and calls of the machine that do not return.

A row that needs a name space of the network, or a system call that strace(1) holds back, is left out if the machine lends neither: it prints a
line that says so.
"""
import contextlib
import json
import os
import pty
import re
import resource
import shutil
import socket
import subprocess
import threading
import time

from serving_kit import PORTS_TO_HAND_OUT, Client, Server, in_time, same, until, want

# The time in which a server ends that waits for nobody: its clients are told, and each of its own threads has a second.
PROMPT = 8
# The time for which a call of the machine is held back, in microseconds.
HELD = 60_000_000
# A server in a name space of its own, with the loopback alone.
ALONE = """exec unshare -rn sh -c 'ip link set lo up; exec "$@"' sh "$@\""""
HANGS = "the machine holds no call back (strace), so this row is left out"


def ends(server, sign=Server.stop, tracer=None, status=0):
    """Gives a server a sign, and wants that it ends promptly, settled, with a status."""
    begun = time.monotonic()
    sign(server)
    until(lambda: is_over(server), "the end of the process")
    in_time(begun, PROMPT, "the end")
    if tracer:
        # (what is left of a thread that it holds goes with it)
        tracer.kill()
    server.ended(status)


def is_over(server):
    """Whether the process of a server has ended, or its main thread has, which ends all others."""
    if server.process.poll() is not None:
        return True
    with open(f"/proc/{server.process.pid}/stat", encoding="ascii") as it:
        return it.read().rpartition(")")[2].split()[0] in "ZX"


def is_lent(words):
    """Whether the machine runs these words."""
    return shutil.which(words[0]) and subprocess.run(words, capture_output=True, check=False).returncode == 0


@contextlib.contextmanager
def held_back(server, calls, *paths):
    """Calls of a server on these paths do not return, if the machine can do that: the value is the tracer, or none."""
    words = ["strace", "-f", "-qq", "-o", "/dev/null", "-e", f"trace={calls}", "-e", f"inject={calls}:delay_enter={HELD}"]
    for path in paths:
        words += ["-P", path]
    if not is_lent(["strace", "-o", "/dev/null", "true"]):
        yield None
        return
    tracer = subprocess.Popen([*words, "-p", str(server.process.pid)], stdout=subprocess.DEVNULL, stderr=subprocess.PIPE)
    try:
        until(lambda: tracer.poll() is not None or is_traced(server), "the tracer")
        yield tracer if tracer.poll() is None else None
    finally:
        tracer.kill()
        tracer.wait()
        tracer.stderr.close()


def is_traced(server):
    """Whether each thread of a server has a tracer."""
    found = []
    for thread in os.listdir(f"/proc/{server.process.pid}/task"):
        with open(f"/proc/{server.process.pid}/task/{thread}/status", encoding="ascii") as it:
            found.append(re.search(r"TracerPid:\t(\d+)", it.read())[1] != "0")
    return all(found)


def an_address_that_is_gone():
    """A server whose address takes no packets any more ends by its stop file, and drains by its drain file, as does its page."""
    if not is_lent(["unshare", "-rn", "ip", "link", "set", "lo", "up"]):
        print("an_address_that_is_gone: the machine lends no name space, so this row is left out")
        return
    for sign in (Server.stop, Server.drain):
        with Server(sessions=0, stop=True, drain=True, words=["--status-port", str(PORTS_TO_HAND_OUT.take(1))], before=ALONE) as server:
            inside = ["nsenter", "--preserve-credentials", "-U", "-n", "-t", str(server.process.pid)]
            subprocess.run([*inside, "ip", "link", "set", "lo", "down"], check=True, capture_output=True)
            ends(server, sign)


def a_process_without_descriptors():
    """A server that may open no more files, or poll none, ends by its stop file."""
    for most in (3, 0):
        with Server(sessions=0, stop=True, words=["--status-port", str(PORTS_TO_HAND_OUT.take(1))]) as server:
            hard = resource.prlimit(server.process.pid, resource.RLIMIT_NOFILE)[1]
            resource.prlimit(server.process.pid, resource.RLIMIT_NOFILE, (most, hard))
            ends(server)


def a_failed_start_with_a_page():
    """A server that finds its port taken ends, though its page was served already."""
    with socket.create_server(("127.0.0.1", 0)) as other:
        words = ["--status-port", str(PORTS_TO_HAND_OUT.take(1))]
        first = PORTS_TO_HAND_OUT.take(1)
        text = f'version = 1\n[server]\nroot = "memory"\nport = {other.getsockname()[1]}\npassive_first = {first}\npassive_last = {first}\n'
        status, output, noted = Server(text=text, words=words).run()
        same((status, output), (1, ""), "its status and output")
        want(noted.endswith("ftpd: Bind\n"), noted)


def a_configuration_that_is_a_pipe():
    """A pipe at the path of the configuration is refused by its reload, and holds no stop."""
    with Server(sessions=0, stop=True, drain=True, reload=True) as server:
        os.rename(f"{server.place}/ftpd.toml", f"{server.place}/kept")
        os.mkfifo(f"{server.place}/ftpd.toml")
        note = server.reloaded(taken=False)
        want(note.endswith("configuration not reloaded: ftpd.toml: is not a regular file"), note)
        os.rename(f"{server.place}/kept", f"{server.place}/ftpd.toml")
        server.reloaded()
        ends(server)


def a_configuration_that_hangs():
    """A call on the configuration that does not return holds neither clients nor a drain; who asks again is told."""
    with Server(sessions=0, stop=True, drain=True, reload=True) as server, held_back(server, "openat", "ftpd.toml") as tracer:
        if not tracer:
            print("a_configuration_that_hangs:", HANGS)
            return
        for _ in range(2):
            with open(f"{server.place}/reload", "w", encoding="ascii"):
                pass
            until(lambda: not os.path.exists(f"{server.place}/reload"), "the reload file is removed")
        wanted = "configuration not reloaded: the file has not been read since the last time that it was asked for"
        until(lambda: wanted in server.noted(), "the note of the second")
        Client(server).quit()
        ends(server, Server.drain, tracer)


def a_status_that_hangs():
    """A status file whose file system does not answer holds neither a reload nor the stop."""
    with Server(sessions=0, stop=True, reload=True, words=["--status", "status.json"]) as server:
        until(lambda: os.path.exists(f"{server.place}/status.json"), "the status")
        with held_back(server, "openat,rename,unlink", "status.json.new", "status.json") as tracer:
            if not tracer:
                print("a_status_that_hangs:", HANGS)
                return
            time.sleep(1.5)
            server.reloaded()
            Client(server).quit()
            ends(server, tracer=tracer)


def a_status_path_that_is_a_pipe():
    """What is no regular file stays at the path of the status."""
    with Server(sessions=0, stop=True, words=["--status", "status.json"]) as server:
        until(lambda: os.path.exists(f"{server.place}/status.json"), "the status")
        os.mkfifo(f"{server.place}/pipe")
        os.rename(f"{server.place}/pipe", f"{server.place}/status.json")
        time.sleep(2.5)
        want(not os.path.isfile(f"{server.place}/status.json"), "the pipe stays")
        ends(server)


def transferred(server, count):
    """Makes transfers of a file."""
    client = Client(server)
    for _ in range(count):
        client.retrieve("f")
    client.quit()


def lines_of(path):
    with open(path, encoding="ascii") as it:
        return it.read().count("\n")


def a_transfer_log_that_is_a_pipe():
    """A pipe is no transfer log: a start is refused, without waiting for its reader; one that takes the log's place is not followed."""
    with Server(sessions=0, root="folder", files={"f": b"x"}, stop=True, words=["--transfer-log", "log"]) as server:
        os.mkfifo(f"{server.place}/pipe")
        other = Server(sessions=0, words=["--transfer-log", "pipe"])
        os.mkfifo(f"{other.place}/pipe")
        status, output, noted = other.run()
        wanted = "pipe is no transfer log: move it away, or state another path\nftpd: TransferLog\n"
        same((status, output, noted), (1, "", wanted), "a log that is a pipe")
        transferred(server, 1)
        until(lambda: lines_of(f"{server.place}/log") == 1, "the first line")
        os.rename(f"{server.place}/log", f"{server.place}/log.1")
        os.rename(f"{server.place}/pipe", f"{server.place}/log")
        transferred(server, 2)
        until(lambda: lines_of(f"{server.place}/log.1") == 3, "the lines go on")
        same(server.noted().count('sent "/f"'), 3, "the notes")
        ends(server)


def a_transfer_log_that_hangs():
    """A transfer log that is a terminal which nobody reads holds no note, and not the end."""
    reader, writer = pty.openpty()
    try:
        words = ["--login-delay", "0", "--transfer-log", os.ttyname(writer)]
        with Server(sessions=0, root="folder", files={"f" * 200: b"x"}, stop=True, words=words) as server:
            client = Client(server)
            for _ in range(400):
                client.retrieve("f" * 200)
            client.quit()
            until(lambda: server.noted().count("sent ") == 400, "all notes")
            # (lines are lost, which is told)
            ends(server, status=1)
            want(re.search(r"lines of the transfer log dropped: \d+\nftpd: TransferLog\n$", server.noted()), "the note of the lines that are lost")
    finally:
        os.close(reader)
        os.close(writer)


def a_terminal_that_nobody_reads():
    """Standard error that is a terminal which nobody reads holds no line of the transfer log, and not the end."""
    reader, writer = pty.openpty()
    try:
        words = ["--login-delay", "0", "--transfer-log", "log"]
        with Server(sessions=0, root="folder", files={"f": b"x"}, stop=True, words=words, before=f"exec 2>{os.ttyname(writer)}") as server:
            transferred(server, 600)
            until(lambda: lines_of(f"{server.place}/log") == 600, "all lines of the transfer log")
            ends(server)
    finally:
        os.close(reader)
        os.close(writer)


def status_of(server):
    with open(f"{server.place}/status.json", encoding="utf-8") as it:
        return json.load(it)


def what_the_end_waits_for():
    """A call of the machine that does not return is told ten seconds after the end began, and the end goes on once it has."""
    with Server(sessions=0, root="folder", files={"big": 30_000_000}, stop=True, words=["--login-delay", "0", "--status", "status.json"]) as server:
        client = Client(server)
        data = client.passive()
        client.says("RETR big", "150 Opening data connection")
        with held_back(server, "read", f"{server.folder}/big") as tracer:
            if not tracer:
                print("what_the_end_waits_for:", HANGS)
                return
            reader = threading.Thread(target=data.whole, daemon=True)
            reader.start()
            time.sleep(2)
            begun = time.monotonic()
            server.stop()
            until(lambda: "waits for 1 calls of the machine" in server.noted(), "the note")
            want(time.monotonic() - begun > 9.5, f"it was told after {time.monotonic() - begun:.1f} seconds")
            in_time(begun, 14, "the note")
            want(server.process.poll() is None, "it waits")
            until(lambda: status_of(server)["waits"] == 1, "the status has it")
        server.ended()


def files_on_the_device():
    """With --sync the octets of a file are written to the device before the reply that it was received, and without it they are not."""
    if not is_lent(["strace", "-o", "/dev/null", "true"]):
        print("files_on_the_device: the machine shows no calls (strace), so this row is left out")
        return
    for words, count in (["--sync"], 1), ([], 0):
        with Server(sessions=1, root="folder", files={}, words=words) as server:
            trace = f"{server.place}/trace"
            tracer = subprocess.Popen(["strace", "-f", "-qq", "-o", trace, "-e", "trace=fdatasync", "-p", str(server.process.pid)])
            until(lambda: is_traced(server), "the tracer")
            client = Client(server)
            data = client.passive()
            client.says("STOR up", "150 Opening data connection")
            data.socket.sendall(b"new")
            data.close()
            client.says(None, "226 Transfer complete")
            with open(trace, encoding="ascii") as it:
                same(it.read().count("fdatasync("), count, f"calls with {words}")
            client.quit()
            tracer.wait(10)
            server.ended()


def a_close_that_fails():
    """A file system that reports at close(2) that it is full (as NFS does) is told: no 226, and the note says that the file was not received."""
    if not is_lent(["strace", "-o", "/dev/null", "true"]):
        print("a_close_that_fails: the machine makes no call fail (strace), so this row is left out")
        return
    with Server(sessions=1, root="folder", files={"up": b""}, words=["--login-delay", "0", "--transfer-log", "log"]) as server:
        words = ["strace", "-f", "-qq", "-o", "/dev/null", "-e", "trace=close", "-e", "inject=close:error=ENOSPC", "-P", f"{server.folder}/up"]
        tracer = subprocess.Popen([*words, "-p", str(server.process.pid)], stderr=subprocess.DEVNULL)
        until(lambda: is_traced(server), "the tracer")
        client = Client(server)
        data = client.passive()
        client.says("STOR up", "150 Opening data connection")
        data.socket.sendall(b"new")
        data.close()
        client.says(None, "451 Local fault")
        client.quit()
        tracer.wait(10)
        server.ended()
        want(any(it.startswith('not received whole "/up"') for it in server.notes_made()), f"the notes: {server.noted()}")
        with open(f"{server.place}/log", encoding="ascii") as it:
            want(it.read().endswith(" i\n"), "the line of the transfer log")


def a_page_with_silent_clients():
    """A hundred silent connections delay nobody who asks for the page."""
    port = PORTS_TO_HAND_OUT.take(1)
    with Server(sessions=0, stop=True, words=["--status-port", str(port)]) as server:
        with contextlib.ExitStack() as silent:
            for _ in range(100):
                silent.enter_context(socket.create_connection(("127.0.0.1", port)))
            until(lambda: asked(port).startswith(b"HTTP/1.1 200 OK\r\n"), "the first status")
            begun = time.monotonic()
            for _ in range(5):
                text = asked(port)
                want(text.startswith(b"HTTP/1.1 200 OK\r\n"), text[:100])
                want(re.search(rb"\r\ndate: [A-Z][a-z]{2}, \d\d [A-Z][a-z]{2} \d{4} \d\d:\d\d:\d\d GMT\r\n", text), text[:400])
            in_time(begun, 2, "five answers")
            ends(server)


def asked(port):
    """The answer to a request for the status."""
    with socket.create_connection(("127.0.0.1", port), 10) as it:
        it.sendall(f"GET /status.json HTTP/1.1\r\nHost: 127.0.0.1:{port}\r\n\r\n".encode())
        pieces = []
        with contextlib.suppress(ConnectionResetError):
            while piece := it.recv(65536):
                pieces.append(piece)
        return b"".join(pieces)


ROWS = [
    an_address_that_is_gone,
    a_process_without_descriptors,
    a_failed_start_with_a_page,
    a_configuration_that_is_a_pipe,
    a_configuration_that_hangs,
    a_status_that_hangs,
    a_status_path_that_is_a_pipe,
    a_transfer_log_that_is_a_pipe,
    a_transfer_log_that_hangs,
    a_terminal_that_nobody_reads,
    what_the_end_waits_for,
    files_on_the_device,
    a_close_that_fails,
    a_page_with_silent_clients,
]
