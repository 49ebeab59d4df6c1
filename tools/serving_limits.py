"""What bounds a client, and what the machine refuses: rows of `tools/serving`, each with servers of its own."""
import contextlib
import os
import re
import resource
import select
import shutil
import signal
import socket
import subprocess
import tempfile
import time

from serving_kit import SECONDS, SERVER, Client, Server, in_time, is_free, same, until, want

MUCH = 24_000_000
# A time limit of the server in these rows, in seconds.
SOON = 1


def greeted_at(server):
    client = Client(server, name=None)
    client.says(None, "220 Ready")
    return client


def is_served(server):
    """Whether a client is let in, reads a file and leaves."""
    with contextlib.suppress(Exception):
        client = Client(server, tries=100)
        same(client.retrieve("f"), b"a\nb", "the file")
        client.quit()
        return True
    return False


def places_bound_threads_and_files():
    """Clients that send QUIT and do not close hold no more threads and sockets than there are places, and none for long."""
    most = 8
    with Server(sessions=0, server=f"max_cons = {most}", stop=True) as server:
        at_rest, files_at_rest = server.threads(), server.open_files()
        threads, files, left = [], [], []
        for _ in range(300):
            it = socket.create_connection(("127.0.0.1", server.port), SECONDS)
            it.sendall(b"QUIT\r\n")
            left.append(it)
            threads.append(server.threads())
            files.append(server.open_files())
        # (a thread may be about to end whose place is free already, and a client that is turned away has a socket)
        want(max(threads) <= at_rest + most + 2, f"threads: {max(threads)} of {at_rest} and {most}")
        want(max(files) <= files_at_rest + most + 2, f"open files: {max(files)} of {files_at_rest} and {most}")
        until(lambda: is_served(server), "a place, while they are still open")
        until(lambda: server.threads() == at_rest and server.open_files() == files_at_rest, "rest")
        for it in left:
            it.close()
        server.stop()
        server.ended()


def a_stopped_process_goes_on():
    """A process that is stopped and continued, also several times in one call, keeps its transfers: one that waits for octets, and one that waits for its reader."""
    with Server(sessions=2, root="folder", files={"big": MUCH}) as server:
        storing, reading = Client(server), Client(server)
        upload = storing.passive()
        storing.says("STOR up", "150 Opening data connection")
        download = reading.passive(room=4096)
        reading.says("RETR big", "150 Opening data connection")
        octets = [download.read()]
        for number in range(8):
            if number % 4 == 0:
                upload.socket.sendall(b"u" * 4000)
            server.process.send_signal(signal.SIGSTOP)
            until(lambda: is_stopped(server.process.pid), "the stop")
            server.process.send_signal(signal.SIGCONT)
            octets.append(download.read())
        upload.close()
        storing.says(None, "226 Transfer complete")
        same(sum(map(len, octets)) + len(download.whole()), MUCH, "octets of the download")
        reading.says(None, "226 Transfer complete")
        same(storing.length_of("up"), 8000, "octets of the upload")
        storing.quit()
        reading.quit()
        server.ended()


def is_stopped(process):
    with open(f"/proc/{process}/stat", encoding="ascii", errors="replace") as it:
        return it.read().rpartition(")")[2].split()[0] == "T"


def a_stop_without_files():
    """The stop file ends a server that has no file left to open."""
    with Server(sessions=0, root="folder", files={"f": b"a\nb"}, stop=True) as server:
        clients = [Client(server) for _ in range(3)]
        for _ in range(2):
            files = server.open_files()
            resource.prlimit(server.process.pid, resource.RLIMIT_NOFILE, (files, files))
        server.stop()
        for client in clients:
            client.says(None, "421 Server is ending")
            client.at_end()
        server.ended()


def few_files_are_noted():
    """Too few open files are warned of at the start, by the soft limit alone; connections that find none are noted once a second, and a port that finds none."""
    with Server(sessions=0, root="folder", files={"f": b"a\nb"}, server="max_cons = 100", passive=100, stop=True, before="ulimit -S -n 200") as server:
        hard = resource.prlimit(server.process.pid, resource.RLIMIT_NOFILE)[1]
        want(hard >= 616, f"the hard limit: {hard}")
        until(lambda: re.search(r"^\[WARN \] \S+Z too few open files are allowed: 200 of the 616 ", server.noted()), "a warning of the start")
        clients = [Client(server) for _ in range(3)]
        files = server.open_files()
        resource.prlimit(server.process.pid, resource.RLIMIT_NOFILE, (files, hard))
        clients[0].says("PASV", "425 No passive port is free")
        until(lambda: ' #0 no passive port: Too many open files (os error 24)\n' in server.noted(), "a note of the port")
        begun = time.monotonic()
        late = [socket.create_connection(("127.0.0.1", server.port), SECONDS) for _ in range(4)]
        note = "connections cannot be accepted: Too many open files (os error 24)\n"
        until(lambda: server.noted().count(note) >= 2, "two notes of it")
        want(server.noted().count(note) <= time.monotonic() - begun + 1, f"more than a note a second: {server.noted()!r}")
        for it in [*clients, *late]:
            it.close()
        resource.prlimit(server.process.pid, resource.RLIMIT_NOFILE, (200, hard))
        until(lambda: is_served(server), "a client that is served")
        server.stop()
        server.ended()


def a_limit_of_file_sizes():
    """Where a file may not grow further, and the signal of it is ignored as the unit does it, the upload ends with 451 and all goes on."""
    with Server(sessions=0, root="folder", files={"f": b"a\nb"}, stop=True, before='trap "" XFSZ; ulimit -f 200') as server:
        client = Client(server)
        data = client.passive()
        client.says("STOR up", "150 Opening data connection")
        with contextlib.suppress(OSError):
            data.socket.sendall(b"u" * 1_000_000)
        client.says(None, "451 Local fault")
        data.close()
        same(client.retrieve("f"), b"a\nb", "another file")
        client.quit()
        server.stop()
        server.ended()
        want('not received whole "/up": the file could not be read or written: File too large (os error 27)' in server.notes_made(), f"a note of it: {server.noted()!r}")


def the_silent_leave():
    """Who does not log in, or gives no sign of life, is told so and makes room; a transfer is a sign of life."""
    words = ["--login-timeout", str(SOON), "--idle-timeout", str(2 * SOON)]
    with Server(sessions=0, root="folder", files={"f": b"a\nb", "big": MUCH}, server="max_cons = 4", stop=True, words=words) as server:
        silent = [greeted_at(server) for _ in range(4)]
        late = Client(server, name=None)
        late.says(None, "421 Too many connections")
        for client in silent:
            client.says(None, "421 Login timed out")
            client.at_end()
        until(lambda: is_served(server), "a place")
        # A name alone is no login, and a wrong password neither.
        named = greeted_at(server)
        named.says("USER ann", "331 Password required")
        named.says("PASS wrong", "530 Login incorrect")
        named.says(None, "421 Login timed out")
        named.at_end()
        idle, reading = Client(server), Client(server)
        download = reading.passive(room=4096)
        reading.says("RETR big", "150 Opening data connection")
        want(download.read(), "some octets")
        begun = time.monotonic()
        idle.says(None, "421 Idle too long")
        idle.at_end()
        until(lambda: time.monotonic() - begun > 4 * SOON, "some time")
        reading.says("NOOP", "200 OK")
        want(len(download.whole()) > 0, "the rest of the file")
        reading.says(None, "226 Transfer complete", "421 Idle too long")
        reading.at_end()
        server.stop()
        server.ended()
        notes = server.notes_made()
        same((notes.count("timed out without a login"), notes.count("timed out without a sign of life")), (5, 2), "notes of it")


def a_logout_begins_the_time_without_a_login():
    """After REIN a client has the time for a login anew, whatever time has passed before: who is silent is told to go at its end, and who logs in again is not."""
    limit = 2
    with Server(sessions=0, stop=True, words=["--login-delay", "0", "--login-timeout", str(limit)]) as server:
        silent, again = Client(server), Client(server)
        # (by now a time that ran on since they came, or since the server began, is over)
        time.sleep(1.5 * limit)
        begun = time.monotonic()
        for client in (silent, again):
            client.says("REIN", "220 Ready")
        again.says("USER ann", "331 Password required")
        again.says("PASS secret", "230 Welcome")
        # (a name alone ends no time without a login)
        silent.says("USER ann", "331 Password required")
        silent.says(None, "421 Login timed out")
        taken = time.monotonic() - begun
        want(taken >= limit, f"the end of a client after {taken:.2f} seconds, and not {limit}")
        in_time(begun, 2 * limit, "the end of a client that has not logged in again")
        silent.at_end()
        again.says("NOOP", "200 OK")
        again.quit()
        server.stop()
        server.ended()
        same(server.notes_made().count("timed out without a login"), 1, "notes of it")


def a_clock_of_the_wall_that_jumps():
    """Where each look at the clock of the wall is an hour early or an hour late, nobody is told to go, a rate is kept, and the next reload is taken."""
    if not shutil.which("rustc"):
        print("a_clock_of_the_wall_that_jumps: rustc is not at hand, so this row is left out")
        return
    words = ["--login-timeout", "600", "--idle-timeout", "600", "--transfer-log", "log"]
    with tempfile.TemporaryDirectory() as room:
        library = f"{room}/moving.so"
        made = ["rustc", "--edition", "2021", "-O", "-C", "panic=abort", "--crate-type", "cdylib", "-o", library, f"{os.path.dirname(os.path.abspath(__file__))}/moving.rs"]
        subprocess.run(made, check=True)
        with Server(sessions=0, root="folder", files={"big": 300_000}, server="rate = 100000", stop=True, reload=True, words=words, before=f"export LD_PRELOAD={library}") as server:
            silent, client = greeted_at(server), Client(server)
            begun = time.monotonic()
            same(len(client.retrieve("big")), 300_000, "the file")
            want(time.monotonic() - begun > 2.5, f"300,000 octets at 100,000 a second: {time.monotonic() - begun:.1f} s")
            in_time(begun, 6, "300,000 octets at 100,000 a second")
            server.reloaded()
            client.says("NOOP", "200 OK")
            silent.says("NOOP", "200 OK")
            server.stop()
            client.says(None, "421 Server is ending")
            server.ended()
            with open(f"{server.place}/log", encoding="ascii") as it:
                line = it.read()
            want(2 <= int(line.split()[5]) <= 20, f"the seconds of the transfer: {line}")


def a_wrong_password_takes_time():
    """The reply to one waits, for its session alone; the stop file ends the wait."""
    with Server(sessions=0, stop=True, words=["--login-delay", "1"]) as server:
        client = greeted_at(server)
        client.says("USER ann", "331 Password required")
        begun = time.monotonic()
        client.send("PASS wrong")
        same(is_served(server), True, "another client")
        client.says(None, "530 Login incorrect")
        want(time.monotonic() - begun > 0.9, "the reply came at once")
        client.close()
        server.stop()
        server.ended()
    with Server(sessions=0, stop=True, words=["--login-delay", "3600"]) as server:
        client = greeted_at(server)
        client.says("USER ann", "331 Password required")
        client.send("PASS wrong")
        until(lambda: 'login failed "ann"' in server.noted(), "the note of it")
        server.stop()
        client.says(None, "530 Login incorrect", "421 Server is ending")
        client.at_end()
        server.ended()


def the_address_of_a_port():
    """A server that listens at all addresses names in 227 the one at which the client arrived; a stated one is named as it is."""
    with Server(sessions=3, server='address = "0.0.0.0"') as server:
        for address in ("127.0.0.1", "127.0.0.2", "127.1.2.3"):
            client = Client(server, name=None, at=address)
            client.says(None, "220 Ready")
            client.says("USER ann", "331 Password required")
            client.says("PASS secret", "230 Welcome")
            client.says("PASV", f"227 Entering Passive Mode ({address.replace('.', ',')},...")
            client.quit()
        server.ended()
    with Server(sessions=1, server='address = "0.0.0.0"\nmasquerade_address = "192.0.2.1"') as server:
        client = Client(server)
        client.says("PASV", "227 Entering Passive Mode (192,0,2,1,...")
        client.quit()
        server.ended()


def reasons_are_noted():
    """The note of a transfer that did not come to its end says why."""
    with Server(sessions=0, root="folder", files={"f": b"a\nb", "big": MUCH}, stop=True) as server:

        def ends(why):
            client = Client(server)
            data = client.passive(room=4096)
            client.says("RETR big", "150 Opening data connection")
            want(data.read(), "some octets")
            why(client, data)

        def aborts(client, data):
            client.says("ABOR", "426 Transfer aborted", "226 Abort done")
            data.close()
            client.quit()

        def resets(client, data):
            data.reset()
            client.says(None, "426 Connection lost")
            client.quit()

        def leaves(client, data):
            client.reset()
            until(lambda: server.noted().count(" disconnect\n") == 3, "the end of its session")
            data.close()

        for why in (aborts, resets, leaves):
            ends(why)
        with socket.socket() as nobody:
            nobody.bind(("127.0.0.1", 0))
            port = nobody.getsockname()[1]
            client = Client(server)
            client.says(f"PORT 127,0,0,1,{port // 256},{port % 256}", "200 OK")
            client.says("RETR f", "150 Opening data connection", "425 No data connection")
            client.quit()

        def stops(client, data):
            server.stop()
            client.says(None, "421 Server is ending")

        ends(stops)
        server.ended()
        notes = server.notes_made(heads=True)
        for one in (
            '127.0.0.1 #\\d not sent whole "/big": aborted by the client',
            r'127.0.0.1 #\d+ not sent whole "/big": the data connection failed: (Connection reset by peer \(os error 104\)|Broken pipe \(os error 32\))',
            '127.0.0.1 #\\d not sent whole "/big": the control connection was lost',
            r"127.0.0.1 #\d+ not sent whole \"/f\": the client's port could not be connected to: Connection refused \(os error 111\)",
            '127.0.0.1 #\\d not sent whole "/big": the server ends',
        ):
            same(sum(bool(re.fullmatch(one, it)) for it in notes), 1, f"notes of {one!r} among {notes}")


def streams_that_are_closed():
    """A server that is started with its three streams closed writes no note into a file of a client."""
    server = Server(sessions=1, root="folder", files={"f": b"a\nb"})
    server.configure()
    words = ["/bin/sh", "-c", 'exec "$@" 0<&- 1>&- 2>&-', "sh", SERVER, "serve", "ftpd.toml"]
    with open(f"{server.place}/notes", "wb+") as server.notes, open(f"{server.place}/output", "wb+") as server.output:
        server.process = subprocess.Popen(words, cwd=server.place, env={})
        try:
            until(lambda: not is_free(server.port), "the port")
            client = Client(server)
            same(client.retrieve("f"), b"a\nb", "the file")
            for number in range(3):
                client.store(f"up{number}", b"u" * 1000)
            client.says("CWD nowhere", "550 No such file or directory")
            client.quit()
            until(lambda: server.process.poll() is not None, "the server's end")
            same(server.process.returncode, 0, "its status")
            for number in range(3):
                same(server.get(f"up{number}"), b"u" * 1000, "an upload")
        finally:
            server.__exit__(None, None, None)


def a_start_that_fails_says_why():
    """A port that is taken or not to be had: the line above the fault's name has the address, and the machine's reason."""
    server = Server()
    server.configure()
    with socket.create_server(("127.0.0.1", server.port)):
        status, output, noted = server.run()
    want(re.fullmatch(rf"\[WARN \] \S+Z cannot listen on 127\.0\.0\.1:{server.port}: Address already in use \(os error 98\)\nftpd: Bind\n", noted), f"what it noted: {noted!r}")
    same((status, output), (1, ""), "its end")
    server = Server(server='address = "192.0.2.1"')
    status, output, noted = server.run()
    want(re.fullmatch(rf"\[WARN \] \S+Z cannot listen on 192\.0\.2\.1:{server.port}: Cannot assign requested address \(os error 99\)\nftpd: Bind\n", noted), f"what it noted: {noted!r}")
    same((status, output), (1, ""), "its end")


def a_ready_file_is_there_while_it_serves():
    """It is made once clients may connect, empty, and is gone at the end; a start that fails makes none."""
    with Server(sessions=0, root="folder", files={"f": b"a\nb"}, stop=True, words=["--ready-file", "ready"]) as server:
        ready = f"{server.place}/ready"
        same(os.stat(ready).st_size, 0, "the ready file's size")
        want(is_served(server), "a client is served")
        want(os.path.exists(ready), "the ready file is there")
        server.stop()
        server.ended()
        want(not os.path.exists(ready), "the ready file is gone")
    server = Server(words=["--ready-file", "ready"])
    server.configure()
    with socket.create_server(("127.0.0.1", server.port)):
        status, output, noted = server.run()
    same((status, output, noted.splitlines()[-1]), (1, "", "ftpd: Bind"), "the end of a start at a port that is taken")
    want(not os.path.exists(f"{server.place}/ready"), "no ready file was made")


def a_guaranteed_transfer_goes_first():
    """Where transfers wait for a lane, that of a user with a guarantee goes before those that have waited longer."""
    with Server(sessions=0, root="folder", files={"big": MUCH}, server="rate = 100_000_000\nlanes = 1", rates="session_down_floor = 1_000", stop=True) as server:
        others = [Client(server, "bob", "b") for _ in range(3)]
        stalled = []
        for client in others:
            stalled.append(client.passive(room=4096))
            client.says("RETR big", "150 Opening data connection")
        # (the first to ask need not be the first to be taken)
        taken, _, _ = select.select([it.socket for it in stalled], [], [], SECONDS)
        want(taken, "octets of whoever has the lane")
        ann = Client(server)
        data = ann.passive()
        ann.says("LIST", "150 Opening data connection")
        # (those before her would hold the lane for as long as nobody reads)
        taken[0].close()
        want(b"big" in data.whole(), "her listing")
        ann.says(None, "226 Transfer complete")
        ann.quit()
        for one in others:
            one.close()
        server.stop()
        server.ended()


ROWS = [
    places_bound_threads_and_files,
    a_guaranteed_transfer_goes_first,
    a_stopped_process_goes_on,
    a_stop_without_files,
    few_files_are_noted,
    a_limit_of_file_sizes,
    the_silent_leave,
    a_logout_begins_the_time_without_a_login,
    a_clock_of_the_wall_that_jumps,
    a_wrong_password_takes_time,
    the_address_of_a_port,
    reasons_are_noted,
    streams_that_are_closed,
    a_start_that_fails_says_why,
    a_ready_file_is_there_while_it_serves,
]
