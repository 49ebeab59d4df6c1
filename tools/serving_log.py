"""Rows of `tools/serving` on notes and on the transfer log: readers that stop, forms and levels, a file that is moved away."""
import fcntl
import os
import re
import resource
import select
import signal
import subprocess
import time

import xferlog_reading
from serving_kit import PORTS_TO_HAND_OUT, SERVER, TOP, Client, Data, Server, in_time, same, until, want

COUNT = re.compile(r"\[WARN \] lines dropped: (\d+)")
# A name that is noted in some 1,200 octets, so that a pipe is full after few lines.
LONG = "\u200b" * 150
# The user of a note, with the octets and the seconds of a transfer.
AMOUNTS = r': user "ann".*'
# The most octets of a pipe that the rows make small.
PIPE = 4096


class Piped(Server):
    """A server whose notes go to a pipe that is read only when a row wants it."""

    def begin_again(self):
        reader, writer = os.pipe()
        fcntl.fcntl(writer, fcntl.F_SETPIPE_SZ, PIPE)
        self.reader, self.text = reader, None
        self.read = b""
        self.output = open(f"{self.place}/output", "wb+")
        self.notes = open(f"{self.place}/notes", "wb+")
        self.process = subprocess.Popen([SERVER, "serve", "ftpd.toml", *self.words], cwd=self.place, stdin=subprocess.DEVNULL, stdout=self.output, stderr=writer, env={})
        os.close(writer)
        until(lambda: self.told().startswith("ready\n") or self.process.poll() is not None, "ready")

    def read_some(self, seconds=0.05):
        """Reads what there is. Returns whether there may be more."""
        while select.select([self.reader], [], [], seconds)[0]:
            piece = os.read(self.reader, 65536)
            if not piece:
                return False
            self.read += piece
        return True

    def lines(self):
        want(self.read.endswith(b"\n") or not self.read, "a line was cut")
        return [it for it in self.read.decode().splitlines() if " configuration: " not in it]

    def __exit__(self, kind, fault, trace):
        os.close(self.reader)
        super().__exit__(kind, fault, trace)


def failed(server, first, count):
    """Logs in wrongly, so many times, under long names with numbers; returns the number of notes."""
    made = 0
    while made < count:
        client = Client(server, None)
        client.says(None, "220 Ready")
        for _ in range(3):
            client.says(f"USER {first + made}-{LONG}", "331 Password required")
            client.send("PASS wrong")
            client.line()
            made += 1
        client.socket.close()
    # (its session has a note as it comes, as it is refused, and as it leaves)
    return made, made + 3 * (made // 3)


def numbers_in(lines):
    return [int(it) for it in re.findall(r'login failed "(\d+)-', "\n".join(lines))]


def a_reader_that_stops_for_a_while():
    """Sessions go on while nobody reads; then each note is there, in its order, or counted."""
    with Piped(sessions=0, stop=True) as server:
        made, notes = failed(server, 0, 1200)
        # the sessions went on, and nothing of theirs was waited for
        while server.read_some(0.5) and not COUNT.search(server.read.decode()):
            pass
        more, later = failed(server, made, 30)
        until(lambda: server.read_some(0.05) and f'"{made + more - 1}-'.encode() in server.read, "the last note")
        server.stop()
        while server.read_some(1):
            pass
        server.ended()
        lines = server.lines()
        counted = [int(it) for it in COUNT.findall("\n".join(lines))]
        same(len(lines) - len(counted) + sum(counted), notes + later, "notes that were written or counted")
        want(len(counted) >= 1 and counted[0] > 100, f"the counts: {counted}")
        found = numbers_in(lines)
        same(found, sorted(set(found)), "the order of the notes")
        want(set(range(made, made + more)) <= set(found), "the notes after the reader went on")


def a_reader_that_stops_for_good():
    """The stop file ends a server whose notes nobody reads."""
    with Piped(sessions=0, stop=True) as server:
        failed(server, 0, 60)
        begun = time.monotonic()
        server.stop()
        server.ended()
        in_time(begun, 4, "the end")


def a_reader_that_is_gone():
    """A server whose notes have no reader any more serves, and ends."""
    with Piped(sessions=0, stop=True) as server:
        os.dup2(os.open(os.devnull, os.O_RDONLY), server.reader)
        failed(server, 0, 30)
        server.stop()
        server.ended()


def notes_name_their_session():
    """Each note has the address of its own client and the number of its own connection, of whatever it is, also of who came meanwhile."""
    words = ["--login-delay", "0", "--transfer-log", "log"]
    with Server(sessions=3, root="folder", files={"f": b"a\nb"}, words=words) as server:
        first, second = Client(server), Client(server, source="127.0.0.2")
        for client, source in ((second, "127.0.0.2"), (first, "127.0.0.1")):
            for verb in ("RETR f", "LIST"):
                data = Data(client.passive_port(), source=source)
                client.says(verb, "150 Opening data connection")
                data.whole()
                client.says(None, "226 Transfer complete")
            client.says(f"MKD of-{source}", f'257 "/of-{source}"')
        third = Client(server, None, source="127.0.0.3")
        third.says(None, "220 Ready")
        for reply in ("530 Login incorrect", "530 Login incorrect", "421 Too many login attempts"):
            third.says("USER ann", "331 Password required")
            third.says("PASS wrong", reply)
        third.at_end()
        for client in (second, first):
            client.quit()
        server.ended()
        notes = server.noted().splitlines()
        for number, address in enumerate(("127.0.0.1", "127.0.0.2")):
            own = [it.split(" ", 5)[5] for it in notes if f" {address} #{number} " in it]
            wanted = ["connect", 'login "ann"', 'sent "/f"', "listed", f'made directory "/of-{address}"', 'logout "ann"', "disconnect"]
            same([re.sub(AMOUNTS, "", it) for it in own], wanted, f"the notes of {address}")
        own = [it.split(" ", 5)[5] for it in notes if " 127.0.0.3 #2 " in it]
        wrong = 'login failed "ann"'
        same(own, ["connect", wrong, wrong, "refused: too many login attempts", wrong, "disconnect"], "the notes of who was refused")
        same(len(notes), 20, "the number of notes")
        with open(f"{server.place}/log", encoding="ascii") as log:
            same([line.split()[6] for line in log], ["127.0.0.2", "127.0.0.1"], "the addresses in the transfer log")


def notes_for_the_journal():
    """Each line begins with its priority and has no time; a name cannot begin a line."""
    with Server(stop=True, sessions=0, words=["--login-delay", "0", "--log-form", "journal"]) as server:
        client = Client(server, None)
        client.says(None, "220 Ready")
        client.says("USER x\u2028<6>127.0.0.1 #0 login", "331 Password required")
        client.send("PASS wrong")
        client.line()
        client.socket.close()
        server.stop()
        server.ended()
        wanted = ["<6>127.0.0.1 #0 connect", '<4>127.0.0.1 #0 login failed "x\\u{2028}<6>127.0.0.1 #0 login"', "<6>127.0.0.1 #0 disconnect"]
        same([it for it in server.noted().splitlines() if not it.startswith("<4>configuration: ")], wanted, "the notes")


def logs_that_cannot_be_had():
    """A form that is none, and a transfer log whose folder is not there, end a start."""
    status, output, noted = Server(words=["--log-form", "xml"]).run()
    same((status, output, noted), (1, "", '"xml" is no form of notes: plain and journal are\nftpd: LogForm\n'), "a form of no name")
    status, output, noted = Server(words=["--transfer-log", "gone/log"]).run()
    wanted = "the transfer log gone/log could not be opened: No such file or directory (os error 2)\nftpd: TransferLog\n"
    same((status, output, noted), (1, "", wanted), "a log without a folder")


def commands_that_are_declined():
    """A command that is refused for its path, its letters or what is there is noted, with its user, directory and reply, at a level of its own, also where it was sent ahead; one that is refused otherwise is not, and no password is."""
    with Server(sessions=0, root="folder", files={"f": b"a\nb", "in": None}, stop=True) as server:
        client = Client(server, "bob", "b")
        client.says("CWD nowhere", "550 No such file or directory")
        client.says("DELE x y", "550 Not permitted")
        client.says("USER ann", "331 Password required")
        client.says("PASS secret", "230 Welcome")
        client.says("CWD in", "250 Directory changed")
        client.says("TYPE A", "200 ...")
        client.says("SIZE f", "550 SIZE needs TYPE I")
        client.says("RNTO g", "503 Send RNFR first")
        client.says("CWD \u202ea", "550 No such file or directory")
        data = client.passive()
        client.send("LIST\r\nMDTM gone")
        data.whole()
        client.says(None, "150 Opening data connection", "226 Transfer complete", "550 No such file or directory")
        client.says("USER ann", "331 Password required")
        client.says("PASS wrong", "530 Login incorrect")
        client.quit()
        server.stop()
        server.ended()
        found = [it.split(" ", 4) for it in server.all_noted().splitlines() if " declined " in it]
        same({it[0] for it in found}, {"[DEBUG]"}, "levels")
        same([it[4] for it in found], [
            'declined "CWD nowhere": user "bob", in "/": 550 No such file or directory',
            'declined "DELE x y": user "bob", in "/": 550 Not permitted',
            'declined "CWD \\u{202e}a": user "ann", in "/in": 550 No such file or directory',
            'declined "MDTM gone": user "ann", in "/in": 550 No such file or directory',
        ], "the notes")
        want("wrong" not in server.all_noted(), "a password is noted")


def a_transfer_log_that_is_moved():
    """Each file that was sent or received has a line, whenever the log is moved away, and their octets are those moved."""
    with Server(sessions=0, root="folder", files={"a b": b"x" * 1000}, stop=True, words=["--login-delay", "0", "--transfer-log", "xferlog"]) as server:
        first, second = Client(server), Client(server)
        for turn in range(40):
            same(len(first.retrieve("a b")), 1000, "the octets of a file")
            second.store("up", b"y" * 7)
            if turn % 10 == 5:
                os.rename(f"{server.place}/xferlog", f"{server.place}/xferlog.{turn}")
        first.socket.close()
        second.socket.close()
        server.stop()
        _, moved, _ = server.ended()
        found = []
        for name in sorted(os.listdir(server.place)):
            if name.startswith("xferlog"):
                with open(f"{server.place}/{name}", encoding="utf-8") as log:
                    found += xferlog_reading.read_text(log.read())
        same(len(found), 80, "the lines of the log")
        same(sum(it.octets for it in found), moved, "the octets of all lines")
        told = {(it.path, it.octets, it.type, it.direction, it.access, it.user, it.host, it.status) for it in found}
        same(told, {("/a_b", 1000, "b", "o", "r", "ann", "127.0.0.1", "c"), ("/up", 7, "b", "i", "r", "ann", "127.0.0.1", "c")}, "the lines")


def a_transfer_log_that_takes_nothing():
    """That it takes nothing is noted at once, and once. Lines that are left at the end are counted in the last note, and the server ends with a fault after its settled line."""
    unwritten = '[WARN ] the transfer log "/dev/full" cannot be written: No space left on device (os error 28)'
    with Server(sessions=0, root="folder", files={"f": b"x"}, stop=True, words=["--transfer-log", "/dev/full"]) as server:
        client = Client(server)
        client.retrieve("f")
        until(lambda: unwritten in server.noted().splitlines(), "the note of a log that takes nothing")
        for _ in range(2):
            client.retrieve("f")
        client.quit()
        server.stop()
        server.ended(status=1)
        same(server.noted().splitlines().count(unwritten), 1, "the notes of it")
        same(server.noted().splitlines()[-2:], ["[WARN ] lines of the transfer log dropped: 3", "ftpd: TransferLog"], "the last lines")


def a_transfer_log_that_fills_its_disk():
    """The line that has begun in a file that takes no more is begun anew, once that file is moved away. That it takes no more is noted once."""
    unwritten = '[WARN ] the transfer log "xferlog" cannot be written: File too large (os error 27)'
    server = Server(sessions=0, root="folder", files={"f": b"x"}, stop=True, before='trap "" XFSZ', words=["--transfer-log", "xferlog"])
    path, line = f"{server.place}/xferlog", "Thu Nov 26 15:04:45 2026 2 127.0.0.1 6 /a_b.txt b _ o r ann ftp 0 * c\n"
    with open(path, "w", encoding="utf-8") as log:
        log.write(line * 10_000)
    most = len(line) * 10_000 + 100
    with server:
        resource.prlimit(server.process.pid, resource.RLIMIT_FSIZE, (most, resource.RLIM_INFINITY))
        client = Client(server)
        for _ in range(3):
            client.retrieve("f")
        until(lambda: os.path.getsize(path) == most, "a log that takes no more")
        until(lambda: unwritten in server.noted().splitlines(), "its note")
        os.rename(path, f"{path}.1")
        until(lambda: os.path.exists(path) and os.path.getsize(path) > 100, "a new log")
        client.quit()
        server.stop()
        server.ended()
        same(server.noted().splitlines().count(unwritten), 1, "the notes of a log that takes no more")
        with open(path, encoding="utf-8") as log:
            same([it.path for it in xferlog_reading.read_text(log.read())], ["/f", "/f"], "its lines")
        with open(f"{path}.1", encoding="utf-8") as log:
            same(log.read().count("\n"), 10_001, "the whole lines of the old log")


def warnings_of_a_configuration():
    """What is accepted and has no use is noted at the start, in the words of check-config: the control port among passive ones, guarantees that do not fit together, and names that nobody gives."""
    first = PORTS_TO_HAND_OUT.take(9)
    head = f'version = 2\n[server]\nroot = "memory"\nport = {first + 4}\npassive_first = {first}\npassive_last = {first + 8}\nmax_cons = 8\nlanes = 8\nup_rate = 1000\n'
    users = "".join(f'[[user]]\nname = "{name}"\npassword = "secret"\nhome = "/"\nsession_up_floor = 400\n' for name in ("", "bob ", " carol"))
    wanted = [
        f"port {first + 4} is that of control connections and among the passive ports, {first} to {first + 8}: no client is told it",
        "a session of each user is guaranteed 1200 up in all, and the rate is 1000: not all of them can be logged in at once",
        "the name of a user is empty, so nobody can log in by it",
        "user bob : the name begins or ends with a blank",
        "user  carol: the name begins or ends with a blank",
    ]
    with Server(text=head + users, port=first + 4, stop=True) as server:
        # (a thread of its own writes them)
        until(lambda: len(server.warned()) == len(wanted), "the notes")
        same(server.warned(), wanted, "the notes")
        found = subprocess.run([SERVER, "check-config", "ftpd.toml"], cwd=server.place, capture_output=True, text=True)
        same([it.removeprefix("warning: ") for it in found.stdout.splitlines() if it.startswith("warning: ")], wanted, "the warnings of check-config")
        server.stop()
        server.ended()


def shown(heading):
    """The lines that docs/server.md shows below a bold heading, up to the next one."""
    with open(f"{TOP}/docs/server.md", encoding="utf-8") as page:
        part = page.read().partition(f"**{heading}**")[2].partition("\n**")[0]
    return "\n".join(it[4:] for it in part.split("\n") if it.startswith("    "))


def a_program_after_each_upload():
    """The commands of docs/server.md run a program after each upload that came whole, with its path, also once the log was moved away, and after no other transfer."""
    with Server(sessions=0, root="folder", files={"f": b"x"}, stop=True, words=["--transfer-log", "xferlog"]) as server:
        words, seen = shown("A program after each upload").replace("/var/log/ftpd/", "").replace("/srv/ftp", "files"), f"{server.place}/seen"
        with open(f"{server.place}/after-upload", "w", encoding="utf-8") as it:
            it.write(f'#!/bin/sh\necho "$1" >>{seen}\n')
        os.chmod(f"{server.place}/after-upload", 0o700)
        follower = subprocess.Popen(["/bin/sh", "-c", words], cwd=server.place, start_new_session=True, env={"PATH": f"{server.place}:{os.environ['PATH']}"})
        try:
            client = Client(server)
            # (it follows the log from its end on, once it has begun)
            until(lambda: client.store("first", b"x") or os.path.exists(seen), "the program after an upload")
            client.retrieve("f")
            data = client.passive()
            client.says("STOR part", "150 Opening data connection")
            data.socket.sendall(b"x")
            client.says("ABOR", "426 Transfer aborted", "226 Abort done")
            os.rename(f"{server.place}/xferlog", f"{server.place}/xferlog.1")
            client.store("after this", b"x")
            until(lambda: "files/after_this\n" in open(seen, encoding="utf-8"), "the program after the last upload")
            with open(seen, encoding="utf-8") as it:
                same(set(it), {"files/first\n", "files/after_this\n"}, "the uploads")
            data.close()
            client.quit()
            server.stop()
            server.ended()
        finally:
            os.killpg(follower.pid, signal.SIGKILL)
            follower.wait()


def a_stop_file_that_cannot_be_seen():
    """A path at which nothing can be looked for any more is noted once, and the file is seen once it can."""
    server = Server(sessions=0, words=["--stop-file", "signs/stop"])
    folder = f"{server.place}/signs"
    os.mkdir(folder)
    note = '[WARN ] the file "signs/stop" cannot be examined: Not a directory (os error 20)\n'
    with server:
        os.rename(folder, f"{folder}.gone")
        with open(folder, "w", encoding="utf-8"):
            pass
        until(lambda: note in server.noted(), "a note of it")
        time.sleep(0.5)
        same(server.noted().count(note), 1, "its notes")
        os.remove(folder)
        os.rename(f"{folder}.gone", folder)
        with open(f"{folder}/stop", "w", encoding="utf-8"):
            pass
        server.ended()


def transfers_have_their_amounts():
    """A note of a file has its user, its octets and its seconds, also if it was aborted."""
    with Server(sessions=0, root="folder", files={"f": b"abc", "big": 100_000_000}, stop=True, rates="session_down_rate = 100_000") as server:
        client = Client(server)
        client.retrieve("f")
        data = client.passive()
        client.says("RETR big", "150 Opening data connection")
        want(data.read(), "some octets")
        client.says("ABOR", "426 Transfer aborted", "226 Abort done")
        until(lambda: '"/big"' in server.noted(), "the note of the file that was aborted")
        client.socket.close()
        server.stop()
        _, moved, _ = server.ended()
        found = re.findall(r'(sent|not sent whole) "(/\w+)": user "ann", (\d+) octets, \d+\.\d{3} s(.*)', server.noted())
        same([(it[0], it[1], it[3]) for it in found], [("sent", "/f", ""), ("not sent whole", "/big", ": aborted by the client")], "the notes of files")
        same(sum(int(it[2]) for it in found), moved, "the octets of all files")


def changes_are_noted():
    """What a session makes, renames and deletes has a note of its own, with its path below the root and its user."""
    users = '[[user]]\nname = "ann"\npassword = "secret"\nhome = "/a"\nperms = "elradfmw"\n'
    with Server(root="folder", files={"a": None, "a/f": b"a"}, users=users) as server:
        client = Client(server)
        client.says("MKD d", '257 "/d"')
        client.says("RNFR f", "350 Send RNTO")
        client.says("RNTO d/g\xe9", "250 Renamed")
        client.says("DELE d/g\xe9", "250 File removed")
        client.says("DELE d/g\xe9", "550 No such file or directory")
        client.says("RMD d", "250 Directory removed")
        client.store("up", b"abc")
        client.quit()
        server.ended()
        wanted = ['made directory "/a/d": user "ann"', 'renamed "/a/f" to "/a/d/gé": user "ann"', 'deleted "/a/d/gé": user "ann"', 'removed directory "/a/d": user "ann"', 'received "/a/up"']
        same([it for it in server.notes_made() if it.partition(" ")[0] in ("made", "renamed", "deleted", "removed", "received")], wanted, "the notes of changes")


def refusals_are_noted():
    """A session that is refused, and a fault of the machine or lack of room, has a warning that says why."""
    with Server(sessions=0, server="max_login_attempts = 1\nup_rate = 1_000", rates="session_up_floor = 1_000", stop=True) as server:
        first = Client(server)
        late = Client(server, None)
        late.says(None, "220 Ready")
        late.says("USER ann", "331 Password required")
        late.says("PASS secret", "421 Guaranteed rate not available")
        guess = Client(server, None)
        guess.says(None, "220 Ready")
        guess.says("USER bob", "331 Password required")
        guess.says("PASS wrong", "421 Too many login attempts")
        first.quit()
        server.stop()
        server.ended()
        lacks = 'refused: the guaranteed rate is not available: user "ann": 2000 octets a second would be guaranteed of the 1000 of server up'
        for one in (lacks, "refused: too many login attempts"):
            want(re.search(rf"^\[WARN \] \S+Z 127.0.0.1 #\d+ {one}$", server.noted(), re.MULTILINE), f"{one}: {server.noted()}")
    with Server(server="capacity = 10") as server:
        client = Client(server)
        data = client.passive()
        client.says("STOR up", "150 Opening data connection")
        data.socket.sendall(b"x" * 100)
        data.close()
        client.says(None, "552 Storage is full")
        client.quit()
        server.ended()
        same(server.notes_made()[2:4], ['the storage is full: user "ann"', 'not received whole "/up": the store refused it at its end'], "the notes of an upload without room")


def errors_of_the_machine_are_noted():
    """A call that the machine refuses has its error in a note; so has a file that cannot be written (`a_limit_of_file_sizes`)."""
    with Server(root="folder") as server:
        client = Client(server)
        # (a file system in which nobody makes a directory)
        os.rmdir(server.folder)
        os.symlink("/sys", server.folder)
        client.says("MKD d", "451 Local fault")
        client.quit()
        server.ended()
        found = re.findall(r'^\[WARN \] \S+Z 127.0.0.1 #0 fault of the machine: user "ann": (\w.*) \(os error \d+\)$', server.noted(), re.MULTILINE)
        want(len(found) == 1, f"the notes: {server.noted()}")


def each_transfer_has_one_line():
    """Of 200 transfers 40 each come to their end, or are ended by ABOR, by their data connection, by their session, and by the server: each has one line, and their octets are those moved."""
    each, big = 40, 200_000_000
    with Server(sessions=0, root="folder", files={"f": b"abc", "big": big}, server=f"lanes = {each}\nmax_cons = {each + 8}", passive=each + 16, stop=True) as server:
        made = 0

        def begun():
            nonlocal made
            client = Client(server)
            data = client.passive(room=4096)
            client.says("RETR big", "150 Opening data connection")
            want(data.read(), "some octets")
            made += 1
            return client, data

        def lines():
            return len(re.findall(r'"/big"', server.noted()))

        for _ in range(each):
            client = Client(server)
            same(client.retrieve("f"), b"abc", "a file")
            client.quit()
            client, data = begun()
            client.says("ABOR", "426 Transfer aborted", "226 Abort done")
            data.close()
            client.quit()
            client, data = begun()
            data.reset()
            client.says(None, "426 Connection lost")
            client.quit()
            client, data = begun()
            client.reset()
            until(lambda: lines() == made, "the line of a lost session's transfer")
            data.close()
        last = [begun() for _ in range(each)]
        server.stop()
        _, moved, _ = server.ended()
        for client, data in last:
            client.socket.close()
            data.close()
        found = re.findall(r'(sent|not sent whole) "/(\w+)": user "ann", (\d+) octets, \d+\.\d{3} s:?(?: (aborted|the data connection|the control connection|the server).*)?', server.noted())
        count = {}
        for words, path, _, why in found:
            count[words, path, why] = count.get((words, path, why), 0) + 1
        part = ("not sent whole", "big")
        wanted = {("sent", "f", ""): each, (*part, "aborted"): each, (*part, "the data connection"): each, (*part, "the control connection"): each, (*part, "the server"): each}
        same(count, wanted, "the lines by their ends")
        same(sum(int(it[2]) for it in found), moved, "the octets of all lines")


ROWS = [
    commands_that_are_declined,
    changes_are_noted,
    refusals_are_noted,
    errors_of_the_machine_are_noted,
    each_transfer_has_one_line,
    a_transfer_log_that_is_moved,
    a_transfer_log_that_takes_nothing,
    a_transfer_log_that_fills_its_disk,
    a_program_after_each_upload,
    a_stop_file_that_cannot_be_seen,
    transfers_have_their_amounts,
    a_reader_that_stops_for_a_while,
    a_reader_that_stops_for_good,
    a_reader_that_is_gone,
    notes_name_their_session,
    notes_for_the_journal,
    logs_that_cannot_be_had,
    warnings_of_a_configuration,
]
