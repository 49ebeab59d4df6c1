"""Servers for rows of `tools/serving`, each with a folder and ports of its own, and clients that talk to them octet by octet.

A wait is for something that happens, in steps of STEP seconds, and at most TRIES of them: nothing is slept over that a slow machine
could outrun. `Refused` says what was wanted and did not happen.
"""
import contextlib
import os
import re
import select
import socket
import struct
import subprocess
import tempfile
import threading
import time

TOP = os.path.dirname(os.path.dirname(os.path.abspath(__file__)))
SERVER = os.environ.get("FTPD", f"{TOP}/crates/ftpd/out/ftpd")
STEP, TRIES = 0.05, 1200
SECONDS = STEP * TRIES
# Below the range from which the machine takes ports for connections that go out.
PORTS = range(10000, 32000)
SETTLED = re.compile(r"ready\nsettled issued (\d+) moved (\d+) back (\d+)\n")
# A note of a warning of the configuration, as a server makes at its start.
WARNING = re.compile(r"^\[WARN \] \S+Z configuration: (.*)\n", re.MULTILINE)
# The head of a note: the time, the peer's address, and the number of the session where it is admitted.
STAMP = re.compile(r"\[(?:INFO |WARN |DEBUG)\] \d{4}-\d\d-\d\dT\d\d:\d\d:\d\dZ (127\.0\.0\.\d+ (#\d+ )?)")
# The user, the octets and the seconds of a transfer, and what held it back if a look of the status met it.
AMOUNT = re.compile(r': user "[^"]*", \d+ octets, \d+\.\d{3} s(?:, held by [^:]* %)?(?:, guarantee of \d+ not met for \d+ s)?')
# The note of a listing.
LISTED = re.compile(r"(127\.0\.0\.\d+ #\d+ )?(not )?listed\b")

USERS = """
[[user]]
name = "ann"
password = "secret"
home = "/"
perms = "elradfmw"
{rates}
[[user]]
name = "bob"
password = "b"
home = "/"
[[user.override]]
path = "/in"
perms = "w"
recursive = true
"""
FILES = """
[[dir]]
path = "/in"
[[file]]
path = "/f"
text = "a\\nb"
modified = 951827696
"""


class Refused(Exception):
    """What was wanted did not happen."""


class Late(Refused):
    """It happened later, or went more slowly, than the pages say: on a busy machine the row is tried once more."""


def want(is_so, what):
    if not is_so:
        raise Refused(what)


def same(found, wanted, what):
    want(found == wanted, f"{what}: {found!r}, wanted {wanted!r}")


# How many times as long a row may take in this thread: more than once only if it is tried once more on a busy machine.
SLACK = threading.local()


def slack():
    return getattr(SLACK, "times", 1)


def in_time(begun, seconds, what):
    """Wants that at most these seconds have passed since a moment: twice those that the pages promise."""
    taken = time.monotonic() - begun
    if taken > seconds * slack():
        raise Late(f"{what}: {taken:.1f} seconds, and not {seconds}")


def near(found, wanted, most, what):
    """Wants a number that is at most so far from what is wanted. Fewer octets than a rate gives may be the machine's fault, more are not."""
    want(found <= wanted + most, f"{what}: {found}, wanted {wanted}")
    if found < (wanted - most) / slack():
        raise Late(f"{what}: {found}, wanted {wanted}")


def is_unread(data):
    """Whether a data connection is closed without an octet."""
    try:
        return data.whole() == b""
    except ConnectionResetError:
        return True


def until(is_so, what, tries=TRIES):
    """Looks until it is so."""
    for _ in range(tries):
        if is_so():
            return
        time.sleep(STEP)
    raise Refused(f"waited in vain: {what}")


def wait_for(connection, what, tries=TRIES):
    """Waits until something can be read of a connection."""
    eye = select.poll()
    eye.register(connection, select.POLLIN)
    for _ in range(tries):
        if eye.poll(STEP * 1000):
            return
    raise Refused(f"waited in vain: {what}")


class Ports:
    """Hands out ports that nothing listens on, no port twice until all were handed out."""

    def __init__(self):
        self.lock = threading.Lock()
        self.next = PORTS[os.getpid() * 97 % len(PORTS)]

    def take(self, count):
        with self.lock:
            for _ in range(len(PORTS)):
                first = self.next if self.next + count <= PORTS.stop else PORTS.start
                self.next = first + count
                if all(map(is_free, range(first, first + count))):
                    return first
        raise Refused("no free ports")


def is_free(port):
    with socket.socket() as one:
        one.setsockopt(socket.SOL_SOCKET, socket.SO_REUSEADDR, 1)
        try:
            one.bind(("127.0.0.1", port))
            return True
        except OSError:
            return False


PORTS_TO_HAND_OUT = Ports()


class Server:
    """A server in a folder of its own. Whoever leaves it has to have ended it, or else it is killed.

    `root` is "memory", or "folder" for a fresh one of these `files`: each a path with its octets, a length of zeros, or None for a
    directory. `server` are more lines of its table, `rates` more lines of ann's. With `stop` it has a stop file, `stop`, and
    with `drain` and `reload` a drain file and a reload file of these names. In place of all this there may be the whole `text` of its configuration, with its port. `words` are more words of its command line, of which `started` may be its ready file, `before`
    is what the shell does that starts it, and `mode` are the permission bits of its configuration.
    """

    def __init__(self, sessions=1, root="memory", files=None, server="", rates="", users=USERS, stop=False, drain=False, reload=False, passive=8, text=None, port=None, words=None, before=None, mode=0o600):
        self.room = tempfile.TemporaryDirectory(prefix="ftpd-serving-")
        self.place = self.room.name
        self.folder = f"{self.place}/files" if root == "folder" else None
        self.sessions, self.server, self.passive, self.text = sessions, server, passive, text
        self.tables = users.format(rates=rates) + ("" if self.folder else FILES)
        signs = [*(["--stop-file", "stop"] if stop else []), *(["--drain-file", "drain"] if drain else []), *(["--reload-file", "reload"] if reload else [])]
        self.words = [*signs, *(["--login-delay", "0"] if words is None else words)]
        self.before, self.mode = before, mode
        self.process, self.port, self.own_counters = None, port, 0
        if self.folder:
            os.mkdir(self.folder)
            for path, octets in (files or {}).items():
                self.put(path, octets)

    def put(self, path, octets):
        if octets is None:
            os.mkdir(f"{self.folder}/{path}")
            return
        with open(f"{self.folder}/{path}", "wb") as it:
            if isinstance(octets, int):
                it.truncate(octets)
            else:
                it.write(octets)

    def get(self, path):
        with open(f"{self.folder}/{path}", "rb") as it:
            return it.read()

    def configure(self):
        with open(f"{self.place}/ftpd.toml", "w") as it:
            os.chmod(it.fileno(), self.mode)
            it.write(self.text or self.made_text())

    def made_text(self):
        self.port = PORTS_TO_HAND_OUT.take(self.passive + 1)
        head = f'version = 1\n[server]\nroot = "{self.folder or "memory"}"\nport = {self.port}\nsessions = {self.sessions}\n'
        ports = f"passive_first = {self.port + 1}\npassive_last = {self.port + self.passive}\n"
        return f"{head}{ports}{self.server}\n{self.tables}"

    def begin(self):
        self.configure()
        self.begin_again()

    def begin_again(self):
        self.notes = open(f"{self.place}/notes", "wb+")
        self.output = open(f"{self.place}/output", "wb+")
        words = ["/bin/sh", "-c", f'{self.before}; exec "$@"', "sh"] if self.before else []
        words += [SERVER, "serve", "ftpd.toml", *self.words]
        self.process = subprocess.Popen(words, cwd=self.place, stdin=subprocess.DEVNULL, stdout=self.output, stderr=self.notes, env={})
        until(lambda: self.told().startswith("ready\n") or os.path.exists(f"{self.place}/started") or self.process.poll() is not None, "ready")
        self.own_counters = self.counters()

    def __enter__(self):
        for _ in range(5):
            self.begin()
            # (another program may have taken the port meanwhile)
            if self.process.poll() is None or "Bind" not in self.noted():
                break
        want(self.process.poll() is None, f"it ended at once: {self.noted()}")
        return self

    def run(self, stdout=subprocess.PIPE, config="ftpd.toml"):
        """Its status and outputs, where it is to end by itself; by a configuration that may be its standard input."""
        if not os.path.exists(f"{self.place}/ftpd.toml"):
            self.configure()
        words = [SERVER, "serve", config, *self.words]
        with open(f"{self.place}/ftpd.toml", "rb") as text:
            found = subprocess.run(words, cwd=self.place, stdin=text, stdout=stdout, stderr=subprocess.PIPE, env={}, timeout=SECONDS)
        return found.returncode, found.stdout if found.stdout is None else found.stdout.decode(), WARNING.sub("", found.stderr.decode())

    def told(self):
        with open(f"{self.place}/output", "rb") as it:
            return it.read().decode()

    def noted(self):
        """The notes, but for the warnings of the configuration."""
        return WARNING.sub("", self.all_noted())

    def all_noted(self):
        with open(f"{self.place}/notes", "rb") as it:
            return it.read().decode(errors="replace")

    def warned(self):
        """The warnings of the configuration that were noted."""
        return WARNING.findall(self.all_noted())

    def notes_made(self, heads=False):
        """The notes, each without its time, without its peer and session where they are not asked for, and without the user and the amounts of a transfer; none of listings."""
        notes = [AMOUNT.sub("", STAMP.sub(r"\1" if heads else "", line)) for line in self.noted().splitlines()]
        return [line for line in notes if not LISTED.match(line)]

    def stop(self):
        with open(f"{self.place}/stop", "w"):
            pass

    def drain(self):
        with open(f"{self.place}/drain", "w"):
            pass

    def reloaded(self, text=None, taken=True):
        """Has the server read its configuration again, as it stands or with another text, and wants that it is taken or refused. Returns the note."""
        if text is not None:
            with open(f"{self.place}/ftpd.toml", "w") as it:
                it.write(text)
        before = self.all_noted().count("reloaded")
        with open(f"{self.place}/reload", "w"):
            pass
        until(lambda: self.all_noted().count("reloaded") > before, "the note of a reload")
        want(not os.path.exists(f"{self.place}/reload"), "the reload file is removed")
        note = [it for it in self.all_noted().splitlines() if "reloaded" in it][-1]
        same(note.endswith("configuration reloaded"), taken, note)
        return note

    def ended(self, status=0):
        """The octets issued, moved and given back, once it has ended by itself, with a status."""
        until(lambda: self.process.poll() is not None, "the server's end")
        found = SETTLED.fullmatch(self.told())
        want(found, f"its output: {self.told()!r}, and noted {self.noted()[-2000:]!r}")
        same(self.process.returncode, status, "its status")
        issued, moved, back = (int(it) for it in found.groups())
        same(issued, moved + back, "issued")
        return issued, moved, back

    def threads(self):
        return len(os.listdir(f"/proc/{self.process.pid}/task"))

    def open_files(self):
        """Number of its open files, but for the bells of its sessions: the place of a connection keeps the one that it has."""
        return len(os.listdir(f"/proc/{self.process.pid}/fd")) - self.bells()

    def bells(self):
        """Number of the bells that sessions have had made, one for a place at most."""
        return self.counters() - self.own_counters

    def counters(self):
        """Number of its counters (eventfd(2)): its sessions' bells, and those that end its own waits."""
        found, at = 0, f"/proc/{self.process.pid}/fd"
        with contextlib.suppress(FileNotFoundError):
            for number in os.listdir(at):
                with contextlib.suppress(FileNotFoundError):
                    found += os.readlink(f"{at}/{number}") == "anon_inode:[eventfd]"
        return found

    def ways_open(self, path):
        """How the process has a file of its folder open, once for each time: for reading, for writing, or both."""
        found, process = [], f"/proc/{self.process.pid}"
        for number in os.listdir(f"{process}/fd"):
            with contextlib.suppress(FileNotFoundError):
                if os.path.realpath(f"{process}/fd/{number}") == os.path.realpath(f"{self.folder}/{path}"):
                    with open(f"{process}/fdinfo/{number}", encoding="utf-8") as told:
                        found.append(int(re.search(r"flags:\s+(\d+)", told.read())[1], 8) & os.O_ACCMODE)
        return found

    def __exit__(self, kind, fault, trace):
        if fault is not None and self.process.poll() not in (None, 0):
            fault.add_note(f"the server ended with {self.process.returncode}: {self.noted()[-3000:]}")
        if self.process.poll() is None:
            self.process.kill()
            self.process.wait()
        self.notes.close()
        self.output.close()
        self.room.cleanup()


class Client:
    """A control connection. With a name it logs in, and asks for octets as they are."""

    def __init__(self, server, name="ann", password="secret", tries=TRIES, source=None, at="127.0.0.1"):
        self.server, self.tries, self.text = server, tries, b""
        self.socket = socket.create_connection((at, server.port), SECONDS, source_address=source and (source, 0))
        if name:
            self.says(None, "220 Ready")
            self.says(f"USER {name}", "331 Password required")
            self.says(f"PASS {password}", "230 Welcome")
            self.says("TYPE I", "200 Type is I")

    def more(self):
        """Reads on, and tells whether there was anything."""
        wait_for(self.socket, "a reply", self.tries)
        piece = self.socket.recv(65536)
        self.text += piece
        return bool(piece)

    def line(self):
        while b"\r\n" not in self.text:
            want(self.more(), f"a reply was cut: {self.text!r}")
        line, _, self.text = self.text.partition(b"\r\n")
        return line.decode()

    def send(self, line):
        self.socket.sendall((line.encode() if isinstance(line, str) else line) + b"\r\n")

    def says(self, line, *wanted):
        """Sends a line, if there is one, and wants these lines: their beginnings, where they end in three points."""
        if line is not None:
            self.send(line)
        for one in wanted:
            found = self.line()
            is_so = found.startswith(one[:-3]) if one.endswith("...") else found == one
            want(is_so, f"{line!r}: {found!r}, wanted {one!r}")
        return found

    def passive_port(self):
        text = self.says("PASV", "227 Entering Passive Mode (127,0,0,1,...")
        numbers = [int(it) for it in re.findall(r"\d+", text)[1:]]
        return numbers[4] * 256 + numbers[5]

    def passive(self, room=None):
        """A data connection to a passive port; its client's side takes few octets where `room` is given."""
        return Data(self.passive_port(), room)

    def retrieve(self, path):
        data = self.passive()
        self.says(f"RETR {path}", "150 Opening data connection")
        octets = data.whole()
        self.says(None, "226 Transfer complete")
        return octets

    def store(self, path, octets, verb="STOR"):
        data = self.passive()
        self.says(f"{verb} {path}", "150 Opening data connection")
        data.socket.sendall(octets)
        data.close()
        self.says(None, "226 Transfer complete")

    def listed(self, line):
        """The lines that LIST, NLST or MLSD gives."""
        data = self.passive()
        self.says(line, "150 Opening data connection")
        text = data.whole().decode()
        self.says(None, "226 Transfer complete")
        return text.split("\r\n")[:-1]

    def length_of(self, path):
        self.send(f"SIZE {path}")
        found = self.line()
        return int(found[4:]) if found.startswith("213 ") else None

    def at_end(self):
        """Wants that nothing more comes."""
        with contextlib.suppress(ConnectionResetError):
            while self.more():
                pass
        same(self.text, b"", "what follows the last reply")
        self.close()

    def quit(self):
        self.says("QUIT", "221 Goodbye")
        self.at_end()

    def close(self):
        self.socket.close()

    def reset(self):
        reset(self.socket)


class Data:
    """A data connection."""

    def __init__(self, port, room=None, source=None):
        self.socket = socket.socket()
        self.socket.settimeout(SECONDS)
        if room:
            self.socket.setsockopt(socket.SOL_SOCKET, socket.SO_RCVBUF, room)
        if source:
            self.socket.bind((source, 0))
        self.socket.connect(("127.0.0.1", port))

    def read(self, tries=TRIES):
        wait_for(self.socket, "data", tries)
        return self.socket.recv(65536)

    def whole(self, tries=TRIES):
        """What comes till the end."""
        pieces = []
        while piece := self.read(tries):
            pieces.append(piece)
        self.close()
        return b"".join(pieces)

    def close(self):
        self.socket.close()

    def reset(self):
        reset(self.socket)


def reset(connection):
    """Closes a connection so that its other end is told of a reset."""
    connection.setsockopt(socket.SOL_SOCKET, socket.SO_LINGER, struct.pack("ii", 1, 0))
    connection.close()


def together(*calls):
    """Makes calls in threads of their own, and wants that none refuses."""
    faults = []

    def one(call):
        try:
            call()
        except Exception as fault:
            faults.append(fault)

    threads = [threading.Thread(target=one, args=(it,)) for it in calls]
    for it in threads:
        it.start()
    for it in threads:
        it.join()
    if faults:
        raise faults[0]
