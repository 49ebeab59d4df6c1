"""The points of docs/machine_faults.md at which `tools/refused-calls` has calls of a running server refused.

Each point is a function of a `Trial`: it has a client do something while strace(1) is attached, and returns the last reply; "" where nobody is
told. An injection is for calls on some paths, or for those of some threads: a session's for its control connection and its ports, all
others for data connections, which lanes read and write.
"""
import contextlib
import os
import signal
import socket
import subprocess
import time

from serving_kit import TRIES, Client, Data, Refused, same, until, want
from serving_status import next_status, status_of

LONG = 300_000
# The calls that do the same, by which a kit may make one.
ALIKE = {
    "openat": "openat,open", "rename": "rename,renameat,renameat2", "mkdir": "mkdir,mkdirat", "unlink": "unlink,unlinkat", "rmdir": "rmdir,unlinkat",
    "statx": "statx,newfstatat,fstat", "read": "read,pread64,readv", "write": "write,pwrite64,writev", "sendto": "sendto,sendmsg",
    "recvfrom": "recvfrom,recvmsg", "accept4": "accept4,accept", "clone3": "clone3,clone", "fdatasync": "fdatasync,fsync",
    "poll": "poll,ppoll", "eventfd2": "eventfd2,eventfd",
}


class Trial:
    """One error of a row: a server with a client, whose call is refused, and what came of it."""

    def __init__(self, row, error, when, server, client):
        self.call, self.error, self.when, self.server, self.client = row.call, error, when, server, client
        # who came so far, and the lines of the transfer log before
        self.trace, self.came, self.lines = f"{server.place}/trace", 1, 0

    def words(self, *paths):
        """The words of strace: the call, the error, and the paths that the call has to be on, if there are any."""
        calls = ALIKE.get(self.call, self.call)
        named = [it for path in paths for it in ("-P", path)]
        return ["strace", "-o", self.trace, *named, "-e", f"trace={calls}", "-e", f"inject={calls}:error={self.error}{self.when}"]

    @contextlib.contextmanager
    def refusing(self, *paths, threads=None):
        """Attaches strace to the process, or to some threads of it, for a while."""
        attached = [it for one in threads or () for it in ("-p", one)] or ["-f", "-p", str(self.server.process.pid)]
        words, told = self.words(*paths), f"{self.server.place}/strace"
        with open(told, "wb") as it:
            process = subprocess.Popen([words[0], *attached, *words[1:]], cwd=self.server.place, stdin=subprocess.DEVNULL, stderr=it)
        try:
            until(lambda: read(told).count("attached") >= len(threads or [1]) or process.poll() is not None, "strace")
            want(process.poll() is None, read(told))
            # (it has said so before it holds the threads: what they call until then is refused to nobody)
            with contextlib.suppress(Refused):
                until(lambda: self.is_armed(process, threads), "threads that are held", 100)
            yield
        finally:
            process.send_signal(signal.SIGTERM)
            process.wait()

    def is_armed(self, tracer, threads):
        """Whether strace and all threads that it is attached to sleep, by proc(5): it has had each of them go on."""
        tasks = f"/proc/{self.server.process.pid}/task"
        with contextlib.suppress(FileNotFoundError):
            told = [read(f"/proc/{tracer.pid}/stat"), *(read(f"{tasks}/{it}/stat") for it in threads or os.listdir(tasks))]
            return all(it.rpartition(")")[2].split()[0] == "S" for it in told)
        return False

    def made(self):
        """The number of calls that were refused."""
        return read(self.trace).count("(INJECTED)") if os.path.exists(self.trace) else 0

    def is_made(self):
        return self.made() > 0

    def session(self):
        """The thread of the client's session: the one that has begun last, by proc(5)."""
        tasks = f"/proc/{self.server.process.pid}/task"
        return max(os.listdir(tasks), key=lambda it: int(read(f"{tasks}/{it}/stat").rpartition(")")[2].split()[19]))

    def others(self):
        return [it for it in os.listdir(f"/proc/{self.server.process.pid}/task") if it != self.session()]

    def told(self, line):
        """The next line of a reply, or that the connection is closed."""
        try:
            if line is not None:
                self.client.send(line)
            return self.client.line()
        except (Refused, OSError) as fault:
            want(isinstance(fault, OSError) or "a reply was cut: b''" in str(fault), str(fault))
            return "closed"


def read(path):
    with open(path, encoding="utf-8", errors="replace") as it:
        return it.read()


def transferred(trial, line, octets, *paths, threads=None):
    """The last reply to a transfer during which the call is refused."""
    data = trial.client.passive()
    with trial.refusing(*paths, threads=threads and threads()):
        return ended(trial, line, data, octets)


def ended(trial, line, data, octets):
    first = trial.told(line)
    if not first.startswith("150"):
        data.close()
        return first
    with contextlib.suppress(ConnectionResetError, BrokenPipeError):
        if octets is None:
            data.whole()
        else:
            data.socket.sendall(octets)
    data.close()
    return trial.told(None)


def commanded(trial, line, *paths, before=(), threads=None):
    """The reply to a command while the call is refused. A refused one leaves the folder as it was."""
    there = sorted(os.listdir(trial.server.folder))
    for it in before:
        trial.client.says(it, "350 ...")
    with trial.refusing(*paths, threads=threads and threads()):
        found = trial.told(line)
    if found[0] in "45":
        same(sorted(os.listdir(trial.server.folder)), there, "the folder after a refused command")
    return found


def at(trial, name):
    return f"{trial.server.folder}/{name}"


def a_port(trial, _name=None):
    """A download to a port of the client."""
    with socket.create_server(("127.0.0.1", 0)) as listener:
        port = listener.getsockname()[1]
        trial.client.says(f"PORT 127,0,0,1,{port // 256},{port % 256}", "200 OK")
        with trial.refusing(threads=[trial.session()]):
            want(trial.told("RETR f").startswith("150"), "150")
            return trial.told(None)


def comes_to_its_port(trial):
    port = trial.client.passive_port()
    trial.client.send("RETR f")
    with trial.refusing(threads=[trial.session()]):
        trial.client.says(None, "150 ...")
        # (a connection that nobody accepts is reset once its port is closed, which is after a minute)
        with contextlib.closing(Data(port)) as data, contextlib.suppress(ConnectionResetError):
            data.whole(2 * TRIES)
        return trial.told(None)


def beside(trial):
    """An upload whose octets come once its session has made the call while it waited for them."""
    data = trial.client.passive()
    fresh(trial)
    with trial.refusing(threads=[trial.session()]):
        trial.client.says("STOR new", "150 ...")
        until(trial.is_made, "the call")
        data.socket.sendall(b"octets")
        data.close()
        return trial.told(None)


def comes_late_to_its_port(trial):
    """A download whose client comes to its port once its session has made the call while it waited for that."""
    port = trial.client.passive_port()
    trial.client.says("RETR f", "150 ...")
    with trial.refusing(threads=[trial.session()]):
        until(trial.is_made, "the call")
        Data(port).whole()
        return trial.told(None)


def comes(trial):
    """A client comes while connections, or threads, are refused. One refusal in a second is noted."""
    time.sleep(1.2)
    trial.client.quit()
    with trial.refusing():
        trial.client = Client(trial.server, name=None)
        found = trial.told(None)
    trial.came += found.startswith("220")
    return found


def new_upload(trial):
    return transferred(trial, f"STOR {fresh(trial)}", b"octets", at(trial, "new"))


def fresh(trial):
    with contextlib.suppress(FileNotFoundError):
        os.remove(at(trial, "new"))
    return "new"


def status_stays(trial):
    """The status stays as it is, whole, and goes on afterwards."""
    next_status(trial.server)
    with trial.refusing("status.json.new", f"{trial.server.place}/status.json.new"):
        until(trial.is_made, "the call")
        before, made = status_of(trial.server), trial.made()
        until(lambda: trial.made() > made + 1, "two more looks")
        want(status_of(trial.server) == before, "the status has changed, though its file could not be written")
    next_status(trial.server)
    return ""


def logged(trial, name, path):
    """A download while the line of something cannot be written: it is there afterwards."""
    with trial.refusing(path, f"{trial.server.place}/{path}"):
        found = transferred_alone(trial, "RETR f")
        until(trial.is_made, "the call")
    return found


def transferred_alone(trial, line):
    return ended(trial, line, trial.client.passive(), None)


def moved_log(trial):
    """A download once the log is moved away: where no new one can be opened, its line goes to the old one."""
    os.rename(f"{trial.server.place}/log", f"{trial.server.place}/log.old")
    found = logged(trial, "log", "log")
    until(lambda: read(f"{trial.server.place}/log.old").count("\n") > trial.lines, "the line in the old log")
    os.rename(f"{trial.server.place}/log.old", f"{trial.server.place}/log")
    return found


def reloaded(trial, path):
    before = trial.server.all_noted().count("reloaded")
    with trial.refusing(path, f"{trial.server.place}/{path}"):
        with open(f"{trial.server.place}/reload", "w", encoding="utf-8"):
            pass
        until(lambda: trial.server.all_noted().count("reloaded") > before, "the note of a reload")
        until(trial.is_made, "the call")
        time.sleep(0.5)
    with contextlib.suppress(FileNotFoundError):
        os.remove(f"{trial.server.place}/reload")
    return ""


def unexamined(trial):
    with trial.refusing("stop", f"{trial.server.place}/stop"):
        until(trial.is_made, "the call")
        time.sleep(1)
    return ""


FILE = {"f": b"octets", "there": b"octets", "long": LONG, "gone": None, "in": None}
POINTS = {
    "a download": lambda it: transferred(it, "RETR f", None, at(it, "f")),
    "a download from an offset": lambda it: [it.client.says("REST 2", "350 ...")] and transferred(it, "RETR f", None, at(it, "f")),
    "a long download": lambda it: transferred(it, "RETR long", None, at(it, "long")),
    "a new upload": new_upload,
    "an upload that is synced": new_upload,
    "an upload over a file": lambda it: transferred(it, "STOR there", b"octets", at(it, "there")),
    "an upload after a file": lambda it: transferred(it, "APPE there", b"octets", at(it, "there")),
    "a listing": lambda it: transferred(it, "LIST", None, at(it, ""), it.server.folder),
    "SIZE": lambda it: commanded(it, "SIZE f", at(it, "f")),
    "MKD": lambda it: commanded(it, "MKD made", at(it, "made")),
    "RMD": lambda it: commanded(it, "RMD gone", at(it, "gone")),
    "DELE": lambda it: commanded(it, "DELE there", at(it, "there")),
    "RNTO of a file": lambda it: commanded(it, "RNTO made", at(it, "made"), at(it, "f"), before=["RNFR f"]),
    "RNTO of a directory": lambda it: commanded(it, "RNTO made", at(it, "made"), at(it, "gone"), before=["RNFR gone"]),
    "a client comes": comes,
    "a line is read": lambda it: commanded(it, "NOOP", threads=lambda: [it.session()]),
    "a reply is written": lambda it: commanded(it, "NOOP", threads=lambda: [it.session()]),
    "PASV": lambda it: commanded(it, "PASV", threads=lambda: [it.session()]),
    "a port of the client": a_port,
    "a client comes to its port": comes_to_its_port,
    "a client comes late to its port": comes_late_to_its_port,
    "a session waits beside an upload": beside,
    "octets are sent": lambda it: transferred(it, "RETR long", None, threads=it.others),
    "octets are received": lambda it: transferred(it, f"STOR {fresh(it)}", b"octets", threads=it.others),
    "the status file": status_stays,
    "the transfer log": lambda it: logged(it, "log", "log"),
    "the transfer log, once it is moved": moved_log,
    "the notes": lambda it: logged(it, "notes", "notes"),
    "the configuration is read again": lambda it: reloaded(it, "ftpd.toml"),
    "the reload file": lambda it: reloaded(it, "reload"),
    "the stop file": unexamined,
}
