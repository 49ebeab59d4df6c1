"""Measures the running server beside others that are installed: vsftpd, ProFTPD, Pure-FTPd and pyftpdlib.

    python3 peers.py FOLDER FTPD LOAD [RUNS]

FOLDER lies in a file system in memory. Each row is made with one server after the other, so many times (3), and tells the best: what the
clients of `load.rs` get by the clock, and microseconds of the processor of the server with all its processes, from its start to its end
(getrusage(2)), less what it takes to begin, to serve one session that only logs in, and to end. A server is found on the PATH, or in the
folders of SYSTEM; its configuration is written into FOLDER, it listens at 127.0.0.1, and it is ended with its processes before the next one
begins. Only ratios of one run say anything.
"""

import contextlib
import ctypes
import functools
import grp
import math
import os
import pwd
import re
import resource
import signal
import socket
import subprocess
import sys
import tempfile
import time
from collections import namedtuple

from clock import QUICK, in_time, tell
from serve import MEGABYTE, Running, make_file, make_folder, ports

BIG, MIDDLE, FILES, LISTINGS, LOGINS = (4, 1, 20, 5, 5) if QUICK else (512, 32, 5_000, 500, 300)
UPLOADS = 16
# row: what the clients do, what is counted of the number that they tell, and its name
ROWS = {
    f"1 download, 4 of {BIG} MB one after the other": (["down", "1", "4", "big"], MEGABYTE, "MB"),
    f"16 downloads, 4 of {MIDDLE} MB each": (["down", "16", "4", "middle"], MEGABYTE, "MB"),
    f"64 downloads of {MIDDLE} MB": (["down", "64", "1", "middle"], MEGABYTE, "MB"),
    f"1 upload of {BIG} MB": (["up", "1", "1", str(BIG * MEGABYTE)], MEGABYTE, "MB"),
    f"{UPLOADS} uploads of {MIDDLE} MB": (["up", str(UPLOADS), "1", str(MIDDLE * MEGABYTE)], MEGABYTE, "MB"),
    "1 KB files, 1 client": (["down", "1", str(FILES), "small"], 1_024, "file"),
    "listings of 10 entries": (["list", "1", str(LISTINGS), "ten"], 1, "listing"),
    "listings of 1,000 entries": (["list", "1", str(LISTINGS // 5), "thousand"], 1, "listing"),
    "logins, one after the other": (["login", "1", str(LOGINS)], 1, "login"),
}
# Seconds after which a server has failed: to begin, to end, and to serve a row.
READY, ENDED, LONGEST = 10, 5, 60
SYSTEM = ["/usr/local/sbin", "/usr/sbin", "/usr/bin"]
# crypt(3) of the password, by the cheapest way that ProFTPD and Pure-FTPd both take.
HASH = "$1$bench$2oXJ6TuqyPIgNPp162CoB."
# The clients of a session that only logs in.
NOTHING = ["login", "1", "0"]
# prctl(2): who asks for it becomes the parent of processes whose own has ended, as a session of Pure-FTPd leaves one.
PR_SET_CHILD_SUBREAPER = 36
# As whom the peers serve: the one who runs this, or daemon if that is root (vsftpd wants a home that is there, so nobody is not taken).
OWNER = pwd.getpwuid(os.getuid()) if os.getuid() else pwd.getpwnam("daemon")

VSFTPD = """\
listen=YES
listen_address=127.0.0.1
listen_port={port}
background=NO
pasv_min_port={first}
pasv_max_port={last}
max_clients=0
max_per_ip=0
anonymous_enable=YES
ftp_username={user}
anon_root={folder}/files
secure_chroot_dir={folder}/empty
write_enable=YES
anon_upload_enable=YES
anon_other_write_enable=YES
run_as_launching_user={is_launching}
xferlog_enable=NO
"""
PROFTPD = """\
ServerType standalone
DefaultAddress 127.0.0.1
UseIPv6 off
Port {port}
PassivePorts {first} {last}
ModulePath {program_folder}/../lib/proftpd
User {user}
Group {group}
AuthUserFile {folder}/proftpd.users
AuthOrder mod_auth_file.c
AuthPAM off
RequireValidShell off
UseFtpUsers off
UseReverseDNS off
DelayEngine off
MaxInstances none
AllowOverwrite on
PidFile {folder}/proftpd.pid
ScoreboardFile {folder}/proftpd.scores
WtmpLog off
TransferLog none
SystemLog none
"""
PYFTPDLIB = """\
import logging
from pyftpdlib import authorizers, handlers, servers

logging.basicConfig(level=logging.WARNING)
handler = handlers.FTPHandler
handler.authorizer = authorizers.DummyAuthorizer()
handler.authorizer.add_user("ann", "secret", "{folder}/files", perm="elradfmw")
handler.passive_ports = range({first}, {last} + 1)
servers.FTPServer(("127.0.0.1", {port}), handler).serve_forever()
"""
PURE_FTPD = (
    "pure-pw mkdb {folder}/pure.table -f {folder}/pure.users && exec {program} --bind 127.0.0.1,{port} --passiveportrange {first}:{last} --login puredb:{folder}/pure.table"
    " --maxclientsnumber 600 --maxclientsperip 600 --dontresolve --ipv4only --syslogfacility none --pidfile {folder}/pure.pid"
)
# A server: its program, the words by which that tells its version, who logs in, the files that it needs, and its command line.
Kind = namedtuple("Kind", "program version user files words")
# (vsftpd has anonymous users only: for others the machine's files for PAM would have to be changed)
PEERS = {
    "vsftpd": Kind("vsftpd", ["-v"], "ftp", {"vsftpd.conf": VSFTPD}, ["{program}", "{folder}/vsftpd.conf"]),
    "ProFTPD": Kind(
        "proftpd",
        ["-v"],
        "ann",
        {"proftpd.conf": PROFTPD, "proftpd.users": "ann:{hash}:{uid}:{gid}::{folder}/files:/bin/sh\n"},
        ["{program}", "-n", "-q", "-c", "{folder}/proftpd.conf"],
    ),
    "Pure-FTPd": Kind("pure-ftpd", ["--help"], "ann", {"pure.users": "ann:{hash}:{uid}:{gid}::{folder}/files/./::::::::::::\n"}, ["sh", "-c", PURE_FTPD]),
    "pyftpdlib": Kind(
        "python3",
        ["-c", "import pyftpdlib; print(pyftpdlib.__ver__)"],
        "ann",
        {"pyftpdlib_server.py": PYFTPDLIB},
        ["{program}", "-W", "ignore", "{folder}/pyftpdlib_server.py"],
    ),
}


def configured(kind, program, folder, port):
    """Writes the files of a server, and returns its command line."""
    group = grp.getgrgid(OWNER.pw_gid).gr_name
    facts = {"folder": folder, "port": port, "first": port + 1, "last": port + 999, "program": program, "program_folder": os.path.dirname(program)}
    facts |= {"user": OWNER.pw_name, "group": group, "uid": OWNER.pw_uid, "gid": OWNER.pw_gid, "hash": HASH, "is_launching": "YES" if os.getuid() else "NO"}
    for name, text in kind.files.items():
        with open(f"{folder}/{name}", "w", encoding="utf-8") as it:
            it.write(text.format(**facts))
        # (ProFTPD wants that not all may read its users, but the one as whom it serves has to)
        os.chmod(f"{folder}/{name}", 0o640)
        os.chown(f"{folder}/{name}", -1, OWNER.pw_gid)
    return [it.format(**facts) for it in kind.words]


def places(name):
    """The paths of the programs of this name."""
    for place in [*os.get_exec_path(), *SYSTEM]:
        if os.access(f"{place}/{name}", os.X_OK):
            yield f"{place}/{name}"


def version(program, words):
    """The version that a program tells, or none if it fails."""
    with tempfile.TemporaryFile("w+") as told:
        # (vsftpd writes it to its standard input)
        status = subprocess.run([program, *words], stdin=told, stdout=told, stderr=subprocess.DEVNULL, check=False).returncode
        told.seek(0)
        found = re.search(r"(?:^|[ v])(\d+(?:\.\w+)*)\b", told.read())
    if status:
        return None
    return found[1] if found else "unknown"


def begun():
    """The processes that this one has begun, or one of these: the number of each, and whether it has ended and nobody has asked how."""
    children, states = {}, {}
    for number in filter(str.isdigit, os.listdir("/proc")):
        with contextlib.suppress(OSError), open(f"/proc/{number}/stat", encoding="utf-8", errors="replace") as it:
            state, parent = it.read().rpartition(")")[2].split()[:2]
            children.setdefault(int(parent), []).append(int(number))
            states[int(number)] = state
    found = children.get(os.getpid(), [])
    for number in found:
        found += children.get(number, [])
    return {it: states[it] == "Z" for it in found}


def awaited():
    """Seconds of the processor of the processes that this one has begun and that have ended, with theirs."""
    used = resource.getrusage(resource.RUSAGE_CHILDREN)
    return used.ru_utime + used.ru_stime


Server = namedtuple("Server", "port user")


def await_ready(process, port):
    """Waits until a client is greeted."""
    until = time.monotonic() + READY
    while process.poll() is None and time.monotonic() < until:
        with contextlib.suppress(OSError), socket.create_connection(("127.0.0.1", port), READY) as it:
            if it.recv(3) == b"220":
                return
        time.sleep(0.05)
    sys.exit(f"bench: {process.args[0]} does not serve")


def await_sessions():
    """Waits until the sessions have ended: without any, each of these servers is one process."""
    until = time.monotonic() + ENDED
    while list(begun().values()).count(False) > 1 and time.monotonic() < until:
        time.sleep(0.01)


def end(process):
    """Ends a server, and each process that is left of it, by its number."""
    process.terminate()
    with contextlib.suppress(subprocess.TimeoutExpired):
        process.wait(ENDED)
    while left := begun():
        for number in left:
            with contextlib.suppress(ProcessLookupError):
                os.kill(number, signal.SIGKILL)
            with contextlib.suppress(ChildProcessError):
                os.waitpid(number, 0)


@contextlib.contextmanager
def serving(folder, kind, program):
    """A peer that serves until it is left, in whatever way."""
    port = ports(1_000)
    with open(f"{folder}/log", "wb") as log:
        process = subprocess.Popen(configured(kind, program, folder, port), stdin=subprocess.DEVNULL, stdout=log, stderr=log)
        try:
            await_ready(process, port)
            yield Server(port, kind.user)
        finally:
            end(process)


@contextlib.contextmanager
def serving_ftpd(folder, program):
    """The same of our own server."""
    with Running(folder, program, False) as server:
        yield Server(server.port, "ann")


def make_uploads(folder):
    """Makes the files anew that clients write: vsftpd has no folder at the top in which one may make files."""
    for number in range(UPLOADS):
        path = f"{folder}/files/up{number}"
        with contextlib.suppress(FileNotFoundError):
            os.remove(path)
        with open(path, "wb"):
            os.chmod(path, 0o666)


def tried(folder, begin, load, words):
    """What the clients count, their seconds by the clock, and the server's of the processor from its start to its end; or why there is nothing."""
    make_uploads(folder)
    before = awaited()
    try:
        with begin() as server:
            others = awaited()
            more = {**os.environ, "LOGIN": server.user, "RUST_BACKTRACE": "0"}
            found = subprocess.run([load, str(server.port), *words], capture_output=True, text=True, env=more, timeout=LONGEST, check=False)
            others = awaited() - others
            await_sessions()
        if found.returncode:
            sys.exit(f"bench: load {' '.join(words)}: {found.stderr}")
    except (SystemExit, subprocess.SubprocessError) as fault:
        with open(f"{folder}/log", encoding="utf-8", errors="replace") as log:
            return " ".join(f"{fault} {log.read()[-300:]}".split())
    count, took = found.stdout.split()
    return int(count), float(took), awaited() - before - others


def installed(folder, ftpd, load, runs, servers):
    """Adds to `servers` the function that begins each server and what it takes for NOTHING. Yields a row of each, with its version or why it is not measured."""
    kinds = {"ftpd": ([ftpd], ["--version"], functools.partial(serving_ftpd, folder))}
    kinds |= {name: (places(kind.program), kind.version, functools.partial(serving, folder, kind)) for name, kind in PEERS.items()}
    for name, (programs, words, begin) in kinds.items():
        program, told = next(((it, told) for it in programs if (told := version(it, words))), (None, "-"))
        if not program:
            yield [name, told, "not installed: not measured"]
            continue
        begin = functools.partial(begin, program)
        found = [tried(folder, begin, load, NOTHING) for _ in range(runs)]
        why = next((it for it in found if isinstance(it, str)), None)
        if not why:
            servers[name] = begin, min(used for _, _, used in found)
        yield [name, told, f"not measured: {why}" if why else program]


def measured(folder, servers, load, row, runs, faults):
    """The best throughput of each server, and its least microseconds of the processor, for one of what the row counts. One that fails has neither, and is not tried again."""
    words, unit, _ = ROWS[row]
    best, least = {}, {}
    for _ in range(runs):
        for name, (begin, nothing) in servers.items():
            found = None if (row, name) in faults else tried(folder, begin, load, words)
            if isinstance(found, str):
                faults[row, name] = found
            elif found:
                count, took, used = found
                best[name] = max(best.get(name, 0), count / unit / took)
                least[name] = min(least.get(name, math.inf), max(used - nothing, 0) * 1e6 * unit / count)
    return best, least


def rows(folder, servers, load, runs, faults):
    """Two rows for each of ROWS: by the clock, and of the processor."""
    for row in in_time(ROWS):
        what = ROWS[row][2]
        best, least = measured(folder, servers, load, row, runs, faults)
        cells = lambda found: [f"{found[name]:,.0f}" if name in found else "-" for name in ("ftpd", *PEERS)]
        yield [row, f"{what if what == 'MB' else what + 's'}/s", *cells(best)]
        yield [row, f"processor us a {what}", *cells(least)]


def main(folder, ftpd, load, runs="3"):
    signal.signal(signal.SIGTERM, signal.default_int_handler)
    ctypes.CDLL(None).prctl(PR_SET_CHILD_SUBREAPER, 1)
    os.chmod(folder, 0o755)
    make_folder(f"{folder}/empty", 0)
    make_folder(f"{folder}/files/ten", 10)
    make_folder(f"{folder}/files/thousand", 1_000)
    for name, octets in (("big", BIG * MEGABYTE), ("middle", MIDDLE * MEGABYTE), ("small", 1_024)):
        make_file(f"{folder}/files/{name}", octets)
    servers, faults = {}, {}
    tell(["server", "version", "program"], installed(folder, ftpd, load, int(runs), servers))
    tell(["what", "measure", "ftpd", *PEERS], rows(folder, servers, load, int(runs), faults))
    for (row, name), why in faults.items():
        print(f"Not measured: {row}, {name}: {why}\n")


if __name__ == "__main__":
    main(*sys.argv[1:])
