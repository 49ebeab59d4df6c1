"""Measures what a server takes while its clients do nothing, and for long listings: processor time, and memory part by part.

    python3 waits.py FOLDER NAME=FTPD [NAME=FTPD ..]

FOLDER lies in a file system in memory. Each row is one server; its processor time is of ten seconds, or of one listing, and its switches
are those by which its threads left a processor of themselves. Its memory is what the machine keeps for it now (/proc/PID/smaps): of files
(the program's and its libraries' code, which programs can share), of the stacks of its threads, of what it has allocated with the
allocator's own, and of the rest. A thread's stack is where its stack pointer is, and has each page that it ever used.
"""

import contextlib
import os
import re
import socket
import sys
import time
from collections import namedtuple

from clock import Goal, in_time, judge, tell
from serve import ENTRIES, MEGABYTE, Running, Talk, make_files

FEW, MANY = 64, 510
SETTLED, COUNTED = 12, 10
LISTED = 20


def passive(talk):
    """The address of a passive port that is opened."""
    numbers = re.search(rb"(\d+),(\d+)\)", talk.says("PASV"))
    return "127.0.0.1", int(numbers[1]) * 256 + int(numbers[2])


def waits(held, port):
    """A session that has begun a download, whose client does not come to its port."""
    talk = Talk(port)
    held.callback(talk.socket.close)
    passive(talk)
    talk.socket.sendall(b"RETR big\r\n")


def stalls(held, port):
    """A session whose client connects, and reads nothing."""
    talk = Talk(port)
    held.callback(talk.socket.close)
    data = socket.create_connection(passive(talk))
    held.callback(data.close)
    talk.says("RETR big")


def silent(held, port):
    held.callback(Talk(port).socket.close)


CASES = {
    "no session": (silent, 0),
    f"{FEW} silent sessions": (silent, FEW),
    f"{MANY} silent sessions": (silent, MANY),
    f"{FEW} sessions that wait for a client": (waits, FEW),
    f"{FEW} downloads that nobody reads": (stalls, FEW),
}


# A part of a process's memory: where it is, its file's name, if any, and what of it is held, in KB.
Part = namedtuple("Part", "begin end name held")


def parts_of(process):
    """The parts of the memory of a process."""
    with open(f"/proc/{process}/smaps", encoding="utf-8") as it:
        text = it.read()
    for found in re.finditer(r"^([0-9a-f]+)-([0-9a-f]+) \S+ \S+ \S+ \S+ *(.*)\n(?:\w.*\n)*?Rss: +(\d+) kB$", text, re.M):
        yield Part(int(found[1], 16), int(found[2], 16), found[3], int(found[4]))


def stack_pointers(process):
    """The stack pointer of each thread that waits in a call."""
    for thread in os.listdir(f"/proc/{process}/task"):
        with open(f"/proc/{process}/task/{thread}/syscall", encoding="utf-8") as it:
            words = it.read().split()
        if len(words) > 3:
            yield int(words[-2], 16)


def held_by(process):
    """The KB of files, stacks, the heap and the rest, and the number of threads."""
    held, stacks = {"files": 0, "stacks": 0, "heap": 0, "rest": 0}, list(stack_pointers(process))
    for part in parts_of(process):
        is_arena = not part.name and part.begin % (64 * MEGABYTE) == 0
        is_stack = any(part.begin <= it < part.end for it in stacks)
        kind = "stacks" if is_stack else "heap" if is_arena or part.name == "[heap]" else "files" if part.name.startswith("/") else "rest"
        held[kind] += part.held
    return *held.values(), len(os.listdir(f"/proc/{process}/task"))


# What of a core each of these takes at most, and how many MB it holds at most.
MOST = {
    f"{FEW} silent sessions": (0.001, None),
    f"{MANY} silent sessions": (0.003, 12),
    f"{FEW} sessions that wait for a client": (0.005, None),
    f"{FEW} downloads that nobody reads": (0.005, 12),
}


def goals():
    for name, (used, memory) in MOST.items():
        yield Goal(f"{name}, of a core", lambda row, it, name=name: it[0] if row == name else None, most=used)
        if memory:
            yield Goal(f"{name}, MB", lambda row, it, name=name: it[1] if row == name else None, most=memory)


def idle(folder, servers, memories, found):
    """A row of each case and server; adds a row to `memories` of what it holds, and of what that is beyond no session for each, and to `found` what it takes and holds."""
    nobody = {}
    for name in in_time(CASES):
        begin, number = CASES[name]
        for called, program in servers:
            with Running(folder, program, False) as server, contextlib.ExitStack() as held:
                for _ in range(number):
                    begin(held, server.port)
                time.sleep(SETTLED)
                before, left = server.seconds(), server.switches()
                time.sleep(COUNTED)
                used, left = server.seconds() - before, server.switches() - left
                memory, parts = server.memory(), held_by(server.process.pid)
            nobody.setdefault(called, parts)
            each = [f" ({(now - then) / number:.1f})" if number else "" for now, then in zip(parts[:3], nobody[called])]
            memories.append([name, called, f"{memory:.1f}", *(f"{part:,}{more}" for part, more in zip(parts, each)), f"{parts[3]:,}", f"{parts[4]}"])
            found.append((name, called, (used / COUNTED, memory)))
            yield [name, called, f"{used / COUNTED * 100:.2f} %", f"{left / COUNTED:,.0f}", f"{memory:.1f}"]


def listings(folder, servers):
    for command in in_time(("NLST", "LIST", "MLSD")):
        for called, program in servers:
            with Running(folder, program, False) as server:
                talk = Talk(server.port)
                talk.says("CWD many")
                before, begun = server.seconds(), time.monotonic()
                for _ in range(LISTED):
                    with socket.create_connection(passive(talk)) as data:
                        talk.says(command)
                        while data.recv(65_536):
                            pass
                    talk.text.readline()
                took = time.monotonic() - begun
                yield [command, called, f"{(server.seconds() - before) / LISTED * 1_000:.1f}", f"{took / LISTED * 1_000:.1f}"]


def main(folder, *words):
    make_files(folder)
    servers, memories, found = [it.split("=", 1) for it in words], [], []
    tell([f"a listing of {ENTRIES:,} entries", "server", "processor (ms)", "it takes (ms)"], listings(folder, servers))
    tell(["clients that do nothing", "server", "processor", "switches a second", "MB"], idle(folder, servers, memories, found))
    tell(["clients that do nothing", "server", "MB", "files, KB", "stacks (each)", "heap (each)", "rest", "threads"], memories)
    judge(goals(), found)


if __name__ == "__main__":
    main(*sys.argv[1:])
