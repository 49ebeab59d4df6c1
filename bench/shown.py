"""Measures what it costs to show what a server does: the same program without a status, and with its file and a page that is polled.

    python3 shown.py FOLDER FTPD LOAD [RUNS]

As `serve.py`, whose rows it makes with the one server and then the other, so many times (5); it tells the best of each. The page, its JSON
and its metrics are each read once a second.
"""
import contextlib
import socket
import sys
import threading
import time

from clock import in_time, tell
from serve import ROWS, SESSIONS, Running, loaded, make_files

PARTS = ("/", "/status.json", "/metrics")


class Shown(Running):
    """A server that writes its status, and shows it at a port to a reader that asks once a second."""

    def __enter__(self):
        self.page = self.port + 998
        self.words += ["--status", f"{self.folder}/status.json", "--status-port", str(self.page)]
        super().__enter__()
        self.over = threading.Event()
        self.reader = threading.Thread(target=self.poll)
        self.reader.start()
        return self

    def poll(self):
        while not self.over.wait(1):
            for part in PARTS:
                with contextlib.suppress(OSError), socket.create_connection(("127.0.0.1", self.page), 2) as it:
                    it.sendall(f"GET {part} HTTP/1.1\r\nHost: 127.0.0.1\r\n\r\n".encode())
                    while it.recv(65536):
                        pass

    def __exit__(self, *told):
        self.over.set()
        self.reader.join()
        super().__exit__(*told)


KINDS = (Running, Shown)


def throughput(folder, program, load, runs):
    for name in in_time(ROWS):
        words, unit, what = ROWS[name]
        best, least = {}, {}
        for _ in range(runs):
            for kind in KINDS:
                with kind(folder, program, False) as server:
                    octets, took, used = loaded(load, server, words)
                best[kind] = max(best.get(kind, 0), octets / unit / took)
                least[kind] = min(least.get(kind, used), used)
        ratios = [f"{best[Shown] / best[Running]:.3f}", f"{least[Shown] / max(least[Running], 0.01):.3f}"]
        yield [name, *(f"{best[it]:,.0f} {what}" for it in KINDS), ratios[0], *(f"{least[it]:.2f}" for it in KINDS), ratios[1]]


def idle(folder, program):
    for name in in_time(("without", "with a status"), "idle "):
        kind, row = KINDS[name != "without"], [name]
        with kind(folder, program, False) as server, contextlib.ExitStack() as held:
            for sessions in (0, SESSIONS):
                for _ in range(sessions):
                    held.enter_context(socket.create_connection(("127.0.0.1", server.port)))
                time.sleep(1)
                before = server.seconds()
                time.sleep(10)
                row += [f"{(server.seconds() - before) * 10:.1f} %", f"{server.memory():.1f}"]
        yield row


def main(folder, ftpd, load, runs="5"):
    make_files(folder)
    tell(["what", "without", "with a status", "with / without", "processor s", "with a status", "with / without"], throughput(folder, ftpd, load, int(runs)))
    tell(["idle", "no session", "MB", f"{SESSIONS} sessions", "MB"], idle(folder, ftpd))


if __name__ == "__main__":
    main(*sys.argv[1:])
