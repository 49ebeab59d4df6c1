"""The wrapper that makes files of signals, `package/run`: rows of `tools/serving`, each with servers of its own."""
import os
import signal
import subprocess

from serving_kit import SERVER, TOP, Client, Server, same, until, want

# Processes of its own, of which the wrapper is the first.
APART = ["unshare", "--mount", "--pid", "--fork", "--kill-child", "--mount-proc"]
MUCH = 400_000_000


def children(process):
    with open(f"/proc/{process}/task/{process}/children", encoding="utf-8") as it:
        return [int(number) for number in it.read().split()]


class Wrapped(Server):
    """A server that the wrapper starts, with its files in the folder `signs`, or in one of the wrapper's own below `own`. What is `apart` has processes of its own."""

    def __init__(self, apart=False, own=False, seconds=60, **more):
        super().__init__(sessions=0, **more)
        self.signs, self.apart = f"{self.place}/signs", apart
        for name in ("signs", "own"):
            os.mkdir(f"{self.place}/{name}")
        folder = {"TMPDIR": f"{self.place}/own"} if own else {"FTPD_FILES": self.signs}
        self.environment = {"PATH": os.environ["PATH"], "FTPD": SERVER, "FTPD_END_SECONDS": str(seconds), **folder}

    def begin_again(self):
        self.notes = open(f"{self.place}/notes", "wb+")
        self.output = open(f"{self.place}/output", "wb+")
        words = [*(APART if self.apart else []), f"{TOP}/package/run", "ftpd.toml", *self.words]
        # (a shell cannot trap a signal that was ignored when it began, as HUP is below nohup)
        self.process = subprocess.Popen(
            words, cwd=self.place, stdin=subprocess.DEVNULL, stdout=self.output, stderr=self.notes, env=self.environment,
            preexec_fn=lambda: signal.signal(signal.SIGHUP, signal.SIG_DFL))
        until(lambda: self.told().startswith("ready\n") or self.process.poll() is not None, "ready")

    def wrapper(self):
        return children(self.process.pid)[0] if self.apart else self.process.pid

    def sign(self, number):
        os.kill(self.wrapper(), number)

    def running(self):
        """The octets of the running file; none if it is not there yet."""
        if not os.path.exists(f"{self.signs}/running.toml"):
            return b""
        with open(f"{self.signs}/running.toml", "rb") as it:
            return it.read()

    def left(self):
        """What the wrapper has left of its files."""
        return os.listdir(self.signs) + os.listdir(f"{self.place}/own")

    def __exit__(self, *why):
        # (a wrapper that is killed leaves its server)
        if self.process.poll() is None:
            for server in children(self.wrapper()):
                os.kill(server, signal.SIGKILL)
        super().__exit__(*why)


def is_apart_permitted():
    try:
        return subprocess.run([*APART, "true"], capture_output=True).returncode == 0
    except FileNotFoundError:
        return False


def signals_are_files():
    """HUP reloads, USR1 drains; a number in the end file ends its session, and the running file is what is served. The wrapper ends with the server's status, and leaves no file."""
    with Wrapped() as server:
        first, second = Client(server), Client(server)
        server.sign(signal.SIGHUP)
        until(lambda: "configuration reloaded" in server.noted(), "the note of a reload")
        with open(f"{server.place}/ftpd.toml", "rb") as it:
            octets = it.read()
        until(lambda: server.running() == octets, "the running file")
        with open(f"{server.signs}/end", "w", encoding="utf-8") as it:
            it.write("0\n")
        first.says(None, "421 Session ended by the administrator")
        first.at_end()
        second.says("NOOP", "200 OK")
        server.sign(signal.SIGUSR1)
        second.says(None, "421 Server is ending")
        second.at_end()
        server.ended()
        same(server.left(), [], "files that are left")


def the_first_process():
    """As the first process of a container it reloads by HUP, and by TERM and by INT it ends in order, with transfers that run."""
    apart = is_apart_permitted()
    if not apart:
        print("the_first_process: no processes of its own here, so the wrapper is another process")
    for number in (signal.SIGTERM, signal.SIGINT):
        with Wrapped(apart=apart, own=True, root="folder", files={"big": MUCH}) as server:
            client = Client(server)
            data = client.passive(room=4096)
            client.says("RETR big", "150 Opening data connection")
            data.read()
            server.sign(signal.SIGHUP)
            until(lambda: "configuration reloaded" in server.noted(), "the note of a reload")
            want(server.process.poll() is None, "it serves on")
            server.sign(number)
            client.says(None, "421 Server is ending")
            client.at_end()
            data.close()
            server.ended()
            same(server.left(), [], "files that are left")


def what_the_machine_holds_is_killed():
    """A server that does not end within its seconds, as one that is stopped, is killed, and the status says so."""
    with Wrapped(own=True, seconds=1) as server:
        os.kill(children(server.wrapper())[0], signal.SIGSTOP)
        server.sign(signal.SIGTERM)
        until(lambda: server.process.poll() is not None, "the wrapper's end")
        same((server.process.returncode, server.told()), (128 + signal.SIGKILL, "ready\n"), "its status, and what was told")
        same(server.left(), [], "files that are left")


def a_start_that_fails_ends_the_wrapper():
    """What the server says of a start that fails is the wrapper's, and so is its status."""
    server = Wrapped()
    with server.room:
        server.text = "version = 2\n"
        server.configure()
        server.begin_again()
        until(lambda: server.process.poll() is not None, "the wrapper's end")
        same((server.process.returncode, server.told()), (1, ""), "its status, and what was told")
        want(server.noted().endswith("ftpd: Missing\n"), server.noted())
        same(server.left(), [], "files that are left")
        server.notes.close()
        server.output.close()


ROWS = [signals_are_files, the_first_process, what_the_machine_holds_is_killed, a_start_that_fails_ends_the_wrapper]
