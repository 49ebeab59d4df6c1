"""The configurations of `examples/`, served as they stand: rows of `tools/serving`.

They name ports and a folder of the machine, so the rows run where these are free: in a network and a file system of their own, by
`unshare`. Where the machine permits none, the ports and the folder are put in their texts, and the row says so.
"""
import os
import re
import subprocess
import sys

from serving_kit import PORTS_TO_HAND_OUT, TOP, Client, Data, Server, same, want

APART = ["unshare", "--user", "--map-root-user", "--mount", "--net"]
INSIDE = "--apart"
ARCHIVE = {"f": b"a\nb", "d": None, "d/g": b"deep"}


def text_of(name):
    with open(f"{TOP}/examples/{name}") as it:
        return it.read()


def served(name):
    """A server of an example as it stands; it never ends, so whoever leaves it kills it."""
    server = Server(root="folder", files=ARCHIVE, text=text_of(name), port=2121)
    server.first = 30000
    return server


def moved(name):
    """The same where another program may have its ports."""
    first = PORTS_TO_HAND_OUT.take(257)
    server = Server(root="folder", files=ARCHIVE, port=first)
    text = text_of(name).replace("port = 2121", f"port = {first}").replace('root = "/srv/ftp"', f'root = "{server.folder}"')
    text = re.sub(r"passive_first = 30000\npassive_last = 30(\d+)", lambda it: f"passive_first = {first + 1}\npassive_last = {first + 1 + int(it[1])}", text)
    server.text, server.first = text, first + 1
    return server


def office(server):
    """Users, homes, an override, and the files of its store."""
    with server:
        ann = Client(server)
        same(ann.listed("NLST"), ["shared"], "ann's names")
        same(ann.retrieve("shared/notes.txt"), b"Uploads go to /in.\n", "the notes")
        ann.store("mine", b"ann's")
        bob = Client(server, "bob", "hunter2")
        bob.says("STOR x", "550 Not permitted")
        bob.store("in/x", b"bob's")
        bob.says("RETR in/x", "550 Not permitted")
        same(ann.retrieve("shared/in/x"), b"bob's", "what bob stored, to ann")
        ann.quit()
        bob.quit()
        want(server.process.poll() is None, "the server goes on")


def public(server):
    """Everyone reads, nobody changes anything; passive clients are told the address of the router."""
    high, low = divmod(server.first, 256)
    with server:
        client = Client(server, name=None)
        client.says(None, "220 A public archive; all that you see here may be taken.")
        client.says("USER anonymous", "331 Password required")
        client.says("PASS me@example.org", "230 You may read everything.")
        client.says("TYPE I", "200 Type is I")
        client.says("PASV", f"227 Entering Passive Mode (203,0,113,7,{high},{low})")
        client.says("RETR d/g", "150 Opening data connection")
        same(Data(server.first).whole(), b"deep", "the file")
        client.says(None, "226 Transfer complete")
        for line in ("STOR x", "APPE f", "DELE f", "RMD d", "MKD e", "RNFR f"):
            client.says(line, "550 Not permitted")
        client.quit()
        want(server.process.poll() is None, "the server goes on")


def archive_of_the_machine(server):
    """Puts the server's folder where the example says, in a file system that nobody else sees."""
    os.makedirs("/srv", exist_ok=True)
    subprocess.run(["mount", "-t", "tmpfs", "tmpfs", "/srv"], check=True)
    os.symlink(server.folder, "/srv/ftp")


def apart(name):
    """What is done in a network and a file system of its own."""
    subprocess.run(["ip", "link", "set", "lo", "up"], check=True)
    server = served(f"{name}.toml")
    if name == "public":
        archive_of_the_machine(server)
    globals()[name](server)


def is_apart_permitted():
    try:
        words = [*APART, "sh", "-c", "ip link set lo up && mount -t tmpfs tmpfs /srv"]
        return subprocess.run(words, capture_output=True).returncode == 0
    except FileNotFoundError:
        return False


def run_apart(name):
    words = [sys.executable, os.path.abspath(__file__), INSIDE, name]
    if not is_apart_permitted():
        print(f"{name}.toml: no network and file system of its own here, so its ports and folder are others")
        globals()[name](moved(f"{name}.toml"))
        return
    found = subprocess.run([*APART, *words], capture_output=True, text=True)
    want(found.returncode == 0, f"{found.stdout}{found.stderr}")


def office_as_it_stands():
    """`examples/office.toml` from a fresh folder."""
    run_apart("office")


def public_as_it_stands():
    """`examples/public.toml` with a folder at /srv/ftp."""
    run_apart("public")


ROWS = [office_as_it_stands, public_as_it_stands]

if __name__ == "__main__" and sys.argv[1:2] == [INSIDE]:
    apart(sys.argv[2])
