r"""The session table, read a second time: tools/random-sessions compares the session that was proved with it.

It is written from the table as docs/session.md tells it, with lines whose meaning stands beside them, texts for paths and a
dict for the store. It takes the script of crates/test_session_steps line by line and says what that program is to print, in its
one room: three users, a store of 20 octets, and one login of ann that can be guaranteed its rate. It knows the lines of its
tables alone, and the words that tools/random-sessions gives. Each character stands for one octet.

    reading = Reading()
    assert reading.begin() == "220 Ready\r\n[connected]\r\n"
    assert reading.answer("PWD") == "530 Log in first\r\n"
"""
from collections import namedtuple
from dataclasses import dataclass, field
from datetime import datetime, timezone
from enum import Enum

BANNER = "Ready"
LOGIN_ATTEMPTS = 3
MOST_HELD = 16
LOWEST_PORT = 1024
ADDRESS = "127,0,0,1"
# What each session of a user is promised, and what the server has, in octets a second.
PROMISES = {"ann": 10}
SERVER_RATE = 15
# The most octets of all files.
CAPACITY = 20
FACTS = ("type", "size", "modify", "perm")
OTHER_PROTOCOL = "522 Network protocol not supported, use (1)"

# What a line stands for. SAY tells its argument to everybody, SAY_INSIDE to whoever is logged in; STATUS is STAT without a
# path, and CONNECT is PORT or EPRT.
Command = Enum("Command", """
    SAY SAY_INSIDE NOOP USER PASS QUIT REIN FEAT FACTS TYPE REST CONNECT PASV EPSV EPSV_ALL PWD STATUS ABOR
    CWD MKD RMD DELE RNFR RNTO SIZE MDTM STAT MLST LIST NLST MLSD RETR STOR APPE
""")
Stage = Enum("Stage", "GREETED NAMED INSIDE GONE")
# What becomes of the control connection.
Control = Enum("Control", "OPEN QUITTING CLOSING")
Passive = Enum("Passive", "PLAIN EXTENDED")
Errand = Enum("Errand", "LISTING SENDING TAKING")

# Lines without a path behind them, each with its command and argument; that of CONNECT is where it leads, None for another
# protocol than 1.
LINES = {
    "XYZZY": (Command.SAY, "500 Unknown command"),
    "": (Command.SAY, "500 Empty line"),
    "SITE x": (Command.SAY, "502 Command not served"),
    "RETR": (Command.SAY, "501 Argument missing"),
    "PWD x": (Command.SAY, "501 Argument not wanted"),
    "REST x": (Command.SAY, "501 Bad argument"),
    "TYPE E": (Command.SAY, "504 Parameter not served"),
    "SYST": (Command.SAY, "215 UNIX Type: L8"),
    "HELP x": (Command.SAY, "214 See RFC 959, RFC 2428 and RFC 3659"),
    "OPTS UTF8 ON": (Command.SAY, "200 UTF8 is on"),
    "NOOP": (Command.NOOP, None),
    "USER ann": (Command.USER, "ann"),
    "USER bob": (Command.USER, "bob"),
    "USER dora": (Command.USER, "dora"),
    "USER eve": (Command.USER, "eve"),
    "PASS secret": (Command.PASS, "secret"),
    "PASS b": (Command.PASS, "b"),
    "PASS d": (Command.PASS, "d"),
    "PASS": (Command.PASS, ""),
    "QUIT": (Command.QUIT, None),
    "REIN": (Command.REIN, None),
    "FEAT": (Command.FEAT, None),
    "OPTS MLST size;x;": (Command.FACTS, ("size",)),
    "OPTS MLST modify;type;perm;": (Command.FACTS, ("type", "modify", "perm")),
    "OPTS MLST type;size;modify;perm;": (Command.FACTS, FACTS),
    "OPTS MLST": (Command.FACTS, ()),
    "ALLO 5": (Command.SAY_INSIDE, "202 No storage allocation needed"),
    "MODE S": (Command.SAY_INSIDE, "200 Mode is S"),
    "STRU F": (Command.SAY_INSIDE, "200 Structure is F"),
    "EPSV 2": (Command.SAY_INSIDE, OTHER_PROTOCOL),
    "TYPE A": (Command.TYPE, "A"),
    "TYPE I": (Command.TYPE, "I"),
    "TYPE L 8": (Command.TYPE, "I"),
    "REST 0": (Command.REST, 0),
    "REST 1": (Command.REST, 1),
    "REST 2": (Command.REST, 2),
    "REST 9": (Command.REST, 9),
    "PORT 127,0,0,1,20,0": (Command.CONNECT, (ADDRESS, 5120)),
    "PORT 127,0,0,1,4,0": (Command.CONNECT, (ADDRESS, 1024)),
    "PORT 10,0,0,1,20,0": (Command.CONNECT, ("10,0,0,1", 5120)),
    "PORT 127,0,0,1,3,255": (Command.CONNECT, (ADDRESS, 1023)),
    "PORT 127,0,0,1,0,0": (Command.CONNECT, (ADDRESS, 0)),
    "EPRT |1|127.0.0.1|5120|": (Command.CONNECT, (ADDRESS, 5120)),
    "EPRT |1|10.0.0.1|21|": (Command.CONNECT, ("10,0,0,1", 21)),
    "EPRT |2|::1|5120|": (Command.CONNECT, None),
    "PASV": (Command.PASV, Passive.PLAIN),
    "EPSV": (Command.EPSV, Passive.EXTENDED),
    "EPSV 1": (Command.EPSV, Passive.EXTENDED),
    "EPSV ALL": (Command.EPSV_ALL, None),
    "PWD": (Command.PWD, None),
    "XPWD": (Command.PWD, None),
    "STAT": (Command.STATUS, None),
    "ABOR": (Command.ABOR, None),
    "CDUP": (Command.CWD, ".."),
    "XCUP": (Command.CWD, ".."),
}

# Before a path stands the name of the command, or one of these in its place.
OTHER_CODES = {"XCWD": "CWD", "XMKD": "MKD", "XRMD": "RMD"}

# How a transfer ends, and what the client is told, unless it is done and the store refuses what came.
DONE = "done"
ENDS = {
    DONE: "226 Transfer complete",
    "lost": "426 Connection lost",
    "local": "451 Local fault",
    "full": "552 Storage is full",
    "unconnected": "425 No data connection",
    "forgotten": "451 Out of memory",
    "aborted": "426 Transfer aborted",
}

# What is told of the passive port 40000, by the command that asked for it.
PORTS = {
    Passive.PLAIN: "227 Entering Passive Mode (127,0,0,1,156,64)",
    Passive.EXTENDED: "229 Entering Extended Passive Mode (|||40000|)",
}

# What a handler is told of a file.
HOOKS = {Errand.SENDING: "sent", Errand.TAKING: "received"}

# The letters of the perm fact, each with the letter that a user must hold for it (RFC 3659, section 7.5.5).
FILE_PERMS = {"a": "a", "d": "d", "f": "f", "r": "r", "w": "w"}
DIRECTORY_PERMS = {"c": "w", "d": "d", "e": "e", "f": "f", "l": "l", "m": "m", "p": "d"}


class Refused(Exception):
    """The reply of what is refused: nothing is done of it."""


def need(holds, refusal):
    if not holds:
        raise Refused(refusal)


# ---- paths are texts: the root is the empty one, and each name has a `/` before it


def resolve(start, text):
    """Where a text leads from a directory."""
    names = []
    for name in (text if text.startswith("/") else f"{start}/{text}").split("/"):
        if name == "..":
            names = names[:-1]
        elif name not in ("", "."):
            names.append(name)
    return "".join(f"/{it}" for it in names)


def above(path):
    return path.rpartition("/")[0]


def name_of(path):
    return path.rpartition("/")[2]


def is_beneath(path, top):
    """A path is beneath itself too."""
    return path == top or path.startswith(f"{top}/")


def shown(path):
    """As a client sees it."""
    return path or "/"


# ---- users


Override = namedtuple("Override", "letters is_recursive")


@dataclass(frozen=True)
class User:
    password: str
    home: str
    letters: str
    overrides: dict = field(default_factory=dict)
    welcome: str = "Welcome"
    farewell: str = "Goodbye"

    def letters_at(self, path):
        """By the deepest override that covers the path as the user sees it; one that is not recursive covers its path and
        the entries directly in it."""
        names = path.split("/")
        for up in range(len(names)):
            override = self.overrides.get("/".join(names[:len(names) - up]))
            if override and (override.is_recursive or up <= 1):
                return override.letters
        return self.letters


USERS = {
    "ann": User("secret", "", "elradfmw"),
    "bob": User("b", "", "elr", {"/in": Override("w", True)}),
    "dora": User("d", "/up", "elr", {"/b": Override("lwamfe", True), "/b/a": Override("eld", False)}, "Hello, dora", "So long"),
}


# ---- the store


File = namedtuple("File", "octets second")


class Store:
    """Files and directories by their paths; a directory is None. Nothing else changes it while a transfer runs."""

    def __init__(self):
        self.nodes = {"": None, "/in": None, "/up": None, "/f": File("a\nb", 951827696)}

    def at(self, path):
        need(path in self.nodes, "550 No such file or directory")
        return self.nodes[path]

    def file_at(self, path):
        file = self.at(path)
        need(file, "550 Is a directory")
        return file

    def need_directory(self, path):
        need(not self.at(path), "550 Not a directory")

    def need_vacancy(self, path):
        """Something can be made at the path."""
        if path:
            self.need_directory(above(path))
        need(path not in self.nodes, "550 Already exists")

    def entries(self, path):
        """The paths of what stands in a directory, in the order of the names."""
        return sorted(it for it in self.nodes if it and above(it) == path)

    def make_directory(self, path):
        self.need_vacancy(path)
        self.nodes[path] = None

    def remove_directory(self, path):
        self.need_directory(path)
        need(path and not self.entries(path), "550 Directory not empty")
        del self.nodes[path]

    def remove_file(self, path):
        self.file_at(path)
        del self.nodes[path]

    def rename(self, source, target):
        """What is renamed takes along all beneath it."""
        need(source and target, "550 Not possible inside itself")
        self.at(source)
        self.need_vacancy(target)
        need(not is_beneath(target, source), "550 Not possible inside itself")
        moved = {it: target + it[len(source):] for it in self.nodes if is_beneath(it, source)}
        self.nodes = {moved.get(path, path): node for path, node in self.nodes.items()}

    def read(self, path, offset):
        octets = self.file_at(path).octets
        need(offset <= len(octets), "550 Offset past the end")
        return octets[offset:]

    def open(self, path, offset, second):
        """Opens a file to be written behind this many of its octets, or, where the offset is None, behind all of them."""
        if path not in self.nodes and not offset:
            self.need_vacancy(path)
            self.nodes[path] = File("", second)
        file = self.file_at(path)
        if offset is not None:
            need(offset <= len(file.octets), "550 Offset past the end")
            self.nodes[path] = File(file.octets[:offset], second)

    def finish(self, path, octets, second):
        """Puts what came behind the octets of its file."""
        stored = sum(len(it.octets) for it in self.nodes.values() if it)
        need(stored + len(octets) <= CAPACITY, "552 Storage is full")
        self.nodes[path] = File(self.file_at(path).octets + octets, second)


def moment_of(file):
    """When a file was modified; directories are of the first second."""
    return datetime.fromtimestamp(file.second if file else 0, timezone.utc)


# ---- sessions


class Room:
    """What the sessions share: the store, the logins whose rate is promised, the clock, and what was printed."""

    def __init__(self):
        self.store = Store()
        self.counted = []
        self.has_other = False
        self.second = 0
        self.told = []

    def tell(self, *lines):
        self.told += lines

    def admit(self, name):
        """Counts one more session of a user, where what is promised still fits."""
        fits = sum(PROMISES.get(it, 0) for it in (*self.counted, name)) <= SERVER_RATE
        if fits:
            self.counted.append(name)
        return fits

    def let_other(self):
        """Another session of ann logs in, where its rate can be guaranteed, or leaves."""
        if self.has_other:
            self.counted.remove("ann")
        self.has_other = not self.has_other and self.admit("ann")
        self.tell("[other is here]" if self.has_other else "[other is gone]")


@dataclass
class Parameters:
    """What USER and REIN make as for a new client."""

    directory: str = ""
    type: str = "A"
    offset: int = 0
    facts: tuple = FACTS
    only_extended: bool = False
    is_prepared: bool = False


@dataclass
class Transfer:
    """A transfer's end is awaited; a file has the user's path and the store's."""

    errand: Errand
    path: str = ""
    stored: str = ""
    is_aborted: bool = False


@dataclass
class Session:
    """What the session of a client knows, and what it does."""

    room: Room
    stage: Stage = Stage.GREETED
    control: Control = Control.OPEN
    user: str = ""
    attempts: int = 0
    parameters: Parameters = field(default_factory=Parameters)
    # What the RNFR directly before this line named in the store, and what this line names for the next.
    source: str | None = None
    next_source: str | None = None
    # A passive port is awaited, or a transfer's end.
    begun: Passive | Transfer | None = None
    held: list = field(default_factory=list)

    @property
    def is_inside(self):
        return self.stage is Stage.INSIDE

    @property
    def is_open(self):
        """Whether lines count."""
        return self.stage is not Stage.GONE and self.control is Control.OPEN

    @property
    def runs(self):
        """Whether a transfer's end is to come."""
        return isinstance(self.begun, Transfer)

    @property
    def is_over(self):
        """Whether no input does anything any more."""
        return self.stage is Stage.GONE and not self.runs

    def tell(self, *lines):
        self.room.tell(*lines)

    # ---- inputs

    def take_line(self, text):
        """A line of the client, without its end."""
        if not self.is_open:
            return
        command, argument = meaning_of(text)
        if self.begun:
            self.take_meanwhile(command, argument)
        elif self.held:
            self.hold(command, argument)
        else:
            self.serve(command, argument)

    def take_meanwhile(self, command, argument):
        """A line while a transfer runs or a passive port is awaited."""
        match command:
            case Command.ABOR | Command.NOOP | Command.STATUS:
                self.serve(command, argument)
            case Command.QUIT:
                self.control = Control.QUITTING
            case _:
                self.hold(command, argument)

    def hold(self, command, argument):
        if len(self.held) < MOST_HELD:
            self.held.append((command, argument))
            return
        self.control = Control.CLOSING
        self.tell("421 Too many held lines", *(["[abort]"] if self.runs else []), "[close]")

    def take_held(self):
        if self.is_open and self.held and not self.begun:
            self.serve(*self.held.pop(0))

    def take_port(self, is_free):
        """The passive port, or that none is free."""
        if not isinstance(self.begun, Passive) or self.stage is Stage.GONE or self.control is Control.CLOSING:
            return
        passive, self.begun = self.begun, None
        if is_free:
            self.parameters.is_prepared = True
        self.tell(PORTS[passive] if is_free else "425 No passive port is free")
        self.quit_if_asked()

    def take_end(self, word, octets):
        """The end of a transfer; of an upload the sink comes back with octets, or, where they are None, not at all."""
        if not self.runs:
            return
        transfer, self.begun = self.begun, None
        reply = ENDS[word]
        try:
            if transfer.errand is Errand.TAKING and octets is not None:
                self.room.store.finish(transfer.stored, octets, self.room.second)
        except Refused as refusal:
            reply = str(refusal) if word == DONE else reply
        if self.stage is Stage.GONE:
            return
        if self.control is not Control.CLOSING and not transfer.is_aborted:
            self.tell(reply)
        if transfer.errand in HOOKS:
            self.tell(f"[{'' if word == DONE else 'not '}{HOOKS[transfer.errand]} {shown(transfer.path)}]")
        self.quit_if_asked()

    def take_closed(self):
        """The control connection is gone."""
        if self.stage is Stage.GONE:
            return
        if self.runs:
            self.tell("[abort]")
        self.leave()
        self.stage = Stage.GONE
        self.tell("[disconnected]")

    # ---- a line that is served

    def serve(self, command, argument):
        """What RNFR named counts for the next line alone, and behind a command that moves data the offset is 0."""
        self.source, self.next_source = self.next_source, None
        was_inside = self.is_inside
        try:
            self.judge(command, argument)
        except Refused as refusal:
            self.tell(str(refusal))
        if ROWS[command].moves_data and was_inside:
            self.parameters.offset = 0

    def judge(self, command, argument):
        """The first refusal that holds, in the order of the table; else the row."""
        row = ROWS[command]
        need(row.is_for_all or self.is_inside, "530 Log in first")
        match command:
            case Command.RNTO:
                need(self.source is not None, "503 Send RNFR first")
            case Command.APPE:
                need(self.parameters.offset == 0, "503 REST before APPE")
            case Command.CONNECT | Command.PASV:
                need(not self.parameters.only_extended, "501 EPSV ALL is in force")
        if row.letter:
            argument = resolve(self.parameters.directory, argument)
            need(row.letter in self.letters_at(argument), "550 Not permitted")
        need(self.parameters.is_prepared or not row.moves_data, "425 Use PASV, EPSV, PORT or EPRT first")
        row.act(self, argument)

    def letters_at(self, path):
        return USERS[self.user].letters_at(path)

    def stored(self, path):
        """The path in the store of one that the user sees."""
        return USERS[self.user].home + path

    # ---- rows on logins

    def leave(self):
        """Whoever is logged in leaves."""
        if self.is_inside:
            self.room.counted.remove(self.user)
            self.tell(f"[logout {self.user}]", "[release]")

    def start_over(self, reply):
        self.leave()
        self.tell(reply, *(["[drop]"] if self.parameters.is_prepared else []))
        self.parameters = Parameters()

    def name_user(self, name):
        self.start_over("331 Password required")
        self.stage, self.user = Stage.NAMED, name

    def begin_again(self, _):
        self.start_over(f"220 {BANNER}")
        self.stage = Stage.GREETED

    def check_password(self, password):
        need(not self.is_inside, "503 Already logged in")
        need(self.stage is Stage.NAMED, "503 Send USER first")
        user = USERS.get(self.user)
        if not user or user.password != password:
            self.turn_away()
        elif not self.room.admit(self.user):
            self.close("421 Guaranteed rate not available")
        else:
            self.stage = Stage.INSIDE
            self.tell(f"230 {user.welcome}", f"[login {self.user}]")

    def turn_away(self):
        self.tell(f"[failed {self.user}]")
        self.attempts += 1
        if self.attempts == LOGIN_ATTEMPTS:
            self.close("421 Too many login attempts")
        else:
            self.stage = Stage.GREETED
            self.tell("530 Login incorrect")

    def close(self, reply):
        self.control = Control.CLOSING
        self.tell(reply, "[close]")

    def quit(self, _):
        self.tell(f"221 {USERS[self.user].farewell if self.is_inside else 'Goodbye'}")
        self.leave()
        self.stage, self.control = Stage.GREETED, Control.CLOSING
        self.tell("[close]")

    def quit_if_asked(self):
        """A QUIT that waited."""
        if self.control is Control.QUITTING:
            self.quit(None)

    # ---- rows on parameters, and on the preparation of data

    def tell_features(self, _):
        facts = "".join(f"{it}*;" if it in self.parameters.facts else f"{it};" for it in FACTS)
        self.tell("211-Features", " EPRT", " EPSV", " MDTM", f" MLST {facts}", " REST STREAM", " SIZE", " UTF8", "211 End")

    def choose_facts(self, facts):
        self.parameters.facts = facts
        self.tell(" ".join(["200 MLST OPTS", *(["".join(f"{it};" for it in facts)] if facts else [])]))

    def choose_type(self, wanted):
        self.parameters.type, self.parameters.offset = wanted, 0
        self.tell(f"200 Type is {wanted}")

    def restart_at(self, offset):
        need(offset == 0 or self.parameters.type == "I", "501 Offset needs TYPE I")
        self.parameters.offset = offset
        self.tell(f"350 Restart at {offset}")

    def connect(self, target):
        need(target, OTHER_PROTOCOL)
        address, port = target
        need(address == ADDRESS, "501 Foreign address")
        need(port >= LOWEST_PORT, "501 Privileged port")
        self.parameters.is_prepared = True
        self.tell("200 OK", f"[connect {address},{port // 256},{port % 256}]")

    def open_port(self, passive):
        self.parameters.is_prepared = False
        self.begun = passive
        self.tell("[passive]")

    def allow_extended_alone(self, _):
        self.parameters.only_extended = True
        self.tell("200 EPSV ALL is in force")

    def tell_directory(self, _):
        self.tell(f'257 "{shown(self.parameters.directory)}"')

    def tell_status(self, _):
        is_told = self.runs and not self.begun.is_aborted
        self.tell("211 Transfer in progress" if is_told else "211 No transfer")

    def abort(self, _):
        if self.runs and not self.begun.is_aborted:
            self.begun.is_aborted = True
            self.tell("426 Transfer aborted", "[abort]", "226 Abort done")
        else:
            self.tell("225 No transfer")

    # ---- rows on the store, at the path that the user sees

    def enter_directory(self, path):
        self.room.store.need_directory(self.stored(path))
        self.parameters.directory = path
        self.tell("250 Directory changed")

    def make_directory(self, path):
        self.room.store.make_directory(self.stored(path))
        self.tell(f'257 "{shown(path)}"')

    def remove_directory(self, path):
        need(path, "550 Not permitted")
        self.room.store.remove_directory(self.stored(path))
        self.tell("250 Directory removed")

    def remove_file(self, path):
        self.room.store.remove_file(self.stored(path))
        self.tell("250 File removed")

    def name_source(self, path):
        need(path, "550 Not permitted")
        self.room.store.at(self.stored(path))
        self.next_source = self.stored(path)
        self.tell("350 Send RNTO")

    def rename(self, path):
        self.room.store.rename(self.source, self.stored(path))
        self.tell("250 Renamed")

    def tell_size(self, path):
        need(self.parameters.type == "I", "550 SIZE needs TYPE I")
        self.tell(f"213 {len(self.room.store.file_at(self.stored(path)).octets)}")

    def tell_moment(self, path):
        self.tell(f"213 {moment_of(self.room.store.file_at(self.stored(path))):%Y%m%d%H%M%S}")

    def long_line(self, path):
        file = self.room.store.at(self.stored(path))
        mode, size = ("-rw-r--r--", len(file.octets)) if file else ("drwxr-xr-x", 0)
        moment = moment_of(file)
        return f"{mode} 1 ftp ftp {size:>12} {moment:%b} {moment.day:>2}  {moment.year:04} {name_of(path)}"

    def fact_line(self, path, name):
        """The facts in force of an entry, and the name that is told of it."""
        file = self.room.store.at(self.stored(path))
        perms = (FILE_PERMS if file else DIRECTORY_PERMS).items()
        values = {
            "type": "file" if file else "dir",
            "size": len(file.octets) if file else None,
            "modify": f"{moment_of(file):%Y%m%d%H%M%S}",
            "perm": "".join(it for it, letter in perms if letter in self.letters_at(path)),
        }
        facts = [it for it in self.parameters.facts if values[it] is not None]
        return "".join(f"{it}={values[it]};" for it in facts) + f" {name}"

    def lines_of(self, line, path):
        """The lines of a directory's entries, or of the file itself, each made of the path as the user sees it."""
        if self.room.store.at(self.stored(path)):
            return [line(path)]
        return [line(f"{path}/{name_of(it)}") for it in self.room.store.entries(self.stored(path))]

    def tell_listing(self, path):
        self.tell("213-Status", *self.lines_of(self.long_line, path), "213 End")

    def tell_entry(self, path):
        self.tell("250-Listing", f" {self.fact_line(path, shown(path))}", "250 End")

    def start(self, transfer, *lines):
        """A transfer begins, and uses up what was prepared."""
        self.parameters.is_prepared = False
        self.begun = transfer
        self.tell("150 Opening data connection", *lines)

    def send_listing(self, path):
        self.start(Transfer(Errand.LISTING), *self.lines_of(self.long_line, path))

    def send_names(self, path):
        self.start(Transfer(Errand.LISTING), *self.lines_of(name_of, path))

    def send_facts(self, path):
        need(not self.room.store.at(self.stored(path)), "501 Not a directory")
        self.start(Transfer(Errand.LISTING), *self.lines_of(lambda it: self.fact_line(it, name_of(it)), path))

    def send_file(self, path):
        octets = self.room.store.read(self.stored(path), self.parameters.offset)
        self.start(Transfer(Errand.SENDING, path), f"[send {self.parameters.type} {octets}]")

    def take_file(self, path, offset):
        self.room.store.open(self.stored(path), offset, self.room.second)
        self.start(Transfer(Errand.TAKING, path, self.stored(path)), f"[take {self.parameters.type}]")


def meaning_of(text):
    """The command of a line, and its argument or the path behind it."""
    if text in LINES:
        return LINES[text]
    code, _, path = text.partition(" ")
    return Command[OTHER_CODES.get(code, code)], path


# What a command does, the letter that it asks for at its path, who may give it, and whether it moves data.
Row = namedtuple("Row", "act letter is_for_all moves_data", defaults=("", False, False))

ROWS = {
    Command.SAY: Row(Session.tell, is_for_all=True),
    Command.SAY_INSIDE: Row(Session.tell),
    Command.NOOP: Row(lambda session, _: session.tell("200 OK"), is_for_all=True),
    Command.USER: Row(Session.name_user, is_for_all=True),
    Command.PASS: Row(Session.check_password, is_for_all=True),
    Command.QUIT: Row(Session.quit, is_for_all=True),
    Command.REIN: Row(Session.begin_again, is_for_all=True),
    Command.FEAT: Row(Session.tell_features, is_for_all=True),
    Command.FACTS: Row(Session.choose_facts, is_for_all=True),
    Command.TYPE: Row(Session.choose_type),
    Command.REST: Row(Session.restart_at),
    Command.CONNECT: Row(Session.connect),
    Command.PASV: Row(Session.open_port),
    Command.EPSV: Row(Session.open_port),
    Command.EPSV_ALL: Row(Session.allow_extended_alone),
    Command.PWD: Row(Session.tell_directory),
    Command.STATUS: Row(Session.tell_status),
    Command.ABOR: Row(Session.abort),
    Command.CWD: Row(Session.enter_directory, "e"),
    Command.MKD: Row(Session.make_directory, "m"),
    Command.RMD: Row(Session.remove_directory, "d"),
    Command.DELE: Row(Session.remove_file, "d"),
    Command.RNFR: Row(Session.name_source, "f"),
    Command.RNTO: Row(Session.rename, "f"),
    Command.SIZE: Row(Session.tell_size, "l"),
    Command.MDTM: Row(Session.tell_moment, "l"),
    Command.STAT: Row(Session.tell_listing, "l"),
    Command.MLST: Row(Session.tell_entry, "l"),
    Command.LIST: Row(Session.send_listing, "l", moves_data=True),
    Command.NLST: Row(Session.send_names, "l", moves_data=True),
    Command.MLSD: Row(Session.send_facts, "l", moves_data=True),
    Command.RETR: Row(Session.send_file, "r", moves_data=True),
    Command.STOR: Row(lambda session, path: session.take_file(path, session.parameters.offset), "w", moves_data=True),
    Command.APPE: Row(lambda session, path: session.take_file(path, None), "a", moves_data=True),
}


class Reading:
    """The program crates/test_session_steps, as far as its script has the lines and words that are known here."""

    def __init__(self):
        self.room = Room()
        self.session = Session(self.room)

    def begin(self):
        """What is printed before the first line."""
        return self.answer(":anew")

    def answer(self, line):
        """What is printed for a line of the script, which comes without its LF."""
        self.room.told.clear()
        if line.startswith(":"):
            self.take_word(*line[1:].split(" "))
        else:
            self.session.take_line(line)
        return "".join(f"{it}\r\n" for it in self.room.told)

    def paths(self):
        """Each path at which the store has something."""
        return sorted(map(shown, self.room.store.nodes))

    def take_word(self, *words):
        """What the script says to the program."""
        match words:
            case ["anew"]:
                self.session = Session(self.room)
                self.room.tell(f"220 {BANNER}", "[connected]")
            case ["at", milliseconds]:
                self.room.second = int(milliseconds) // 1000
            case ["other"]:
                self.room.let_other()
            case ["look", path]:
                self.room.tell(*self.looked_at(resolve("", path)))
            case ["held"]:
                self.session.take_held()
            case ["port"]:
                self.session.take_port(is_free=True)
            case ["no", "port"]:
                self.session.take_port(is_free=False)
            case ["closed"]:
                self.session.take_closed()
            case ["end", word]:
                self.session.take_end(word, None)
            case ["end", word, octets]:
                self.session.take_end(word, octets.removeprefix("+"))
            case _:
                raise ValueError(f"the script has an unknown word: {words}")

    def looked_at(self, path):
        """A file's second and octets, or a directory's names."""
        file = self.room.store.at(path)
        return [f"{file.second}: {file.octets}"] if file else map(name_of, self.room.store.entries(path))


class Talks(Reading):
    """The same of whole control sessions, as the loop of the server runs them between `:talk` and their ends: held lines are
    taken as soon as they are due, what a step releases comes first, and the end of a session is told at once."""

    def answer(self, line):
        self.room.told.clear()
        if line == ":talk":
            self.take_word("anew")
        elif line == ":closed":
            self.close()
        else:
            self.take(lambda: super(Talks, self).take_word(*line[1:].split(" ")) if line.startswith(":") else self.session.take_line(line))
        return self.shown()

    def finish(self):
        """What is printed where the script ends within a session."""
        self.room.told.clear()
        if not self.session.is_over:
            self.close()
        return self.shown()

    def shown(self):
        return "".join(f"{it}\r\n" for it in self.room.told)

    def take(self, step):
        """One step, and the held lines behind it."""
        is_closed = self.take_step(step)
        while not is_closed and self.session.held and self.session.is_open and not self.session.begun:
            is_closed = self.take_step(self.session.take_held)
        if is_closed:
            self.close()

    def take_step(self, step):
        """Whether a step closes the control connection."""
        before, self.room.told = self.room.told, []
        step()
        told = self.room.told
        released = [it for it in told if it == "[release]"]
        self.room.told = before + released + [it for it in told if it not in ("[release]", "[close]")]
        return "[close]" in told

    def close(self):
        """The session ends: what still runs is aborted, and what is owed is released last."""
        before, self.room.told = self.room.told, []
        self.session.take_closed()
        self.session.take_end("aborted", "")
        told = self.room.told
        owed = [it for it in told if it == "[release]"]
        self.room.told = before + [it for it in told if it != "[release]"] + owed + ["[over]"]
