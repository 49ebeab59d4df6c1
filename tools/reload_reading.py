"""A second reading of reloads: 'A changed configuration' of docs/server.md, with docs/authorizer.md, docs/session.md and docs/status.md.

A `House` is a server as its clients see it: the configuration of its start, the one that it took last, and who is inside. It answers whether
a text is taken, and what clients and the status show from then on. Nothing here knows how the program goes about it.
"""
import re
import tomllib

from configuration_reading import first_fault

WAYS = ("down", "up")
# The keys that need a restart, with their defaults and how a note of the refusal goes on, in the order in which they are looked at.
FIXED = (
    ("address", "127.0.0.1", "restart the server to listen on {}"),
    ("port", 2121, "restart the server to serve on {}"),
    ("root", None, "restart the server to serve {}"),
    ("passive_first", None, "restart the server for ports from {}"),
    ("passive_last", None, "restart the server for ports up to {}"),
    ("lanes", 16, "restart the server for {}"),
)
MAX_CONS, MAX_LOGIN_ATTEMPTS = 64, 3
# The octets of the file `where`, and of `in/where` and `in/s/where`, of each home.
LENGTHS = {"/": 1, "/a": 20, "/b": 300}
UNPREPARED = "425 Use PASV, EPSV, PORT or EPRT first"
# A line for each letter, with the path at which the letter is looked for, and the reply to who has it; none of them changes anything.
PROBES = [
    (letter, f"{verb} {path}", path, reply)
    for place in ("", "/in", "/in/s")
    for letter, verb, path, reply in (
        ("e", "CWD", f"{place}/" if not place else place, "250 Directory changed"),
        ("l", "SIZE", f"{place}/where", None),
        ("r", "RETR", f"{place}/where", UNPREPARED),
        ("a", "APPE", f"{place}/where", UNPREPARED),
        ("d", "DELE", f"{place}/none", "550 No such file or directory"),
        ("f", "RNFR", f"{place}/where", "350 Send RNTO"),
        ("m", "MKD", f"{place}/in/s" if not place else f"{place}/where", "550 Already exists"),
        ("w", "STOR", f"{place}/where", UNPREPARED),
    )
]


def users_of(document):
    return {it["name"]: it for it in document.get("user", [])}


def groups_of(document):
    return {it["name"]: it for it in document.get("group", [])}


def names_of(path):
    return [it for it in path.split("/") if it]


def letters_at(row, path):
    """The letters of a user at a path below the home: those of the deepest override that covers it, or else the user's own."""
    path, deepest, letters = names_of(path), -1, row.get("perms", "elr")
    for it in row.get("override", []):
        above = names_of(it["path"])
        covers = path[:len(above)] == above and (it.get("recursive", False) or len(path) <= len(above) + 1)
        if covers and len(above) >= deepest:
            deepest, letters = len(above), it["perms"]
    return letters


def replies_to(row):
    """What a user of these letters, overrides and home is told for each line of PROBES."""
    length = LENGTHS[row["home"]]
    return [reply or f"213 {length}" if letter in letters_at(row, path) else "550 Not permitted" for letter, _, path, reply in PROBES]


def limits_above(document, row, way):
    """The rates that hold for a user's session in a direction: each with its key, and whose it is."""
    server, user, group = document["server"], f'the user "{row["name"]}"', row.get("group")
    yield f"session_{way}_rate", user, row.get(f"session_{way}_rate", 0)
    yield f"{way}_rate", user, row.get(f"{way}_rate", 0)
    if group is not None:
        yield f"{way}_rate", f'the group "{group}"', groups_of(document)[group].get(f"{way}_rate", 0)
    yield f"{way}_rate", "the server", server.get(f"{way}_rate", 0)
    yield "rate", "the server", server.get("rate", 0)


def broken(document, names):
    """The limits above which the guarantees of sessions of these users are together: key, whose, what is promised, and the rate."""
    sums, users = {}, users_of(document)
    for place, name in enumerate(names):
        for way in WAYS if name in users else ():
            for key, whose, rate in limits_above(document, users[name], way):
                mark = key, whose, rate, place if key.startswith("session") else None
                sums[mark] = sums.get(mark, 0) + users[name].get(f"session_{way}_floor", 0)
    return {(key, whose, promised, rate) for (key, whose, rate, _), promised in sums.items() if 0 < rate < promised}


class Session:
    """Somebody inside, with the row of the user at the login, and the direction of a transfer that runs, if there is one."""

    def __init__(self, name, row, way):
        self.name, self.row, self.way = name, row, way


class House:
    def __init__(self, document):
        self.start = self.taken = document
        self.inside, self.past, self.moves = [], {}, []
        self.remember()

    def remember(self):
        """Keeps the users' rows, for sessions of those who are taken out later."""
        self.past |= users_of(self.taken)

    def names(self):
        return [it.name for it in self.inside]

    def max_cons(self):
        return self.taken["server"].get("max_cons", MAX_CONS)

    def max_login_attempts(self):
        return self.taken["server"].get("max_login_attempts", MAX_LOGIN_ATTEMPTS)

    def banner(self):
        return f"220 {self.taken['server'].get('banner', 'Ready')}"

    def refusal(self, connected):
        """What one more client is told beside so many who are connected; nothing if it is let in."""
        of_address = self.taken["server"].get("max_cons_per_address", 0)
        if connected >= self.max_cons():
            return "421 Too many connections"
        return "421 Too many connections from this address" if 0 < of_address <= connected else None

    def reply_to_login(self, name, password):
        """What PASS is told in the first attempt, beside all who are inside."""
        row = users_of(self.taken).get(name)
        if row is None or name != "anonymous" and row["password"] != password:
            return "530 Login incorrect" if self.max_login_attempts() > 1 else "421 Too many login attempts"
        return "421 Guaranteed rate not available" if broken(self.taken, [*self.names(), name]) else f"230 {row.get('msg_login', 'Welcome')}"

    def enter(self, name, way):
        self.inside.append(Session(name, users_of(self.taken)[name], way))
        return self.inside[-1]

    def fixed(self, document):
        """The reason for which a configuration needs a restart, or nothing."""
        for key, default, goes_on in FIXED:
            old, new = self.start["server"].get(key, default), document["server"].get(key, default)
            if old != new:
                return f"`{key}` cannot change while the server runs: it is {old}; {goes_on.format(new)}"
        old, new = (it["server"].get("max_cons", MAX_CONS) for it in (self.start, document))
        return f"`max_cons` cannot be above {old} while the server runs: restart the server to take {new} connections" if new > old else None

    def reasons(self, octets):
        """The reasons for which a text is refused, as patterns, of which a note has to have one; none if it is taken. None is no file."""
        if octets is None:
            return [r".*No such file or directory \(os error 2\)"]
        try:
            text = octets.decode()
            document = tomllib.loads(text)
        except (UnicodeDecodeError, tomllib.TOMLDecodeError):
            return [r"line \d+, column \d+: .+"]
        fault = first_fault(text, document)
        told = fault.told if fault else self.fixed(document)
        if told:
            return [re.escape(told)]
        found = broken(document, self.names())
        return [re.escape(f"the sessions inside are promised {promised}, and `{key}` of {whose} would be {rate}") for key, whose, promised, rate in sorted(found)]

    def reload(self, octets):
        """Takes a text, or refuses it and changes nothing; returns the reasons."""
        found = self.reasons(octets)
        if not found:
            before, self.taken = self.taken, tomllib.loads(octets.decode())
            old, new = users_of(before).keys(), users_of(self.taken).keys()
            self.moves.append((new - old, old - new))
            self.remember()
        return found

    def taken_out(self):
        """The sessions of users who are there no longer."""
        return [it for it in self.inside if it.name not in users_of(self.taken)]

    def status(self):
        """What a status shows of the limits, and of each busy session by its user."""
        server = self.taken["server"]
        line = {shown: server.get(key, 0) or None for shown, key in (("both", "rate"), ("down", "down_rate"), ("up", "up_rate"))}
        groups = [{"name": name, **{way: row.get(f"{way}_rate", 0) or None for way in WAYS}, **self.guaranteed_in(name)} for name, row in sorted(groups_of(self.taken).items())]
        return {"line": line, "groups": groups, "users": len(users_of(self.taken)), "max_sessions": self.max_cons()}

    def guaranteed_in(self, group):
        """What is guaranteed in all, of each direction, to those inside whose group this is."""
        rows = [users_of(self.taken).get(it.name, {}) for it in self.inside if self.past[it.name].get("group") == group]
        return {f"guaranteed_{way}": sum(it.get(f"session_{way}_floor", 0) for it in rows) or None for way in WAYS}

    def charged(self, session):
        """What a status shows of a session's transfer: those who are taken out keep their rates, and no guarantee."""
        past, way, row = self.past[session.name], session.way, users_of(self.taken).get(session.name, {})
        rates = {"user_rate": past.get(f"{way}_rate", 0) or None, "session_rate": past.get(f"session_{way}_rate", 0) or None}
        return {"user": session.name, "group": past.get("group"), "direction": way, **rates, "guaranteed": row.get(f"session_{way}_floor", 0) or None}
