"""A second reading of the report on a configuration: docs/configuration.md, octet by octet.

`lines` and `as_json` answer what `ftpd check-config` is wanted to print for a configuration that is accepted, given as its
TOML table, as what is there on the machine, and as the way in which the line is to be shared. Nothing here knows how the
program goes about it.
"""
import json
from collections import namedtuple

LETTERS = {
    "e": "change directory", "l": "list", "r": "retrieve", "a": "append", "d": "delete", "f": "rename", "m": "make directories", "w": "store",
}
OWN_FIRST, OWN_LAST = 32768, 60999
MOST_LANES = 64
LISTED, ABSENT, NO_FOLDER, CLOSED = "listed", "absent", "no folder", "closed"
SERVER = {
    "address": "127.0.0.1", "port": 2121, "capacity": 1048576, "banner": "Ready", "max_cons": 64, "max_cons_per_address": 0,
    "max_login_attempts": 3, "permit_foreign_addresses": False, "permit_privileged_ports": False, "masquerade_address": None,
    "lanes": 16, "sessions": 0, "rate": 0, "down_rate": 0, "up_rate": 0,
}
RATES = ("down_rate", "session_down_floor", "session_down_rate", "session_up_floor", "session_up_rate", "up_rate")
USER = {"password": "", "perms": "elr", "msg_login": "Welcome", "msg_quit": "Goodbye", "group": None, "override": [], **dict.fromkeys(RATES, 0)}

# What is there on the machine: what is at the root, the homes that are there beneath it (the names of each, in a tuple), and the
# permission bits of the configuration's file, or None.
Machine = namedtuple("Machine", "root homes mode")


class Stated:
    """The tables of a configuration, with the default of each key that is not stated."""

    def __init__(self, table):
        self.version = table["version"]
        self.server = SERVER | table["server"]
        self.groups = [{"down_rate": 0, "up_rate": 0} | row for row in table.get("group", [])]
        self.users = [USER | row for row in table.get("user", [])]
        self.dirs, self.files = table.get("dir", []), table.get("file", [])

    @property
    def in_memory(self):
        return self.server["root"] == "memory"

    def announced(self):
        """The address that clients are told, or None for the one that they reached."""
        told = self.server["masquerade_address"] or self.server["address"]
        return None if told == "0.0.0.0" else told


def names(path):
    found = []
    for name in path.split("/"):
        if name == "..":
            found = found[:-1]
        elif name not in ("", "."):
            found.append(name)
    return tuple(found)


def ordered(letters):
    return "".join(letter for letter in LETTERS if letter in letters)


def overrides(user):
    return [{"path": row["path"], "perms": ordered(row["perms"]), "recursive": row.get("recursive", False)} for row in user["override"]]


# ---- warnings

def shortage(stated, user, sessions):
    """The words of the first rate that the guarantees of that number of sessions of a user do not fit into, or nothing."""
    group = next((row for row in stated.groups if row["name"] == user["group"]), {})
    floors = {way: user[f"session_{way}_floor"] for way in ("down", "up")}
    rates = []
    for way, floor in floors.items():
        rates.append((f"session {way}", floor, user[f"session_{way}_rate"]))
        for words, row in ((f"user {user['name']}", user), (f"group {user['group']}", group), ("server", stated.server)):
            rates.append((f"{words} {way}", sessions * floor, row.get(f"{way}_rate", 0)))
    rates.append(("server", sessions * sum(floors.values()), stated.server["rate"]))
    for words, promised, rate in rates:
        if rate and promised > rate:
            return f"{promised} octets a second would be guaranteed of the {rate} of {words}"
    return None


def warnings_of_root(stated, machine):
    root = stated.server["root"]
    if root.lower() == "memory" and root != "memory":
        yield f"{root} is the path of a folder; the word for a store in memory is memory"
    elif root != "memory" and not root.startswith("/"):
        yield f"the folder {root} is sought where the program is started; state a path that begins with /"
    if not stated.in_memory and machine.root != LISTED:
        yield {ABSENT: f"the folder {root} is not there", NO_FOLDER: f"{root} is no folder", CLOSED: f"the folder {root} cannot be listed"}[machine.root]


def warnings_of_all(stated):
    """Lanes and guarantees that users have together, and that there is nobody."""
    server = stated.server
    lanes, connections = server["lanes"], server["max_cons"]
    if lanes < min(connections, MOST_LANES):
        yield f"{connections} connections have fewer lanes, {lanes}: while as many transfers run, listings and transfers of others wait"
    promised = {way: sum(user[f"session_{way}_floor"] for user in stated.users) for way in ("down", "up")}
    if lanes < connections and sum(promised.values()):
        yield f"a session gets what it is guaranteed while its transfer has a lane, and may wait for one: lanes = {lanes}"
    of_all = [(promised["down"], "down", server["down_rate"]), (promised["up"], "up", server["up_rate"])]
    for total, way, rate in [*of_all, (sum(promised.values()), "both ways", server["rate"])]:
        if rate and total > rate:
            yield f"a session of each user is guaranteed {total} {way} in all, and the rate is {rate}: not all of them can be logged in at once"
    if not stated.users:
        yield "no user is stated, so nobody can log in"


def warnings_of_server(stated, machine):
    server = stated.server
    first, last, connections = server["passive_first"], server["passive_last"], server["max_cons"]
    if stated.announced() is None:
        yield "clients are told the address that they reached; behind a router state masquerade_address"
    if first <= OWN_LAST and OWN_FIRST <= last:
        yield f"the machine takes ports {OWN_FIRST} to {OWN_LAST} for its own connections; passive ones are {first} to {last}"
    if first <= server["port"] <= last:
        yield f"port {server['port']} is that of control connections and among the passive ports, {first} to {last}: no client is told it"
    if last - first + 1 < connections:
        yield f"{connections} connections have fewer passive ports, {first} to {last}"
    yield from warnings_of_all(stated)
    if (machine.mode or 0) & 0o004 and any(user["password"] and user["name"] != "anonymous" for user in stated.users):
        yield "everybody on this machine may read the passwords of this file; make it readable by its owner and group alone"


def warnings_of_user(stated, machine, user, share_by):
    name = user["name"]
    if not name:
        yield "the name of a user is empty, so nobody can log in by it"
    if name != name.strip(" "):
        yield f"user {name}: the name begins or ends with a blank"
    if not user["password"] and name != "anonymous":
        yield f"user {name}: the password is empty, and anybody may log in"
    if not {"e", "l"} <= set(user["perms"]):
        may = "".join(f"{LETTERS[letter]}, " for letter in ordered(user["perms"]))
        yield f"user {name}: clients need the letters e and l; permitted: {may}{'nothing else' if may else 'nothing'}"
    if why := shortage(stated, user, 1):
        yield f"user {name}: not even the first session can be guaranteed what each is, and no login is accepted: {why}"
    elif why := shortage(stated, user, 2):
        yield f"user {name}: a second session cannot be guaranteed what each is: {why}"
    there = {names(row["path"]) for row in stated.dirs} if stated.in_memory else set(machine.homes)
    is_unlisted = not stated.in_memory and machine.root != LISTED
    if not is_unlisted and names(user["home"]) and names(user["home"]) not in there:
        yield f"{user['home']}, the home of user {name}, is no directory"
    if (share_by, name) == ("users", "anonymous"):
        yield f"user {name}: all its sessions are one user, and share one part in each direction"


def warnings(stated, machine, share_by):
    yield from warnings_of_root(stated, machine)
    yield from warnings_of_server(stated, machine)
    for user in stated.users:
        yield from warnings_of_user(stated, machine, user, share_by)


# ---- lines

def counted(number, one, more=None):
    """A number with its noun."""
    return f"{number} {one if number == 1 else more or one + 's'}"


def of_server(stated):
    server, root = stated.server, stated.server["root"]
    yield f"listens on {server['address']}:{server['port']}"
    yield f"greets with {server['banner']}"
    yield f"tells clients {stated.announced() or 'the address that they reached'}, ports {server['passive_first']} to {server['passive_last']}"
    yield f"takes {counted(server['max_cons'], 'connection')}, {counted(server['lanes'], 'transfer')} at once"
    of_one = server["max_cons_per_address"]
    yield f"takes {counted(of_one, 'connection') if of_one else 'any number of connections'} from one address"
    yield f"ends a session after {counted(server['max_login_attempts'], 'wrong password')}"
    whom = "any address" if server["permit_foreign_addresses"] else "the client's address"
    yield f"connects to {whom}, ports {1 if server['permit_privileged_ports'] else 1024} to 65535"
    yield f"ends after {counted(server['sessions'], 'session')}" if server["sessions"] else "serves any number of sessions"
    made = f"{counted(len(stated.dirs), 'directory', 'directories')} and {counted(len(stated.files), 'file')}"
    held = f", at most {counted(server['capacity'], 'octet')}, at first {made}"
    yield f"serves {root}{held if stated.in_memory else ''}"


def in_megabits(rate):
    """A rate in Mbit/s, with two decimals, rounded down."""
    hundredths = rate * 8 // 10 ** 4
    return f"{hundredths // 100}.{hundredths % 100:02}"


def megabits(rate):
    """The same in a column: none is a dash."""
    return in_megabits(rate) if rate else "-"


def rates(head, down, up):
    return f"{head:<24}" + "".join(f"{rate or '-':>14}" for rate in (down, up)) + "".join(f"{megabits(rate):>12}" for rate in (down, up))


def of_rates(stated):
    server = stated.server
    yield f"{'octets a second':<24}{'down':>14}{'up':>14}{'Mbit/s down':>12}{'Mbit/s up':>12}"
    yield rates("server", server["down_rate"], server["up_rate"])
    yield f"{'both ways together':<24}{server['rate'] or '-':>14}{'':>14}{megabits(server['rate']):>12}"
    for group in stated.groups:
        yield rates(f"group {group['name']:<18}", group["down_rate"], group["up_rate"])
    for user in stated.users:
        yield rates(f"user {user['name']:<19}", user["down_rate"], user["up_rate"])
        for head, kind in (("  each session", "rate"), ("  guaranteed to each", "floor")):
            pair = [user[f"session_{way}_{kind}"] for way in ("down", "up")]
            if any(pair):
                yield rates(head, *pair)


def of_users(stated):
    yield f"{'user':<16} {'may':<10} {'group':<16} home"
    for user in stated.users:
        yield f"{user['name']:<16} {ordered(user['perms']):<10} {user['group'] or '-':<16} {user['home']}"
        for row in overrides(user):
            yield f"  {row['path']:<14} {row['perms']:<10} {'and all beneath it' if row['recursive'] else 'and the entries in it'}"
        for head, key in (("login", "msg_login"), ("QUIT", "msg_quit")):
            if user[key] != USER[key]:
                yield f"  at {head}: {user[key]}"


def lines(table, machine, share_by):
    stated = Stated(table)
    warned = [f"warning: {it}" for it in warnings(stated, machine, share_by)]
    found = [*of_server(stated), "", *of_rates(stated), "", *of_users(stated), *warned]
    return "".join(f"{line}\n" for line in found)


# ---- JSON

def of_user(user):
    found = {key: user[key] for key in ("group", "home", "msg_login", "msg_quit", "name")}
    return found | {"overrides": overrides(user), "perms": ordered(user["perms"]), "rates": {key: user[key] or None for key in RATES}}


def of_server_in_json(stated):
    server = stated.server
    connections = ("masquerade_address", "passive_first", "passive_last", "permit_foreign_addresses", "permit_privileged_ports")
    return {key: server[key] for key in ("address", "banner", "port", "sessions")} | {
        "data_connections": {"announced_address": stated.announced()} | {key: server[key] for key in connections},
        "limits": {key: server[key] for key in ("lanes", "max_cons", "max_cons_per_address", "max_login_attempts")},
        "rates": {key: server[key] or None for key in ("down_rate", "rate", "up_rate")},
        "store": {"capacity": server["capacity"], "dirs": len(stated.dirs), "files": len(stated.files), "root": server["root"]},
    }


def as_json(table, machine, share_by):
    """The report as one line of JSON, with members in the order of their names."""
    stated = Stated(table)
    found = {
        "config_version": stated.version,
        "groups": [{"name": row["name"], "down_rate": row["down_rate"] or None, "up_rate": row["up_rate"] or None} for row in stated.groups],
        "server": of_server_in_json(stated),
        "unit": "octets a second",
        "users": [of_user(user) for user in stated.users],
        "version": 1,
        "warnings": list(warnings(stated, machine, share_by)),
    }
    return json.dumps(found, sort_keys=True, separators=(",", ":"), ensure_ascii=False) + "\n"
