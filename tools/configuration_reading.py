"""A second reading of configurations: the tables of docs/configuration.md as data, and the first fault of a document.

`first_fault` judges what `tomllib` made of a file's text, and answers the two lines that the program is wanted to tell, or nothing
where the file is a configuration. Nothing here knows how the program goes about it.
"""
import re
import tomllib
from collections import namedtuple

MAX_RATE = 2 ** 40
LONGEST_NAME, LONGEST_PATH = 255, 4096
# How many characters of a name or a key are shown.
LONGEST_SHOWN = 64
LETTERS = set("elradfmw")
# Letters of another server, and what is told of them.
FOREIGN_LETTERS = {
    "M": "; M is for changed modes, and files have none here", "T": "; T is for stated times of change, and they are not stated here",
}
# By how many letters a key may be mistyped, so that another is told.
MOST_EDITS = 2
ROOT = ()

# What a key may hold: the words for it, whether a value is of the kind, whether one of the kind is within its range, and how it is
# written, which is told where a value is of another kind.
Kind = namedtuple("Kind", "words fits is_within hint", defaults=[""])
# A key with no default must be there.
Key = namedtuple("Key", "kind is_needed")
# Where a fault is, and what is the matter there; the path of what its line is about: keys, and the numbers of rows, from 1.
Fault = namedtuple("Fault", "told name path", defaults=[()])


def has_control(text):
    return any(octet < 32 or octet == 127 for octet in text.encode())


def is_number(value):
    return isinstance(value, int) and not isinstance(value, bool)


def is_text(value):
    return isinstance(value, str)


def is_address(text):
    parts = text.split(".")
    return len(parts) == 4 and all(re.fullmatch("0|[1-9][0-9]{0,2}", it) and int(it) < 256 for it in parts)


def number(low, high, hint="; write it in digits, without quotes and without a point"):
    return Kind(f"a number from {low} to {high}", is_number, lambda value: low <= value <= high, hint)


def always(_value):
    return True


TEXT = Kind("a text", is_text, always)
LINE = Kind("a text without control characters", is_text, lambda text: not has_control(text))
FLAG = Kind("true or false", lambda value: isinstance(value, bool), always)
ADDRESS = Kind('an IPv4 address, as "127.0.0.1"', is_text, is_address)
TABLE = Kind("a table", lambda value: isinstance(value, dict), always)
ROWS = Kind("tables in double brackets", lambda value: isinstance(value, list), always)
PORT, VERSION = number(1, 65535), number(1, 2)
RATE = number(0, MAX_RATE, "; write octets a second in digits, as 6_250_000 for 50 Mbit/s")
OCTETS = number(0, MAX_RATE, "; write octets in digits, as 1_048_576")
MOMENT = number(0, 253402300799)


def must(kind):
    return Key(kind, True)


def may(kind):
    return Key(kind, False)


TOP = {"version": must(VERSION), "server": must(TABLE), "group": may(ROWS), "user": may(ROWS), "dir": may(ROWS), "file": may(ROWS)}
SERVER = {
    "address": may(ADDRESS), "port": may(PORT), "root": must(LINE), "capacity": may(OCTETS), "banner": may(LINE),
    "max_cons": may(number(1, 512)), "max_cons_per_address": may(number(0, 512)), "max_login_attempts": may(number(1, 100)),
    "permit_foreign_addresses": may(FLAG), "permit_privileged_ports": may(FLAG), "masquerade_address": may(ADDRESS),
    "passive_first": must(PORT), "passive_last": must(PORT), "lanes": may(number(1, 64)), "sessions": may(number(0, 2 ** 32)),
    "rate": may(RATE), "down_rate": may(RATE), "up_rate": may(RATE),
}
GROUP = {"name": must(LINE), "down_rate": may(RATE), "up_rate": may(RATE)}
USER = {
    "name": must(LINE), "password": must(LINE), "home": must(LINE), "perms": may(LINE),
    "down_rate": may(RATE), "up_rate": may(RATE), "session_down_rate": may(RATE), "session_up_rate": may(RATE),
    "session_down_floor": may(RATE), "session_up_floor": may(RATE), "msg_login": may(LINE), "msg_quit": may(LINE),
    "group": may(LINE), "override": may(ROWS),
}
OVERRIDE = {"path": must(LINE), "perms": must(LINE), "recursive": may(FLAG)}
DIR = {"path": must(LINE)}
FILE = {"path": must(LINE), "text": must(TEXT), "modified": may(MOMENT)}


def is_control(character):
    """Whether it is of the class Cc of Unicode, as a terminal's orders are."""
    return ord(character) < 32 or 127 <= ord(character) < 160


def shown(text):
    return "".join("?" if is_control(it) else it for it in text[:LONGEST_SHOWN])


def header(table, row=None, name=None):
    return table + (f" {row}" if row else "") + (f" {shown(name)}" if name is not None else "")


def name_of(row):
    name = row.get("name") if isinstance(row, dict) else None
    return name if isinstance(name, str) else None


def key_fault(place, key, problem, name, path):
    return Fault(f"{place}: {shown(key)}: {problem}", name, path or (key,))


def fault_at(place, key, kind, value, path):
    """The fault of a value at a key, or nothing."""
    if not kind.fits(value):
        return key_fault(place, key, f"of the wrong kind; it must be {kind.words}{kind.hint}", "WrongKind", path)
    if not kind.is_within(value):
        return key_fault(place, key, f"out of range; it must be {kind.words}", "OutOfRange", path)
    return None


def edits_between(one, other):
    """How many characters are to be changed, put in or left out, so that one text becomes another."""
    row = list(range(len(other) + 1))
    for count, letter in enumerate(one, 1):
        before, row[0] = row[0], count
        for at, another in enumerate(other, 1):
            before, row[at] = row[at], min(row[at] + 1, row[at - 1] + 1, before + (letter != another))
    return row[-1]


# The keys of each table in the latest version, of which the first that is similar is told.
LATEST = {
    "top": TOP, "[server]": SERVER, "[[group]]": GROUP, "[[user]]": USER, "[[user.override]]": OVERRIDE, "[[dir]]": DIR, "[[file]]": FILE,
}


def similar_to(key, keys):
    """What is told of the first key whose last words are this one, or else of the most similar, where few letters lead there."""
    for it in keys:
        if it.endswith("_" + key):
            return f"; a similar key is {it}"
    most = min(MOST_EDITS, len(key) - 1)
    edits = {it: edits_between(key, it) for it in keys}
    near = {it: count for it, count in edits.items() if 0 < count <= most}
    return f"; a similar key is {min(near, key=near.get)}" if near else ""


def table_fault(place, keys, table, path=()):
    """The first fault of a table: an unknown key, the least by its octets, and then its keys in their order."""
    unknown = sorted((it for it in table if it not in keys), key=str.encode)
    if unknown:
        return key_fault(place, unknown[0], "no such key" + similar_to(unknown[0], LATEST[place.split(" ")[0]]), "UnknownKey", path)
    for key, (kind, is_needed) in keys.items():
        if key not in table:
            if is_needed:
                hint = "; write version = 2 in the first line" if key == "version" else ""
                return key_fault(place, key, f"missing; it must be {kind.words}{hint}", "Missing", path)
        elif found := fault_at(place, key, kind, table[key], path):
            return found
    return None


def rows_fault(table, key, rows, keys_of, owner=None, above=()):
    for number_of_row, row in enumerate(rows, 1):
        place = header(table, number_of_row, owner if owner is not None else name_of(row))
        path = (*above, key, number_of_row)
        if not isinstance(row, dict):
            return key_fault(place, key, f"of the wrong kind; it must be {ROWS.words}", "WrongKind", path)
        if found := table_fault(place, keys_of(row), row, path):
            return found
    return None


def without(keys, *names):
    return {key: it for key, it in keys.items() if key not in names}


def keys_of_user(version):
    """Version 1 knows no groups, and the password of `anonymous` is not read."""
    def keys(row):
        known = USER if version != 1 else without(USER, "group")
        if row.get("name") == "anonymous":
            known = {**known, "password": may(Kind("anything", always, always))}
        return known
    return keys


def tables_fault(document):
    """The first fault of a key of the file."""
    version = document.get("version")
    is_first = is_number(version) and version == 1
    yield table_fault("top", without(TOP, "group") if is_first else TOP, document)
    yield table_fault("[server]", SERVER, document["server"], ("server",))
    yield rows_fault("[[group]]", "group", document.get("group", []), lambda _row: GROUP)
    users = document.get("user", [])
    yield rows_fault("[[user]]", "user", users, keys_of_user(version))
    for number_of_user, user in enumerate(users, 1):
        above = ("user", number_of_user)
        yield rows_fault("[[user.override]]", "override", user.get("override", []), lambda _row: OVERRIDE, user["name"], above)
    yield rows_fault("[[dir]]", "dir", document.get("dir", []), lambda _row: DIR)
    yield rows_fault("[[file]]", "file", document.get("file", []), lambda _row: FILE)


def groups_fault(document):
    """Two groups of one name, and then a user whose group is not there."""
    names = set()
    for row, group in enumerate(document.get("group", []), 1):
        if group["name"] in names:
            yield Fault(f"{header('[[group]]', row, group['name'])}: there is a group of that name", "BadGroup", ("group", row))
        names.add(group["name"])
    for row, user in enumerate(document.get("user", []), 1):
        if "group" in user and user["group"] not in names:
            yield Fault(f"{header('[[user]]', row, user['name'])}: there is no group of that name", "BadGroup", ("user", row))


def path_of(text):
    """The names that lead there from the root; nothing where a name or the path is too long."""
    names = []
    for name in text.split("/"):
        if len(name.encode()) > LONGEST_NAME:
            return None
        if name == "..":
            names = names[:-1]
        elif name not in ("", "."):
            names.append(name)
    return tuple(names) if sum(len(it.encode()) + 1 for it in names) <= LONGEST_PATH else None


def quoted(character):
    """A character in quotes, as Rust shows one."""
    if is_control(character):
        return f"'\\u{{{ord(character):x}}}'"
    return "'\\''" if character == "'" else "'\\\\'" if character == "\\" else f"'{character}'"


def refusal_of(letters, path):
    """Why letters with a path are refused, or nothing."""
    strays = [it for it in letters if it not in LETTERS]
    if strays:
        return f"{quoted(strays[0])} is no permission letter; the letters are {' '.join(sorted(LETTERS))}{FOREIGN_LETTERS.get(strays[0], '')}"
    return "not a path" if path_of(path) is None else None


def users_fault(document):
    """Users in the order of the file, each with the overrides of theirs."""
    names = set()
    for row, user in enumerate(document.get("user", []), 1):
        is_there = user["name"] in names
        names.add(user["name"])
        refusal = "there is a user of that name" if is_there else refusal_of(user.get("perms", ""), user["home"])
        if refusal:
            yield Fault(f"{header('[[user]]', row, user['name'])}: {refusal}", "BadUser", ("user", row))
        for number_of_rule, rule in enumerate(user.get("override", []), 1):
            if refusal := refusal_of(rule["perms"], rule["path"]):
                path = ("user", row, "override", number_of_rule)
                yield Fault(f"{header('[[user.override]]', number_of_rule, user['name'])}: {refusal}", "BadUser", path)


def refusal_above(entries, path):
    """Why nothing can be made at a path below the root, by what stands above it, or nothing."""
    for length in range(len(path)):
        above = path[:length]
        if above not in entries:
            return "its parent directory is missing; write a [[dir]] row for it first"
        if entries[above] is not None:
            return "its path leads through a file, not a directory"
    return None


EXISTS = "a directory has that path already; remove this row"
IS_DIRECTORY = "a directory has that path; choose another for the file"


def refusal_to_make(entries, path, text, capacity):
    """Why a directory (with no text) or a file is not made, or nothing."""
    if path is None:
        return "path: a name or the path is too long"
    if path == ROOT:
        return EXISTS if text is None else IS_DIRECTORY
    if refusal := refusal_above(entries, path):
        return refusal
    if text is None:
        return EXISTS if path in entries else None
    if path in entries and entries[path] is None:
        return IS_DIRECTORY
    others = sum(size for place, size in entries.items() if size is not None and place != path)
    return "the files have more octets than `capacity`; raise it" if others + len(text.encode()) > capacity else None


def store_fault(document):
    """The range of ports, and then what a store in memory holds."""
    server = document["server"]
    if server["passive_last"] < server["passive_first"]:
        yield Fault("[server]: passive_last is below passive_first", "BadStore", ("server",))
    if server["root"] != "memory":
        return
    # How many octets each file has; a directory has none at all.
    entries = {ROOT: None}
    for table in ("dir", "file"):
        for row, made in enumerate(document.get(table, []), 1):
            path, text = path_of(made["path"]), made.get("text")
            if refusal := refusal_to_make(entries, path, text, server.get("capacity", 1048576)):
                yield Fault(f"{header(f'[[{table}]]', row, made['path'])}: {refusal}", "BadStore", (table, row))
            entries[path] = None if text is None else len(text.encode())


def holds(value, path):
    """Whether the value at a path is there, after the lines that were read of a file."""
    for step in path:
        if isinstance(step, int):
            if not isinstance(value, list) or len(value) < step:
                return False
            value = value[step - 1]
        elif isinstance(value, dict) and step in value:
            value = value[step]
        else:
            return False
    return True


def read(lines):
    """What these lines state together; nothing where they end within a statement."""
    try:
        return tomllib.loads("".join(f"{line}\n" for line in lines))
    except tomllib.TOMLDecodeError:
        return None


def is_statement(line):
    return line.strip(" \t\r") != "" and not line.lstrip(" \t").startswith("#")


def line_of(text, path):
    """The line of the statement by which something is there, found by halves: what stands above that line does not state it yet. Of an
    override without a header of its own it is the line of its user; what is nowhere, or a key above all tables that is empty or written
    by escapes, has line 1."""
    has_long_texts = '"""' in text or "'''" in text
    rows = enumerate(text.removeprefix("\ufeff").split("\n"), 1)
    numbered = [(number, line) for number, line in rows if has_long_texts or is_statement(line)]
    if not numbered:
        return 1
    low, high = 0, len(numbered)
    while high - low > 1:
        # The nearest place between two statements, behind the middle or before it.
        places = [*range((low + high) // 2, high), *range((low + high) // 2 - 1, low, -1)]
        found = next((it for it in ((place, read(line for _, line in numbered[:place])) for place in places) if it[1] is not None), None)
        if found is None:
            break
        low, high = (low, found[0]) if holds(found[1], path) else (found[0], high)
    while not is_statement(numbered[low][1]):
        low += 1
    number, line = numbered[low]
    if len(path) == 4 and not line.lstrip(" \t").startswith("["):
        return line_of(text, path[:2])
    is_above = len(path) == 1 and (not path[0] or path[0] not in line)
    return 1 if is_above or not holds(tomllib.loads(text.removeprefix("\ufeff")), path) else number


def first_fault(text, document):
    """The first fault of what a file states, or nothing."""
    for judged in (tables_fault, groups_fault, users_fault, store_fault):
        for found in judged(document):
            if found:
                return Fault(f"line {line_of(text, found.path)}: {found.told}", found.name)
    return None
