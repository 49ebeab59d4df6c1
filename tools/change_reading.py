"""A second reading of the report on a change of a configuration: docs/configuration.md, octet by octet.

`lines` and `as_json` answer what `ftpd check-config NEW --against OLD` is wanted to print for two configurations that are
accepted, given as their TOML tables, and `is_refused` whether a server would refuse the new one. Nothing here knows how the
program goes about it.
"""
import json

from report_reading import Stated, megabits

# The keys that a server does not take while it runs, in the order in which it looks at them, with what a restart would do.
FIXED = (
    ("address", "to listen on {}"), ("port", "to serve on {}"), ("root", "to serve {}"), ("capacity", "for {}"), ("passive_first", "for ports from {}"),
    ("passive_last", "for ports up to {}"), ("lanes", "for {}"),
)
SETTINGS = (
    "banner", "permit_foreign_addresses", "permit_privileged_ports", "masquerade_address", "max_cons", "max_cons_per_address", "max_login_attempts",
    "sessions",
)
AT_THE_START = ("sessions",)
TERMS = ("password", "home", "perms", "override", "group", "msg_login", "msg_quit")
OF_A_SERVER, OF_A_GROUP = ("rate", "down_rate", "up_rate"), ("down_rate", "up_rate")
OF_A_USER = (*OF_A_GROUP, "session_down_rate", "session_up_rate", "session_down_floor", "session_up_floor")


def reason(old, new):
    """The words of a refusal, or None."""
    for key, words in FIXED:
        before, after = old.server[key], new.server[key]
        if before != after and (key != "capacity" or new.in_memory):
            return f"`{key}` cannot change while the server runs: it is {before}; restart the server {words.format(after)}"
    room, stated = old.server["max_cons"], new.server["max_cons"]
    if stated > room:
        return f"`max_cons` cannot be above {room} while the server runs: restart the server to take {stated} connections"
    return None


def by_name(rows):
    return {row["name"]: row for row in rows}


def settings(old, new):
    return [(key, old.server[key], new.server[key]) for key in SETTINGS if old.server[key] != new.server[key]]


def term(user, key):
    if key == "password" and user["name"] == "anonymous":
        return None
    if key == "override":
        return [(row["path"], row["perms"], row.get("recursive", False)) for row in user[key]]
    return user[key]


def names(old, new):
    """What becomes of groups and users: whether it is a group or a user, its name, the change, and the key of a user that changes."""
    for kind, old_rows, new_rows in (("group", old.groups, new.groups), ("user", old.users, new.users)):
        before, after = by_name(old_rows), by_name(new_rows)
        yield from ((kind, name, "added", None) for name in after if name not in before)
        yield from ((kind, name, "taken out", None) for name in before if name not in after)
    earlier = by_name(old.users)
    for user in new.users:
        if user["name"] in earlier:
            yield from (("user", user["name"], "changed", key) for key in TERMS if term(earlier[user["name"]], key) != term(user, key))


def limits(old, new):
    """The rates and guarantees that differ: whose, its name, the key, and both values."""
    pairs = [("server", None, old.server, new.server, OF_A_SERVER)]
    for kind, old_rows, new_rows, keys in (("group", old.groups, new.groups, OF_A_GROUP), ("user", old.users, new.users, OF_A_USER)):
        before = by_name(old_rows)
        pairs += [(kind, row["name"], before[row["name"]], row, keys) for row in new_rows if row["name"] in before]
    return [(kind, name, key, before[key], after[key]) for kind, name, before, after, keys in pairs for key in keys if before[key] != after[key]]


def shown(value):
    return {None: "none", True: "true", False: "false"}.get(value, value) if value is None or isinstance(value, bool) else value


def name_line(kind, name, change, key):
    if change == "changed":
        return f"user {name}: {key} changes {'at once' if key == 'group' else 'for logins from then on'}"
    is_gone = kind == "user" and change == "taken out"
    return f"{kind} {name} is {change}{', and its sessions end' if is_gone else ''}"


def is_refused(old, new):
    return reason(Stated(old), Stated(new)) is not None


def lines(old, new):
    old, new = Stated(old), Stated(new)
    why, found = reason(old, new), [*settings(old, new), *names(old, new), *limits(old, new)]
    if why:
        told = [f"a reload would be refused: {why}"]
    elif found:
        told = ["a reload would be taken, unless the sessions of connected clients were guaranteed more than a rate"]
    else:
        told = ["a reload would change nothing"]
    for key, before, after in settings(old, new):
        told.append(f"{key}: {shown(before)} becomes {shown(after)}{', at the next start alone' if key in AT_THE_START else ''}")
    told += [name_line(*row) for row in names(old, new)]
    rows = limits(old, new)
    if rows:
        told += ["", f"{'octets a second':<24} {'key':<19}{'is':>14}{'becomes':>14}{'Mbit/s is':>12}{'becomes':>12}"]
    for kind, name, key, before, after in rows:
        whose = f"{kind} {name:<{23 - len(kind)}}" if name is not None else f"{kind:<24}"
        told.append(f"{whose} {key:<19}{before or '-':>14}{after or '-':>14}{megabits(before):>12}{megabits(after):>12}")
    return "".join(f"{line}\n" for line in told)


def as_json(old, new):
    """The report as one line of JSON, with members in the order of their names."""
    old, new = Stated(old), Stated(new)
    why = reason(old, new)
    rows = [settings(old, new), list(names(old, new)), limits(old, new)]
    found = {
        "limits": [{"of": kind, "name": name, "key": key, "old": before or None, "new": after or None} for kind, name, key, before, after in rows[2]],
        "names": [{"of": kind, "name": name, "change": change, "key": key} for kind, name, change, key in rows[1]],
        "outcome": "refused" if why else "taken" if any(rows) else "nothing",
        "reason": why,
        "settings": [{"key": key, "old": before, "new": after} for key, before, after in rows[0]],
        "unit": "octets a second",
        "version": 1,
    }
    return json.dumps(found, sort_keys=True, separators=(",", ":"), ensure_ascii=False) + "\n"
