"""A second reading of plans: docs/plan.md, docs/rates.md and the remainder rule of docs/sharing.md, octet by octet.

`plan` answers what `ftpd plan` is wanted to end with for a configuration, given as groups, users and rates, and a word: its
status, and what it prints to either output, in lines or as JSON. Nothing here knows how the program goes about it.
"""
import json

from report_reading import in_megabits, megabits

DONE, FAULTY = 0, 1
LARGEST_WANT = 2 ** 32 - 1
LARGEST_PLANNED, MOST_EXACT = 2 ** 40 // 10, 25
MOST_STATED = 512


class Fault(Exception):
    """What is wrong with a plan, and the fault's name."""

    def __init__(self, told, name):
        super().__init__(f"{told}\nftpd: {name}\n")


class User:
    def __init__(self, name, group=None, rates=None):
        self.name, self.group, self.rates = name, group, rates or {}

    def rate(self, key, way):
        return self.rates.get(f"{key}{way}_rate" if key != "floor" else f"session_{way}_floor", 0)


class Server:
    """The rates of a configuration: `rate`, `down_rate`, `up_rate`; groups by name, each with its two; and users in order."""

    def __init__(self, rates, groups, users, max_cons=64, lanes=16):
        self.rates, self.groups, self.users = rates, groups, users
        self.max_cons, self.lanes = max_cons, lanes

    def limit(self, name):
        """The rate of a name, which is a kind, a direction, and whose it is."""
        kind, way, whose = name
        if kind == "server":
            return self.rates.get("rate", 0)
        if kind == "way":
            return self.rates.get(f"{way}_rate", 0)
        if kind == "group":
            return self.groups[whose].get(f"{way}_rate", 0)
        user = self.users[whose if kind == "user" else whose[0]]
        return user.rate("" if kind == "user" else "session_", way)

    def names(self, user, way, session):
        """The names under which a transfer counts, innermost first."""
        group = self.users[user].group
        grouped = [("group", way, group)] if group is not None else []
        return [("session", way, (user, session)), ("user", way, user), *grouped, ("way", way, None), ("server", None, None)]

    def told(self, name):
        kind, way, whose = name
        if kind == "server":
            return "server"
        who = {"way": "server", "session": "session"}.get(kind) or f"{kind} {whose if kind == 'group' else self.users[whose].name}"
        return f"{who} {way}"


def stated(server, word):
    """The transfers that a word states: the place of a user, and a direction."""
    transfers, seen = [], set()
    for part in word.split(","):
        who, equals, digits = part.rpartition("=")
        if not equals or not (digits.isascii() and digits.isdigit()) or not 1 <= int(digits) < 2 ** 64:
            raise Fault(f"{part}: it must be NAME=N, NAME:down=N or NAME:up=N with a number of transfers from 1, in digits", "BadCount")
        name, colon, way = who.rpartition(":")
        if not colon or way not in ("up", "down"):
            name, way = who, "down"
        users = [place for place, user in enumerate(server.users) if user.name == name]
        if not users:
            raise Fault(f"{name}: no such user", "NoSuchUser")
        if (users[0], way) in seen:
            raise Fault(f"{part}: the user was stated for this direction before", "Twice")
        seen.add((users[0], way))
        transfers += [(users[0], way)] * min(int(digits), MOST_STATED + 1)
        if len(transfers) > MOST_STATED:
            raise Fault(f"more transfers than max_cons = {MOST_STATED} lets in at once", "TooManySessions")
    return transfers


def admit(server, transfers):
    """Each session is guaranteed both directions, and is admitted after those before it."""
    sums = {}
    for place, (user, way) in enumerate(transfers):
        for one in ("down", "up"):
            for name in server.names(user, one, place):
                sums[name] = sums.get(name, 0) + server.users[user].rate("floor", one)
        for name in [*server.names(user, "down", place)[:-1], *server.names(user, "up", place)]:
            if 0 < server.limit(name) < sums[name]:
                number = transfers[:place + 1].count((user, way))
                who = f"session {number} of {server.users[user].name} {way}"
                raise Fault(f"{who}: its guarantees do not fit within {server.told(name)} of {server.limit(name)}", "NotGuaranteed")


def in_leaf_order(server, transfers):
    """The places of transfers as leaves: each name's together, in the order of their first."""
    first = {}
    for place, (user, way) in enumerate(transfers):
        for name in server.names(user, way, place):
            first.setdefault(name, place)
    return sorted(range(len(transfers)), key=lambda at: [first[name] for name in reversed(server.names(*transfers[at], at))])


class Line:
    """The grants of transfers, and what is used of each limit."""

    def __init__(self, server, transfers):
        self.names = [server.names(user, way, at) for at, (user, way) in enumerate(transfers)]
        self.limits = {name: server.limit(name) for names in self.names for name in names if server.limit(name)}
        self.limits = {name: limit for name, limit in self.limits.items() if limit <= LARGEST_PLANNED}
        self.floors = [min(LARGEST_WANT, server.users[user].rate("floor", way)) for user, way in transfers]
        self.grants, self.used = [0] * len(transfers), dict.fromkeys(self.limits, 0)
        for at, floor in enumerate(self.floors):
            self.give(at, floor)

    def give(self, at, octets):
        self.grants[at] += octets
        for name in self.names[at]:
            if name in self.used:
                self.used[name] += octets

    def holder(self, at):
        """The innermost limit above a transfer that is used up."""
        full = [name for name in self.names[at] if name in self.limits and self.used[name] == self.limits[name]]
        return full[0] if full else None

    def has_room(self, at):
        return self.grants[at] < LARGEST_WANT and self.holder(at) is None

    def fill(self, order):
        """The next octet goes to the least grant with room, the first leaf of these; as many rounds at once as none changes this."""
        while roomy := [at for at in order if self.has_room(at)]:
            least = min(self.grants[at] for at in roomy)
            lowest = [at for at in roomy if self.grants[at] == least]
            rounds = min([self.grants[at] - least for at in roomy if self.grants[at] > least] + [LARGEST_WANT - least])
            for name, limit in self.limits.items():
                sharers = sum(name in self.names[at] for at in lowest)
                if sharers:
                    rounds = min(rounds, (limit - self.used[name]) // sharers)
            for at in lowest if rounds else lowest[:1]:
                self.give(at, max(rounds, 1))


def shares(server, transfers):
    """What each transfer gets, what is guaranteed to it, and the name that holds it back, or None."""
    line = Line(server, transfers)
    line.fill(in_leaf_order(server, transfers))
    held = [line.holder(at) if line.grants[at] < LARGEST_WANT else None for at in range(len(transfers))]
    return list(zip(line.grants, line.floors, held))


def judge(server, transfers):
    if len(transfers) > server.max_cons:
        raise Fault(f"more transfers than max_cons = {server.max_cons} lets in at once", "TooManySessions")
    if len(transfers) > server.lanes:
        raise Fault(f"more transfers than lanes = {server.lanes} lets in at once", "TooManyTransfers")
    admit(server, transfers)
    names = {name for at, (user, way) in enumerate(transfers) for name in server.names(user, way, at)}
    if len(transfers) > MOST_EXACT and any(server.limit(name) > LARGEST_PLANNED for name in names):
        raise Fault("a rate is too large for so many transfers", "RateTooLarge")


def lines(server, transfers):
    found = [(user, way, *share) for (user, way), share in zip(transfers, shares(server, transfers))]
    parts = []
    for user, way, grant, floor, held in found:
        part = (server.users[user].name, way, grant, floor, server.told(held) if held else "want")
        if parts and parts[-1][1] == part:
            parts[-1][0] += 1
        else:
            parts.append([1, part])
    yield f"{'octets a second':<16} {'':<5} {'each':>19}{'guaranteed':>14}{'Mbit/s each':>12}{'guaranteed':>12}  held by"
    for count, (name, way, grant, floor, held) in parts:
        yield f"{name:<16} {way:<5}{count:>4} x {grant:>13}{floor or '-':>14}{megabits(grant):>12}{megabits(floor):>12}  {held}"
    totals = {way: sum(it[2] for it in found if it[1] == way) for way in ("down", "up")}
    rows = [(way, totals[way], f"{way}_rate") for way in totals if any(it[1] == way for it in found)]
    if server.rates.get("rate", 0):
        rows.append(("both", sum(totals.values()), "rate"))
    for way, total, key in rows:
        rate = server.rates.get(key, 0)
        octets, shown = (f" of {rate}", f" of {in_megabits(rate)}") if rate else ("", "")
        yield f"{'total':<16} {way:<5} {total:>19}{octets}, {in_megabits(total)}{shown} Mbit/s"


def as_json(server, transfers):
    """The plan as one line of JSON, with members in the order of their names."""
    rows, totals = [], {"down": 0, "up": 0}
    for place, ((user, way), (grant, floor, held)) in enumerate(zip(transfers, shares(server, transfers))):
        totals[way] += grant
        rows.append({
            "user": server.users[user].name,
            "direction": way,
            "number": transfers[:place + 1].count((user, way)),
            "octets": grant,
            "guaranteed": floor or None,
            "held_by": server.told(held) if held else "want",
        })
    limits = {name: server.rates.get(key, 0) or None for name, key in (("down", "down_rate"), ("up", "up_rate"), ("both", "rate"))}
    totals["both"] = sum(totals.values())
    plan = {"version": 1, "unit": "octets a second", "limits": limits, "totals": totals, "transfers": rows}
    return json.dumps(plan, ensure_ascii=False, separators=(",", ":"), sort_keys=True) + "\n"


def plan(server, word, is_json=False):
    """The status, standard output and standard error of `plan`, with `--json` or without."""
    try:
        transfers = stated(server, word)
        judge(server, transfers)
    except Fault as fault:
        return FAULTY, "", str(fault)
    if is_json:
        return DONE, as_json(server, transfers), ""
    return DONE, "".join(line + "\n" for line in lines(server, transfers)), ""
