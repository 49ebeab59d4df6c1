"""Random texts of a configuration, for `tools/random-reloads`: what a server starts with, and what its file has next.

A text is one that a server takes, if it fits what is promised, or is spoilt: absent, empty, cut, faulty, or with a key that needs a restart.
The changes beside such a fault are those that alone would be taken, so that half of a refused text would be seen.
"""
import copy
import json
import random

from reload_reading import LENGTHS, groups_of, users_of

USERS, GROUPS, PASSWORDS, LETTERS = ("ann", "bob", "cleo", "anonymous"), ("blue", "red"), ("p", "q", "secret"), "elradfmw"
LIMITS, FLOORS = (0, 20_000, 30_000, 40_000, 60_000), (0, 0, 5_000, 10_000, 25_000)


class Dice:
    def __init__(self, seed, number):
        chance = random.Random(seed * 1_000_003 + number)
        self.roll, self.choose, self.sample = chance.randrange, chance.choice, chance.sample

    def letters(self):
        return "".join(self.sample(LETTERS, self.choose((2, 4, 6, 8))))

    def rates(self, row, keys, of=LIMITS):
        for key in keys:
            row.pop(key, None)
            if rate := self.choose(of):
                row[key] = rate

    def user(self, document, name):
        row = {"name": name, "password": self.choose(PASSWORDS), "home": self.choose(tuple(LENGTHS)), "perms": self.letters()}
        self.limits(row)
        self.group(document, row)
        return row

    def limits(self, row):
        self.rates(row, self.sample(("down_rate", "up_rate", "session_down_rate", "session_up_rate"), 2))
        if self.roll(2) == 0:
            self.rates(row, ("session_down_floor", "session_up_floor"), FLOORS)

    def group(self, document, row):
        row.pop("group", None)
        if (groups := sorted(groups_of(document))) and self.roll(3):
            row["group"] = self.choose(groups)

    def start(self, port, root):
        server = {"root": root, "port": port, "passive_first": port + 1, "passive_last": port + 16, "max_cons": 8, "lanes": 8, "rate": 90_000}
        document = {"version": 2, "server": server, "group": [{"name": self.choose(GROUPS), "down_rate": 60_000}]}
        document["user"] = [self.user(document, it) for it in USERS[:3]]
        return document

    def change(self, document):
        """One change of a kind that a server takes, if it fits what is promised."""
        server, users, groups = document["server"], document["user"], document["group"]
        row = self.choose(users) if users else {}
        match self.roll(14):
            case 0 | 1:
                row["password"] = self.choose(PASSWORDS)
            case 2:
                row["perms"] = self.letters()
            case 3:
                row["home"] = self.choose(tuple(LENGTHS))
            case 4 | 5:
                paths = self.sample(("/", "/in", "/in/s"), self.roll(3))
                row["override"] = [{"path": it, "perms": self.letters(), "recursive": self.roll(2) == 0} for it in paths]
            case 6:
                if len(users) > 1:
                    users.remove(row)
            case 7:
                if out := [it for it in USERS if it not in users_of(document)]:
                    users.insert(self.roll(len(users) + 1), self.user(document, self.choose(out)))
            case 8:
                self.change_groups(document)
            case 9:
                self.rates(server, self.sample(("rate", "down_rate", "up_rate"), 2), LIMITS[1:])
            case 10 | 11:
                self.limits(row)
            case 12:
                server["max_login_attempts"] = 1 + self.roll(4)
                server["banner"] = self.choose(("Ready", "Good day", "Hello"))
            case 13:
                server[self.choose(("max_cons", "max_cons", "max_cons_per_address"))] = self.choose((2, 4, 5, 6, 7, 8))
        if groups and self.roll(3) == 0:
            self.rates(self.choose(groups), ("down_rate", "up_rate"))

    def change_groups(self, document):
        groups = document["group"]
        if groups and self.roll(2):
            gone = groups.pop(self.roll(len(groups)))
            for it in document["user"]:
                if it.get("group") == gone["name"]:
                    del it["group"]
        elif new := [it for it in GROUPS if it not in groups_of(document)]:
            groups.append({"name": new[0], "up_rate": 50_000})
        for it in document["user"]:
            if self.roll(2):
                self.group(document, it)

    def spoilt(self, document):
        """The octets of a text that is refused, or of the front of one that may be taken."""
        server = document["server"]
        text = text_of(document)
        match self.roll(12):
            case 0:
                return None
            case 1:
                return b""
            case 2 | 3:
                return text[: self.roll(len(text))].encode()
            case 4:
                server[self.choose(("rat", "port_", "down", "max_conns"))] = 5
            case 5:
                self.choose(document["user"])[self.choose(("rate", "letters", "passwort"))] = "x"
            case 6:
                key = self.choose(("port", "passive_first", "passive_last", "lanes"))
                server[key] += 1 if key == "passive_first" else -1
            case 7:
                key, value = self.choose((("address", "127.0.0.2"), ("root", "memory"), ("max_cons", 9)))
                server[key] = value
            case 8:
                self.choose(document["user"])["perms"] = "elx"
            case 9:
                document["user"].append(dict(document["user"][0]))
            case 10:
                self.choose(document["user"])["group"] = "green"
            case 11:
                return text.encode().replace(b"secret", b"\xff")
        return text_of(document).encode()

    def next(self, house):
        """The octets of the next text."""
        document = copy.deepcopy(house.taken)
        for it in ("group", "user"):
            document.setdefault(it, [])
        if not document["user"]:
            document["user"].append(self.user(document, "ann"))
        if self.roll(6) == 0 and any(row.get("session_down_floor") for name, row in users_of(document).items() if name in house.names()):
            document["server"]["down_rate"] = 4_000
        for _ in range(1 + self.roll(3)):
            self.change(document)
        return self.spoilt(document) if self.roll(5) < 2 else text_of(document).encode()


def text_of(document):
    lines = [f'version = {document["version"]}']
    for table in ("server", "group", "user"):
        for row in [document["server"]] if table == "server" else document[table]:
            lines.append(f"[{table}]" if table == "server" else f"[[{table}]]")
            lines += [f"{key} = {json.dumps(value)}" for key, value in row.items() if key != "override"]
            for it in row.get("override", []):
                lines += ["[[user.override]]", *(f"{key} = {json.dumps(value)}" for key, value in it.items())]
    return "\n".join(lines) + "\n"
