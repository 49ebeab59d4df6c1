"""A second reading of sheets and grants files: docs/sheets.md and the remainder rule of docs/sharing.md, octet by octet.

`share` and `check` answer what the program is wanted to end with: its status, and what it prints to either output; with a
depth, among the users of that depth. Nothing here knows how the program goes about it. It gives octet by octet: wants are to
be small, of however many leaves. Grants that are checked among users are compared with all grants within the limits if there
are at most MOST_LISTS of them, and otherwise with those that this reading gives.
"""
import re
from itertools import product
from math import prod

DONE, FAULTY, NO = 0, 1, 3
MOST_NAMES, MOST_WANTS = 16, 4096
LARGEST_LIMIT, LARGEST_WANT = 2 ** 52, 2 ** 32 - 1
MOST_LISTS = 3000

PATH = r"(/|(?:/[A-Za-z0-9._-]{1,64})+)"
NUMBER = r"(0|[1-9][0-9]{0,18})"
LIMIT = re.compile(f"limit {PATH} (?:{NUMBER}|-)")
WANT = re.compile(f"want {PATH} {NUMBER}(?: {NUMBER})?")
GRANT = re.compile(f"grant {PATH} {NUMBER}(?: {PATH})?")


class Fault(Exception):
    """A line that is at fault, by its number, and the fault's name."""

    def __init__(self, line, name):
        super().__init__(f"line {line}: {name}")


def lines_of(text):
    """The lines of a text that are no remarks, each with its number."""
    lines = text.split("\n")
    for number, line in enumerate(lines[:-1] if lines[-1] == "" else lines, 1):
        line = line.removesuffix("\r")
        if line and not line.startswith("#"):
            yield number, line


def names_of(path):
    return tuple(path.split("/")[1:]) if path != "/" else ()


def text_of(path):
    return "/" + "/".join(path)


class Sheet:
    """Each path that is mentioned, in the order of first mention: its kids, and what its line states."""

    def __init__(self, text):
        self.kids, self.limits, self.wants, self.lines = {(): []}, {}, {}, {}
        for number, line in lines_of(text):
            self.take(number, line)
        self.judge_floors()

    def take(self, number, line):
        limit, want = LIMIT.fullmatch(line), WANT.fullmatch(line)
        found = limit or want
        path = names_of(found[1]) if found else ()
        if not found or want and not path:
            raise Fault(number, "BadLine")
        self.judge_place(number, path, want)
        self.judge_numbers(number, limit, want)
        self.mention(path)
        self.lines[path] = number
        if want:
            self.wants[path] = int(want[2]), int(want[3] or 0)
        else:
            self.limits[path] = int(limit[2]) if limit[2] else None

    def judge_place(self, number, path, want):
        if path in self.lines:
            raise Fault(number, "Twice")
        if any(path[:length] in self.wants for length in range(len(path))) or want and path in self.kids:
            raise Fault(number, "LeafHasKids")
        if len(path) > MOST_NAMES:
            raise Fault(number, "TooDeep")
        if want and len(self.wants) == MOST_WANTS:
            raise Fault(number, "TooManyLeaves")

    def judge_numbers(self, number, limit, want):
        if want and int(want[2]) > LARGEST_WANT:
            raise Fault(number, "WantTooLarge")
        if limit and limit[2] and int(limit[2]) > LARGEST_LIMIT:
            raise Fault(number, "LimitTooLarge")
        if want and int(want[3] or 0) > int(want[2]):
            raise Fault(number, "FloorTooLarge")

    def mention(self, path):
        for length in range(1, len(path) + 1):
            if path[:length] not in self.kids:
                self.kids[path[:length]] = []
                self.kids[path[:length - 1]].append(path[:length])

    def judge_floors(self):
        """The branch whose line stands first of those whose floors exceed their limits."""
        floors = self.totals({leaf: floor for leaf, (_want, floor) in self.wants.items()})
        for branch in sorted(self.limits, key=self.lines.get):
            limit = self.limits[branch]
            if limit is not None and floors[branch] > limit:
                raise Fault(self.lines[branch], "FloorsOverLimit")

    def walk(self, path=()):
        """The paths beneath one, and itself before them, as a walk of the tree comes to them."""
        yield path
        for kid in self.kids[path]:
            yield from self.walk(kid)

    def leaves(self, branch=()):
        return [it for it in self.walk(branch) if it in self.wants]

    def totals(self, grants):
        """What the leaves beneath each path have together."""
        found = dict.fromkeys(self.kids, 0)
        for leaf, octets in grants.items():
            for length in range(len(leaf)):
                found[leaf[:length]] += octets
        return found

    def is_full(self, branch, totals):
        limit = self.limits.get(branch)
        return limit is not None and totals[branch] == limit

    def holder(self, leaf, totals, highest=0):
        """The deepest full branch above a leaf, of at least that many names, or nothing."""
        above = [leaf[:length] for length in range(len(leaf) - 1, highest - 1, -1)]
        return next((it for it in above if self.is_full(it, totals)), None)

    def users(self, depth):
        """The user of each leaf, in the order of the tree: the path at that depth above it, or itself if it is higher."""
        return {leaf: leaf[:depth] for leaf in self.leaves()}

    def most(self, leaves):
        """How much some leaves can have together, if no others have any: from one octet to the next while one has room."""
        grants, totals = dict.fromkeys(leaves, 0), dict.fromkeys(self.kids, 0)
        for leaf in leaves:
            above = [leaf[:length] for length in range(len(leaf))]
            limits = [self.limits[it] - totals[it] for it in above if self.limits.get(it) is not None]
            grants[leaf] = min([self.wants[leaf][0], *limits])
            for branch in above:
                totals[branch] += grants[leaf]
        return sum(grants.values())

    def user_totals(self, depth):
        """From the sums of the floors on one octet at a time, to the user with the least of those with room; of several the
        first. A user has room if its leaves can have more, and no full branch holds them all."""
        users, found = self.users(depth), {}
        for leaf, user in users.items():
            found.setdefault(user, []).append(leaf)
        most = {user: self.most(leaves) for user, leaves in found.items()}
        totals = {user: sum(self.wants[it][1] for it in leaves) for user, leaves in found.items()}
        branches = self.totals({it: self.wants[it][1] for it in users})
        above = {user: [user[:length] for length in range(len(user) + (user in self.kids))] for user in found}
        while open_users := [it for it in found if totals[it] < most[it] and not any(self.is_full(b, branches) for b in above[it])]:
            least = min(open_users, key=totals.get)
            totals[least] += 1
            for branch in above[least]:
                branches[branch] += 1
        return totals

    def grants_by(self, depth):
        """The grants among the users of a depth: those totals of users, and then from the floors on one octet at a time within
        each user."""
        users, left = self.users(depth), self.user_totals(depth)
        grants = {leaf: self.wants[leaf][1] for leaf in users}
        totals = self.totals(grants)
        for leaf, user in users.items():
            left[user] -= grants[leaf]
        while open_leaves := [
            it for it in grants
            if grants[it] < self.wants[it][0] and left[users[it]] and self.holder(it, totals, len(users[it])) is None
        ]:
            least = min(open_leaves, key=grants.get)
            grants[least] += 1
            left[users[least]] -= 1
            for length in range(len(least)):
                totals[least[:length]] += 1
        return grants

    def is_within(self, grants):
        totals = self.totals(grants)
        fits = all(limit is None or totals[branch] <= limit for branch, limit in self.limits.items())
        return fits and all(floor <= grants[leaf] <= want for leaf, (want, floor) in self.wants.items())

    def is_best(self, depth, grants):
        """Whether no others within the limits are better among users, or as good and better among the leaves."""
        leaves, users = list(grants), self.users(depth)

        def rank(list_of_leaves):
            totals = dict.fromkeys(users.values(), 0)
            for leaf, octets in list_of_leaves.items():
                totals[users[leaf]] += octets
            return totals, sorted(list_of_leaves.values())

        own, own_leaves = rank(grants)
        if prod(want - floor + 1 for want, floor in self.wants.values()) > MOST_LISTS:
            other = self.grants_by(depth)
            return sorted(rank(other)[0].values()) == sorted(own.values()) and self.are_best_inside(depth, grants, own)
        for octets in product(*(range(self.wants[it][1], self.wants[it][0] + 1) for it in leaves)):
            other = dict(zip(leaves, octets))
            totals, other_leaves = rank(other)
            is_better = sorted(totals.values()) > sorted(own.values()) or totals == own and other_leaves > own_leaves
            if is_better and self.is_within(other):
                return False
        return True

    def are_best_inside(self, depth, grants, totals):
        """Whether the grants of each user are those of handing out its total octet by octet, but for their order."""
        users = self.users(depth)
        for user in totals:
            leaves = [it for it in users if users[it] == user]
            given = {leaf: self.wants[leaf][1] for leaf in leaves}
            branches = self.totals(given)
            for _octet in range(totals[user] - sum(given.values())):
                rest = [it for it in leaves if given[it] < self.wants[it][0] and self.holder(it, branches, len(user)) is None]
                least = min(rest, key=given.get)
                given[least] += 1
                for length in range(len(least)):
                    branches[least[:length]] += 1
            if sorted(given.values()) != sorted(grants[it] for it in leaves):
                return False
        return True

    def grants(self):
        """From the floors on one octet at a time, to the leaf with the least of those with room; of several the first. The next
        ones go to the others with as little, one after another, since they have the least now."""
        grants = {leaf: self.wants[leaf][1] for leaf in self.leaves()}
        totals = self.totals(grants)
        while open_leaves := [it for it in grants if grants[it] < self.wants[it][0] and self.holder(it, totals) is None]:
            least = min(grants[it] for it in open_leaves)
            for leaf in [it for it in open_leaves if grants[it] == least]:
                if self.holder(leaf, totals) is None:
                    grants[leaf] += 1
                    for length in range(len(leaf)):
                        totals[leaf[:length]] += 1
        return grants


def share(text, depth=None):
    """What `share` ends with for a sheet's text, among the users of a depth if one is given."""
    try:
        sheet = Sheet(text)
    except Fault as fault:
        return FAULTY, "", str(fault)
    grants = sheet.grants() if depth is None else sheet.grants_by(depth)
    totals, lines = sheet.totals(grants), []
    for leaf, (want, _floor) in sheet.wants.items():
        held = f" full {text_of(sheet.holder(leaf, totals))}" if grants[leaf] < want else ""
        lines.append(f"{text_of(leaf)} {grants[leaf]} of {want}{held}\n")
    return DONE, "".join(lines) + f"total {sum(grants.values())}\n", ""


def read_grants(sheet, text):
    """What a grants file states for the wants, in the order of the sheet: the octets and the branch."""
    turns, stated = list(sheet.wants), {}
    for number, line in lines_of(text):
        found = GRANT.fullmatch(line)
        if not found:
            raise Fault(number, "BadLine")
        if len(stated) == len(turns) or names_of(found[1]) != turns[len(stated)]:
            raise Fault(number, "WrongPath")
        node = names_of(found[3]) if found[3] else None
        if node is not None and node not in sheet.kids:
            raise Fault(number, "NoSuchNode")
        stated[turns[len(stated)]] = int(found[2]), node
    return stated


def first_flaw(sheet, stated, depth=None):
    """The first flaw of grants, in the order of the page's table, or nothing."""
    if len(stated) != len(sheet.wants):
        return "1 WrongLength"
    leaves = sheet.leaves()
    grants = {leaf: stated[leaf][0] for leaf in leaves}
    for leaf in leaves:
        if grants[leaf] > sheet.wants[leaf][0]:
            return f"2 OverWant {text_of(leaf)} {grants[leaf]} {sheet.wants[leaf][0]}"
    for leaf in leaves:
        if grants[leaf] < sheet.wants[leaf][1]:
            return f"8 UnderFloor {text_of(leaf)} {grants[leaf]} {sheet.wants[leaf][1]}"
    totals = sheet.totals(grants)
    for branch in sheet.walk():
        total, limit = totals[branch], sheet.limits.get(branch)
        if limit is not None and total > limit:
            return f"3 OverLimit {text_of(branch)} {total} {limit}"
    if depth is not None:
        return None if sheet.is_best(depth, grants) else "9 NotBestByUsers"
    unmet = [it for it in leaves if grants[it] < sheet.wants[it][0]]
    beneath = {node: sheet.leaves(node) for node in {stated[it][1] for it in unmet} if node in sheet.kids}
    return next(filter(None, (flaw_of(sheet, grants, totals, beneath, leaf, stated[leaf][1]) for leaf in unmet)), None)


def flaw_of(sheet, grants, totals, beneath, leaf, node):
    """What is wrong with the branch that an unmet want names, or nothing."""
    if node is None or node in sheet.wants:
        return f"4 NoNode {text_of(leaf)}"
    if leaf[:len(node)] != node:
        return f"5 NotAbove {text_of(leaf)} {text_of(node)}"
    if not sheet.is_full(node, totals):
        return f"6 NotFull {text_of(leaf)} {text_of(node)}"
    for other in beneath[node]:
        if grants[other] >= grants[leaf] + 2 and grants[other] > sheet.wants[other][1]:
            return f"7 TooGreat {text_of(leaf)} {grants[leaf]} {text_of(other)} {grants[other]}"
    return None


def check(text, grants, depth=None):
    """What `check` ends with for the texts of a sheet and of its grants, among the users of a depth if one is given."""
    try:
        sheet = Sheet(text)
        flaw = first_flaw(sheet, read_grants(sheet, grants), depth)
    except Fault as fault:
        return FAULTY, "", str(fault)
    return (NO, f"no {flaw}\n", "") if flaw else (DONE, "yes\n", "")
