r"""The table of events of the core of sharing, read a second time: tools/random-worlds compares the world that was proved with it.

It is written from the table as docs/world.md and docs/rates.md tell it. A lane is a small object, a tree of a tick is a list of
names with their limits, and grants are given octet by octet: to leaves, or to users and then to the leaves of each. It takes the
script of crates/test_world_steps line by line and says what that program is to print.

    reading = Reading()
    assert reading.answer("world 1 30 0 0") == ""
    assert reading.answer("sit 0") == "done\n"
    assert reading.answer("sit 1") == "NoLane\n"
"""
from dataclasses import dataclass, field, replace

MOST_WANT = 4_294_967_295
MOST_ISSUED = 2**62
# Milliseconds of a tick, and ticks of a second.
TICK = 100
SECOND = 10


@dataclass(frozen=True)
class Ask:
    user: int
    session: int
    way: str
    want: int


@dataclass
class Lane:
    state: str = "Free"
    ask: Ask | None = None
    posted: list = field(default_factory=list)
    taken: list = field(default_factory=list)
    moved: int = 0
    back: int = 0
    # The amount in hand, and the one that is decided and not posted.
    hand: int | None = None
    decided: int | None = None

    @property
    def is_idle(self):
        """A worker has it and nothing in hand."""
        return self.state == "Worker" and self.hand is None


@dataclass
class Rates:
    """Octets a second; 0 is no limit. Each pair is of the ways down and up."""
    server: int = 0
    ways: tuple = (0, 0)
    groups: dict = field(default_factory=dict)
    # For each user the group, the rates, those of each session, and what each session is guaranteed.
    users: dict = field(default_factory=dict)
    # Whether the line is shared among users, and not among sessions.
    by_users: bool = False

    def names(self, ask):
        """What an ask is counted under, from the server down, each with its rate."""
        way = 0 if ask.way == "down" else 1
        group, user, session, _ = self.users.get(ask.user, (None, (0, 0), (0, 0), (0, 0)))
        yield ("server",), self.server
        yield ("way", way), self.ways[way]
        if group is not None:
            yield ("group", way, group), self.groups[group][way]
        yield ("user", way, ask.user), user[way]
        yield ("session", way, ask.user, ask.session), session[way]

    def floor(self, ask):
        way = 0 if ask.way == "down" else 1
        row = self.users.get(ask.user)
        return min(ask.want, row[3][way] // SECOND) if row else 0


def limit(rate, tick):
    """What a rate above 0 lets through in a tick: ten ticks make a second."""
    place = tick % SECOND
    return (place + 1) * rate // SECOND - place * rate // SECOND


def in_leaf_order(rates, asks):
    """The asks as the leaves of the tree stand: at each level side by side by their name, in the order of first ask."""
    def sorted_from(level, group):
        if len(group) < 2:
            return group
        found = {}
        for it in group:
            found.setdefault(name_at(it, level), []).append(it)
        if None in found:
            return group
        return [leaf for kids in found.values() for leaf in sorted_from(level + 1, kids)]

    def name_at(it, level):
        names = [name for name, _ in rates.names(it[1])]
        return names[level] if level < len(names) else None

    return sorted_from(1, asks)


def filled(held, wants, caps):
    """What each ends with: octet by octet to the one with the least of those with room, the first of several. A cap is the most
    that some of them may have together, with their places."""
    held = list(held)
    while True:
        full = {it for most, places in caps if sum(held[it] for it in places) == most for it in places}
        with_room = [it for it, want in enumerate(wants) if held[it] < want and it not in full]
        if not with_room:
            return held
        held[min(with_room, key=lambda it: (held[it], it))] += 1


def user_of(ask):
    """Whose share an ask is from, where a line is shared among users: each has one for each way."""
    return ask.way, ask.user


def most_of(leaves, places, caps):
    """What one user can have: each session up to its cap, and together up to each cap on exactly the user's leaves."""
    sessions = {}
    for place in places:
        sessions.setdefault(leaves[place][1].session, []).append(place)
    of_each = {tuple(its): sum(leaves[it][1].want for it in its) for its in sessions.values()}
    for most, its in caps:
        if tuple(its) in of_each:
            of_each[tuple(its)] = min(of_each[tuple(its)], most)
    return min([sum(of_each.values())] + [most for most, its in caps if its == places])


def users_grants(leaves, floors, wants, caps):
    """What each leaf gets where users share: first the total of each user, and then each total among its leaves. None where a
    user can have more than a tree may want."""
    users = {}
    for place, (_, ask) in enumerate(leaves):
        users.setdefault(user_of(ask), []).append(place)
    owned = list(users.values())
    most = [most_of(leaves, places, caps) for places in owned]
    if max(most, default=0) > MOST_WANT:
        return None
    # (a cap that is not inside a user is on whole users)
    outer = [(cap, [it for it, places in enumerate(owned) if set(places) <= set(its)]) for cap, its in caps]
    outer = [(cap, its) for cap, its in outer if its]
    totals = filled([sum(floors[it] for it in places) for places in owned], most, outer)
    return filled(floors, wants, caps + list(zip(totals, owned)))


def grants_of(rates, tick, asks):
    """What each ask gets, by lane; or the fault, where there is one."""
    leaves = in_leaf_order(rates, asks)
    floors, wants = [rates.floor(ask) for _, ask in leaves], [ask.want for _, ask in leaves]
    limits, below = {}, {}
    for place, (_, ask) in enumerate(leaves):
        for name, rate in rates.names(ask):
            below.setdefault(name, []).append(place)
            if rate:
                limits[name] = limit(rate, tick)
    caps = [(most, below[name]) for name, most in limits.items()]
    if any(sum(floors[it] for it in places) > most for most, places in caps):
        return "FloorsOver"
    held = users_grants(leaves, floors, wants, caps) if rates.by_users else filled(floors, wants, caps)
    if held is None:
        return "Unshared"
    return {lane: octets for (lane, _), octets in zip(leaves, held)}


class Reading:
    def __init__(self):
        self.next_groups, self.next_users = {}, {}
        # How many decisions among users are not what they would be among sessions.
        self.unlike = 0
        self.begin(0, Rates())

    def begin(self, lanes, rates):
        self.lanes, self.rates = [Lane() for _ in range(lanes)], rates
        self.last_tick, self.issued = None, 0

    @property
    def is_posted(self):
        """Whether each amount that was decided is posted."""
        return all(it.decided is None for it in self.lanes)

    def answer(self, line):
        """What the program prints at a line."""
        verb, *words = line.split(" ")
        match verb:
            case "group":
                group, down, up = map(int, words)
                self.next_groups[group] = (down, up)
                return ""
            case "user":
                user, group, *rates = words
                down, up, session_down, session_up, floor_down, floor_up = map(int, rates)
                self.next_users[int(user)] = (None if group == "-" else int(group), (down, up), (session_down, session_up), (floor_down, floor_up))
                return ""
            case "world":
                lanes, server, down, up = map(int, words[:4])
                self.begin(lanes, Rates(server, (down, up), self.next_groups, self.next_users, words[4:] == ["users"]))
                self.next_groups, self.next_users = {}, {}
                return ""
            case "run":
                # (the answers of its events are the same, and none is printed before the last of them)
                return ""
            case "look":
                return self.look()
            case "decide":
                return self.decide(int(words[0])) + "\n"
            case _:
                return self.turn(verb, words) + "\n"

    def look(self):
        lines = [f"issued {self.issued}"]
        for number, it in enumerate(self.lanes):
            posted, taken = "".join(f" {n}" for n in it.posted), "".join(f" {n}" for n in it.taken)
            lines.append(f"lane {number} moved {it.moved} back {it.back} posted{posted} taken{taken}")
        return "".join(f"{it}\n" for it in lines)

    def decide(self, moment):
        tick = moment // TICK
        asks = [(number, it.ask) for number, it in enumerate(self.lanes) if it.state == "Round"]
        if not self.is_posted:
            return "WrongState"
        if self.last_tick is not None and tick <= self.last_tick:
            return f"NotYet {self.last_tick}"
        if any(ask.want > MOST_WANT for _, ask in asks):
            return "TooMuch"
        grants = grants_of(self.rates, tick, asks)
        if isinstance(grants, str):
            return grants
        if self.rates.by_users:
            self.unlike += grants != grants_of(replace(self.rates, by_users=False), tick, asks)
        total = sum(grants.values())
        if self.issued + total > MOST_ISSUED:
            return "BookFull"
        for number, octets in grants.items():
            self.lanes[number].decided = octets
        self.last_tick = tick
        self.issued += total
        return f"decided {tick} {total}"

    def turn(self, verb, words):
        number = int(words[0])
        if number >= len(self.lanes):
            return "NoLane"
        lane = self.lanes[number]
        match verb:
            case "sit" if lane.state == "Free":
                lane.state = "Worker"
                return "done"
            case "ask" if lane.is_idle:
                lane.state = "Asked"
                user, session, way, want = words[1:]
                lane.ask = Ask(int(user), int(session), way, int(want))
                return "done"
            case "collect" if self.is_posted:
                if lane.state != "Asked":
                    return "missed"
                lane.state = "Round"
                return "got"
            case "post" if lane.state == "Round":
                octets, lane.decided = lane.decided or 0, None
                lane.state = "Granted"
                lane.posted.append(octets)
                return f"posted {octets}"
            case "take" if lane.state == "Granted":
                lane.state = "Worker"
                lane.hand = lane.posted[-1]
                lane.taken.append(lane.hand)
                return f"taken {lane.hand}"
            case "move" if lane.hand is not None:
                moved = int(words[1])
                if moved > lane.hand:
                    return "TooMuch"
                lane.moved += moved
                lane.back += lane.hand - moved
                lane.hand = None
                return "done"
            case "rise" if lane.is_idle:
                lane.state = "Free"
                return "done"
        return "WrongState"
