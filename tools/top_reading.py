"""A second reading of the table of `ftpd top`, from docs/top.md: lines of a status, given those of a second and ten seconds before."""
import unicodedata

MOST = 2**64 - 1
KINDS = (("server", "server"), ("direction", "server {way}"), ("group", "group {group} {way}"), ("user", "user {user} {way}"),
         ("session", "session {way}"), ("nothing", "client"))


def is_shown(c):
    """Printable ASCII, and any letter, mark, number, sign of punctuation or symbol."""
    return " " <= c <= "~" or unicodedata.category(c)[0] in "LMNPS"


def shown(text):
    """A name as a screen has it: other characters, and a backslash, by their numbers."""
    return "".join(c if is_shown(c) and c != "\\" else f"\\u{{{ord(c):x}}}" for c in text)


def columns(c):
    """The columns of a character: none of a mark that lies over the one before, two of a wide one."""
    return 0 if unicodedata.category(c) in ("Mn", "Me") else 2 if unicodedata.east_asian_width(c) in "FW" else 1


def wide(text):
    return sum(columns(c) for c in text)


def front(space, text):
    """The longest front that is at most so wide."""
    return next(text[:end] for end in range(len(text), -1, -1) if wide(text[:end]) <= space)


def ending(space, text):
    """The longest end that is at most so wide and begins with no mark."""
    return next((text[at:] for at in range(len(text)) if wide(text[at:]) <= space and columns(text[at])), "")


def amount(n):
    unit, letter = (1000, "K") if n < 10**6 else (10**6, "M") if n < 10**9 else (10**9, "G")
    return f"{n // unit}.{n % unit * 100 // unit:02}{letter}"


def limit(rate):
    return amount(rate) if rate else "-"


def left(width, text):
    text = front(width - 1, text)
    return text + " " * (width - wide(text))


def per_second(octets, micros):
    return min(octets * 10**6 // micros, MOST) if micros > 0 else 0


def same(one, other):
    return (one["session"], one["begun"]) == (other["session"], other["begun"])


def found(past, it):
    return next((other for other in past["transfers"] if same(it, other)), None) if past else None


def rate_of(past, now, it):
    then = found(past, it)
    if then is None:
        return per_second(it["granted"], max(0, now["micros"] - it["begun"]))
    return per_second(max(0, it["granted"] - then["granted"]), max(0, now["micros"] - past["micros"]))


def rounds_of(past, it):
    then = found(past, it)
    return {kind: max(0, it["held"][kind] - (then["held"][kind] if then else 0)) for kind, _ in KINDS}


def limit_name(words, it):
    return words.format(way=it["direction"], group=shown(it["group"] or ""), user=shown(it["user"]))


def held(past, it):
    if it["waiting"]:
        return "waits for a lane"
    rounds = rounds_of(past, it)
    whole = sum(rounds.values())
    return "".join(f"{limit_name(words, it)} {min(100, rounds[kind] * 100 // whole)}% " for kind, words in KINDS if rounds[kind])


def holder(past, it):
    """The place of the limit that held it back in most of its rounds, the outermost of several."""
    rounds = [rounds_of(past, it)[kind] for kind, _ in KINDS]
    return rounds.index(max(rounds)) if max(rounds) > 0 else len(KINDS) - 1


def total(past, now, way, group=None):
    """What all got in a direction, or the users of a group."""
    if past is None:
        inside = [it for it in now["transfers"] if it["direction"] == way and group in (None, it["group"])]
        return min(sum(rate_of(None, now, it) for it in inside), MOST)
    got = [min(sum(it["granted_" + way] for it in status["accounts"] if group in (None, it["group"])), MOST) for status in (now, past)]
    return per_second(max(0, got[0] - got[1]), max(0, now["micros"] - past["micros"]))


def both(past, now):
    if past is None:
        return min(total(past, now, "down") + total(past, now, "up"), MOST)
    return per_second(max(0, now["issued"] - past["issued"]), max(0, now["micros"] - past["micros"]))


def used(label, got, rate):
    if not rate:
        return label + amount(got)
    return f"{label}{amount(got)} of {amount(rate)}" + (" FULL" if rate * 99 <= got * 100 else "")


def level(past, now, way, rows):
    """The line of the tightest limit that transfers of a direction share, if there is one."""
    last = None
    for it in rows:
        rounds = rounds_of(past, it)
        shared = next((words for kind, words in KINDS[:3] if rounds[kind] * 2 > sum(rounds.values())), None)
        if it["direction"] == way and shared:
            last = f"level {way} {amount(rate_of(past, now, it))} a second: {limit_name(shared, it)}"
    return [last] if last else []


def idle(now):
    return [it for it in now["sessions_now"] if it["active"] < now["micros"]]


def top(past, now, rows):
    minutes, waiting = now["micros"] // 60_000_000, sum(it["waiting"] for it in now["transfers"])
    line = now["line"]
    return [f"ftpd  up {minutes // 60} h {minutes % 60} min   {now['users']} users, {now['sessions']} of {now['max_sessions']} sessions, "
            f"{len(now['transfers'])} transfers, {waiting} waiting",
            used("down ", total(past, now, "down"), line["down"]) + used("   up ", total(past, now, "up"), line["up"])
            + used("   both ", both(past, now), line["both"]),
            f"{len(idle(now))} idle" + used("   guaranteed down ", now["guaranteed_down"] or 0, line["down"])
            + used("   up ", now["guaranteed_up"] or 0, line["up"]),
            *(["shared among users"] if now["shared_among"] == "users" else [])] + level(past, now, "down", rows) + level(past, now, "up", rows)


def entry(earlier, past, now, it):
    rates = [rate for rate in (it["session_rate"], it["user_rate"]) if rate]
    done = f"{min(100, it['moved'] * 100 // it['size']) if it['size'] else 100}%" if it["size"] is not None else amount(it["moved"])
    path = "a listing" if it["path"] is None else shown(it["path"])
    path = path if wide(path) <= 28 else "..." + ending(25, path)
    return [left(7, f"#{it['session']}") + left(11, shown(it["user"])) + left(9, shown(it["group"]) if it["group"] is not None else "-")
            + left(16, it["peer"]) + left(5, it["direction"]) + amount(rate_of(past, now, it)).rjust(8)
            + amount(rate_of(earlier, now, it)).rjust(8) + limit(it["guaranteed"]).rjust(8) + limit(min(rates, default=0)).rjust(8),
            " " * 7 + left(36, held(past, it)) + done.rjust(7) + "  " + path]


def group_line(past, now, it):
    return ("group " + left(17, shown(it["name"])) + used("down ", total(past, now, "down", it["name"]), it["down"])
            + used("   up ", total(past, now, "up", it["name"]), it["up"])
            + f"   least {limit(it['guaranteed_down'])} and {limit(it['guaranteed_up'])}")


def clock(micros):
    seconds = micros // 10**6
    return f"{seconds // 3600}:{seconds // 60 % 60:02}:{seconds % 60:02}"


def session_line(now, it):
    return (left(7, f"#{it['session']}") + left(11, shown(it["user"]) if it["user"] is not None else "-") + left(16, it["peer"])
            + clock(max(0, now["micros"] - it["begun"])).rjust(10) + clock(max(0, now["micros"] - it["active"])).rjust(10)
            + limit(it["guaranteed_down"]).rjust(9) + limit(it["guaranteed_up"]).rjust(9))


def user_line(past, now, it):
    mates = [other for other in now["transfers"] if (other["user"], other["direction"]) == (it["user"], it["direction"])]
    line = (left(11, shown(it["user"])) + left(9, shown(it["group"]) if it["group"] is not None else "-") + left(5, it["direction"])
            + str(len(mates)).rjust(5) + amount(min(sum(rate_of(past, now, other) for other in mates), MOST)).rjust(9) + "  ")
    late = sum(other["waiting"] for other in mates)
    counts = [("waiting", late)] + [(limit_name(words, it), sum(not other["waiting"] and holder(past, other) == place for other in mates))
                                    for place, (_, words) in enumerate(KINDS)]
    return line + "".join(f"{name} {count}  " for name, count in counts if count)


def table(earlier, past, now, rows):
    """The lines of the table, each as the screen has it."""
    ordered = sorted(now["transfers"], key=lambda it: (-(MOST if it["waiting"] else rate_of(past, now, it)), it["session"]))
    head = top(past, now, ordered)
    space, groups = max(0, rows - len(head)), now["groups"]
    if 2 + 2 * len(ordered) + len(groups) <= space:
        body = ["       user       group    from            way       1 s    10 s   least    most",
                "       held by, parts of the rounds of 1 s    done  file"]
        body += [line for it in ordered for line in entry(earlier, past, now, it)] + [group_line(past, now, it) for it in groups]
        left_over = space - len(body)
        if left_over >= 2 and idle(now):
            body.append("idle   user       from                inside      idle     down       up")
            body += [session_line(now, it) for it in idle(now)[:left_over - 1]]
    else:
        users, seen = [], set()
        for it in ordered:
            if (it["user"], it["direction"]) not in seen:
                users.append(it)
                seen.add((it["user"], it["direction"]))
        fit = 1 + len(users) + len(groups) <= space
        first = len(users) if fit else min(len(users), max(0, space - 2))
        others = len(groups) if fit else min(len(groups), max(0, space - 2 - min(len(users), max(0, space - 2))))
        body = ["user       group    way     no      1 s  held by, number of transfers"]
        body += [user_line(past, now, it) for it in users[:first]] + [group_line(past, now, it) for it in groups[:others]]
        if not fit:
            body.append(f"{len(users) - first} users and {len(groups) - others} groups are not shown")
    return "".join(front(80, line) + "\n" for line in (head + body)[:rows])
