"""A second reading of transfer logs and their sums: docs/log.md, octet by octet.

`report` answers what `ftpd usage` is wanted to end with for logs, each with its path and its octets, and options: its status,
and what it prints to either output. Nothing here knows how the program goes about it.
"""
import datetime
import json
import re
import unicodedata

DONE, REFUSED = 0, 2
KEYS = ("user", "file", "hour", "address")
MOST_ROWS, USUAL_ROWS = 1_000_000, 20
MONTHS = "Jan Feb Mar Apr May Jun Jul Aug Sep Oct Nov Dec".split()
DAYS = "Mon Tue Wed Thu Fri Sat Sun".split()
NUMBER = re.compile(r"0|[1-9][0-9]*", re.ASCII)
CLOCK = re.compile(r"([0-9]{2}):([0-9]{2}):([0-9]{2})", re.ASCII)
HELP = "\n\nFor more information, try '--help'.\n"


class Unread(Exception):
    """The line is not of the form."""


def need(fact):
    if not fact:
        raise Unread


def number(word):
    need(NUMBER.fullmatch(word) and int(word) < 2 ** 64)
    return int(word)


def name(word):
    """A word without control and format characters, and without blanks of any kind."""
    need(word and not any(it.isspace() or unicodedata.category(it) in ("Cc", "Cf") for it in word))
    return word


def day_at(year, month, day):
    try:
        return datetime.date(int(year), month, int(day))
    except ValueError:
        raise Unread from None


def moment(weekday, month, day, clock, year):
    """The day and the hour."""
    need(month in MONTHS and re.fullmatch("[0-9]{2}", day) and re.fullmatch("[0-9]{4}", year))
    found = CLOCK.fullmatch(clock)
    need(found and int(found[1]) < 24 and int(found[2]) < 60 and int(found[3]) < 60)
    date = day_at(year, MONTHS.index(month) + 1, day)
    need(DAYS[date.weekday()] == weekday)
    return date, found[1]


def read_line(octets):
    """The fields of a line, which is without its end, by their names."""
    try:
        words = octets.decode().split(" ")
    except UnicodeDecodeError:
        raise Unread from None
    need(len(words) == 18)
    date, hour = moment(*words[:5])
    seconds, address, moved, path, kind, action, way, access, user, *rest = words[5:]
    need(kind in ("a", "b") and action == "_" and way in ("o", "i") and access in ("a", "r"))
    need(rest[:3] == ["ftp", "0", "*"] and rest[3] in ("c", "i"))
    keys = {"user": name(user), "file": name(path), "hour": f"{date} {hour}", "address": name(address)}
    return date, keys, number(moved), number(seconds)


def lines_of(text):
    """The lines of a log, of which the last may lack its end."""
    return text.removesuffix(b"\n").split(b"\n") if text else []


def seconds_rate(sums):
    return sums[1] // sums[2] if sums[2] else None


def plus(sums, octets, seconds):
    return sums[0] + 1, sums[1] + octets, sums[2] + seconds


class Report:
    def __init__(self, logs, by, day):
        self.by, self.day, self.rows, self.total, self.logs = by, day, {}, (0, 0, 0), []
        for path, text in logs:
            self.add(path, lines_of(text))

    def add(self, path, lines):
        unread = []
        for place, line in enumerate(lines, 1):
            try:
                date, keys, octets, seconds = read_line(line)
            except Unread:
                unread.append(place)
                continue
            if self.day in (None, date):
                key = keys[self.by]
                self.rows[key] = plus(self.rows.get(key, (0, 0, 0)), octets, seconds)
                self.total = plus(self.total, octets, seconds)
        self.logs.append((path, len(lines), unread))

    def shown(self, first):
        rows = sorted(self.rows.items(), key=lambda it: (-it[1][1], it[0].encode()))
        return rows[:first] if first else rows

    def table(self, first):
        def line(sums, key):
            rate = seconds_rate(sums)
            return f"{sums[0]:>10} {sums[1]:>17} {sums[2]:>11}{'-' if rate is None else rate:>17}  {key}\n"

        shown = self.shown(first)
        text = f"{'transfers':>10} {'octets':>17} {'seconds':>11}{'octets a second':>17}  {self.by}\n"
        text += "".join(line(sums, key) for key, sums in shown)
        text += line(self.total, f"total of {self.day}" if self.day else "total")
        if len(shown) < len(self.rows):
            text += f"not shown: {len(self.rows) - len(shown)} of {len(self.rows)} rows\n"
        for path, count, unread in self.logs:
            if unread:
                text += f"not of the form: {len(unread)} of {count} lines of {path}; the first is line {unread[0]}\n"
        return text

    def csv(self, first):
        def quoted(text):
            return '"' + text.replace('"', '""') + '"'

        def line(kind, key, sums):
            rate = seconds_rate(sums)
            return f"{kind},{key},{sums[0]},{sums[1]},{sums[2]},{'' if rate is None else rate},,\n"

        shown = self.shown(first)
        text = "kind,key,transfers,octets,seconds,octets_a_second,count,first\n"
        text += "".join(line(self.by, quoted(key), sums) for key, sums in shown)
        if len(shown) < len(self.rows):
            text += f"rest,,,,,,{len(self.rows) - len(shown)},\n"
        text += line("total", "", self.total)
        return text + "".join(f"unread,{quoted(path)},,,,,{len(unread)},{unread[0]}\n" for path, _, unread in self.logs if unread)

    def json(self, first):
        def sums_of(sums):
            return {"octets": sums[1], "octets_a_second": seconds_rate(sums), "seconds": sums[2], "transfers": sums[0]}

        logs = [{"file": path, "first_unread": (unread or [None])[0], "lines": count, "unread": len(unread)} for path, count, unread in self.logs]
        value = {
            "by": self.by,
            "day": str(self.day) if self.day else None,
            "logs": logs,
            "rows": [{"key": key, **sums_of(sums)} for key, sums in self.shown(first)],
            "rows_in_all": len(self.rows),
            "total": sums_of(self.total),
            "version": 1,
        }
        return json.dumps(value, ensure_ascii=False, separators=(",", ":")) + "\n"


def stated_day(word):
    found = re.fullmatch("([0-9]{4})-([0-9]{2})-([0-9]{2})", word, re.ASCII)
    if not found:
        return None
    try:
        return datetime.date(*map(int, found.groups()))
    except ValueError:
        return None


def refusal(option, value, word, must):
    return REFUSED, "", f"error: invalid value '{word}' for '--{option} <{value}>': it must be {must}{HELP}"


def report(logs, by=None, day=None, first=None, form="table"):
    """The status and both outputs of a run on logs."""
    if by is not None and by not in KEYS:
        return refusal("by", "KEY", by, "user, file, hour or address")
    if day is not None and stated_day(day) is None:
        return refusal("day", "DAY", day, "a day of the calendar, as 2026-11-24")
    if first is not None and not (re.fullmatch("[0-9]+", first, re.ASCII) and int(first) <= MOST_ROWS):
        return refusal("first", "N", first, "a number from 0 to 1000000, in digits")
    found = Report(logs, by or "user", stated_day(day) if day else None)
    return DONE, getattr(found, form)(int(first) if first else USUAL_ROWS), ""
