#!/usr/bin/env python3
"""Reads transfer logs by their published form, xferlog(5) of wu-ftpd: a second reading of the lines that `transfer_log` writes.

    tools/xferlog_reading.py FILE..

Each line is `current-time transfer-time remote-host file-size filename transfer-type special-action-flag direction access-mode
username service-name authentication-method authenticated-user-id completion-status`, with single blanks between, and a time of
five words. Lines of another form are told, with the reason. The last line is 'N read, M refused', and the status is 0 only where M
is 0.
"""
import datetime
import re
import sys
from typing import NamedTuple

DAYS = "Mon Tue Wed Thu Fri Sat Sun".split()
MONTHS = "Jan Feb Mar Apr May Jun Jul Aug Sep Oct Nov Dec".split()
TIME = re.compile(r"(\w{3}) (\w{3}) ([ \d]\d) (\d\d):(\d\d):(\d\d) (\d{4}) (.*)", re.DOTALL)


class Refused(Exception):
    """The line has another form."""


class Transfer(NamedTuple):
    """The fields of a line."""

    ended: datetime.datetime
    seconds: int
    host: str
    octets: int
    path: str
    type: str
    action: str
    direction: str
    access: str
    user: str
    service: str
    method: str
    id: str
    status: str


def number(text, name):
    if not re.fullmatch(r"0|[1-9]\d*", text):
        raise Refused(f"{name} is no number: {text!r}")
    return int(text)


def among(text, letters, name):
    if len(text) != 1 or text not in letters:
        raise Refused(f"{name} is none of {letters}: {text!r}")
    return text


def moment(text):
    """The time at the beginning of a line, and the rest of it."""
    found = TIME.fullmatch(text)
    if not found:
        raise Refused("it begins with no time")
    day, month, date, hour, minute, second, year, rest = found.groups()
    if month not in MONTHS:
        raise Refused(f"there is no month {month}")
    try:
        ended = datetime.datetime(int(year), MONTHS.index(month) + 1, int(date), int(hour), int(minute), int(second))
    except ValueError as fault:
        raise Refused(f"there is no such time: {fault}") from fault
    if DAYS[ended.weekday()] != day:
        raise Refused(f"that day is no {day}")
    return ended, rest


def read_line(line):
    """The transfer of a line, which is without its end."""
    if not line.isprintable():
        raise Refused("it has characters that do not print")
    ended, rest = moment(line)
    fields = rest.split(" ")
    if len(fields) != 13 or not all(fields):
        raise Refused(f"it has {len(fields)} fields after the time, and not 13")
    seconds, host, octets, path, kind, action, direction, access, user, service, method, who, status = fields
    if not re.fullmatch(r"\d{1,3}(\.\d{1,3}){3}", host):
        raise Refused(f"{host!r} is no address")
    return Transfer(
        ended,
        number(seconds, "transfer-time"),
        host,
        number(octets, "file-size"),
        path,
        among(kind, "ab", "transfer-type"),
        among(action, "CUT_", "special-action-flag"),
        among(direction, "oid", "direction"),
        among(access, "agr", "access-mode"),
        user,
        service,
        among(method, "01", "authentication-method"),
        who,
        among(status, "ci", "completion-status"),
    )


def read_text(text):
    """The transfers of a log, each of whose lines has its end."""
    if text and not text.endswith("\n"):
        raise Refused("its last line has no end")
    return [read_line(line) for line in text.split("\n")[:-1]]


def main(paths):
    if not paths:
        print(__doc__)
        return 2
    count = refused = 0
    for path in paths:
        with open(path, encoding="utf-8", newline="") as file:
            for place, line in enumerate(file, 1):
                try:
                    read_text(line)
                    count += 1
                except Refused as fault:
                    refused += 1
                    print(f"{path}:{place}: {fault}")
    print(f"{count} read, {refused} refused")
    return 1 if refused else 0


if __name__ == "__main__":
    sys.exit(main(sys.argv[1:]))
