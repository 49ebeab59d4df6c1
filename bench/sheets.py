"""Writes the sheets of the bench, and three forms of each, into a folder.

    python3 sheets.py FOLDER

NAME.sheet is the sheet itself. In NAME.open each limit above a want is `-`, so that every want is met. In NAME.bare
each want is a limit, so that the same paths are read and there is nobody to share for. All numbers are drawn from a
fixed seed.
"""

import random
import sys

WANTS = 4_096
MOST_OCTETS = 4_194_304
MOST_WANT = 4_294_967_295


def limit(path, amount):
    return f"limit {path or '/'} {amount}"


def want(path, amount):
    return f"want {path} {amount}"


def groups(draw, most):
    """Wants in 64 groups, of which most are held back by their group, and all by the root."""
    lines = [limit("", 14 * 64 * most)]
    lines += [limit(f"/g{group}", draw.randrange(8 * most, 32 * most)) for group in range(64)]
    lines += [want(f"/g{leaf % 64}/w{leaf}", draw.randrange(most + 1)) for leaf in range(WANTS)]
    return lines


def deep(draw):
    """Each want at depth 16: eleven levels that fork in two, with a limit each, and four of one kid each."""
    lines = [limit("", WANTS * 300)]
    for level in range(1, 12):
        for node in range(2**level):
            path = "".join(f"/{node >> (level - 1 - at) & 1}" for at in range(level))
            lines.append(limit(path, draw.randrange(200, 600) * (WANTS >> level)))
    for leaf in range(WANTS):
        above = "".join(f"/{(leaf >> 1) >> (10 - at) & 1}" for at in range(11))
        lines.append(want(f"{above}/{leaf & 1}/a/b/c/w", draw.randrange(1_001)))
    return lines


def large(draw):
    """As many octets as a sheet may have: wants in 256 groups, and limits of which nobody wants anything."""
    lines = [limit("", WANTS * 200)]
    lines += [limit(f"/g{group}", draw.randrange(8_000)) for group in range(256)]
    lines += [want(f"/g{leaf % 256}/w{leaf}", draw.randrange(1_001)) for leaf in range(WANTS)]
    # A want takes an octet more where it is a limit.
    octets = sum(len(line) + 1 for line in lines) + WANTS
    number = 0
    while True:
        line = limit(f"/g{number % 256}/n{number}", draw.randrange(10_000, 100_000))
        octets += len(line) + 1
        if octets > MOST_OCTETS:
            return lines
        lines.append(line)
        number += 1


def colliding(draw):
    """As many limits as a sheet may have, whose paths have one hash under the kit's `FoldHasher`: behind these 24 octets its
    state is such that the next 8 change nothing."""
    signs = "0123456789abcdefghijklmnopqrstuvwxyz"
    name = lambda number: "".join(signs[number // 36**at % 36] for at in range(8))
    count = MOST_OCTETS // len(limit("/3r1v4x_ZmKtSDbt-pbsOYqC" + name(0), "-\n"))
    lines = [limit("/3r1v4x_ZmKtSDbt-pbsOYqC" + name(number), "-") for number in range(count)]
    draw.shuffle(lines)
    return lines


def crowded(draw):
    """As many limits as a sheet may have, whose names are all in one bucket of the product's table of kids: their marks, the
    digits of a number to base 131, are equal but for multiples of the number of buckets, which is that of octets / 24 + 1."""
    signs = "0123456789ABCDEFGHIJKLMNOPQRSTUVWXYZabcdefghijklmnopqrstuvwxyz-_"
    value = lambda name: sum(ord(sign) * 131**at for at, sign in enumerate(reversed(name)))
    each = len(limit("/" + 8 * "0", "-\n"))
    count = MOST_OCTETS // each
    buckets = count * each // 24 + 1
    ends = {}
    for number in range(64**3):
        end = "".join(signs[number // 64**at % 64] for at in range(3))
        ends.setdefault(value(end) % buckets, end)
    names, number = [], 0
    while len(names) < count:
        front = "".join(signs[number // 64**at % 64] for at in range(5))
        end = ends.get(-value(front) * 131**3 % buckets)
        names += [front + end] if end else []
        number += 1
    draw.shuffle(names)
    return [limit("/" + name, "-") for name in names]


def nested(draw):
    """Limits inside one another, down to depth 14, each of which holds back the wants beside the next one."""
    beside, room = [], 0
    paths = ["/n" * depth for depth in range(15)]
    each = [WANTS // 15 + (depth < WANTS % 15) for depth in range(15)]
    amounts = {}
    for depth in reversed(range(15)):
        room += each[depth] * (20 + 50 * (14 - depth))
        amounts[depth] = room
    lines = [limit(paths[depth], amounts[depth]) for depth in range(15)]
    for depth in range(15):
        for leaf in range(each[depth]):
            beside.append(want(f"{paths[depth]}/w{leaf}", draw.randrange(800, 1_601)))
    draw.shuffle(beside)
    return lines + beside


def made():
    draw = random.Random(1_992)
    yield "empty", []
    yield "groups", groups(draw, 1_000)
    yield "deep", deep(draw)
    yield "large", large(draw)
    yield "nested", nested(draw)
    yield "largest", groups(draw, MOST_WANT)
    yield "colliding", colliding(draw)
    yield "crowded", crowded(draw)


def mentioned(lines):
    """The paths of the lines, and those above them."""
    nodes = {""}
    for line in lines:
        path = line.split(" ")[1].rstrip("/")
        while path not in nodes:
            nodes.add(path)
            path = path.rpartition("/")[0]
    return nodes


def opened(lines):
    above = mentioned([line for line in lines if line.startswith("want ")])
    words = [line.split(" ") for line in lines]
    return [limit(path, "-") if word == "limit" and path.rstrip("/") in above else line for (word, path, _), line in zip(words, lines)]


def bared(lines):
    return [line.replace("want ", "limit ") for line in lines]


def write(file, lines):
    text = "".join(line + "\n" for line in lines).encode()
    assert len(text) <= MOST_OCTETS, file
    with open(file, "wb") as it:
        it.write(text)
    return len(text)


def main(folder):
    for name, lines in made():
        octets = write(f"{folder}/{name}.sheet", lines)
        write(f"{folder}/{name}.open", opened(lines))
        write(f"{folder}/{name}.bare", bared(lines))
        wants = sum(line.startswith("want ") for line in lines)
        with open(f"{folder}/{name}.facts", "w", encoding="utf-8") as it:
            it.write(f"{octets} {len(lines)} {len(mentioned(lines))} {wants}\n")


main(sys.argv[1])
