"""Times whole rounds of `bench_work round` beside plain Rust with the same rules.

    python3 rounds.py FOLDER BENCH_WORK ROUNDS [RUNS]

It prints a table of microseconds for one round: the median of so many runs (21) of many rounds each, less that of the
same program without a round. A part is what its step adds to the steps before it. A second table has whole rounds as the
server holds them, among sessions and among users.
"""

import sys

from clock import median, tell

TIMES = 1_000
WORKS = ["plan", "allot", "check", "seal"]
PARTS = ["`tree_of`", "`allot`", "`check`", "`seal`"]
WAYS = ["sessions", "users"]
HEAD = ["part", "here (us)", "plain (us)", "here / plain"]


def times_of(program, folder, runs):
    """Microseconds for one round as far as each work goes, and what was granted last."""
    none = median([*program, "seal", "0"], f"{folder}/round", runs)
    found = [(median([*program, work, str(TIMES)], f"{folder}/round", runs) - none) * 1_000 / TIMES for work in WORKS]
    with open(f"{folder}/round", encoding="utf-8") as told:
        return found, told.read()


def rounds_by(way, program, folder, runs):
    """Microseconds for a whole round as the server holds one, of a line that is shared among sessions or users."""
    none = median([*program, way, "0"], f"{folder}/round", runs)
    return (median([*program, way, str(TIMES)], f"{folder}/round", runs) - none) * 1_000 / TIMES


def main(folder, bench_work, rounds, runs="21"):
    here, told = times_of([bench_work, "round"], folder, int(runs))
    plain, same = times_of([rounds], folder, int(runs))
    if told != same:
        sys.exit(f"bench: the last round granted {told!r}, and not {same!r}")
    row = lambda name, ours, theirs: [name, f"{ours:.1f}", f"{theirs:.1f}", f"{ours / theirs:.2f}"]
    parts = [
        row(name, here[it] - (here[it - 1] if it else 0), plain[it] - (plain[it - 1] if it else 0))
        for it, name in enumerate(PARTS)
    ]
    tell(HEAD, [*parts, row("a round", here[-1], plain[-1])])
    ways = [rounds_by(way, [bench_work, "round"], folder, int(runs)) for way in WAYS]
    print()
    tell(["of a line that is shared among", "a round (us)", "of one among sessions"], [[way, f"{ours:.1f}", f"{ours / ways[0]:.2f}"] for way, ours in zip(WAYS, ways)])


main(*sys.argv[1:])
