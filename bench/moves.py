"""Times the pumps of `bench_work transfer` beside plain Rust that moves the same octets through buffers of the same sizes.

    python3 moves.py FOLDER BENCH_WORK MOVES [RUNS]

It prints a table of octets per second. Each time is the least of so many runs (3), less that of the same program that
moves nothing; a program that moves other octets than the other ends the bench.
"""

import sys

from clock import in_time, least, tell

OCTETS = 1_048_576
TIMES = 400
HEAD = ["way", "TYPE", "pumps (MB/s)", "plain (MB/s)", "pumps / plain", "turning alone (MB/s)"]


def rate(program, words, folder, runs):
    """Octets of the file per microsecond, which are millions of them per second."""
    none, _ = least([program, *words, "0"], f"{folder}/moved", runs)
    taken, _ = least([program, *words, str(TIMES)], f"{folder}/moved", runs)
    with open(f"{folder}/moved", encoding="utf-8") as told:
        return OCTETS * TIMES / ((taken - none) * 1_000), told.read()


def row_of(way, data_type, folder, bench_work, moves, runs):
    pumps, told = rate(bench_work, ["transfer", way, data_type], folder, runs)
    plain, same = rate(moves, [way, data_type], folder, runs)
    if told != same:
        sys.exit(f"bench: {way} {data_type}: {told!r} is not {same!r}")
    alone = rate(moves, ["alone", way], folder, runs)[0] if data_type == "text" else None
    name = "A" if data_type == "text" else "I"
    return [way, name, f"{pumps:,.0f}", f"{plain:,.0f}", f"{pumps / plain:.2f}", f"{alone:,.0f}" if alone else "-"]


def main(folder, bench_work, moves, runs="3"):
    forms = [f"{way} {data_type}" for data_type in ("image", "text") for way in ("out", "in")]
    tell(HEAD, (row_of(*form.split(), folder, bench_work, moves, int(runs)) for form in in_time(forms)))


main(*sys.argv[1:])
