"""Measures the desk: rounds of `bench_desk` beside plain Rust with the same rules, hand-offs beside a plain atomic word, and a crowd.

    python3 desk.py FOLDER BENCH_DESK DESK [RUNS]

It prints three tables. What a round takes is the difference of two numbers of rounds: the median of so many runs (21) in
microseconds of the processor, and instructions and calls of the allocator as `valgrind` counts them, or a dash where there is
no `valgrind`. A hand-off is an ask and its answer: microseconds of the processor, of both threads together.
"""

import sys

from clock import counted, in_time, median, tell

ASKS = [1, 16, 64]
TIMES = 2_000
COUNTED = 200
HEAD = ["asks", "part", "with the system's memory", "with a heap of its own", "plain", "system / plain", "heap / plain"]
HANDS = 200_000
CROWDS = 100


def timed(words, folder, runs):
    """Microseconds for one round."""
    first = median([*words, "1"], f"{folder}/told", runs)
    return (median([*words, str(TIMES + 1)], f"{folder}/told", runs) - first) * 1_000 / TIMES


def per_round(words, folder, tool, word):
    """How many of these `valgrind` counts in one round."""
    first, last = (counted([*words, str(times)], f"{folder}/told", tool, word) for times in (1, COUNTED + 1))
    return None if first is None else (last - first) / COUNTED


def rows_of(asks, programs, folder, runs):
    forms = [[*words, str(asks)] for words in programs]
    found = {
        "time (us)": [timed(words, folder, runs) for words in forms],
        "instructions (thousands)": [per_round(words, folder, "cachegrind", "I +refs") for words in forms],
        "calls of the allocator": [per_round(words, folder, "memcheck", "total heap usage") for words in forms],
    }
    for name, counts in found.items():
        if counts[0] is None:
            yield [str(asks), name, *["-"] * 5]
            continue
        system, heap, plain = (it / (1_000 if "thousands" in name else 1) for it in counts)
        yield [str(asks), name, *(f"{it:,.1f}" for it in (system, heap, plain)), f"{system / plain:.2f}", f"{heap / plain:.2f}"]


def same(programs, folder):
    """Both programs must print what the workers took in the last round."""
    for asks in ASKS:
        told = set()
        for words in programs:
            median([*words, str(asks), "11"], f"{folder}/told", 1)
            with open(f"{folder}/told", encoding="utf-8") as it:
                told.add(it.read())
        if len(told) > 1:
            sys.exit(f"bench: of {asks} asks the last round granted {sorted(told)}")


def hands_row(bench_desk, desk, folder, runs):
    one = lambda program: median([program, "hands", str(HANDS)], f"{folder}/told", runs) * 1_000 / HANDS
    here, plain = one(bench_desk), one(desk)
    return [f"{here:.2f}", f"{plain:.2f}", f"{here / plain:.1f}", f"{1_000_000 / here:,.0f}", f"{1_000_000 / plain:,.0f}"]


def main(folder, bench_desk, desk, runs="21"):
    programs = [[bench_desk, "rounds", "system"], [bench_desk, "rounds", "heap"], [desk, "rounds"]]
    same(programs, folder)
    tell(HEAD, (row for asks in in_time(ASKS, "asks: ") for row in rows_of(asks, programs, folder, int(runs))))
    head = ["a hand-off here (us)", "plain word (us)", "here / plain", "hand-offs here", "hand-offs plain"]
    tell(head, (hands_row(bench_desk, desk, folder, int(runs)) for _ in in_time(["hand-offs"])))
    taken = median([bench_desk, "crowd", str(CROWDS)], f"{folder}/told", 1)
    with open(f"{folder}/told", encoding="utf-8") as it:
        tell(["a crowd", "processor (ms)"], [[it.read().strip(), f"{taken:,.0f}"]])


main(*sys.argv[1:])
