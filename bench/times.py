"""Times `sheets share` and the yardstick on each sheet of a folder, and `bench_work` on a tree that no sheet can hold.

    python3 times.py FOLDER YARDSTICK BENCH_WORK RUNS NAME=SHEETS [NAME=SHEETS ..]

It prints a table of each: of the first program, part by part; and of all of them beside the yardstick, the programs in turn in each run.

Each time is the least of so many runs, in milliseconds of the processor (the program's own and the system's for it), in the second table
also the median. Instructions are counted if `valgrind` is installed. What is printed goes to a file of the folder, and an answer other
than 0 ends the bench.
"""

import statistics
import sys

from clock import counted, in_time, least, run, tell

NAMES = ["empty", "groups", "deep", "large", "nested", "largest", "colliding", "crowded"]
HEAD = ["sheet", "octets", "lines", "nodes", "wants", "whole", "open", "bare", "reading", "sharing", "printing", "check", "MB"]

# How many nodes the large tree has, and how often it is shared and checked.
NODES = 4_000_000
TREE_HEAD = ["nodes", "made", "allot", "check", "MB"]
ALLOTS = 2
CHECKS = 20


def write_grants(shared, output):
    """Makes a grants file of what `share` printed."""
    with open(shared, encoding="utf-8") as lines, open(output, "w", encoding="utf-8") as grants:
        for line in lines:
            words = line.split()
            if words[0] != "total":
                print("grant", *words[:2], *words[5:], file=grants)


def octets_of(file):
    with open(file, "rb") as it:
        return it.read()


def row_of(name, folder, shares, runs):
    with open(f"{folder}/{name}.facts", encoding="utf-8") as it:
        facts = it.read().split()
    share = lambda form: least([shares, "share", f"{folder}/{name}.{form}"], f"{folder}/{name}.{form}.out", runs)
    whole, memory = share("sheet")
    write_grants(f"{folder}/{name}.sheet.out", f"{folder}/{name}.grants")
    judged, _ = least([shares, "check", f"{folder}/{name}.sheet", f"{folder}/{name}.grants"], f"{folder}/{name}.check.out", runs)
    opened, _ = share("open")
    bare, _ = share("bare")
    times = [whole, opened, bare, bare, whole - opened, opened - bare, judged - bare]
    return [name, *facts, *[f"{time:.1f}" for time in times], f"{memory:.0f}"]


def beside_row(name, folder, programs, runs):
    """Milliseconds of each program, the least and the median, over those of the yardstick, which is the last; then millions of instructions."""
    sheet, times, texts = f"{folder}/{name}.sheet", {}, {}
    words = lambda called: [programs[called], *(() if called == YARDSTICK else ("share",)), sheet]
    for _ in range(runs):
        for called in programs:
            output = f"{folder}/{called}.out"
            times.setdefault(called, []).append(run(words(called), output)[0])
            texts[called] = octets_of(output)
    if len(set(texts.values())) > 1:
        sys.exit(f"bench: of {name} these programs do not print the same: {', '.join(programs)}")
    both = lambda called: (min(times[called]), statistics.median(times[called]))
    row = [f"{part[0]:.1f} ({part[1]:.1f})" for part in map(both, programs)]
    over = [[mine / beside for mine, beside in zip(both(called), both(YARDSTICK))] for called in programs if called != YARDSTICK]
    row += [f"{part[0]:.2f} ({part[1]:.2f})" for part in over]
    counts = [counted(words(called), f"{folder}/counted.out", "cachegrind", "I +refs") for called in programs]
    return [name, *row, *(f"{it / 1e6:.1f}" if it else "-" for it in counts)]


def tree_row(folder, bench_work, runs):
    """What one allotment and one check take beyond the making of the tree; a check's tree is shared once before."""
    work = lambda word, times: least([bench_work, "tree", word, str(NODES), str(times)], f"{folder}/{word}.{times}.out", runs)
    made, memory = work("allot", 0)
    allotted, most = work("allot", ALLOTS)
    unchecked, _ = work("check", 0)
    checked, _ = work("check", CHECKS)
    with open(f"{folder}/check.{CHECKS}.out", encoding="utf-8") as it:
        if it.read() != f"yes {NODES}\n":
            sys.exit("bench: the large tree is not checked")
    times = [made, (allotted - made) / ALLOTS, (checked - unchecked) / CHECKS]
    return [f"{NODES}", *[f"{time:.1f}" for time in times], f"{max(memory, most):.0f}"]


YARDSTICK = "yardstick"


def main(folder, yardstick, bench_work, runs, *words):
    programs, runs = {**dict(it.split("=", 1) for it in words), YARDSTICK: yardstick}, int(runs)
    ours = [it for it in programs if it != YARDSTICK]
    head = ["sheet", *(f"{it}: ms" for it in programs), *(f"{it} / {YARDSTICK}" for it in ours), *(f"{it}: millions of instructions" for it in programs)]
    tell(head, (beside_row(name, folder, programs, max(runs, 5)) for name in in_time(NAMES, "beside the yardstick ")))
    tell(HEAD, (row_of(name, folder, programs[ours[0]], runs) for name in in_time(NAMES)))
    tell(TREE_HEAD, (tree_row(folder, bench_work, runs) for _ in in_time(["the large tree"])))


main(*sys.argv[1:])
