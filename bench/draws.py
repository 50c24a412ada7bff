#!/usr/bin/env python3
"""Times draws from an event clock beside bare additions to one word, and prints how the times stand to each other.

    python3 bench/draws.py [DRAWS]

DRAWS is the number of draws of a call, on all its threads together, 40,000,000 unless given. The program `bench_parts` does the work,
one part a call; build it by `rt run` in crates/bench_parts. A time is the least of seven calls, less that of a call with one draw on
each thread. It tests nothing: it prints a table, whose ratios are within this one run."""
import os
import subprocess
import sys
import time

TOP = os.path.dirname(os.path.dirname(os.path.abspath(__file__)))
PROGRAM = os.path.join(TOP, "crates", "bench_parts", "out", "bench_parts")
RUNS = 7
PARTS = (
    ("added", "`fetch_add`"),
    ("drawn", "`draw`"),
    ("noted", "`draw`, `note`, `tell`"),
    ("split", "`draw`, `note`, `split`, `join`, `tell`"),
)


def once(part, count, threads):
    """The seconds of one call with so many draws on each thread."""
    start = time.perf_counter()
    answer = subprocess.run([PROGRAM, part, str(count), str(threads)], capture_output=True, text=True, check=True)
    seconds = time.perf_counter() - start
    if answer.stdout != "%d\n" % (count * threads):
        sys.exit("%s %d %d answered %r" % (part, count, threads, answer.stdout))
    return seconds


def least(draws):
    """The least seconds of each part on each number of threads. Each round calls all of them, so that a busy spell meets them all."""
    cells = [(part, threads) for threads in (1, 2, 4) for part, _ in PARTS]
    full = {cell: [] for cell in cells}
    empty = {cell: [] for cell in cells}
    for _ in range(RUNS):
        for part, threads in cells:
            full[part, threads].append(once(part, draws // threads, threads))
            empty[part, threads].append(once(part, 1, threads))
    return {cell: min(full[cell]) - min(empty[cell]) for cell in cells}


def main():
    if len(sys.argv) > 2 or (len(sys.argv) == 2 and not sys.argv[1].isdigit()):
        sys.exit(__doc__)
    if not os.path.exists(PROGRAM):
        sys.exit("no program: run `rt run` in crates/bench_parts first")
    draws = int(sys.argv[1]) if len(sys.argv) == 2 else 40_000_000
    seconds = least(draws)
    print("%d times, on all threads together.\n" % draws)
    print("| on | what is done each time | nanoseconds | times `fetch_add` there | times the same on one thread |")
    print("|---|---|---|---|---|")
    for threads in (1, 2, 4):
        for part, name in PARTS:
            took = seconds[part, threads]
            there, alone = seconds["added", threads], seconds[part, 1]
            on = "%d thread%s" % (threads, "" if threads == 1 else "s")
            print("| %s | %s | %.1f | %.2f | %.2f |" % (on, name, took / draws * 1e9, took / there, took / alone))


if __name__ == "__main__":
    main()
