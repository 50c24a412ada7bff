#!/usr/bin/env python3
"""Times questions on two order-maintenance lists, and prints how the times stand to each other.

    python3 bench/orders.py [INSERTS]

INSERTS is the number of inserts at one place, 1,000,000 unless given. The program `bench_parts` does the work, one part a call;
build it by `rt run` in crates/bench_parts. A time is the least of seven calls. It tests nothing: it prints tables, whose ratios are
within this one run."""
import os
import subprocess
import sys
import time

TOP = os.path.dirname(os.path.dirname(os.path.abspath(__file__)))
PROGRAM = os.path.join(TOP, "crates", "bench_parts", "out", "bench_parts")
RUNS = 7
QUESTIONS = 300_000_000


def once(part, count, threads):
    """The seconds of one call, and the number that it printed."""
    start = time.perf_counter()
    answer = subprocess.run([PROGRAM, part, str(count), str(threads)], capture_output=True, text=True, check=True)
    return time.perf_counter() - start, int(answer.stdout)


def least(part, count, threads):
    return min(once(part, count, threads) for _ in range(RUNS))


def alone():
    """Seconds a question to a reader while nobody writes."""
    print("A question on one thread.\n")
    print("| asked | nanoseconds | times `Still` |")
    print("|---|---|---|")
    still, same = least("still", QUESTIONS, 1)
    live, answer = least("live", QUESTIONS, 1)
    if same != answer:
        sys.exit("the answers differ: %d and %d" % (same, answer))
    for name, seconds in (("`Still`", still), ("a reader, nobody writes", live)):
        print("| %s | %.2f | %.2f |" % (name, seconds / QUESTIONS * 1e9, seconds / still))
    return live / QUESTIONS


def beside(inserts, quiet):
    print("\nReaders beside a writer that makes %d inserts at one place.\n" % inserts)
    print("| readers | millions of questions a second | as many as one reader while nobody writes, times | nanoseconds an insert |")
    print("|---|---|---|---|")
    for readers in (1, 2, 3):
        runs = [once("readers", inserts, readers) for _ in range(RUNS)]
        rate = max(answers / seconds for seconds, answers in runs)
        seconds = min(seconds for seconds, _ in runs)
        print("| %d | %.1f | %.2f | %.0f |" % (readers, rate / 1e6, rate * quiet, seconds / inserts * 1e9))


def relabelled(inserts):
    _, items = once("relabelled", inserts, 1)
    print("\n%d inserts at one place relabel %d items, %.1f an insert." % (inserts, items, items / inserts))


def main():
    if len(sys.argv) > 2 or (len(sys.argv) == 2 and not sys.argv[1].isdigit()):
        sys.exit(__doc__)
    if not os.path.exists(PROGRAM):
        sys.exit("no program: run `rt run` in crates/bench_parts first")
    inserts = int(sys.argv[1]) if len(sys.argv) == 2 else 1_000_000
    beside(inserts, alone())
    relabelled(inserts)


if __name__ == "__main__":
    main()
