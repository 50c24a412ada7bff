#!/usr/bin/env python3
"""Times parts of the library crates, and prints how the times stand to each other.

    python3 bench/parts.py [JOBS]

JOBS is the number of jobs of a tree, 1,000,000 unless given. The program `bench_parts` does the work, one part a call; build it by
`rt run` in crates/bench_parts. A time is the least of seven calls, less that of a call with one job. It tests nothing: it
prints tables, whose ratios are within this one run."""
import os
import resource
import subprocess
import sys
import time

TOP = os.path.dirname(os.path.dirname(os.path.abspath(__file__)))
PROGRAM = os.path.join(TOP, "crates", "bench_parts", "out", "bench_parts")
RUNS = 7
LONG = 2_000_000


def once(part, count, workers):
    """The seconds and the processor seconds of one call."""
    before = resource.getrusage(resource.RUSAGE_CHILDREN)
    start = time.perf_counter()
    answer = subprocess.run([PROGRAM, part, str(count), str(workers)], capture_output=True, text=True, check=True)
    seconds = time.perf_counter() - start
    after = resource.getrusage(resource.RUSAGE_CHILDREN)
    due = 1 if part == "long" else count
    if answer.stdout != "%d\n" % due:
        sys.exit("%s %d %d answered %r" % (part, count, workers, answer.stdout))
    return seconds, after.ru_utime + after.ru_stime - before.ru_utime - before.ru_stime


def least(part, count, workers):
    """The least seconds of several calls, less those of a call that has one job."""
    full = min(once(part, count, workers)[0] for _ in range(RUNS))
    empty = min(once(part, 1, workers)[0] for _ in range(RUNS))
    return full - empty


def pool(jobs):
    plain = least("plain", jobs, 1)
    print("A tree of %d jobs that do nothing.\n" % jobs)
    print("| | seconds | nanoseconds a job | times the plain loop | times one worker |")
    print("|---|---|---|---|---|")
    print("| a loop over one `VecDeque` | %.3f | %.0f | 1.00 | |" % (plain, plain / jobs * 1e9))
    one = None
    for workers in (1, 2, 4):
        seconds = least("pool", jobs, workers)
        one = one or seconds
        name = "%d worker%s" % (workers, "" if workers == 1 else "s")
        print("| %s | %.3f | %.0f | %.2f | %.2f |" % (name, seconds, seconds / jobs * 1e9, seconds / plain, seconds / one))


def work(jobs):
    print("\nA tree of %d jobs that each work for about a microsecond.\n" % jobs)
    print("| workers | seconds | microseconds a job and worker | as fast as one worker, times |")
    print("|---|---|---|---|")
    one = None
    for workers in (1, 2, 4):
        seconds = least("work", jobs, workers)
        one = one or seconds
        print("| %d | %.3f | %.2f | %.2f |" % (workers, seconds, seconds * workers / jobs * 1e6, one / seconds))


def idle():
    print("\nOne job that works for seconds, on four workers of which three have nothing to do.\n")
    print("| workers | seconds | processor seconds a second |")
    print("|---|---|---|")
    for workers in (1, 4):
        seconds, used = min(once("long", LONG, workers) for _ in range(3))
        print("| %d | %.2f | %.2f |" % (workers, seconds, used / seconds))


def main():
    if len(sys.argv) > 2 or (len(sys.argv) == 2 and not sys.argv[1].isdigit()):
        sys.exit(__doc__)
    if not os.path.exists(PROGRAM):
        sys.exit("no program: run `rt run` in crates/bench_parts first")
    jobs = int(sys.argv[1]) if len(sys.argv) == 2 else 1_000_000
    pool(jobs)
    work(jobs)
    idle()


if __name__ == "__main__":
    main()
