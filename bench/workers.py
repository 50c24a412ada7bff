#!/usr/bin/env python3
"""Runs `forder run --workers n` on the families of bench.py, and `forder load`, with 1, 2 and 4 workers, and prints how long each takes beside one.

    python3 bench/workers.py [EVENTS]

EVENTS is the number of events of each text, about 100,000 unless given. Seconds are those of the clock, reading and printing included, the
least of nine runs; processor seconds those of that run; megabytes the most that one of the nine held. One worker is the serial run, without
a pool or a lock. It tests nothing: it prints two tables, whose ratios are within this one run."""
import os
import subprocess
import sys
import tempfile
import time

from bench import FAMILIES, PROGRAM

RUNS = 9
GRIDS = (16, 32, 64)
WORKERS = (1, 2, 4)


def once(words, source, sink):
    """Seconds of the clock, seconds of the processor, and kilobytes held at most of one run."""
    source.seek(0)
    sink.seek(0)
    sink.truncate()
    begin = time.perf_counter()
    child = subprocess.Popen([PROGRAM, *words], stdin=source, stdout=sink)
    _, status, usage = os.wait4(child.pid, 0)
    child.returncode = os.waitstatus_to_exitcode(status)
    if child.returncode not in (0, 1):
        sys.exit("a run ended with another status than 0 or 1")
    return time.perf_counter() - begin, usage.ru_utime + usage.ru_stime, usage.ru_maxrss


def family_rows(family, events):
    """The rows of one family: its text on each number of workers."""
    with tempfile.TemporaryFile(buffering=0) as source, tempfile.TemporaryFile(buffering=0) as sink:
        source.write(family(events).encode())
        one = None
        for workers in WORKERS:
            words = ["run", "--workers", str(workers), "--events", "1000000"]
            seconds, used, _ = min(once(words, source, sink) for _ in range(RUNS))
            one = one or seconds
            print("| %s | %d | %.2f | %.2f | %.2f |" % (family.__name__.replace("_", " "), workers, seconds, seconds / one, used), flush=True)


def grid_rows(side):
    """The rows of `load` with one side. It reads nothing."""
    with tempfile.TemporaryFile(buffering=0) as source, tempfile.TemporaryFile(buffering=0) as sink:
        one = None
        for workers in WORKERS:
            runs = [once(["load", str(side), "--workers", str(workers)], source, sink) for _ in range(RUNS)]
            seconds, used, _ = min(runs)
            most = max(kilobytes for _, _, kilobytes in runs) / 1024
            one = one or seconds
            print("| load %d | %d | %.3f | %.2f | %.3f | %.0f |" % (side, workers, seconds, seconds / one, used, most), flush=True)


def main():
    events = int(sys.argv[1]) if len(sys.argv) > 1 else 100000
    print("| family | workers | seconds | times one worker | processor seconds |")
    print("|---|---|---|---|---|")
    for family in FAMILIES:
        family_rows(family, events)
    print()
    print("| command | workers | seconds | times one worker | processor seconds | megabytes |")
    print("|---|---|---|---|---|---|")
    for side in GRIDS:
        grid_rows(side)


if __name__ == "__main__":
    main()
