#!/usr/bin/env python3
"""Runs `forder serial` on texts that grow, and prints how its time grows with the events of the run.

    python3 bench/bench.py [SMALLEST]

SMALLEST is the number of events of the smallest size of each family, 50,000 unless given. Each family is run at that size, at
two, four and eight times that size, as far as the limits of the language allow. A time is the processor time of the whole
program, reading and printing included, the least of fifteen runs; the memory is the greatest that a run held. The record of each run is replayed, too. It tests nothing:
it prints a table, whose ratios are within this one run."""
import os
import subprocess
import sys
import tempfile

TOP = os.path.dirname(os.path.dirname(os.path.abspath(__file__)))
PROGRAM = os.path.join(TOP, "crates", "fut_main", "out", "fut_main")
CELLS = 65536
GRID = 64
USAGE = 9
RUNS = 15


def one_cell(events):
    """One strand writes one cell again and again."""
    return (
        "cells a[1];\n"
        "task main() int { var i: int; while i < %d { a[0] = i; i = i + 1; } return 0; }\n" % (events - 1)
    )


def children(events):
    """Spawned children, each of which writes a cell of its own six times: eight events a child."""
    n = events // 8
    if n > CELLS:
        return None
    return (
        "cells a[%d];\n"
        "task kid(i: int) int { a[i] = 1; a[i] = 2; a[i] = 3; a[i] = 4; a[i] = 5; a[i] = 6; return 0; }\n"
        "task main() int { var i: int; while i < %d { spawn kid(i); i = i + 1; } sync; return 0; }\n" % (n, n)
    )


def readers(events):
    """Spawned children that read one cell, and then one that writes it: three events a child."""
    n = (events - 5) // 3
    return (
        "cells a[1];\n"
        "task rd() int { var x: int = a[0]; return x; }\n"
        "task wr() int { a[0] = 1; return 0; }\n"
        "task main() int { var i: int; while i < %d { spawn rd(); i = i + 1; } spawn wr(); sync; return 0; }\n" % n
    )


def wavefront(events):
    """A grid of futures, each of which gets those above it and on its left, and then reads their cells and writes its own 31
    times: 97 events a future, so that the largest grid that the language has, 64 by 64, makes 400,000."""
    n = max(2, round((events / 97) ** 0.5))
    if n > GRID:
        return None
    text = """cells a[NN];
task corner() int { a[0] = 1; return 0; }
task top(j: int, left: fut int) int {
  var g: int = get left;
  var k: int;
  while k < 31 { g = a[j - 1]; a[j] = g + 1; k = k + 1; }
  return 0;
}
task side(i: int, up: fut int) int {
  var g: int = get up;
  var k: int;
  while k < 31 { g = a[(i - 1) * N]; a[i * N] = g + 1; k = k + 1; }
  return 0;
}
task inner(i: int, j: int, up: fut int, left: fut int) int {
  var p: int = get up;
  var q: int = get left;
  var k: int;
  while k < 31 {
    p = a[((i - 1) * N) + j];
    q = a[(i * N) + (j - 1)];
    a[(i * N) + j] = (p + q) + 1;
    k = k + 1;
  }
  return 0;
}
task main() int {
  var h: fut int = create corner();
  var row: fut int[N] = h;
  var up: fut int = h;
  var i: int = 1;
  var j: int = 1;
  while j < N { h = create top(j, h); row[j] = h; j = j + 1; }
  while i < N {
    up = row[0];
    h = create side(i, up);
    row[0] = h;
    j = 1;
    while j < N {
      up = row[j];
      h = create inner(i, j, up, h);
      row[j] = h;
      j = j + 1;
    }
    i = i + 1;
  }
  var x: int = get h;
  return x;
}
"""
    return text.replace("NN", str(n * n)).replace("N", str(n))


def tree(events):
    """A binary tree of spawns: four events a node."""
    depth = max(1, (events // 4).bit_length())
    return (
        "task node(d: int) int { if d { spawn node(d - 1); spawn node(d - 1); sync; } return 0; }\n"
        "task main() int { spawn node(%d); sync; return 0; }\n" % (depth - 1)
    )


FAMILIES = [one_cell, children, wavefront, readers, tree]


def once(words, source, sink):
    """One run of the program from a file to a file: its processor time in seconds, the greatest memory in megabytes, and its
    status. This script keeps no record in its own memory, which would be counted."""
    source.seek(0)
    sink.seek(0)
    sink.truncate()
    child = subprocess.Popen([PROGRAM] + words, stdin=source, stdout=sink)
    _, status, usage = os.wait4(child.pid, 0)
    child.returncode = os.waitstatus_to_exitcode(status)
    return usage.ru_utime + usage.ru_stime, usage.ru_maxrss / 1024, child.returncode


def run(text):
    """The events of the run of a text, the least of fifteen times, the greatest memory in megabytes, and the least of fifteen
    times of the replay of its record, where the program has that command."""
    with tempfile.TemporaryFile(buffering=0) as program, tempfile.TemporaryFile(buffering=0) as record, tempfile.TemporaryFile(buffering=0) as answer:
        program.write(text.encode())
        runs = [once(["serial", "--events", "1000000"], program, record) for _ in range(RUNS)]
        if runs[0][2] not in (0, 1):
            sys.exit("a run ended with status %d" % runs[0][2])
        record.seek(0)
        head = record.read(len(text) + 100)
        at = head.rfind(b"\nentries ") + len(b"\nentries ")
        events = int(head[at : head.index(b"\n", at)])
        again = [once(["replay"], record, answer) for _ in range(RUNS)]
    replay = None
    if again[0][2] != USAGE:
        if again[0][2] != runs[0][2]:
            sys.exit("a replay ended with status %d" % again[0][2])
        replay = min(seconds for seconds, _, _ in again)
    return events, min(seconds for seconds, _, _ in runs), max(memory for _, memory, _ in runs), replay


def main():
    smallest = int(sys.argv[1]) if len(sys.argv) > 1 else 50000
    print("| family | events | seconds | events a second | events, times those before | seconds, times those before | megabytes | replay, times `serial` |")
    print("|---|---|---|---|---|---|---|---|")
    for family in FAMILIES:
        before = None
        for size in [smallest, 2 * smallest, 4 * smallest, 8 * smallest]:
            text = family(size)
            if text is None:
                continue
            events, seconds, memory, replay = run(text)
            grown = "" if before is None else "%.2f" % (events / before[0])
            slower = "" if before is None else "%.2f" % (seconds / before[1])
            checked = "" if replay is None else "%.2f" % (replay / seconds)
            print(
                "| %s | %d | %.2f | %d | %s | %s | %.0f | %s |"
                % (family.__name__.replace("_", " "), events, seconds, events / seconds, grown, slower, memory, checked),
                flush=True,
            )
            before = (events, seconds)


if __name__ == "__main__":
    main()
