#!/usr/bin/env python3
"""Refuses each request for memory of some calls of forder in turn, and looks at what comes.

    python3 bench/refused.py [--program PATH]

The first request is refused in a first run, the second one in a second run, and so on until a run meets no refusal. Each run must say
`no memory` with status 8 and write nothing else, or answer as with ample memory: for a run on two workers, whose entries come in
another order each time, its status and counts. A library that stands before the C library's `malloc` and `realloc` refuses; `cc`
compiles it. It prints a row for each call, and its exit status is 1 where an answer can't be right."""
import argparse
import os
import subprocess
import sys
import tempfile

TOP = os.path.dirname(os.path.dirname(os.path.abspath(__file__)))
PROGRAM = os.path.join(TOP, "crates", "fut_main", "out", "fut_main")
MOST = 1_000_000

REFUSE = r"""
#define _GNU_SOURCE
#include <dlfcn.h>
#include <errno.h>
#include <stdatomic.h>
#include <stdlib.h>
#include <unistd.h>

static atomic_long left;
static int told = -1;

__attribute__((constructor)) static void begin(void) {
  const char *which = getenv("REFUSE"), *where = getenv("REFUSE_FD");
  told = where ? atoi(where) : -1;
  atomic_store(&left, which ? atol(which) : 0);
}

/* whether this request is the one to refuse, which is told on the pipe */
static int refuses(void) {
  if (atomic_fetch_sub(&left, 1) != 1) return 0;
  if (told >= 0 && write(told, "x", 1) != 1) abort();
  errno = ENOMEM;
  return 1;
}

void *malloc(size_t size) {
  static void *(*next)(size_t);
  if (!next) next = (void *(*)(size_t))dlsym(RTLD_NEXT, "malloc");
  return refuses() ? NULL : next(size);
}

void *realloc(void *old, size_t size) {
  static void *(*next)(void *, size_t);
  if (!next) next = (void *(*)(void *, size_t))dlsym(RTLD_NEXT, "realloc");
  return refuses() ? NULL : next(old, size);
}
"""

# two futures, each got by two others: 23 events
CROSSED = b"""cells a[4];
task p() int { a[0] = 1; return 1; }
task q() int { a[1] = 2; return 2; }
task r(h: fut int, k: fut int, o: int) int { var x: int = get h; x = get k; var y: int = a[0]; var z: int = a[1]; a[o] = y + z; return x; }
task main() int { var h: fut int = create p(); var k: fut int = create q(); var m: fut int = create r(h, k, 2); var n: fut int = create r(h, k, 3); var x: int = get m; x = get n; return x; }
"""

# a path through two futures' ends
PATH = b"""cells a[1];
task one() int { a[0] = 1; return 1; }
task two(h: fut int) int { var x: int = get h; return x; }
task main() int { var h: fut int = create one(); var k: fut int = create two(h); var y: int = get k; a[0] = 2; return y; }
"""

# the program of `load 8`
GRID = b"""cells a[64];
task corner() int { a[0] = 1; return 0; }
task top(j: int, left: fut int) int {
  var g: int = get left;
  var q: int = a[j - 1];
  a[j] = q + 1;
  return 0;
}
task side(i: int, up: fut int) int {
  var g: int = get up;
  var p: int = a[(i - 1) * 8];
  a[i * 8] = p + 1;
  return 0;
}
task inner(i: int, j: int, up: fut int, left: fut int) int {
  var g: int = get up;
  g = get left;
  var p: int = a[((i - 1) * 8) + j];
  var q: int = a[(i * 8) + (j - 1)];
  a[(i * 8) + j] = (p + q) + 1;
  return 0;
}
task main() int {
  var h: fut int = create corner();
  var row: fut int[8] = h;
  var up: fut int = h;
  var i: int = 1;
  var j: int = 1;
  while j < 8 { h = create top(j, h); row[j] = h; j = j + 1; }
  while i < 8 {
    up = row[0];
    h = create side(i, up);
    row[0] = h;
    j = 1;
    while j < 8 {
      up = row[j];
      h = create inner(i, j, up, h);
      row[j] = h;
      j = j + 1;
    }
    i = i + 1;
  }
  var x: int = get h;
  return x;
}
"""


def call(program, library, words, text, refused):
    """Runs the program, whose request of this number is refused: whether it came to that, the status, and what was written."""
    end, begin = os.pipe()
    given = dict(os.environ, LD_PRELOAD=library, REFUSE=str(refused), REFUSE_FD=str(begin))
    done = subprocess.run([program, *words], input=text, stdout=subprocess.PIPE, stderr=subprocess.DEVNULL, env=given, pass_fds=(begin,), timeout=60)
    os.close(begin)
    met = os.read(end, 1) == b"x"
    os.close(end)
    return met, done.returncode, done.stdout


def main():
    asked = argparse.ArgumentParser(description="Refuses each request for memory of some calls of forder in turn.")
    asked.add_argument("--program", default=PROGRAM)
    program = asked.parse_args().program
    if not os.path.exists(program):
        sys.exit("build forder first: ./forder check FILE")
    wrong = 0
    with tempfile.TemporaryDirectory() as folder:
        source, library = os.path.join(folder, "refuse.c"), os.path.join(folder, "refuse.so")
        with open(source, "w") as out:
            out.write(REFUSE)
        subprocess.run(["cc", "-O2", "-shared", "-fPIC", "-o", library, source, "-ldl"], check=True)
        _, _, record = call(program, library, ["serial"], PATH, 0)
        cases = [
            (["serial"], CROSSED),
            (["run", "--workers", "2", "--brief"], CROSSED),
            (["run", "--workers", "2"], CROSSED),
            (["replay"], record),
            (["check"], GRID),
            (["serial", "--brief"], GRID),
            (["load", "4", "--workers", "3"], b""),
        ]
        print("| call | requests refused | `no memory` | answered as with ample memory |")
        print("|---|---|---|---|")
        for words, text in cases:
            _, ample, due = call(program, library, words, text, 0)
            # the entries of a run on several workers stand in another order each time
            alike = (lambda wrote: len(wrote.split(b"\n"))) if words[0] == "run" and "--brief" not in words else (lambda wrote: wrote)
            refused = none = 0
            for number in range(1, MOST):
                met, status, wrote = call(program, library, words, text, number)
                if not met:
                    break
                refused += 1
                if status == 8 and wrote == b"no memory\n":
                    none += 1
                elif status != ample or alike(wrote) != alike(due):
                    wrong += 1
                    print("%s, request %d: status %d\n%s" % (" ".join(words), number, status, wrote.decode(errors="replace")), flush=True)
            print("| `%s` | %d | %d | %d |" % (" ".join(words), refused, none, refused - none), flush=True)
    return 1 if wrong else 0


if __name__ == "__main__":
    sys.exit(main())
