#!/usr/bin/env python3
"""Runs forder on programs of its own making until the time is over, and looks for an answer that can't be right.

    python3 bench/soak.py [--minutes M] [--runs N] [--seed S] [--program PATH]

M is 10 and N 1,000,000 unless given; what ends first ends it. A seed repeats the programs, and not what the machine's threads do
with them. Each text is run by `serial`, and then by `run` on 1 to 64 workers; some of these runs are refused memory, by a limit on the
address space that lies between what an empty run needs and what this text needs. What is looked at:

- the status, and that the record's last lines say the same;
- `replay` of each record answers the status of the run that wrote it;
- the races of each record of at most 3,000 entries are those that this script finds in it by its own search for paths;
- where the serial run is whole and has no race, each run is whole, has none, and makes as many tasks, futures and events;
- a run that was refused memory says `no memory` with status 8 and has written nothing else, or answers as one that was not.

It tests nothing in the gate. It prints what it counted, and each text that it has something to say of; its exit status is 1 where
there was one."""
import argparse
import collections
import os
import random
import resource
import subprocess
import sys
import time

TOP = os.path.dirname(os.path.dirname(os.path.abspath(__file__)))
PROGRAM = os.path.join(TOP, "crates", "fut_main", "out", "fut_main")
WORKERS = (1, 2, 3, 4, 5, 8, 16, 33, 64)
LONGEST = 60
SEARCHED = 3000


# ---- texts


class Text:
    """One program: arrays of cells, and tasks that call one another with a number that falls."""

    def __init__(self, seed):
        self.random = random.Random(seed)
        self.arrays = [(chr(97 + i), self.pick(1, 1, 2, 3, 8, 50)) for i in range(self.random.randint(1, 3))]
        # the parameters behind `n`, and whether a task gives a number (0) or the handle of one (1)
        self.tasks = [("t%d" % i, self.random.randint(0, 2), self.random.random() < 0.25) for i in range(self.random.randint(1, 5))]
        # the share of statements that touch cells, of those that wait, and how deep calls go
        self.touching = self.random.choice((0.1, 0.3, 0.6))
        self.waiting = self.random.choice((0.1, 0.3, 0.6))
        self.disjoint = self.random.random() < 0.4
        self.fresh, self.deeper = 0, True

    def pick(self, *choices):
        return self.random.choice(choices)

    def name(self):
        self.fresh += 1
        return "v%d" % self.fresh

    def number(self, ints):
        sign = self.pick("", "", "", "-", "!")
        kind = self.random.random()
        if kind < 0.5 and ints:
            return sign + self.random.choice(ints)
        if kind < 0.8:
            return sign + str(self.pick(0, 1, 2, 3, 7, 9223372036854775807))
        left, right = self.pick("1", *ints), self.pick("2", *ints)
        return "(%s %s %s)" % (left, self.pick("+", "-", "*", "/", "%", "&", "|", "==", "!=", "<", "<=", ">", ">="), right)

    def index(self, ints):
        # where cells are to be disjoint most indices are the task's own number
        return "k" if self.disjoint and self.random.random() < 0.8 else self.number(ints)

    def call(self, ints, handles, which):
        name, passed, _ = self.tasks[which]
        own = "(k * 3) + %d" % self.random.randint(0, 2)
        return "%s(n - 1, %s%s)" % (name, own, "".join(", " + self.random.choice(handles) for _ in range(passed)))

    def callable(self, handles, gives):
        """The tasks that can be called with these handles, by what they give."""
        return [i for i, (_, passed, deep) in enumerate(self.tasks) if (passed == 0 or handles) and deep == gives]

    def statement(self, scope, depth):
        ints, handles, deep = scope
        kind = self.random.random()
        if kind < self.touching:
            array, _ = self.random.choice(self.arrays)
            if self.random.random() < 0.5:
                return "%s[%s] = %s;" % (array, self.index(ints), self.number(ints))
            x = self.name()
            line = "var %s: int = %s[%s];" % (x, array, self.index(ints))
            ints.append(x)
            return line
        kind = self.random.random()
        if kind < self.waiting:
            if handles and self.random.random() < 0.6:
                x = self.name()
                line = "var %s: int = get %s;" % (x, self.random.choice(handles))
                ints.append(x)
                return line
            if deep and self.random.random() < 0.6:
                h = self.name()
                line = "var %s: fut int = get %s;" % (h, self.random.choice(deep))
                handles.append(h)
                return line
            return "sync;"
        kind = self.random.random()
        if kind < 0.3:
            which = self.callable(handles, False) + self.callable(handles, True)
            if which:
                return "if n > 0 { spawn %s; }" % self.call(ints, handles, self.random.choice(which))
        if kind < 0.6:
            gives = self.deeper and self.random.random() < 0.3
            which = self.callable(handles, gives)
            if which:
                h = self.name()
                line = "var %s: %s = create %s;" % (h, "fut fut int" if gives else "fut int", self.call(ints, handles, self.random.choice(which)))
                (deep if gives else handles).append(h)
                return line
        if kind < 0.75 and depth < 2:
            inner = (list(ints), list(handles), list(deep))
            body = " ".join(self.statement(inner, depth + 1) for _ in range(self.random.randint(1, 3)))
            other = (list(ints), list(handles), list(deep))
            rest = " else { %s }" % self.statement(other, depth + 1) if self.random.random() < 0.4 else ""
            return "if %s { %s }%s" % (self.number(ints), body, rest)
        if kind < 0.85 and depth < 2:
            i = self.name()
            inner = (list(ints) + [i], list(handles), list(deep))
            body = " ".join(self.statement(inner, depth + 1) for _ in range(self.random.randint(1, 3)))
            return "var %s: int; while %s < %d { %s %s = %s + 1; }" % (i, i, self.random.randint(1, 4), body, i, i)
        if kind < 0.9 and handles:
            row, h = self.name(), self.name()
            return "var %s: fut int[3] = %s; %s[%s] = %s; var %s: fut int = %s[%s];" % (
                row, handles[0], row, self.number(ints), handles[-1], h, row, self.number(ints))
        x = self.name()
        line = "var %s: int = %s;" % (x, self.number(ints))
        ints.append(x)
        return line

    def task(self, which):
        name, passed, gives = self.tasks[which]
        self.fresh = 0
        handles = ["h%d" % i for i in range(passed)]
        scope = (["n", "k"], list(handles), [])
        given = "n: int, k: int" + "".join(", %s: fut int" % h for h in handles)
        # a task that gives a number ends at its last call; one that gives a handle creates none of its kind
        self.deeper = not gives
        lines = [] if gives else ["if n < 1 { return k; }"]
        lines += [self.statement(scope, 0) for _ in range(self.random.randint(1, 6))]
        if gives and not scope[1]:
            lines.append("var last: fut int = create leaf(0, k);")
        lines.append("return %s;" % (self.random.choice(scope[1] or ["last"]) if gives else self.number(scope[0])))
        return "task %s(%s) %s { %s }" % (name, given, "fut int" if gives else "int", " ".join(lines))

    def whole(self):
        leaf = "task leaf(n: int, k: int) int { %s[k] = n; return k; }" % self.arrays[0][0]
        tasks = [self.task(i) for i in range(len(self.tasks))]
        self.fresh, self.deeper = 0, True
        scope = (["n", "k"], ["h"], [])
        lines = ["var n: int = %d; var k: int = 1; var h: fut int = create leaf(0, 0);" % self.random.randint(1, 4)]
        lines += [self.statement(scope, 0) for _ in range(self.random.randint(2, 8))]
        if self.random.random() < 0.35:
            # many children, so that there are many tasks at once
            which = self.random.choice(self.callable(["h"], False) or self.callable(["h"], True))
            lines.append("var many: int; while many < %d { spawn %s; k = k + 1; many = many + 1; }" % (
                self.pick(20, 100, 300), self.call(["n", "k"], ["h"], which)))
        main = "task main() int { %s return 0; }" % " ".join(lines)
        cells = ["cells %s[%d];" % array for array in self.arrays]
        items = cells + [leaf] + tasks + [main]
        if self.random.random() < 0.3:
            self.random.shuffle(items)
        return "\n".join(items) + "\n"


# ---- what a record says


def read_record(record):
    """The entries, the races and the finish of a record."""
    lines = record.decode().split("\n")
    at = next(i for i, line in enumerate(lines) if line.startswith("entries ") and lines[i + 1 + int(line[8:])].startswith("races "))
    count = int(lines[at][8:])
    entries = [line.split(" ") for line in lines[at + 1 : at + 1 + count]]
    races = int(lines[at + 1 + count][6:])
    found = [tuple(int(word) for word in line.split(" ")[1:]) for line in lines[at + 2 + count : at + 2 + count + races]]
    return entries, found, lines[at + 2 + count + races]


def search(entries):
    """The first pair of each racing cell, by the strands from which paths lead to each strand, as the bits of a number."""
    above, last, block, touched, pairs = {0: 1}, {}, collections.defaultdict(list), {}, {}
    for place, entry in enumerate(entries):
        task, strand, word = entry[1], int(entry[2][1:]), entry[3]
        if word in ("spawn", "create"):
            for name in entry[6:8]:
                above[int(name[1:])] = above[strand] | 1 << int(name[1:])
            if word == "spawn":
                block[task].append(entry[5])
        elif word == "sync":
            after = int(entry[4][1:])
            above[after] = above[strand] | 1 << after
            for child in block.pop(task, []):
                above[after] |= above[last[child]]
        elif word == "get":
            after = int(entry[6][1:])
            above[after] = above[strand] | 1 << after | above[last["t" + entry[4][1:]]]
        elif word == "end":
            last[task] = strand
        elif int(entry[4]) not in pairs:
            cell, writes = int(entry[4]), word == "write"
            before = touched.setdefault(cell, [])
            for other, its, wrote in reversed(before):
                if (writes or wrote) and not (above[strand] >> its & 1 or above[its] >> strand & 1):
                    pairs[cell] = (cell, other, place)
                    break
            before.append((place, strand, writes))
    return [pairs[cell] for cell in sorted(pairs)]


# ---- runs


class Soak:
    def __init__(self, program):
        self.program = program
        self.counts = collections.Counter()
        self.least = self.starts_with()

    def call(self, words, text, room=None):
        """Runs the program with these words on a text, its address space limited to so many bytes: its status, and what it wrote."""
        limit = None if room is None else (lambda: resource.setrlimit(resource.RLIMIT_AS, (room, room)))
        done = subprocess.run([self.program, *words], input=text, stdout=subprocess.PIPE, stderr=subprocess.PIPE, timeout=LONGEST, preexec_fn=limit)
        return done.returncode, done.stdout

    def starts_with(self):
        """An address space in which the program begins and can say what its words are."""
        low, high = 1 << 20, 1 << 30
        while high - low > 65536:
            middle = (low + high) // 2
            try:
                status, _ = self.call([], b"", middle)
            except (OSError, subprocess.SubprocessError):
                status = -1
            low, high = (low, middle) if status == 9 else (middle, high)
        return high

    def say(self, what, text, words, status, wrote):
        self.counts["wrong"] += 1
        print("---- %s: %s, status %d\n%s\n---- it wrote\n%s" % (what, " ".join(words), status, text.decode(), wrote[-600:].decode(errors="replace")), flush=True)

    def look_at(self, text, words, status, wrote):
        """Looks at a record. The entries, or None where there is none."""
        if status not in (0, 1, 4):
            self.say("another status", text, words, status, wrote)
            return None
        entries, races, finish = read_record(wrote)
        due = 4 if finish != "finish whole" else (1 if races else 0)
        if status != due:
            self.say("the status is not that of the record", text, words, status, wrote)
        replayed, said = self.call(["replay"], wrote)
        self.counts["replays"] += 1
        if replayed != status or said != b"legal entries %d races %d\n" % (len(entries), len(races)):
            self.say("replayed with %d, %s" % (replayed, said.decode()), text, words, status, wrote)
        if len(entries) <= SEARCHED:
            self.counts["searches"] += 1
            if search(entries) != races:
                self.say("the races are not those that a search finds", text, words, status, wrote)
        self.counts["entries"] += len(entries)
        self.counts["status %d" % status] += 1
        return entries

    def one(self, text, some):
        events = ["--events", str(some.choice((5, 50, 500, 5000)))]
        words = ["serial", *events]
        status, wrote = self.call(words, text)
        self.counts["texts"] += 1
        if status in (2, 3):
            # a text of this script that is no program would be this script's fault
            self.say("no program", text, words, status, wrote)
            return
        serial = self.look_at(text, words, status, wrote)
        if serial is None:
            return
        makes = collections.Counter(entry[3] for entry in serial)
        for _ in range(some.randint(1, 4)):
            words = ["run", "--workers", str(some.choice(WORKERS)), *events]
            if some.random() < 0.25:
                self.refused(text, words, status, some)
                continue
            ran, wrote = self.call(words, text)
            self.counts["runs"] += 1
            entries = self.look_at(text, words, ran, wrote)
            if status == 0 and entries is not None:
                self.counts["clean beside serial"] += 1
                if ran != 0 or collections.Counter(entry[3] for entry in entries) != makes:
                    self.say("the serial run is whole and clean, and this one is not like it", text, words, ran, wrote)

    def refused(self, text, words, serial, some):
        room = self.least + some.randrange(1 << some.choice((12, 16, 17, 18, 20, 23, 26)))
        status, wrote = self.call(words, text, room)
        self.counts["limited runs"] += 1
        if status == 8:
            self.counts["refused memory"] += 1
            if wrote != b"no memory\n":
                self.say("more is written than `no memory`", text, words, status, wrote)
        else:
            self.look_at(text, words, status, wrote)
            if serial == 0 and status != 0:
                self.say("the serial run is whole and clean, and this one is not", text, words, status, wrote)


def main():
    asked = argparse.ArgumentParser(description="Runs forder on programs of its own making, and looks for an answer that can't be right.")
    asked.add_argument("--minutes", type=float, default=10)
    asked.add_argument("--runs", type=int, default=1_000_000)
    asked.add_argument("--seed", type=int, default=None)
    asked.add_argument("--program", default=PROGRAM)
    given = asked.parse_args()
    if not os.path.exists(given.program):
        sys.exit("build forder first: ./forder check FILE")
    seed = given.seed if given.seed is not None else random.SystemRandom().randrange(1 << 32)
    soak, end, number = Soak(given.program), time.monotonic() + 60 * given.minutes, 0
    print("seed %d, an empty run needs %d kB of address space" % (seed, soak.least // 1024), flush=True)
    while time.monotonic() < end and soak.counts["runs"] + soak.counts["limited runs"] < given.runs:
        some = random.Random("%d %d" % (seed, number))
        text = Text("%d %d text" % (seed, number)).whole().encode()
        try:
            soak.one(text, some)
        except subprocess.TimeoutExpired as late:
            soak.say("not ended after %d seconds" % LONGEST, text, late.cmd[1:], -1, b"")
        number += 1
    for what in sorted(soak.counts):
        print("%s: %d" % (what, soak.counts[what]))
    return 1 if soak.counts["wrong"] else 0


if __name__ == "__main__":
    sys.exit(main())
