"""A program of this repository that is proved and built where that was not done yet, or a file that it is built from has changed since."""
import concurrent.futures
import hashlib
import os
import pathlib
import shutil
import subprocess
import sys

TOP = pathlib.Path(__file__).resolve().parent.parent
CANNOT_BUILD = 70
USAGE = 9


class Program:
    def __init__(self, name, main):
        """The script `name` runs the program of the crate `main`, which ends with `USAGE` where a word is none that it knows."""
        self.name, self.main = name, main
        self.path = TOP / "crates" / main / "out" / main
        self.built = TOP / "crates" / main / "out" / f"{name}.built"
        self.log = TOP / "out" / f"{name}-build.log"

    def say(self, text):
        print(f"{self.name}: {text}", file=sys.stderr, flush=True)

    def show_progress(self, text):
        """One line that is written over on a terminal, a line each elsewhere."""
        if sys.stderr.isatty():
            print(f"\r\033[K{self.name}: {text}", end="", file=sys.stderr, flush=True)
        else:
            self.say(text.rstrip("\n"))

    def needed(self):
        """The crates that the program is built from, each with those it stands on."""
        lines = [line.split("#")[0] for line in (TOP / "crates.txt").read_text().splitlines()]
        below = {}
        for line in lines:
            name, _, names = line.partition(":")
            if name.strip():
                below[name.split()[0]] = names.split()
        found, left = {}, [self.main]
        while left:
            name = left.pop()
            if name in below and name not in found:
                found[name] = [low for low in below[name] if low in below]
                left += found[name]
        return found

    def state(self, crates):
        """A checksum of all files that the program is built from."""
        total = hashlib.sha256()
        for name in sorted(crates):
            total.update(f"{name}: {crates[name]}\n".encode())
            for path in sorted((TOP / "crates" / name).rglob("*")):
                inner = path.relative_to(TOP / "crates" / name)
                if inner.parts[0] != "out" and path.suffix in (".rt", ".antt"):
                    total.update(f"{name}/{inner}\0".encode() + path.read_bytes() + b"\0")
        return total.hexdigest()

    def build(self, crates, wanted):
        """Proves the crates, as many side by side as there are processors, each after those below it, and builds the program."""
        if shutil.which("rt") is None:
            self.say("the program is not built, and the command rt of the Rattle kit is not found; it is needed to build it")
            return False
        self.path.unlink(missing_ok=True)
        self.built.unlink(missing_ok=True)
        self.log.parent.mkdir(exist_ok=True)
        self.say(f"proving and building {len(crates)} crates; the kit's own output is in {self.log}")
        begun, done, waits = 0, set(), dict(crates)
        with open(self.log, "w") as log, concurrent.futures.ThreadPoolExecutor(os.cpu_count() or 1) as pool:
            running = {}
            while waits or running:
                ready = sorted(name for name in waits if done.issuperset(waits[name]))
                for name in ready[: (os.cpu_count() or 1) - len(running)]:
                    del waits[name]
                    begun += 1
                    self.show_progress(f"proving {begun} of {len(crates)}: {name}")
                    running[pool.submit(run_rt, ["run", "--", "?"] if name == self.main else ["lib"], name, log)] = name
                for future in concurrent.futures.wait(running, return_when="FIRST_COMPLETED").done:
                    name = running.pop(future)
                    if future.result() != (USAGE if name == self.main else 0):
                        self.show_progress(f"{name} is not proved or not built; see {self.log}\n")
                        return False
                    done.add(name)
        self.show_progress("built\n")
        if not self.path.exists() or self.state(crates) != wanted:
            self.say("a file was changed while the program was built; call again")
            return False
        self.built.write_text(wanted)
        return True

    def is_built(self, wanted):
        return self.path.exists() and self.built.exists() and self.built.read_text() == wanted

    def make(self):
        """Whether the program is there, built now where it was not."""
        crates = self.needed()
        wanted = self.state(crates)
        return self.is_built(wanted) or self.build(crates, wanted)

    def take_input(self, name):
        """Whether the file of this name has become standard input."""
        try:
            os.dup2(os.open(name, os.O_RDONLY), 0)
        except OSError as error:
            self.say(f"cannot read {name}: {error.strerror}")
            return False
        return True


def run_rt(command, name, log):
    done = subprocess.run(["rt", *command], cwd=TOP / "crates" / name, stdin=subprocess.DEVNULL, stdout=log, stderr=log)
    return done.returncode


def leave(main):
    """Ends the process with what `main` gives, the number of a signal as a shell tells it."""
    sys.stdout.flush()
    code = main()
    sys.stdout.flush()
    os._exit(code if code >= 0 else 128 - code)
