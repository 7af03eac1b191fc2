#!/usr/bin/env python3
"""Proves and builds the libraries that a crate stands on, several side by side, and tells how far it is.

    tools/libraries.py CRATE

A run of `rt` locks every crate below its own, so in one checkout they come one after the other. Here each place, one for
each processor as far as memory goes, has a copy of the sources outside of the repository, and builds one library there, the
one with the longest chain above it first. The toolchain lets the copies share what is built. Each library that is done is taken
into this checkout at once, so a run that was stopped goes on where it was. Where the toolchain has no place to share in, the
libraries are built here, one after the other. Nothing is claimed from what this script does: `rt` builds over a library only
where its proof was done, by it, on this text.
"""

import os
import shutil
import signal
import subprocess
import sys
import tempfile
import time

TOP = os.path.dirname(os.path.dirname(os.path.abspath(__file__)))

# What a check of one crate takes of memory, in bytes, and of a processor's time for each line of code and proof, in seconds,
# until a few crates were built here and tell it better.
MEMORY = 2 << 30
SECONDS_A_LINE = 0.05


def read_crates():
    """The crates of the repository and which of these each names, in the order of the file."""
    crates = {}
    with open(f"{TOP}/crates.txt", encoding="utf-8") as lines:
        for line in lines:
            head, _, names = line.partition("#")[0].partition(":")
            if head.strip():
                crates[head.split()[0]] = names.split()
    return {name: [it for it in names if it in crates] for name, names in crates.items()}


def below(crates, crate):
    """The crates that this one stands on, lowest first."""
    found = []
    for name in crates[crate]:
        found += [it for it in [*below(crates, name), name] if it not in found]
    return found


def lines_of(crate):
    """How many lines of code and proof a crate has."""
    count = 0
    for folder, _, files in os.walk(f"{TOP}/crates/{crate}"):
        if "/out" not in folder and "/must-fail" not in folder:
            for file in files:
                if file.endswith((".rt", ".antt")):
                    with open(f"{folder}/{file}", "rb") as it:
                        count += it.read().count(b"\n")
    return count


def chains(crates, needed, lines):
    """The length in lines of the longest chain of crates from each of the needed ones up, itself among them."""
    longest = dict(lines)
    for crate in reversed(needed):
        for name in crates[crate]:
            longest[name] = max(longest[name], lines[name] + longest[crate])
    return longest


def places():
    """How many crates are built at once."""
    with open("/proc/meminfo", encoding="utf-8") as it:
        free = next(int(line.split()[1]) << 10 for line in it if line.startswith("MemAvailable"))
    return max(1, min(len(os.sched_getaffinity(0)), free // MEMORY))


class Build:
    """The libraries that one crate needs, of which some are done and some are being built."""

    def __init__(self, crate):
        self.crates = read_crates()
        self.needed = below(self.crates, crate)
        self.lines = {it: lines_of(it) for it in [*self.needed, crate]}
        self.own = self.lines[crate]
        self.longest = chains(self.crates, self.needed, self.lines)
        self.room = tempfile.mkdtemp(prefix="fdb-libraries-")
        self.idle = [self.copy(number) for number in range(places())]
        self.places = len(self.idle)
        self.done, self.running, self.built, self.spent = set(), {}, 0, 0.0

    def copy(self, number):
        """A copy of the sources for one place."""
        to = f"{self.room}/{number}"
        for name in self.needed:
            shutil.copytree(f"{TOP}/crates/{name}", f"{to}/crates/{name}", ignore=shutil.ignore_patterns("out", "must-fail"))
        shutil.copyfile(f"{TOP}/HANDLES", f"{to}/HANDLES")
        with open(f"{TOP}/crates.txt", encoding="utf-8") as lines, open(f"{to}/crates.txt", "w", encoding="utf-8") as it:
            it.writelines(line for line in lines if line.split(":")[0].split()[:1] and line.split(":")[0].split()[0] in self.needed)
        return to

    def ready(self):
        """What can be built now, the longest chain first."""
        left = [it for it in self.needed if it not in self.done and it not in self.running]
        return sorted((it for it in left if self.done.issuperset(self.crates[it])), key=lambda it: -self.longest[it])

    def start(self):
        """Begins as many as there are places for."""
        ready = self.ready()
        for at, crate in enumerate(ready[: len(self.idle)]):
            place = self.idle.pop()
            jobs = max(1, self.places // (len(self.running) + len(ready) - at))
            log = open(f"{self.room}/{crate}.log", "wb")
            words = ["rt", "lib", "--jobs", str(min(jobs, 4))]
            it = subprocess.Popen(words, cwd=f"{place}/crates/{crate}", stdin=subprocess.DEVNULL, stdout=log, stderr=log, start_new_session=True)
            self.running[crate] = it, place, time.monotonic()
            self.tell(crate)

    def tell(self, crate):
        """Tells how far it is, and about how long it will take."""
        left = self.own + sum(self.lines[it] for it in self.needed if it not in self.done)
        each = self.spent / self.built if self.built > 5_000 else SECONDS_A_LINE
        minutes = int(left * each / self.places / 60) + 1
        number = len(self.done) + len(self.running)
        print(f"fdb: proving {number} of {len(self.needed) + 1} ({crate}), about {minutes} minute{'s' * (minutes > 1)} left", file=sys.stderr, flush=True)

    def end(self, crate):
        """Takes a library that was built, or tells why there is none."""
        it, place, since = self.running.pop(crate)
        self.idle.append(place)
        took = time.monotonic() - since
        if took > 3:
            self.built, self.spent = self.built + self.lines[crate], self.spent + took
        if it.returncode == 0:
            # (here it is taken from the copy, or else built)
            it = subprocess.run(["rt", "lib"], cwd=f"{TOP}/crates/{crate}", stdin=subprocess.DEVNULL, capture_output=True)
        if it.returncode:
            with open(f"{self.room}/{crate}.log", encoding="utf-8", errors="replace") as log:
                print(*log.readlines()[-20:], sep="", end="", file=sys.stderr)
            print(f"fdb: the library {crate} was not built", file=sys.stderr)
            return False
        self.done.add(crate)
        return True

    def run(self):
        """Builds all, and gives whether each was."""
        while len(self.done) < len(self.needed):
            self.start()
            ended = [crate for crate, (it, _, _) in self.running.items() if it.poll() is not None]
            if not all([self.end(it) for it in ended]):
                return False
            if not ended:
                time.sleep(0.2)
        return True

    def close(self):
        """Stops what runs, and removes the copies."""
        for it, _, _ in self.running.values():
            os.killpg(it.pid, signal.SIGTERM)
            it.wait()
        shutil.rmtree(self.room, ignore_errors=True)


def main(crate):
    for number in (signal.SIGTERM, signal.SIGHUP):
        signal.signal(number, lambda *_: sys.exit(128 + number))
    build = Build(crate)
    try:
        return 0 if build.run() else 1
    except KeyboardInterrupt:
        return 130
    finally:
        build.close()


if __name__ == "__main__":
    sys.exit(main(*sys.argv[1:]))
