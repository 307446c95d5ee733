#!/usr/bin/env python3
"""Proves and builds warnc: crates that don't stand on each other side by side, each once those below it are proved.

Usage: build.py      the program is crates/warnc/out/warnc then

`rt` keeps one checkout's checks out of each other's libraries, so that two of them wait for each other. So each lane is
a checkout of its own, outside the repository: what is proved there is linked into this one, and from here into a lane
that needs it.

Of the crates that can begin, the one with the longest way to the program begins first: by the seconds that each crate
took on this machine the last time, which its out/ keeps, else by its lines. A crate that runs alone gets all
processors. On a terminal one line changes as it goes; elsewhere there is a line for each crate. If a crate isn't
proved, the end of what the prover said is printed, and the rest is in the named file.
"""
import os
import shutil
import subprocess
import sys
import tempfile
import time

TOP = os.path.dirname(os.path.dirname(os.path.realpath(__file__)))
PROGRAM = "warnc"
# what a check is likely to hold at most, in bytes
MEMORY = 3 << 30
# how many lines of a failed check are shown
SCREEN = 24
# seconds for each line of a crate that was never built here, and for any crate
A_LINE, A_CRATE = 0.05, 10


def crates_below(name):
    """Returns the crates of the repository that this one stands on, each with those that it stands on itself."""
    listed = {}
    with open(os.path.join(TOP, "crates.txt"), encoding="utf-8") as lines:
        for line in lines:
            front, colon, below = line.partition("#")[0].partition(":")
            if colon:
                listed[front.split()[0]] = below.split()
    found, left = {}, [name]
    while left:
        crate = left.pop()
        if crate not in found:
            found[crate] = [it for it in listed[crate] if it in listed]
            left += found[crate]
    return found


def kept_seconds(crate):
    return os.path.join(TOP, "crates", crate, "out", "seconds")


def lines_of(crate):
    """Returns how many lines of code, definitions and proofs a crate has."""
    count = 0
    for folder, _, files in os.walk(os.path.join(TOP, "crates", crate)):
        if "/out" not in folder:
            for file in files:
                if file.endswith((".rt", ".antt")):
                    with open(os.path.join(folder, file), "rb") as it:
                        count += it.read().count(b"\n")
    return count


def seconds_of(crate):
    """Returns how long a crate is likely to take: as long as the last time, else by its lines."""
    try:
        with open(kept_seconds(crate), encoding="ascii") as it:
            return float(it.read())
    except (OSError, ValueError):
        return A_CRATE + A_LINE * lines_of(crate)


def longest_ways(below, seconds):
    """Returns for each crate how long it and the longest chain of crates above it take."""
    above = {crate: [it for it in below if crate in below[it]] for crate in below}
    ways = {}

    def way(crate):
        if crate not in ways:
            ways[crate] = seconds[crate] + max((way(it) for it in above[crate]), default=0)
        return ways[crate]

    return {crate: way(crate) for crate in below}


def processors():
    return len(os.sched_getaffinity(0))


def gate_from_nothing():
    """Returns the words that run the gate from nothing: some toolchains keep what their gates proved, if not told."""
    said = subprocess.run(["rt", "help"], stdin=subprocess.DEVNULL, stdout=subprocess.PIPE, stderr=subprocess.STDOUT,
                          text=True, check=False).stdout
    return ["rt", "ci"] + ["--anew"] * ("--anew" in said)


def lanes(memory=MEMORY):
    """Returns how many checks run at a time: one a processor, and no more than memory holds."""
    with open("/proc/meminfo", encoding="ascii") as lines:
        free = next(int(line.split()[1]) for line in lines if line.startswith("MemAvailable:")) << 10
    return max(1, min(processors(), free // memory))


class Progress:
    """What is shown as it goes: one line that changes on a terminal, else a line for each crate that is done."""

    def __init__(self, seconds):
        self.seconds = seconds
        self.done = []
        self.began = time.monotonic()
        self.changes = sys.stderr.isatty()

    def minutes(self):
        return f"{(time.monotonic() - self.began) / 60:.1f} min"

    def left(self):
        """Returns how much is left, in hundredths of the whole."""
        done = sum(self.seconds[it] for it in self.done)
        return f"{100 - 100 * done / sum(self.seconds.values()):.0f} % left"

    def show(self, running):
        if self.changes:
            proved = f"{len(self.done)} of {len(self.seconds)} crates proved"
            line = f"warnc: {proved}, {self.left()}, {self.minutes()}; now {', '.join(running)}"
            print(f"\r\x1b[K{line[:os.get_terminal_size(2).columns - 1]}", end="", file=sys.stderr, flush=True)

    def add(self, crate):
        self.done.append(crate)
        if not self.changes:
            said = f"{crate} proved, {len(self.done)} of {len(self.seconds)}, {self.left()}"
            print(f"warnc: {said}, {self.minutes()}", file=sys.stderr, flush=True)

    def end(self, text):
        front = "\r\x1b[K" if self.changes else ""
        print(f"{front}warnc: {text}, {self.minutes()}", file=sys.stderr, flush=True)


def copy_checkout(folder, crates):
    """Copies the sources of these crates to a checkout of their own, which lists no others, and returns it."""
    os.makedirs(os.path.join(folder, "crates"))
    shutil.copy2(os.path.join(TOP, "HANDLES"), folder)
    with open(os.path.join(TOP, "crates.txt"), encoding="utf-8") as every, \
            open(os.path.join(folder, "crates.txt"), "w", encoding="utf-8") as listed:
        listed.writelines(it for it in every if it.partition(":")[0].split()[:1] in [[crate] for crate in crates])
    for crate in crates:
        shutil.copytree(os.path.join(TOP, "crates", crate), os.path.join(folder, "crates", crate),
                        ignore=shutil.ignore_patterns("out", "out.log", "__pycache__"))
    return folder


def link_out(crate, checkout, to, names):
    """Links what a check of a crate kept in a checkout into another one."""
    made, here = (os.path.join(it, "crates", crate, "out") for it in (checkout, to))
    for name in names:
        shutil.rmtree(os.path.join(here, name), ignore_errors=True)
        if os.path.isdir(os.path.join(made, name)):
            shutil.copytree(os.path.join(made, name), os.path.join(here, name), copy_function=link_or_copy)


def link_in(crate, checkout):
    """Links into a checkout what is kept here of a crate and of those that it stands on: nothing is proved again."""
    for below in crates_below(crate):
        link_out(below, TOP, checkout, ("incremental", "rlib") if below == crate else ("rlib",))


def link_or_copy(file, to):
    """Links a file, or copies it if the two places are on two disks."""
    try:
        os.link(file, to)
    except OSError:
        shutil.copy2(file, to)


def start(crate, folder, checkout, jobs):
    """Starts the check of a crate in a checkout, which writes to a file of this folder."""
    verb, rest = ("run", ["--", "--help"]) if crate == PROGRAM else ("lib", [])
    place = os.path.join(checkout, "crates", crate)
    with open(os.path.join(folder, crate), "wb") as log:
        return subprocess.Popen(["rt", verb, "--jobs", str(jobs), *rest], cwd=place, stdin=subprocess.DEVNULL,
                                stdout=log, stderr=log)


def explain(crate, folder):
    """Prints the end of what was said of a crate that isn't proved, and keeps all of it."""
    kept = os.path.join(TOP, "crates", crate, "out.log")
    with open(os.path.join(folder, crate), encoding="utf-8", errors="replace") as log:
        text = log.read()
    with open(kept, "w", encoding="utf-8") as log:
        log.write(text)
    lines = text.rstrip("\n").split("\n")
    wrong = [line for line in lines if "error" in line or "rt: " in line or "not proved" in line or "no proof" in line]
    for line in (wrong or lines)[-SCREEN:]:
        print(line[:200], file=sys.stderr)
    print(f"warnc: {crate} isn't proved; all that was said is in {os.path.relpath(kept)}", file=sys.stderr)


def keep_seconds(crate, seconds):
    """Keeps how long a crate took, if that was no look at work that was done before."""
    try:
        if seconds > A_CRATE or not os.path.exists(kept_seconds(crate)):
            with open(kept_seconds(crate), "w", encoding="ascii") as it:
                it.write(f"{seconds:.0f}\n")
    except OSError:
        pass


def end_all(running):
    """Ends the checks that run."""
    for check, _, _ in running.values():
        check.terminate()


def build():
    """Builds the program, and returns the status."""
    below = crates_below(PROGRAM)
    seconds = {crate: seconds_of(crate) for crate in below}
    ways = longest_ways(below, seconds)
    progress = Progress(seconds)
    print(f"warnc: proving and building {len(below)} crates, which takes minutes the first time",
          file=sys.stderr, flush=True)
    left, running = sorted(below, key=lambda it: -ways[it]), {}
    with tempfile.TemporaryDirectory(prefix="warnc-build-") as folder:
        free = [copy_checkout(os.path.join(folder, f"lane{it}"), below) for it in range(lanes())]
        while left or running:
            ready = [it for it in left if set(progress.done).issuperset(below[it])][: len(free)]
            # the processors that no other check has, shared by those that begin now
            jobs = max(1, (processors() - len(running)) // max(1, len(ready)))
            for crate in ready:
                left.remove(crate)
                checkout = TOP if crate == PROGRAM else free.pop()
                if checkout != TOP:
                    link_in(crate, checkout)
                running[crate] = (start(crate, folder, checkout, jobs), checkout, time.monotonic())
            progress.show(running)
            time.sleep(0.2)
            for crate in [it for it, (check, _, _) in running.items() if check.poll() is not None]:
                check, checkout, began = running.pop(crate)
                if check.returncode:
                    end_all(running)
                    progress.end("the build failed")
                    explain(crate, folder)
                    return 70
                if crate != PROGRAM:
                    link_out(crate, checkout, TOP, ("incremental", "rlib"))
                    free.append(checkout)
                keep_seconds(crate, time.monotonic() - began)
                progress.add(crate)
    progress.end(f"{len(progress.done)} crates proved, and the program built")
    return 0


def main(words):
    if words:
        print(__doc__, end="")
        return 0 if words in (["-h"], ["--help"]) else 2
    if shutil.which("rt") is None:
        print("warnc: 'rt', the command of the Rattle toolchain, isn't there: README.md says what is needed",
              file=sys.stderr)
        return 70
    return build()


if __name__ == "__main__":
    sys.exit(main(sys.argv[1:]))
