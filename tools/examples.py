#!/usr/bin/env python3
"""Runs each command that README, four pages of docs/ and the man page print, and compares what it writes with what
they print after it.

Usage: examples.py [PROGRAM]      PROGRAM is the warnc that is run; that of ./warnc, if it isn't given

In the texts a command stands behind `$ `, indented, and goes on in the next lines as long as the shell takes it for
unfinished. The commands of a text run one after the other in a folder of its own, which has ./warnc, cap/, cluster/
and examples/, so that what one writes the next can read; those of the man page, which is read elsewhere, find the
examples beside them. A command that needs what isn't installed, or what such a command would have written, is skipped,
aloud.
"""
import os
import re
import shutil
import subprocess
import sys
import tempfile

TOP = os.path.dirname(os.path.dirname(os.path.realpath(__file__)))
TEXTS = ("README.md", "docs/planning.md", "docs/usage.md", "docs/cap.md", "docs/real-equipment.md", "docs/warnc.1")
# what not every machine has, and commands that run it
NEEDS = {"tshark": "tshark", "mergecap": "mergecap", "xxd": "xxd", "cluster/parallel.sh": "parallel"}
SECONDS = 100


def lines_of(path):
    """Returns the lines of a text; of a man page those that it shows in its examples, indented."""
    with open(os.path.join(TOP, path), encoding="utf-8") as it:
        text = it.read()
    if not path.endswith(".1"):
        return text.split("\n")
    shown = "\n".join(re.findall(r"\.nf\n\.RS\n(.*?)\.RE\n\.fi", text, re.S))
    for written, char in ((r"\-", "-"), (r"\(aq", "'"), (r"\e", "\\"), (r"\&", "")):
        shown = shown.replace(written, char)
    return [f"    {it}" if it else "" for it in shown.split("\n")]


def is_whole(command):
    """Whether the shell takes these lines for whole commands."""
    if command.endswith("\\"):
        return False
    return subprocess.run(["sh", "-n", "-c", command], stderr=subprocess.DEVNULL, check=False).returncode == 0


def commands_of(path):
    """Yields each command of a text, and what stands after it."""
    command, wanted = None, []
    for line in [*lines_of(path), ""]:
        shown = line[4:] if line.startswith("    ") else None
        if command is not None and (shown is None or shown.startswith("$ ")) and is_whole(command):
            yield command, wanted
            command = None
        if shown is not None and shown.startswith("$ ") and command is None:
            command, wanted = shown[2:], []
        elif command is not None and shown is not None:
            if is_whole(command):
                wanted.append(shown)
            else:
                command += "\n" + shown
    if command is not None:
        sys.exit(f"{path}: a command isn't whole: {command}")


def lacking(command):
    """Returns what a command needs that isn't installed."""
    return next((tool for word, tool in NEEDS.items() if word in command and shutil.which(tool) is None), None)


def room_for(folder, program):
    """Puts into a folder what the commands name, and returns the environment that they run in."""
    for name in ("cap", "cluster", "examples"):
        os.symlink(os.path.join(TOP, name), os.path.join(folder, name))
    os.makedirs(os.path.join(folder, ".bin"))
    for path in ("warnc", ".bin/warnc"):
        os.symlink(program, os.path.join(folder, path))
    return {**os.environ, "PATH": f"{folder}/.bin:{os.environ['PATH']}", "WARNC": program, "LC_ALL": "C.UTF-8"}


def ran(command, folder, environment):
    """Returns what a command writes, standard error too."""
    done = subprocess.run(["sh", "-c", command], cwd=folder, env=environment, stdin=subprocess.DEVNULL,
                          stdout=subprocess.PIPE, stderr=subprocess.STDOUT, timeout=SECONDS, check=False)
    said = done.stdout.decode(errors="replace").split("\n")[:-1]
    return [it for it in said if not it.startswith("Running as user")]


def files_of(command):
    """Returns the words of a command that are names of files."""
    return set(re.findall(r"[\w/-]+\.\w+", command))


def check(path, program):
    """Runs the commands of a text, and returns how many gave what is printed, how many didn't,
    and how many were skipped."""
    counts, unwritten = [0, 0, 0], set()
    with tempfile.TemporaryDirectory(prefix="warnc-examples-") as folder:
        environment = room_for(folder, program)
        for name in os.listdir(os.path.join(TOP, "examples")) if path.endswith(".1") else ():
            os.symlink(os.path.join(TOP, "examples", name), os.path.join(folder, name))
        for command, wanted in commands_of(path):
            tool, files = lacking(command), files_of(command)
            why = f"{tool} isn't installed" if tool else "what it reads wasn't written" if files & unwritten else None
            if why:
                print(f"examples: {why}: SKIPPED: {command.splitlines()[0]}")
                unwritten |= {it for it in files if not os.path.exists(os.path.join(folder, it))}
                counts[2] += 1
                continue
            found = ran(command, folder, environment)
            counts[found != wanted] += 1
            if found != wanted:
                print("\n".join([f"{path}: $ {command}", "  prints:", *(f"    {it}" for it in found[:20]),
                                 "  and not:", *(f"    {it}" for it in wanted[:20])]))
    return counts


def main(words):
    if len(words) > 1 or words[:1] and words[0].startswith("-"):
        print(__doc__, end="")
        return 0 if words in (["-h"], ["--help"]) else 2
    program = os.path.realpath(words[0]) if words else os.path.join(TOP, "warnc")
    counts = [sum(it) for it in zip(*(check(path, program) for path in TEXTS))]
    print(f"examples: {counts[0]} commands write what is printed, {counts[1]} don't, {counts[2]} skipped")
    return 1 if counts[1] or not counts[0] else 0


if __name__ == "__main__":
    sys.exit(main(sys.argv[1:]))
