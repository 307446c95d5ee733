#!/usr/bin/env python3
"""Tries the edits in crates/NAME/more-edits: wrong bodies that the prover has to refuse, in the form of those in
must-fail.

Edits of different functions are tried together: they are put into one copy of the crate, and one check of it says which
functions have an open goal. An edit counts as refused there only if a goal of its own function is open, and not if that
function calls another that isn't proved. All others, and those that change more than one function, or a constant or a
macro, are tried alone: each is refused if the crate isn't proved with it.

Usage: more_edits.py [--batch N] [--lanes N] [--rooms N] [--since COMMIT] [--anew] [CRATE..]

With names of crates, those alone are tried; with --since, those that changed since that commit. With --batch 1 each
edit is tried alone, which is quicker where most functions of a crate call one another. tools/edits_tried says of each
crate when all of its edits were last refused, and on which commit (with a `+` if the crate had changes of its own). The
last line is 'N refused, M not refused', and the run fails if M is not 0.

out/edits has for each crate which edits were refused, so a run that was broken off goes on where it was: as long as the
edit, the crate and those below it are the same to the octet. With --anew all are tried.
"""
import argparse
import hashlib
import os
import queue
import re
import shutil
import subprocess
import sys
import tempfile
import threading
import time
from concurrent.futures import ThreadPoolExecutor

from build import crates_below, lanes
from release import sum_of_sources

TOP = os.path.dirname(os.path.dirname(os.path.realpath(__file__)))
PARTS = ("src", "specs", "proofs")
# what a check is likely to hold at most, in bytes
MEMORY = 4 << 30
TRIED = os.path.join(TOP, "tools", "edits_tried")
KEPT = os.path.join(TOP, "out", "edits")
# the first line of a function: what stands before it, and its name
FUNCTION = r"(?m)^( *)(?:pub(?:\([a-z]+\))? )?(?:final )?(?:const )?fn (\w+)"


def read_edit(path):
    """Returns the triples (file, old text, new text) of an edit.
    A text is one line, as it is for those in must-fail."""
    pairs, file, old = [], None, None
    with open(path, encoding="utf-8") as lines:
        for line in lines.read().split("\n"):
            if line.startswith("file: "):
                file = line[6:].strip()
            elif line.startswith("old: "):
                old = line[5:]
            elif line.startswith("new:"):
                pairs.append((file, old, line[4:].removeprefix(" ")))
            elif line.strip():
                raise SystemExit(f"{path}: a text of several lines")
    return pairs


def read(folder, file):
    with open(os.path.join(folder, file), encoding="utf-8") as it:
        return it.read()


def function_at(text, place):
    """Returns the name of the function around a place of a file, or None if the place is in none."""
    found = None
    for it in re.finditer(FUNCTION, text):
        if it.start() > place + len(it[0]):
            break
        end = re.compile(rf"(?m)^{it[1]}}}").search(text, it.end())
        if end is None or place < end.start():
            found = it[2]
    return found


class Edit:
    """A wrong body: where it stands, and in which functions of its crate."""

    def __init__(self, crate, name):
        self.name = name.removesuffix(".edit")
        self.pairs = read_edit(os.path.join(crate, "more-edits", name))
        self.functions = set()
        texts = {}
        for file, old, new in self.pairs:
            text = texts.setdefault(file, read(crate, file))
            if text.count(old) != 1:
                raise SystemExit(f"{crate}/more-edits/{name}: an 'old:' text stands {text.count(old)} times in {file}")
            self.functions.add((file, function_at(text, text.find(old))))
            texts[file] = text.replace(old, new)

    def is_of_one_function(self, crate):
        """Whether all of it is in one function, whose name is the only one of its kind in its file."""
        if len(self.functions) != 1:
            return False
        ((file, name),) = self.functions
        return name is not None and len(re.findall(rf"\bfn {name}\b", read(crate, file))) == 1

    def function_path(self, crate):
        """Returns its one function, as `rt check --only` takes it, or None if it is of none or of several."""
        if len(self.functions) != 1:
            return None
        ((file, name),) = self.functions
        return name and "::".join(it for it in (crate, module_of(file), name) if it)

    def put_into(self, texts, crate):
        """Puts the edit into the texts of a crate's files,
        or returns False where one of its own texts isn't there once."""
        changed = dict(texts)
        for file, old, new in self.pairs:
            text = changed.get(file) or read(crate, file)
            if text.count(old) != 1:
                return False
            changed[file] = text.replace(old, new)
        texts.update(changed)
        return True


class Room:
    """A copy of the repository's crates, as they stand in a folder, in which one crate may be changed."""

    def __init__(self, folder, name, top=TOP):
        self.folder = folder
        self.crate = os.path.join(folder, "crates", name)
        self.original = os.path.join(TOP, "crates", name)
        os.makedirs(os.path.join(folder, "crates"))
        for file in ("crates.txt", "HANDLES"):
            shutil.copy(os.path.join(top, file), folder)
        for other in os.listdir(os.path.join(top, "crates")):
            shutil.copytree(os.path.join(top, "crates", other), os.path.join(folder, "crates", other), symlinks=True,
                            ignore=None if other == name else shutil.ignore_patterns("incremental"))

    def check(self, texts, *flags):
        """Returns what the prover says of the crate with these texts of files in place of its own."""
        for part in PARTS:
            if os.path.isdir(os.path.join(self.original, part)):
                shutil.rmtree(os.path.join(self.crate, part))
                shutil.copytree(os.path.join(self.original, part), os.path.join(self.crate, part))
        for file, text in texts.items():
            with open(os.path.join(self.crate, file), "w", encoding="utf-8") as it:
                it.write(text)
        # crates are tried side by side, and a check by several jobs loads the libraries in each
        ran = subprocess.run(["rt", "check", "--jobs", "1", *flags], cwd=self.crate, stdin=subprocess.DEVNULL,
                             stdout=subprocess.PIPE, stderr=subprocess.STDOUT, errors="replace")
        return ran.stdout


def module_of(file):
    """Returns the module that a file is, as the prover names it; nothing for that of the crate."""
    module = file.removeprefix("src/").removesuffix(".rt").replace("/", "::")
    return "" if module in ("lib", "main") else module


def is_of_function(verdict, name):
    """Whether a verdict refuses a function for itself: for a goal of its own,
    or for a proof of its own that doesn't fit any more."""
    if not verdict.startswith(("no proof", "not proved")) or re.search(r"it calls|which (is|are) not proved", verdict):
        return False
    standing = re.search(r"stands on (.*)", verdict)
    return standing is None or name in re.split(r"\W+", standing[1])


def has_open_goal(said, edit):
    """Whether the prover says that the edit's own function has a goal that is open."""
    ((file, name),) = edit.functions
    module = module_of(file)
    for line in said.split("\n"):
        found = re.match(r"fn (\S+): (.*)", line)
        if found and found[1].endswith(f"::{name}") and module in found[1]:
            return is_of_function(found[2], name)
    return False


def bodies(crate):
    """Returns the bodies of a crate's functions by their names, of one name all together; comments are left out."""
    found = {}
    for folder, _, files in os.walk(os.path.join(crate, "src")):
        for file in files:
            text = re.sub(r"//.*", "", read(folder, file))
            for it in re.finditer(FUNCTION, text):
                end = re.compile(rf"(?m)^{it[1]}}}").search(text, it.end())
                found.setdefault(it[2], []).append(text[it.end() : end.start() if end else len(text)])
    return {name: "\n".join(texts) for name, texts in found.items()}


def reached(crate):
    """Returns which functions of a crate each of its functions calls, by their names, and those that these call. An
    edit that stands on another one for all that is tried alone."""
    texts = bodies(crate)
    calls = {name: set(re.findall(r"(\w+)(?:::<[^()]*>)?\(", text)) & texts.keys() for name, text in texts.items()}
    found = {}
    for name in calls:
        seen, left = set(), [name]
        while left:
            new = calls[left.pop()] - seen
            seen |= new
            left += new
        found[name] = seen
    return found


def stands_on(reached_by, edit, other):
    """Whether the function of one edit may call that of another, or the other way round. Then one check can't judge
    both: the prover names the callee, and not the caller's own goal."""
    ((_, one),), ((_, two),) = edit.functions, other.functions
    return one == two or two in reached_by[one] or one in reached_by[two]


def batches(crate, edits, size):
    """Puts edits of functions together that don't call one another, and returns these lists and the edits that can't
    share a check."""
    shared, alone, reached_by = [], [], reached(crate)
    for edit in edits:
        if not edit.is_of_one_function(crate):
            alone.append(edit)
            continue
        for batch, texts in shared:
            apart = not any(stands_on(reached_by, edit, other) for other in batch)
            if len(batch) < size and apart and edit.put_into(texts, crate):
                batch.append(edit)
                break
        else:
            texts = {}
            edit.put_into(texts, crate)
            shared.append(([edit], texts))
    return [it for it in shared if len(it[0]) > 1], alone + [it[0][0] for it in shared if len(it[0]) == 1]


def has_refusal(said):
    """Whether the prover says of a function that it isn't proved. A check that broke off, as of another checkout's
    changed library, says nothing."""
    return "holes=" in said and bool(re.search(r"^fn \S+: (no proof|not proved)", said, re.M))


def is_refused_alone(room, edit):
    """Whether an edit alone is refused: in its own function, whose check is quicker, or in any of the crate."""
    texts = {}
    edit.put_into(texts, room.original)
    path = edit.function_path(os.path.basename(room.crate))
    if path and has_refusal(room.check(texts, "--allow-holes", "--only", path)):
        return True
    said = room.check(texts, "--allow-holes")
    if "holes=" not in said:
        print(f"{edit.name}: the check broke off, and says nothing: {said[-400:]}")
    return has_refusal(said)


class Refused:
    """Which edits of a crate were refused, kept in a file from one run to the next: the sums of the edit with all that
    the crate is made of."""

    def __init__(self, name, anew):
        self.path = os.path.join(KEPT, name)
        self.sources = sum_of_sources(TOP, crates_below(name))
        self.lock = threading.Lock()
        self.sums = set()
        if not anew and os.path.exists(self.path):
            with open(self.path, encoding="ascii") as it:
                self.sums = set(it.read().split())

    def sum_of(self, edit):
        return hashlib.sha256(repr((self.sources, edit.pairs)).encode()).hexdigest()

    def __contains__(self, edit):
        return self.sum_of(edit) in self.sums

    def add(self, edits):
        os.makedirs(KEPT, exist_ok=True)
        with self.lock, open(self.path, "a", encoding="ascii") as it:
            it.writelines(f"{self.sum_of(edit)}\n" for edit in edits)
            self.sums.update(map(self.sum_of, edits))


class Rooms:
    """Some rooms for one crate, in which checks run side by side."""

    def __init__(self, folder, name, count):
        self.free = queue.Queue()
        first = Room(os.path.join(folder, "0"), name)
        said = first.check({})
        if not re.search(r"^logic=proved", said, re.M):
            print(said[-2000:])
            raise SystemExit(f"{name}: the crate isn't proved as it stands, so no edit says anything")
        self.free.put(first)
        for number in range(1, count):
            # what the first has kept of its check serves the others, too
            self.free.put(Room(os.path.join(folder, str(number)), name, first.folder))
        self.pool = ThreadPoolExecutor(count)

    def in_one(self, call, *given):
        room = self.free.get()
        try:
            return call(room, *given)
        finally:
            self.free.put(room)

    def each(self, call, items):
        """Returns what the call says of each item, in a room that is free then."""
        return list(self.pool.map(lambda it: self.in_one(call, it), items))


def try_together(room, shared, refused):
    """Keeps which edits of a batch are refused by its one check."""
    batch, texts = shared
    said = room.check(texts, "--allow-holes")
    refused.add([edit for edit in batch if has_open_goal(said, edit)])


def try_alone(room, edit, refused):
    """Keeps an edit if it is refused alone, and says so at once if it isn't."""
    if is_refused_alone(room, edit):
        refused.add([edit])
    else:
        print(f"{os.path.basename(room.crate)}/{edit.name}: NOT REFUSED", flush=True)


def try_edits(name, edits, refused, size, count):
    """Tries some edits of a crate; returns how many checks were of several edits, and how many of one."""
    together, alone = batches(os.path.join(TOP, "crates", name), edits, size)
    with tempfile.TemporaryDirectory(prefix="more-edits-") as folder:
        rooms = Rooms(folder, name, count)
        rooms.each(lambda room, it: try_together(room, it, refused), together)
        alone += [edit for batch, _ in together for edit in batch if edit not in refused]
        rooms.each(lambda room, it: try_alone(room, it, refused), alone)
    return len(together), len(alone)


def try_crate(name, size, count, anew):
    """Returns how many edits of a crate are refused, and how many are not."""
    crate = os.path.join(TOP, "crates", name)
    edits = [Edit(crate, it) for it in sorted(os.listdir(os.path.join(crate, "more-edits"))) if it.endswith(".edit")]
    began, refused = time.monotonic(), Refused(name, anew)
    left = [it for it in edits if it not in refused]
    together, alone = try_edits(name, left, refused, size, count) if left else (0, 0)
    lost = sum(it not in refused for it in edits)
    print(f"{name}: {len(edits) - lost} of {len(edits)} refused, {len(edits) - len(left)} of them before, "
          f"{together} batches and {alone} alone, {(time.monotonic() - began) / 60:.1f} min", flush=True)
    return len(edits) - lost, lost


def git(*words):
    return subprocess.run(["git", *words], cwd=TOP, stdout=subprocess.PIPE, text=True, check=True).stdout.strip()


def changed_since(commit):
    """Returns the crates of which a source, a definition, a proof or an edit has changed since a commit."""
    changed = git("diff", "--name-only", commit, "--", "crates").split("\n")
    added = git("ls-files", "--others", "--exclude-standard", "crates").split("\n")
    paths = [it.split("/") for it in changed + added]
    return {it[1] for it in paths if len(it) > 3 and it[2] in (*PARTS, "more-edits")}


def keep_record(crates):
    """Writes into tools/edits_tried that all edits of these crates were refused:
    a line has a crate, a day, a commit and a number."""
    lines = {}
    if os.path.exists(TRIED):
        with open(TRIED, encoding="utf-8") as it:
            lines = {line.split()[0]: line for line in it.read().splitlines()}
    commit = git("rev-parse", "--short", "HEAD")
    for crate, count in crates.items():
        mark = "+" if git("status", "--porcelain", "--", f"crates/{crate}") else ""
        lines[crate] = f"{crate} {time.strftime('%Y-%m-%d')} {commit}{mark} {count}"
    with open(TRIED, "w", encoding="utf-8") as it:
        it.write("".join(f"{lines[it]}\n" for it in sorted(lines)))


def main():
    parser = argparse.ArgumentParser(description=__doc__, formatter_class=argparse.RawDescriptionHelpFormatter)
    parser.add_argument("--batch", type=int, default=12, help="how many edits share a check at most")
    parser.add_argument("--lanes", type=int, default=lanes(MEMORY), help="how many crates are tried at a time")
    parser.add_argument("--rooms", type=int, help="how many checks of a crate run at a time; if no number is given, so "
                        "many that all crates together have as many as there are lanes")
    parser.add_argument("--since", metavar="COMMIT", help="tries the crates that changed since this commit")
    parser.add_argument("--anew", action="store_true", help="tries those too that were refused before")
    parser.add_argument("crates", metavar="CRATE", nargs="*")
    words = parser.parse_args()
    folder = os.path.join(TOP, "crates")
    every = sorted(it for it in os.listdir(folder) if os.path.isdir(os.path.join(folder, it, "more-edits")))
    lacking = [it for it in words.crates if it not in every]
    if lacking:
        parser.error(f"no crate with more-edits is named {', '.join(lacking)}")
    names = words.crates or every
    if words.since is not None:
        changed = changed_since(words.since)
        names = [it for it in names if it in changed]
    rooms = words.rooms or max(1, words.lanes // max(1, len(names)))
    with ThreadPoolExecutor(words.lanes) as pool:
        counts = list(pool.map(lambda it: try_crate(it, words.batch, rooms, words.anew), names))
    refused, left = sum(it[0] for it in counts), sum(it[1] for it in counts)
    keep_record({name: count for name, (count, lost) in zip(names, counts) if not lost})
    print(f"{refused} refused, {left} not refused")
    return 1 if left else 0


if __name__ == "__main__":
    sys.exit(main())
