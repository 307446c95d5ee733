#!/usr/bin/env python3
"""Writes dist/: the program for x86-64 Linux, and the manifest that says of what it was made.

Usage: release.py            proves and builds the program, and writes both
       release.py --stale    says in a line why dist/ isn't of this tree, and nothing if it is
       release.py --check    proves and builds the program once more, from nothing and in a folder of its own, by
                             `rt ci`, and says whether it is the one of dist/, octet for octet

It fails if dist/ isn't of this tree, or if the two programs differ.

A line of the manifest is a key and a value. `sources` is the sum of crates.txt, HANDLES, and all files of src/, specs/
and proofs/ of the crates that `crates` names: that of the lines that sha256sum prints of them, sorted. `program` is the
sum of the program, and `manifest` that of the lines above it; tools/browser.py says what those of the page are, and
tools/library.py what those of the library. All sums are SHA-256.
"""
import hashlib
import os
import re
import shutil
import subprocess
import sys
import tempfile

from build import PROGRAM, TOP, build, copy_checkout, crates_below, gate_from_nothing

DIST = os.path.join(TOP, "dist")
RELEASED = os.path.join(DIST, "warnc-x86_64-linux")
# the same file: in its help the program names itself by the name that it was run by
NAMED = os.path.join(DIST, "warnc")
MANIFEST = os.path.join(DIST, "MANIFEST")
PARTS = ("src", "specs", "proofs")
# the crate of what programs in C call
LIBRARY = "warnc_c"
COMMAND_LINE = os.path.join("crates", "warnc_cli", "src", "options.rt")


def read(path):
    with open(path, "rb") as it:
        return it.read()


def sum_of(octets):
    return hashlib.sha256(octets).hexdigest()


def sources(top, crates):
    """Returns the paths of all that the program is made of."""
    found = ["crates.txt", "HANDLES"]
    for crate in crates:
        for part in PARTS:
            for place, folders, files in os.walk(os.path.join(top, "crates", crate, part)):
                folders[:] = [it for it in folders if it[0] != "."]
                written = [os.path.join(place, it) for it in files if it.endswith((".rt", ".antt")) and it[0] != "."]
                found += [os.path.relpath(it, top) for it in written]
    return found


def sum_of_sources(top, crates):
    """Returns the sum of the sources: that of the lines `SUM  PATH`, sorted, as sha256sum and sort print them."""
    lines = sorted(f"{sum_of(read(os.path.join(top, it)))}  {it}\n" for it in sources(top, crates))
    return sum_of("".join(lines).encode())


def version_of(top):
    """Returns the version of the program, and the toolchain that proved it, by its source."""
    with open(os.path.join(top, COMMAND_LINE), encoding="utf-8") as it:
        return re.search(r'VERSION: &str = "([^"\\]+)\\n([^"]+)"', it.read()).groups()


def manifest_of(top, program):
    """Returns what the manifest says of a program that was built of a tree."""
    version, toolchain = version_of(top)
    crates = sorted(crates_below(PROGRAM))
    return {"version": version, "toolchain": toolchain, "crates": " ".join(crates),
            "sources": sum_of_sources(top, crates), "program": sum_of(program)}


def write_manifest(said):
    """Writes the manifest: these keys and values, and its own sum."""
    text = "".join(f"{key} {value}\n" for key, value in said.items())
    with open(MANIFEST, "w", encoding="utf-8") as it:
        it.write(f"{text}manifest {sum_of(text.encode())}\n")


def written_manifest():
    """Returns the keys and values of dist/MANIFEST; none if its own sum isn't that of its lines."""
    try:
        text = read(MANIFEST).decode()
    except (OSError, ValueError):
        return {}
    head, mark, own = text.rpartition("manifest ")
    if not mark or own != f"{sum_of(head.encode())}\n":
        return {}
    return dict(it.split(" ", 1) for it in head.splitlines())


def faults():
    """Returns why dist/ is no release of any tree: a program that isn't the manifest's,
    or a manifest that was changed."""
    said = written_manifest()
    if not said:
        return ["dist/MANIFEST isn't there, or was changed: its last line isn't the sum of those above it"]
    for path in (RELEASED, NAMED):
        if not os.path.isfile(path) or sum_of(read(path)) != said["program"]:
            return [f"{os.path.relpath(path, TOP)} isn't the program of dist/MANIFEST"]
        if not os.access(path, os.X_OK):
            return [f"{os.path.relpath(path, TOP)} isn't executable"]
    shown = subprocess.run([RELEASED, "--version"], stdout=subprocess.PIPE, text=True, check=False).stdout
    if shown != f"warnc {said['version']}\n{said['toolchain']}\n":
        return [f"{os.path.relpath(RELEASED, TOP)} says that it is another version than dist/MANIFEST does"]
    return []


def stale():
    """Returns in a line why dist/ isn't of this tree, or None if it is."""
    found = faults()
    if found:
        return found[0]
    said, crates = written_manifest(), sorted(crates_below(PROGRAM))
    if said["crates"].split() != crates:
        return "dist/ is of an older tree: the program stands on other crates now"
    if said["sources"] != sum_of_sources(TOP, crates):
        return "dist/ is of an older tree: a source of the program has changed since"
    return None


def is_built():
    """Proves and builds the program here; returns whether that could be done."""
    return build() == 0


def write():
    if not is_built():
        return 1
    program = read(os.path.join(TOP, "crates", PROGRAM, "out", PROGRAM))
    os.makedirs(DIST, exist_ok=True)
    for path in (RELEASED, NAMED):
        with open(path, "wb") as it:
            it.write(program)
        os.chmod(path, 0o755)
    # what is said of the page and of the library stays: it names what they are of
    others = {key: it for key, it in written_manifest().items() if key.startswith(("wasm", "page", "library"))}
    write_manifest({**manifest_of(TOP, program), **others})
    print(f"{os.path.relpath(RELEASED)}: {len(program)} octets, {sum_of(program)}")
    if others.get("wasm_program") != sum_of(program):
        print("release: dist/warnc.html is of another program: run tools/browser.py")
    return 0


def compare(folder):
    """Compares the program that was built in a checkout with that of dist/; returns whether they are equal."""
    made, released = (read(it) for it in (os.path.join(folder, "crates", PROGRAM, "out", PROGRAM), RELEASED))
    verdict = "equal" if made == released else "NOT EQUAL"
    print(f"release: the program that was built anew and that of dist/ are {verdict}: {sum_of(made)}")
    return made == released


def check():
    """Proves and builds the program from nothing in a folder of its own, and compares it with that of dist/."""
    with tempfile.TemporaryDirectory(prefix="warnc-release-") as folder:
        crates = sorted({*crates_below(PROGRAM), *crates_below(LIBRARY)})
        copy = copy_checkout(os.path.join(folder, "checkout"), crates)
        for crate in crates:
            shutil.rmtree(os.path.join(copy, "crates", crate, "must-fail"), ignore_errors=True)
        done = subprocess.run(gate_from_nothing(), cwd=copy, stdin=subprocess.DEVNULL, check=False)
        return 0 if done.returncode == 0 and compare(copy) and compare_others(copy) else 1


def compare_others(folder):
    """Makes the program for a browser and the library of what was proved in a checkout, and compares them, and the
    page, with dist/."""
    import browser  # pylint: disable=import-outside-toplevel,cyclic-import
    import library  # pylint: disable=import-outside-toplevel,cyclic-import
    return browser.check(folder) and library.check(folder)


def main(words):
    if words == ["--stale"]:
        why = stale()
        print(why or "", end="\n" if why else "")
        return 1 if why else 0
    if words in ([], ["--check"]):
        if shutil.which("rt") is None:
            print("release: 'rt', the command of the Rattle toolchain, isn't there: README.md says what is needed",
                  file=sys.stderr)
            return 70
        return check() if words else write()
    print(__doc__, end="")
    return 0 if words in (["-h"], ["--help"]) else 2


if __name__ == "__main__":
    sys.exit(main(sys.argv[1:]))
