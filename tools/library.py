#!/usr/bin/env python3
"""Makes the library that programs in C call: dist/libwarnc.a and dist/libwarnc.so.

Usage: library.py            makes both of the crates that were proved here, and writes their sums into dist/MANIFEST
       library.py --stale    says in a line why the two aren't of this tree, and nothing if they are
       library.py --check    makes both once more, and says whether they are those of dist/, octet for octet

The crates have to be proved here (by `rt ci`, tools/build.py or tools/release.py). The toolchain checks crates/warnc_c
once more, and compiles it with all that it calls; library/heap.c, which no proof covers, goes beside it.

What the manifest says of them: `library` and `library_shared` are their sums, and `library_sources` is the sum of what
they are made of: that of the lines that sha256sum prints of crates.txt, HANDLES, all files of src/, specs/ and proofs/
of the crates below, library/heap.c and tools/library.py, sorted.
"""
import os
import sys
import tempfile

import release
from browser import PLAIN, Unmade, kit, put, ran
from build import crates_below, lanes

TOP = release.TOP
CRATE = release.LIBRARY
HEAP = os.path.join("library", "heap.c")
PLACES = {"library": os.path.join(release.DIST, "libwarnc.a"),
          "library_shared": os.path.join(release.DIST, "libwarnc.so")}
# what the shared one is called by programs that were linked with it: the number changes with what calls promise
NAME = "libwarnc.so.1"
EXPORTS = "{ global: warnc_*; local: *; };\n"
TARGET = "x86_64-unknown-linux-gnu"


def sum_of_sources():
    """Returns the sum of what the library is made of."""
    paths = [*release.sources(TOP, sorted(crates_below(CRATE))), HEAP, os.path.join("tools", "library.py")]
    lines = sorted(f"{release.sum_of(release.read(os.path.join(TOP, it)))}  {it}\n" for it in paths)
    return release.sum_of("".join(lines).encode())


def archive_of(room, folder, top):
    """Has the toolchain check and compile the crate; returns the place of the archive."""
    sys.path.insert(0, os.path.join(folder, "bin"))
    import rtlib  # pylint: disable=import-outside-toplevel,import-error
    crate = next(it for it in rtlib.crates_below(top) if it.name == CRATE)
    lacking = [it.name for it in crate.below() if not os.path.isdir(it.rlib)]
    if lacking:
        raise Unmade(f"crates aren't proved here ({', '.join(lacking[:3])}): run tools/build.py first")
    made = os.path.join(room, f"lib{CRATE}.a")
    ran([os.path.join(folder, "bin", "rattle"), "build", *crate.words(["--jobs", str(lanes())]), *rtlib.KEPT,
         "--toolchain", os.path.join(folder, "toolchain"), "--backend", "llvm", "-o", made], crate.folder)
    return made


def made_library(top=TOP):
    """Makes the library of the crates that were proved in a checkout; returns the octets of both files."""
    folder = kit()
    tools = os.path.join(folder, "toolchain", "bin")
    with tempfile.TemporaryDirectory(prefix="warnc-library-") as room:
        heap, shared = os.path.join(room, "heap.o"), os.path.join(room, NAME)
        ran([os.path.join(tools, "clang"), f"--target={TARGET}", *PLAIN, "-O2", "-fPIC", "-nostdinc", "-c",
             os.path.join(TOP, HEAP), "-o", heap])
        archive, exports = archive_of(room, folder, top), os.path.join(room, "exports")
        with open(exports, "w", encoding="utf-8") as it:
            it.write(EXPORTS)
        # with no time and no owner of files in it
        ran([os.path.join(tools, "llvm-ar"), "rcsD", archive, heap])
        ran([os.path.join(tools, "ld.lld"), "-shared", "--gc-sections", "--strip-all", "-z", "now", "-z", "relro",
             "-soname", NAME, "--version-script", exports, "-o", shared, "--whole-archive", archive,
             "--no-whole-archive", os.path.join(folder, "toolchain", "lib", "libc.so.6")])
        return {"library": release.read(archive), "library_shared": release.read(shared)}


def write():
    said = release.written_manifest()
    if not said:
        raise Unmade(release.faults()[0])
    made = made_library()
    for key, octets in made.items():
        put(PLACES[key], octets)
        said[key] = release.sum_of(octets)
    release.write_manifest({**said, "library_sources": sum_of_sources()})


def faults():
    """Returns why the two files aren't those of the manifest."""
    said = release.written_manifest()
    wrong = [it for key, it in PLACES.items()
             if not os.path.isfile(it) or release.sum_of(release.read(it)) != said.get(key)]
    return [f"{os.path.relpath(it, TOP)} isn't that of dist/MANIFEST: run tools/library.py" for it in wrong]


def stale():
    """Returns in a line why the two files aren't of this tree, or None if they are."""
    found = faults()
    if found:
        return found[0]
    if release.written_manifest()["library_sources"] != sum_of_sources():
        return "dist/libwarnc.a is of an older tree: one of its sources has changed since"
    return None


def check(top=TOP):
    """Makes both once more, and says whether they are those of dist/; returns whether they are."""
    found = faults()
    if found:
        print(f"library: {found[0]}")
        return False
    made = made_library(top)
    are_equal = {it: made[key] == release.read(it) for key, it in PLACES.items()}
    for path, is_equal in are_equal.items():
        name = os.path.basename(path)
        print(f"library: the {name} that was made anew and that of dist/ are {'equal' if is_equal else 'NOT EQUAL'}")
    return all(are_equal.values())


def main(words):
    if words == ["--stale"]:
        why = stale()
        print(why or "", end="\n" if why else "")
        return 1 if why else 0
    try:
        if words == ["--check"]:
            return 0 if check() else 1
        if not words:
            write()
            return 0
    except Unmade as why:
        print(f"library: {why}", file=sys.stderr)
        return 1
    print(__doc__, end="")
    return 0 if words in (["-h"], ["--help"]) else 2


if __name__ == "__main__":
    sys.exit(main(sys.argv[1:]))
