#!/usr/bin/env python3
"""Tries what is released: that changes of dist/ are seen, that ./warnc runs with nothing but coreutils, that it
installs, and that the packages are the same each time and hold a program that runs.

Usage: try_release.py      dist/ has to be of this tree; what needs a tool that isn't installed is skipped, aloud
"""
import os
import re
import shutil
import subprocess
import sys
import tempfile
import time

import package
import release

TOP = release.TOP
# the tools of coreutils that ./warnc runs, and those that README's example and the tests run beside it
COREUTILS = "cat cut dirname env head ls readlink sha256sum sort touch".split()
BOOK = "cell,1,1\ncell,1,2\nwrite,0,a,4370,0,1,en,2,2,0,1-1,@\n"
PAGE = ["page", "--lang", "en", "--id", "4370", "--scope", "0", "--code", "1", "--update", "0"]
FIRST_BLOCK = "200010111201118046a3d168341a8d46a3d168341a8d46"
SHOWN = "4370 0010 @"
# A sentence of the build, and what a copy of the checkout says in place of building
BUILDS = "the program of dist/ isn't there, or isn't made of these sources"


def copy_of(folder):
    """Copies what is released and its sources to a checkout without git, and returns it."""
    crates = sorted(release.crates_below(release.PROGRAM))
    released = ("warnc", "dist/MANIFEST", "dist/warnc-x86_64-linux", "dist/warnc", "dist/warnc.html",
                "dist/warnc.wasm", "dist/libwarnc.a", "dist/libwarnc.so", "examples/book.csv")
    for path in (*release.sources(TOP, crates), *released):
        os.makedirs(os.path.join(folder, os.path.dirname(path)), exist_ok=True)
        shutil.copy2(os.path.join(TOP, path), os.path.join(folder, path))
    shutil.copytree(os.path.join(TOP, "tools"), os.path.join(folder, "tools"),
                    ignore=shutil.ignore_patterns("__pycache__"))
    return folder


def only_coreutils(folder):
    """Makes a folder with links to the shell and to coreutils alone, and returns it."""
    os.makedirs(folder)
    for tool in (*COREUTILS, "sh"):
        os.symlink(os.path.realpath(shutil.which(tool)), os.path.join(folder, tool))
    return folder


def change(path):
    """Changes the octet in the middle of a file."""
    octets = bytearray(release.read(path))
    octets[len(octets) // 2] ^= 1
    with open(path, "r+b") as it:
        it.write(octets)


def ran(words, given="", environment=None, folder=None):
    return subprocess.run(words, input=given, capture_output=True, text=True, env=environment, cwd=folder, check=False)


def says_faults(copy, script="release"):
    """What tools/release.py, or another script, of a copy says of its dist/."""
    code = f"import sys; sys.dont_write_bytecode = True; import {script}; print({script}.faults())"
    return ran([sys.executable, "-c", code], folder=os.path.join(copy, "tools")).stdout.strip()


def sees_a_changed_program(folder):
    copy = copy_of(folder)
    change(os.path.join(copy, "dist", "warnc-x86_64-linux"))
    environment = {"PATH": only_coreutils(os.path.join(copy, ".bin"))}
    said = ran([os.path.join(copy, "warnc"), "--version"], environment=environment)
    return "isn't the program of dist/MANIFEST" in says_faults(copy) and BUILDS in said.stderr and said.returncode == 70


def sees_a_changed_page(folder):
    copy = copy_of(folder)
    before = says_faults(copy, "browser")
    change(os.path.join(copy, "dist", "warnc.html"))
    return before == "[]" and "dist/warnc.html isn't that of dist/MANIFEST" in says_faults(copy, "browser")


def sees_a_changed_library(folder):
    copy = copy_of(folder)
    before = says_faults(copy, "library")
    change(os.path.join(copy, "dist", "libwarnc.a"))
    return before == "[]" and "dist/libwarnc.a isn't that of dist/MANIFEST" in says_faults(copy, "library")


def sees_a_changed_manifest(folder):
    copy = copy_of(folder)
    change(os.path.join(copy, "dist", "MANIFEST"))
    return "dist/MANIFEST isn't there, or was changed" in says_faults(copy)


def builds_where_a_source_was_changed(folder):
    """With a source that was changed ./warnc proves and builds; the build is told apart by a word in its place."""
    copy = copy_of(folder)
    built = os.path.join(copy, "crates", "warnc", "out", "warnc")
    os.makedirs(os.path.dirname(built))
    with open(os.path.join(copy, "tools", "build.py"), "w", encoding="utf-8") as it:
        it.write(f"import os\nopen({built!r}, 'w').write('#!/bin/sh\\necho built\\n')\nos.chmod({built!r}, 0o755)\n")
    path = os.path.join(copy, ".bin")
    for tool in ("rt", "python3"):
        os.makedirs(path, exist_ok=True)
        os.symlink(sys.executable, os.path.join(path, tool))
    environment = {"PATH": f"{path}:/usr/bin:/bin"}
    before = ran([os.path.join(copy, "warnc"), "--version"], environment=environment).stdout
    with open(os.path.join(copy, "crates", "septets", "src", "lib.rt"), "a", encoding="utf-8") as it:
        it.write("\n")
    after = ran([os.path.join(copy, "warnc"), "--version"], environment=environment)
    return before.startswith("warnc ") and BUILDS in after.stderr and after.stdout == "built\n"


def runs_with_coreutils_alone(folder):
    """README's example runs from ./warnc without rt and without Python, in under a second."""
    copy = copy_of(folder)
    environment = {"PATH": only_coreutils(os.path.join(copy, ".bin"))}
    began = time.monotonic()
    said = ran(["/bin/sh", "-c", "./warnc compile --slots 8 < examples/book.csv | ./warnc read"],
               environment=environment, folder=copy)
    seconds = time.monotonic() - began
    print(f"try_release: README's example took {seconds:.2f} s in a new checkout")
    is_shown = said.stdout.startswith("lac,ci,id,serial,text\n1,1,4370,0010,Stay in!\n")
    return is_shown and said.stderr == "" and seconds < 1


def row(program):
    """Whether a program, with an empty environment, pages a text as it should."""
    said = ran([program, *PAGE], "@", {})
    lines = said.stdout.split("\n")
    return said.returncode == 0 and lines[0] == FIRST_BLOCK and lines[-2] == SHOWN


def installs(folder):
    """install.sh puts all in place, the program there runs, and nothing is left once it is removed."""
    words = [os.path.join(TOP, "install.sh"), "--prefix", os.path.join(folder, "prefix")]
    put = ran(words)
    there = {os.path.relpath(os.path.join(place, it), folder) for place, _, files in os.walk(folder) for it in files}
    wanted = {"bin/warnc", "bin/warnc-cap", "share/warnc/warnc.html", "share/warnc/warnc_cap/command.py",
              "share/man/man1/warnc.1", "share/man/man1/warnc-cap.1", "share/man/man5/warnc-book.5",
              "share/bash-completion/completions/warnc",
              "share/zsh/site-functions/_warnc", "share/fish/vendor_completions.d/warnc.fish", "include/warnc.h",
              "lib/libwarnc.a", "lib/libwarnc.so.1", "lib/libwarnc.so", "lib/pkgconfig/warnc.pc",
              "share/warnc/python/warnc.py"}
    good = put.returncode == 0 and {f"prefix/{it}" for it in wanted} <= there
    good = good and row(os.path.join(folder, "prefix", "bin", "warnc")) and compiles(os.path.join(folder, "prefix"))
    removed = ran([*words, "--uninstall"])
    return good and removed.returncode == 0 and not any(files for _, _, files in os.walk(folder))


def compiles(prefix):
    """What docs/library.md prints is compiled with the library that was installed there, as pkg-config says."""
    compiler = shutil.which("gcc") or shutil.which("cc")
    if compiler is None:
        print("try_release: there is no compiler of C: SKIPPED the library that is installed")
        return True
    text = release.read(os.path.join(TOP, "docs", "library.md")).decode()
    source, made = (os.path.join(prefix, it) for it in ("page.c", "page"))
    with open(source, "w", encoding="utf-8") as it:
        it.write(re.search(r"```c\n(.*?)```", text, re.S)[1])
    with open(os.path.join(prefix, "lib", "pkgconfig", "warnc.pc"), encoding="utf-8") as it:
        said = it.read().replace("${prefix}", prefix)
    words = re.search("Cflags: (.*)", said)[1].split() + [source] + re.search("Libs: (.*)", said)[1].split()
    built = ran([compiler, *words, "-o", made])
    places = {"LD_LIBRARY_PATH": os.path.join(prefix, "lib")}
    shown = ran([made], environment=places) if built.returncode == 0 else built
    wanted = re.search(r"It prints\n\n((?:    .*\n)+)", text)[1].replace("    ", "")
    for path in (source, made):
        if os.path.exists(path):
            os.remove(path)
    return shown.returncode == 0 and shown.stdout == wanted


def packages_are_the_same(folder):
    """The packages are made twice, and are the same octet for octet."""
    made = [package.make(os.path.join(folder, it)) for it in ("one", "two")]
    def octets(where, name):
        return release.read(os.path.join(folder, where, name))

    return made[0] == made[1] and all(octets("one", it) == octets("two", it) for it in (*made[0], "SHA256SUMS"))


def package_runs(folder):
    """The Debian package is unpacked and installed into a folder of its own,
    and its program runs with an empty environment."""
    if not shutil.which("dpkg-deb") or not shutil.which("dpkg"):
        print("try_release: dpkg isn't there: SKIPPED the Debian package")
        return True
    name = next(it for it in package.make(folder) if it.endswith(".deb"))
    unpacked, root = os.path.join(folder, "unpacked"), os.path.join(folder, "root")
    done = ran(["dpkg-deb", "-x", os.path.join(folder, name), unpacked])
    good = done.returncode == 0 and row(os.path.join(unpacked, "usr", "bin", "warnc"))
    os.makedirs(os.path.join(root, "var", "lib", "dpkg"))
    with open(os.path.join(root, "var", "lib", "dpkg", "status"), "w", encoding="ascii"):
        pass
    words = ["dpkg", f"--root={root}", "--force-depends", "--force-not-root", "--force-script-chrootless",
             "--install", os.path.join(folder, name)]
    done = ran(words)
    return good and done.returncode == 0 and row(os.path.join(root, "usr", "bin", "warnc"))


def tar_installs(folder):
    """The tar file is unpacked, and its install.sh installs a program that runs."""
    name = next(it for it in package.make(folder) if it.endswith(".tar.gz"))
    done = ran(["tar", "-xzf", os.path.join(folder, name), "-C", folder])
    inside = os.path.join(folder, re.sub(r"-x86_64-linux\.tar\.gz$", "", name))
    put = ran([os.path.join(inside, "install.sh"), "--prefix", os.path.join(folder, "prefix")])
    return done.returncode == 0 and put.returncode == 0 and row(os.path.join(folder, "prefix", "bin", "warnc"))


TRIES = (sees_a_changed_program, sees_a_changed_page, sees_a_changed_library,
         sees_a_changed_manifest, builds_where_a_source_was_changed,
         runs_with_coreutils_alone, installs, packages_are_the_same, package_runs, tar_installs)


def main(words):
    if words:
        print(__doc__, end="")
        return 0 if words in (["-h"], ["--help"]) else 2
    failed = 0
    for one in TRIES:
        with tempfile.TemporaryDirectory(prefix="warnc-try-") as folder:
            good = one(folder)
        failed += not good
        if not good:
            print(f"try_release: {one.__name__} FAILED")
    print(f"try_release: {len(TRIES) - failed} tries passed, {failed} failed")
    return 1 if failed else 0


if __name__ == "__main__":
    sys.exit(main(sys.argv[1:]))
