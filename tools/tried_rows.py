"""Has tables of random rows tried as tests of a crate, for tools that judge a crate beside a second program.

link_reference.py, streams_reference.py and orders_reference.py use it. The rows stand in a small crate of their own, in
a copy of the crates that it needs. They run unproved, and so take the libraries that `rt lib` built.
"""
import collections
import os
import re
import shutil
import subprocess
import tempfile

from build import TOP, crates_below

CRATE = "random_rows"
# How the rows of a crate are read: the crate of tests and its module that have the files, `reader`, whose `expect_rows`
# reads rows, and the files that it takes besides; and which crates these use.
Bench = collections.namedtuple("Bench", "tests module reader others needs")


def in_parts(items, size):
    """Returns the items in parts of this size, the last of which may be smaller."""
    return [items[at:at + size] for at in range(0, len(items), size)]


def test_of(bench, parts):
    """Returns the source of tests of rows: one test for each part."""
    source = [f"//! Random rows.\n\nuse crate::{bench.module}::{bench.reader}::expect_rows;\nuse std::test::Fail;\n"]
    for number, rows in enumerate(parts):
        text = "\n".join(rows)
        source.append(f'\nconst ROWS{number}: &str = "\n{text}\n";\n\n#[test]\n'
                      f"fn rows{number}(rt: HostRuntime) -> Result<(), Fail> {{\n"
                      f"    expect_rows(&rt, rt.alloc(), ROWS{number}, {len(rows)})\n}}\n")
    return "".join(source)


def sources_of(bench, parts):
    """Returns the sources of the crate, by their paths below src/."""
    files = sorted([bench.reader, *bench.others])
    lines = "".join(f"mod {it};\n" for it in sorted([*files, "rows"]))
    sources = {"lib.rt": f"//! Random rows.\n#![tactic(auto)]\n\n#[cfg(test)]\nmod {bench.module};\n",
               f"{bench.module}.rt": f"//! Random rows.\n\n{lines}",
               f"{bench.module}/rows.rt": test_of(bench, parts)}
    for name in files:
        path = f"{bench.module}/{name}.rt"
        with open(os.path.join(TOP, "crates", bench.tests, "src", path), encoding="utf-8") as it:
            sources[path] = it.read()
    return sources


def copy_needed(folder, bench):
    """Copies the crates that rows need to a checkout in a folder, which lists them and the crate of the rows."""
    below = {crate for name in bench.needs for crate in crates_below(name)}
    for crate in below:
        shutil.copytree(os.path.join(TOP, "crates", crate), os.path.join(folder, "crates", crate))
    shutil.copy(os.path.join(TOP, "HANDLES"), folder)
    with open(os.path.join(TOP, "crates.txt"), encoding="utf-8") as it:
        lines = [line for line in it if re.match(r"\w+", line) and line.split(":")[0].split()[0] in below]
    with open(os.path.join(folder, "crates.txt"), "w", encoding="utf-8") as it:
        it.writelines([*lines, f"{CRATE}: {' '.join(bench.needs)}\n"])


def all_hold(bench, parts):
    """Tries rows, each part of them as a test of its own, and returns whether all hold; else it prints what was said.

    A row is a line of a table as the files of the bench read it, `action -> wanted`.
    """
    with tempfile.TemporaryDirectory() as folder:
        copy_needed(folder, bench)
        crate = os.path.join(folder, "crates", CRATE)
        for name in ("proofs", "specs", os.path.join("src", bench.module)):
            os.makedirs(os.path.join(crate, name))
        for path, source in sources_of(bench, parts).items():
            with open(os.path.join(crate, "src", path), "w", encoding="utf-8") as it:
                it.write(source)
        done = subprocess.run(["rt", "try", "--test", "--seconds", "600"], cwd=crate, capture_output=True, check=False,
                              text=True)
    if done.returncode:
        print((done.stdout + done.stderr)[-3000:])
    return done.returncode == 0
