#!/usr/bin/env python3
"""Makes the program for a browser, dist/warnc.wasm, and the page that runs it, dist/warnc.html.

Usage: browser.py            makes both of the program that was built here, and writes their sums into dist/MANIFEST
       browser.py --page     makes the page alone, of dist/warnc.wasm
       browser.py --stale    says in a line why the two aren't of this tree, and nothing if they are
       browser.py --check    makes both once more, and says whether they are those of dist/, octet for octet; where `rt`
                             or what it proved isn't there, the page alone

The crates have to be proved here (by `rt ci`, tools/build.py or tools/release.py), and dist/ has to have their program.

The toolchain checks crates/warnc, lowers the whole program to one module of LLVM, and has clang compile it. A clang
that keeps the module stands here in between. The program that comes of it has to be that of dist/, octet for octet: so
the module is the one that the proved program was made of. It is written for x86-64. Its head is changed to that of
WebAssembly with 64-bit memory, which has the same sizes and the same order of octets, and an instruction with which a
thread waits is left out. The toolchain's clang compiles it for that, and links it with browser/host.c and
browser/heap.c. No proof covers this: browser/test.py compares the page's outputs with the program's.

What the manifest says of them: `wasm` and `page` are their sums, and `wasm_program` is that of the program of whose
module they were made. `wasm_sources` and `page_sources` are the sums of the lines that sha256sum prints of what else
each was made of, sorted.
"""
import base64
import gzip
import hashlib
import os
import re
import shutil
import subprocess
import sys
import tempfile
import time
from concurrent.futures import ThreadPoolExecutor

import release
from build import lanes

TOP = release.TOP
SOURCES = os.path.join(TOP, "browser")
WASM = os.path.join(release.DIST, "warnc.wasm")
PAGE = os.path.join(release.DIST, "warnc.html")
EXAMPLE = os.path.join("examples", "flood.csv")
# the parts of the page, in the order in which they stand in its two scripts and in its workers
SCRIPT = ("csv.js", "words.js", "page.js", "text.js", "book.js", "air.js")
WORKER = ("csv.js", "unpack.js", "host.js", "unsaid.js", "work.js")
START = ("unpack.js", "start.js")
SOURCES_OF = {
    "wasm": [os.path.join("browser", it) for it in ("host.c", "heap.c")] + [os.path.join("tools", "browser.py")],
    "page": [os.path.join("browser", it) for it in ("page.html", "style.css", *sorted({*START, *SCRIPT, *WORKER}))]
    + [EXAMPLE],
}
TARGET = "wasm64-unknown-unknown"
# the WebAssembly that the toolchain writes for this target
PROCESSOR = "lime1"
STACK = 1 << 20
# -O3 makes the program a quarter larger, which a browser takes longer to compile, and runs are no faster
LEVEL = "-O2"
# the signs of seven bits that a text in a page can't have, or that could end it, and those that stand for them
INSTEAD = {"\0": "\u0100", "\r": "\u010d", "<": "\u013c"}
# What is changed in the module: a pattern, what stands there then, and whether it has to be there.
RETARGETED = (
    (r'^target datalayout = .*$',
     'target datalayout = "e-m:e-p:64:64-p10:8:8-p20:8:8-i64:64-i128:128-n32:64-S128-ni:1:10:20"', True),
    (r'^target triple = .*$', f'target triple = "{TARGET}"', True),
    (r'"target-cpu"="[^"]*"',
     f'"no-builtin-bcmp" "no-builtin-memcmp" "no-builtin-strlen" "target-cpu"="{PROCESSOR}"', True),
    # the instruction with which a thread waits for another, where there is none
    (r'^ *(call|declare) void @llvm\.x86\.sse2\.pause\(\).*$', "", False),
    (r'"target-features"="[^"]*" ?', "", False),
    (r'"probe-stack"="[^"]*" ?', "", False),
    (r'"stack-probe-size"="[^"]*" ?', "", False),
)
# what the toolchain gives its clang for a module of this target, and for any
LOWERED = ("-mllvm", "-expand-div-rem-bits=64", "-mllvm", "-expand-fp-convert-bits=64", "-ffunction-sections",
           "-fdata-sections", "-mllvm", "-trap-unreachable", "-mllvm", "-disable-machine-licm", "-mllvm",
           "-disable-postra-machine-licm", "-mllvm", "-sink-common-insts=false")
PLAIN = ("--no-default-config", "-no-canonical-prefixes", "-fno-crash-diagnostics")
KEEPER = """\
#!/bin/sh
# keeps the module that is to be compiled, and hands it on
for word in "$@"; do
    case $word in *.bc) cp "$word" '{kept}.part' && mv '{kept}.part' '{kept}' ;; esac
done
exec '{clang}' "$@"
"""


class Unmade(Exception):
    """Why something can't be made."""


def read(path):
    return release.read(os.path.join(TOP, path))


def part(name):
    return read(os.path.join("browser", name)).decode()


def sum_of_sources(kind):
    """Returns the sum of what a file is made of beside the program."""
    lines = sorted(f"{release.sum_of(read(it))}  {it}\n" for it in SOURCES_OF[kind])
    return release.sum_of("".join(lines).encode())


def ran(words, folder=None):
    """Runs a command; what it says is for the case that it fails."""
    done = subprocess.run(words, cwd=folder, stdin=subprocess.DEVNULL, stdout=subprocess.PIPE,
                          stderr=subprocess.STDOUT, check=False)
    if done.returncode != 0:
        raise Unmade(f"{os.path.basename(words[0])} failed:\n{done.stdout.decode(errors='replace')[-2000:]}")


def kit():
    """Returns the folder of the toolchain."""
    if shutil.which("rt") is None:
        raise Unmade("'rt', the command of the Rattle toolchain, isn't there: README.md says what is needed")
    said = subprocess.run(["rt", "doc"], stdout=subprocess.PIPE, text=True, check=True).stdout
    return os.path.dirname(said.split()[0])


def words_for(folder, top):
    """Returns the words by which `rt` has the program built, and the crate's folder."""
    sys.path.insert(0, os.path.join(folder, "bin"))
    import rtlib  # pylint: disable=import-outside-toplevel,import-error
    crate = next(it for it in rtlib.crates_below(top) if it.name == release.PROGRAM)
    lacking = [it.name for it in crate.below() if not os.path.isdir(it.rlib)]
    if lacking:
        raise Unmade(f"crates aren't proved here ({', '.join(lacking[:3])}): run tools/release.py first")
    return crate.words(["--jobs", str(lanes())]) + rtlib.KEPT, crate.folder


def keeper_of(room, folder):
    """Makes a toolchain whose clang keeps the module that it is to compile; returns its place, and the module's."""
    kept, made = os.path.join(room, "module.bc"), os.path.join(room, "toolchain")
    os.makedirs(os.path.join(made, "bin"))
    os.symlink(os.path.join(folder, "toolchain", "lib"), os.path.join(made, "lib"))
    for name in os.listdir(os.path.join(folder, "toolchain", "bin")):
        if name != "clang":
            os.symlink(os.path.join(folder, "toolchain", "bin", name), os.path.join(made, "bin", name))
    clang = os.path.join(made, "bin", "clang")
    with open(clang, "w", encoding="utf-8") as it:
        it.write(KEEPER.format(kept=kept, clang=os.path.join(folder, "toolchain", "bin", "clang")))
    os.chmod(clang, 0o755)
    return made, kept


def build(room, folder, top, toolchain):
    """Proves and builds the program by a toolchain; it has to be that of dist/."""
    words, place = words_for(folder, top)
    made, program = os.path.join(room, "warnc.o"), os.path.join(room, "warnc")
    ran([os.path.join(folder, "bin", "rattle"), "build", *words, "--toolchain", toolchain, "--backend", "llvm", "-o",
         made], place)
    ran([os.path.join(folder, "bin", "rattle-link"), "--target", "x86_64-unknown-linux-gnu", "--toolchain",
         os.path.join(folder, "toolchain"), "-o", program, made, os.path.join(folder, "c", "libos_c.a"),
         os.path.join(folder, "c", "liblibc_c.a")])
    if release.sum_of(release.read(program)) != release.written_manifest().get("program"):
        raise Unmade("the program that was built here isn't that of dist/: run tools/release.py first")


def wasm_of(module, room, folder):
    """Compiles a module of LLVM for WebAssembly, and returns the octets of the program."""
    clang, text, object_file = os.path.join(folder, "toolchain", "bin", "clang"), f"{module}.ll", f"{module}.o"
    ran([clang, "-x", "ir", module, "-S", "-emit-llvm", "-Xclang", "-disable-llvm-passes",
         "--target=x86_64-unknown-linux-gnu", "-o", text])
    with open(text, encoding="utf-8") as it:
        lines = it.read()
    for pattern, new, is_needed in RETARGETED:
        lines, count = re.subn(pattern, new, lines, flags=re.M)
        if is_needed and not count:
            raise Unmade(f"the module has no {pattern}: tools/browser.py is for another toolchain")
    with open(text, "w", encoding="utf-8") as it:
        it.write(lines)
    here = [clang, f"--target={TARGET}", f"-mcpu={PROCESSOR}"]
    ran([*here, *LOWERED, *PLAIN, LEVEL, "-c", "-x", "ir", text, "-o", object_file])
    files = [object_file]
    for name in ("host", "heap"):
        files.append(os.path.join(room, f"{name}.o"))
        ran([*here, *PLAIN, LEVEL, "-ffreestanding", "-fno-builtin", "-nostdinc", "-c",
             os.path.join(SOURCES, f"{name}.c"), "-o", files[-1]])
    linked = os.path.join(room, "warnc.wasm")
    ran([os.path.join(folder, "toolchain", "bin", "ld.lld"), "-flavor", "wasm", "-mwasm64", "--no-entry",
         "--stack-first", "-z", f"stack-size={STACK}", "--export=main", "--gc-sections", "--strip-all", "-o", linked,
         *files])
    return release.read(linked)


def made_wasm(top=TOP):
    """Makes the program for a browser of the crates that were proved in a checkout."""
    folder = kit()
    with tempfile.TemporaryDirectory(prefix="warnc-browser-") as room, ThreadPoolExecutor(1) as pool:
        toolchain, module = keeper_of(room, folder)
        building = pool.submit(build, room, folder, top, toolchain)
        while not os.path.isfile(module) and not building.done():
            time.sleep(0.1)
        # the module is compiled for both at once
        wasm = wasm_of(module, room, folder) if os.path.isfile(module) else None
        building.result()
        if wasm is None:
            raise Unmade("the toolchain gave clang no module of LLVM: tools/browser.py is for another toolchain")
        return wasm


def hash_of(text):
    """Returns what the page's policy names a script or a style by."""
    return f"'sha256-{base64.b64encode(hashlib.sha256(text.encode()).digest()).decode()}'"


def signs_of(octets):
    """Returns octets as signs of seven bits each, in the order of their bits. For one that a script in a page can't
    have, or that could end it, stands a sign that is higher by a multiple of 128.
    """
    bits, held, signs = 0, 0, bytearray()
    for octet in octets + b"\0":
        held, bits = (held << 8 | octet) & 0x7fff, bits + 8
        while bits >= 7:
            bits -= 7
            signs.append(held >> bits & 0x7f)
    text = signs[:-(-len(octets) * 8 // 7)].decode("ascii")
    return re.sub(r"[\0\r]|<(?=[/!]|$)", lambda it: INSTEAD[it[0]], text)


def octets_of(signs):
    """Returns the octets of such signs."""
    bits, held, octets = 0, 0, bytearray()
    for sign in signs:
        held, bits = (held << 7 | ord(sign) & 0x7f) & 0x7fff, bits + 7
        if bits >= 8:
            bits -= 8
            octets.append(held >> bits & 0xff)
    return bytes(octets)


def packed(octets):
    """Returns octets as they stand in a page: packed, by zopfli if it is here, and in signs that end no script."""
    if shutil.which("zopfli") is None:
        print("browser: zopfli isn't here: the page is larger by a twentieth", file=sys.stderr)
        return signs_of(gzip.compress(octets, 9, mtime=0))
    with tempfile.NamedTemporaryFile() as file:
        file.write(octets)
        file.flush()
        return signs_of(subprocess.run(["zopfli", "-c", file.name], stdout=subprocess.PIPE, check=True).stdout)


def shortened(text):
    """Returns scripts or a style without comments and indentation. No text in them has more than a line."""
    lines = (line.strip() for line in re.sub(r"^ */\*.*?\*/$", "", text, flags=re.M | re.S).split("\n"))
    return "".join(f"{it}\n" for it in lines if it and not it.startswith("//"))


def joined(names):
    return shortened("".join(map(part, names)))


def made_page(texts):
    """Makes the page of what is packed in it: `packed`, the program, and `page`, the page's own script."""
    parts = {**texts, "start": joined(START), "worker": joined(WORKER), "style": joined(["style.css"]),
             "flood": read(EXAMPLE).decode()}
    for name, text in {"start": parts["start"], "style": parts["style"], "script": joined(SCRIPT)}.items():
        parts[f"{name}_hash"] = hash_of(text)
    ending = [name for name, it in parts.items() if re.search(r"</(script|style)|<!--", it, re.I)]
    if ending:
        raise Unmade(f"{ending[0]} would end the script that it stands in")
    return re.sub(r"\{\{(\w+)\}\}", lambda it: parts[it[1]], part("page.html")).encode()


def packed_in(page, name):
    """Returns what is packed in a page under this name."""
    found = re.search(rf'<script type="text/plain" id="{name}">(.*?)</script>', page.decode(), re.S)
    return found[1] if found else ""


def put(path, octets):
    with open(path, "wb") as it:
        it.write(octets)
    print(f"{os.path.relpath(path)}: {len(octets)} octets, {release.sum_of(octets)}")


def write(has_wasm):
    """Makes and writes the page, and the program in it if it isn't there, and what the manifest says of them."""
    said = release.written_manifest()
    if not said:
        raise Unmade(release.faults()[0])
    if has_wasm and faults("wasm"):
        raise Unmade(faults("wasm")[0])
    wasm = release.read(WASM) if has_wasm else made_wasm()
    page = made_page({"packed": packed(wasm), "page": packed(joined(SCRIPT).encode())})
    if not has_wasm:
        put(WASM, wasm)
        said.update(wasm=release.sum_of(wasm), wasm_program=said["program"], wasm_sources=sum_of_sources("wasm"))
    put(PAGE, page)
    said.update(page=release.sum_of(page), page_sources=sum_of_sources("page"))
    release.write_manifest(said)


def faults(*kinds):
    """Returns why the two files, or that of a kind, aren't those of the manifest."""
    said, files = release.written_manifest(), {"wasm": WASM, "page": PAGE}
    wrong = [it for it in kinds or files
             if not os.path.isfile(files[it]) or release.sum_of(release.read(files[it])) != said.get(it)]
    return [f"{os.path.relpath(files[it], TOP)} isn't that of dist/MANIFEST: run tools/browser.py" for it in wrong]


def stale():
    """Returns in a line why the two files aren't of this tree, or None if they are."""
    found, said = faults(), release.written_manifest()
    if found:
        return found[0]
    if said["wasm_program"] != said["program"]:
        return "dist/warnc.wasm is of another program than that of dist/: run tools/browser.py"
    changed = [it for it in SOURCES_OF if said[f"{it}_sources"] != sum_of_sources(it)]
    if changed:
        name = os.path.relpath({"wasm": WASM, "page": PAGE}[changed[0]], TOP)
        return f"{name} is of an older tree: one of its sources has changed since"
    return None


def check(top=TOP):
    """Makes both once more, and says whether they are those of dist/; returns whether they are.

    The page is made with what is packed as the page of dist/ has it, since two versions of zlib pack otherwise.
    """
    found = faults()
    if found:
        print(f"browser: {found[0]}")
        return False
    wasm, page = release.read(WASM), release.read(PAGE)
    texts = {name: packed_in(page, name) for name in ("packed", "page")}
    held = {name: gzip.decompress(octets_of(it)) for name, it in texts.items()}
    are_equal = {"page": held == {"packed": wasm, "page": joined(SCRIPT).encode()} and made_page(texts) == page}
    try:
        are_equal["program"] = made_wasm(top) == wasm
    except Unmade as why:
        print(f"browser: {why}: SKIPPED the program")
    for name, is_equal in are_equal.items():
        print(f"browser: the {name} that was made anew and that of dist/ are {'equal' if is_equal else 'NOT EQUAL'}")
    return all(are_equal.values())


def main(words):
    if words == ["--stale"]:
        why = stale()
        print(why or "", end="\n" if why else "")
        return 1 if why else 0
    try:
        if words == ["--check"]:
            return 0 if check() else 1
        if words in ([], ["--page"]):
            write(has_wasm=bool(words))
            return 0
    except Unmade as why:
        print(f"browser: {why}", file=sys.stderr)
        return 1
    print(__doc__, end="")
    return 0 if words in (["-h"], ["--help"]) else 2


if __name__ == "__main__":
    sys.exit(main(sys.argv[1:]))
