#!/usr/bin/env python3
"""Makes packages of the program of dist/: a Debian package and a tar file, with their sums.

Usage: package.py [FOLDER]      writes warnc_VERSION_amd64.deb, warnc-VERSION-x86_64-linux.tar.gz and SHA256SUMS into
                                the folder, which is packages/ if it isn't given

The packages of one tree are the same octet for octet, by the same zlib and dpkg-deb: all times in them are
SOURCE_DATE_EPOCH, if that is set, and else the time of the last commit, or that of dist/ outside of git. The Debian
package needs dpkg-deb, and is left out where that isn't there. The tar file has install.sh.
"""
import gzip
import hashlib
import io
import os
import shutil
import subprocess
import sys
import tarfile
import tempfile

import release

TOP = release.TOP
# What the packages have beside the program: files of the repository, and where a Debian package has them.
DOCUMENTS = ("README.md", "CHANGELOG.md", "LICENSE", "SECURITY.md", "THIRD-PARTY.md")
COMPLETIONS = {"tools/completions/warnc.bash": "usr/share/bash-completion/completions/warnc",
               "tools/completions/_warnc": "usr/share/zsh/vendor-completions/_warnc",
               "tools/completions/warnc.fish": "usr/share/fish/vendor_completions.d/warnc.fish"}
# What programs in C need: files, and where a Debian package has them.
LIBRARIES = "usr/lib/x86_64-linux-gnu"
LIBRARY = {"dist/libwarnc.a": f"{LIBRARIES}/libwarnc.a", "dist/libwarnc.so": f"{LIBRARIES}/libwarnc.so.1",
           "include/warnc.h": "usr/include/warnc.h",
           "bindings/python/warnc.py": "usr/lib/python3/dist-packages/warnc.py"}
PKG_CONFIG = """\
prefix=/usr
Name: warnc
Description: pages of GSM cell broadcast messages
Version: {version}
Cflags: -I${{prefix}}/include
Libs: -lwarnc
"""
CONTROL = """\
Package: warnc
Version: {version}
Section: utils
Priority: optional
Architecture: amd64
Depends: libc6 (>= 2.34)
Recommends: python3
Installed-Size: {size}
Maintainer: Silltangelo maintainers <maintainers@users.noreply.silltangelo.example>
Description: compiler of GSM cell broadcast warnings
 From a book of alerts warnc computes what the broadcast channel of every cell
 sends, and it reads such recordings back as a phone does.
"""


def time_of_packages():
    """Returns the time that all files of a package have, in seconds since 1970."""
    said = os.environ.get("SOURCE_DATE_EPOCH")
    if not said and os.path.exists(os.path.join(TOP, ".git")):
        asked = ["git", "log", "-1", "--format=%ct"]
        said = subprocess.run(asked, cwd=TOP, stdout=subprocess.PIPE, text=True, check=True).stdout
    return int(said or os.path.getmtime(release.MANIFEST))


def listed(folder):
    """Returns the files of a folder of the repository that are under version control, if that can be asked,
    and else all."""
    asked = subprocess.run(["git", "ls-files", folder], cwd=TOP, stdout=subprocess.PIPE, stderr=subprocess.DEVNULL,
                           text=True, check=False)
    if asked.returncode == 0 and asked.stdout:
        return asked.stdout.split("\n")[:-1]
    walked = os.walk(os.path.join(TOP, folder))
    return [os.path.relpath(os.path.join(place, it), TOP) for place, _, files in walked for it in files]


def read(path):
    return release.read(os.path.join(TOP, path))


def debian_files():
    """Returns what the Debian package has: path to mode and octets."""
    docs = "usr/share/doc/warnc"
    files = {"usr/bin/warnc": (0o755, release.read(release.RELEASED))}
    files["usr/share/warnc/warnc.html"] = (0o644, read("dist/warnc.html"))
    files["usr/bin/warnc-cap"] = (0o755, read("cap/warnc-cap"))
    files.update({f"usr/share/warnc/{it.removeprefix('cap/')}": (0o644, read(it)) for it in listed("cap/warnc_cap")})
    for name in ("warnc.1", "warnc-cap.1", "warnc-book.5"):
        pressed = gzip.compress(read(f"docs/{name}"), 9, mtime=0)
        files[f"usr/share/man/man{name[-1]}/{name}.gz"] = (0o644, pressed)
    files.update({place: (0o644, read(it)) for it, place in {**COMPLETIONS, **LIBRARY}.items()})
    said = PKG_CONFIG.format(version=release.written_manifest()["version"])
    files[f"{LIBRARIES}/pkgconfig/warnc.pc"] = (0o644, said.encode())
    files.update({f"{docs}/{it}": (0o644, read(it)) for it in DOCUMENTS if it != "LICENSE"})
    pages = [it for it in listed("docs") if not it.endswith((".1", ".5"))]
    files.update({f"{docs}/{it}": (0o644, read(it)) for it in pages})
    files.update({f"{docs}/{it}": (0o644, read(it)) for it in listed("examples")})
    files[f"{docs}/copyright"] = (0o644, read("LICENSE") + b"\n" + read("THIRD-PARTY.md"))
    return files


def put(root, path, mode, octets, time):
    """Writes a file of a package, and gives it and its folders the mode and the time that they have in each package."""
    file = os.path.join(root, path)
    os.makedirs(os.path.dirname(file), exist_ok=True)
    with open(file, "wb") as it:
        it.write(octets)
    os.chmod(file, mode)
    os.utime(file, (time, time))


def make_debian(folder, version, time):
    """Makes the Debian package, and returns its name."""
    name, files = f"warnc_{version}_amd64.deb", debian_files()
    size = sum(len(octets) for _, octets in files.values()) // 1024 + 1
    files["DEBIAN/control"] = (0o644, CONTROL.format(version=version, size=size).encode())
    with tempfile.TemporaryDirectory(prefix="warnc-package-") as room:
        os.chmod(room, 0o755)
        for path, (mode, octets) in files.items():
            put(room, path, mode, octets, time)
        # the name by which a compiler finds the shared library
        link = os.path.join(room, LIBRARIES, "libwarnc.so")
        os.symlink("libwarnc.so.1", link)
        os.utime(link, (time, time), follow_symlinks=False)
        for place, folders, _ in os.walk(room, topdown=False):
            for it in (*(os.path.join(place, one) for one in folders), place):
                os.chmod(it, 0o755)
                os.utime(it, (time, time))
        subprocess.run(["dpkg-deb", "--root-owner-group", "-Zgzip", "--build", room, os.path.join(folder, name)],
                       check=True, stdout=subprocess.DEVNULL, env={**os.environ, "SOURCE_DATE_EPOCH": str(time)})
    return name


def make_tar(folder, version, time):
    """Makes the tar file, and returns its name."""
    name = f"warnc-{version}-x86_64-linux.tar.gz"
    paths = [*DOCUMENTS, "install.sh", "dist/MANIFEST", "dist/warnc-x86_64-linux", "dist/warnc.html", *COMPLETIONS,
             *LIBRARY]
    paths += [*listed("docs"), *listed("examples"), *listed("cap")]
    octets = io.BytesIO()
    with tarfile.open(fileobj=octets, mode="w", format=tarfile.PAX_FORMAT) as tar:
        for path in sorted(paths):
            info = tarfile.TarInfo(f"warnc-{version}/{path}")
            held = read(path)
            info.size, info.mtime = len(held), time
            info.mode = 0o755 if path in ("install.sh", "dist/warnc-x86_64-linux", "cap/warnc-cap") else 0o644
            tar.addfile(info, io.BytesIO(held))
    with open(os.path.join(folder, name), "wb") as it:
        it.write(gzip.compress(octets.getvalue(), 9, mtime=0))
    return name


def make(folder):
    """Makes the packages in a folder, and returns their names."""
    version, time = release.written_manifest()["version"], time_of_packages()
    os.makedirs(folder, exist_ok=True)
    names = [make_tar(folder, version, time)]
    if shutil.which("dpkg-deb"):
        names.append(make_debian(folder, version, time))
    else:
        print("package: dpkg-deb isn't there, so there is no Debian package: SKIPPED")
    with open(os.path.join(folder, "SHA256SUMS"), "w", encoding="ascii") as it:
        for name in sorted(names):
            it.write(f"{hashlib.sha256(release.read(os.path.join(folder, name))).hexdigest()}  {name}\n")
    return names


def main(words):
    if len(words) > 1 or words[:1] and words[0].startswith("-"):
        print(__doc__, end="")
        return 0 if words in (["-h"], ["--help"]) else 2
    wrong = release.faults()
    if wrong:
        print(f"package: {wrong[0]}", file=sys.stderr)
        return 1
    folder = words[0] if words else os.path.join(TOP, "packages")
    print("\n".join(os.path.join(folder, it) for it in make(folder)))
    return 0


if __name__ == "__main__":
    sys.exit(main(sys.argv[1:]))
