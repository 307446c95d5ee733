#!/bin/sh
# Installs the program of dist/, its man pages and completions for bash, zsh and fish, its page for a browser,
# warnc-cap, which needs python3, and the library for programs in C; or removes them again.
#
# Usage: ./install.sh [--prefix DIR] [--uninstall]
#
# DIR is /usr/local, if it isn't given. A packager's DESTDIR goes before it. Nothing is built: the program is that of
# dist/, also if a source was changed since. It is for x86-64 Linux with glibc 2.34 or later.
set -eu
here=$(dirname "$(readlink -f "$0")")
prefix=/usr/local uninstall=
usage() {
    sed -n '2,/^set/s/^# \{0,1\}//p' "$0" | sed '/^set/d'
}
while [ $# -gt 0 ]; do
    case $1 in
    --prefix=*) prefix=${1#--prefix=} ;;
    --prefix)
        [ $# -gt 1 ] || { usage >&2; exit 2; }
        shift
        prefix=$1 ;;
    --uninstall) uninstall=yes ;;
    -h | --help) usage; exit 0 ;;
    *) usage >&2; exit 2 ;;
    esac
    shift
done
case $prefix in
/*) ;;
?*) prefix=$PWD/$prefix ;;
*) usage >&2; exit 2 ;;
esac
to=${DESTDIR:-}$prefix

# What goes where: mode, file, place.
list() {
    cat << 'END'
755 dist/warnc-x86_64-linux bin/warnc
755 cap/warnc-cap bin/warnc-cap
644 dist/warnc.html share/warnc/warnc.html
644 cap/warnc_cap/__init__.py share/warnc/warnc_cap/__init__.py
644 cap/warnc_cap/command.py share/warnc/warnc_cap/command.py
644 cap/warnc_cap/message.py share/warnc/warnc_cap/message.py
644 cap/warnc_cap/place.py share/warnc/warnc_cap/place.py
644 cap/warnc_cap/plan.py share/warnc/warnc_cap/plan.py
644 cap/warnc_cap/policy.py share/warnc/warnc_cap/policy.py
644 cap/warnc_cap/receipt.py share/warnc/warnc_cap/receipt.py
644 cap/warnc_cap/rounds.py share/warnc/warnc_cap/rounds.py
644 cap/warnc_cap/run.py share/warnc/warnc_cap/run.py
644 cap/warnc_cap/state.py share/warnc/warnc_cap/state.py
644 cap/warnc_cap/text.py share/warnc/warnc_cap/text.py
644 cap/warnc_cap/whole.py share/warnc/warnc_cap/whole.py
644 docs/warnc.1 share/man/man1/warnc.1
644 docs/warnc-cap.1 share/man/man1/warnc-cap.1
644 docs/warnc-book.5 share/man/man5/warnc-book.5
644 tools/completions/warnc.bash share/bash-completion/completions/warnc
644 tools/completions/_warnc share/zsh/site-functions/_warnc
644 tools/completions/warnc.fish share/fish/vendor_completions.d/warnc.fish
644 dist/libwarnc.a lib/libwarnc.a
755 dist/libwarnc.so lib/libwarnc.so.1
644 include/warnc.h include/warnc.h
644 bindings/python/warnc.py share/warnc/python/warnc.py
644 LICENSE share/doc/warnc/LICENSE
644 THIRD-PARTY.md share/doc/warnc/THIRD-PARTY.md
END
}

if [ -n "$uninstall" ]; then
    list | while read -r mode file place; do rm -f "$to/$place"; done
    rm -f "$to/lib/libwarnc.so" "$to/lib/pkgconfig/warnc.pc"
    rmdir "$to/share/doc/warnc" "$to/share/warnc/warnc_cap" "$to/share/warnc/python" "$to/share/warnc" 2> /dev/null ||
        true
    echo "warnc is removed from $to"
    exit 0
fi
# Whether a file is the one that the manifest has a sum of.
is_listed() {
    [ "$(sed -n "s/^$1 //p" "$here/dist/MANIFEST")" = "$(sha256sum < "$here/dist/$2" | cut -d ' ' -f 1)" ] || {
        echo "install.sh: the $1 of dist/ isn't that of dist/MANIFEST" >&2
        exit 1
    }
}
is_listed program warnc-x86_64-linux
is_listed page warnc.html
is_listed library libwarnc.a
is_listed library_shared libwarnc.so
said=$("$here/dist/warnc-x86_64-linux" --version) || {
    echo "install.sh: the program doesn't run here: it needs x86-64 Linux with glibc 2.34 or later" >&2
    exit 1
}
list | while read -r mode file place; do
    mkdir -p "$to/$(dirname "$place")"
    rm -f "$to/$place"
    cp "$here/$file" "$to/$place"
    chmod "$mode" "$to/$place"
done
# the name by which a compiler finds the shared library, and what pkg-config says of it
ln -sf libwarnc.so.1 "$to/lib/libwarnc.so"
mkdir -p "$to/lib/pkgconfig"
cat > "$to/lib/pkgconfig/warnc.pc" << END
prefix=$prefix
Name: warnc
Description: pages of GSM cell broadcast messages
Version: $(sed -n 's/^version //p' "$here/dist/MANIFEST")
Cflags: -I\${prefix}/include
Libs: -L\${prefix}/lib -lwarnc
END
echo "$(printf '%s\n' "$said" | head -n 1) is installed in $to/bin"
