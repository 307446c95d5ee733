#!/bin/sh
# Has a real network, osmo-bsc with cells of osmo-bts-virtual, do what is ordered, and judges it by warnc: README's
# book, and orders that show faults of osmo-bsc (trials.py has them). It needs Debian's packages osmo-bsc, osmo-bts and
# tcpdump, and the rights of root, for a network of its own without devices; where these aren't there it is skipped,
# aloud. It takes a minute and a half, and leaves no process behind. The last line is 'N passed, M failed'.
#
# Usage: test.sh [PROGRAM [--keep FOLDER]]    PROGRAM is a built warnc, if it isn't this one; FOLDER gets the recordings
set -eu
here=$(dirname "$(readlink -f "$0")")
case ${1:-} in
-*)
    sed -n '2,/^set/{/^#/s/^# \{0,1\}//p}' "$0"
    [ "$1" = -h ] || [ "$1" = --help ] || exit 2
    exit 0 ;;
esac
skip() {
    echo "link/test.sh: $1: SKIPPED"
    echo '0 passed, 0 failed'
    exit 0
}

for name in osmo-bsc osmo-bts-virtual tcpdump ip unshare; do
    command -v "$name" > /dev/null || skip "$name isn't installed"
done
unshare --net --pid --fork --kill-child ip link set lo up 2> /dev/null || skip "no network of one's own is allowed"
[ $# -gt 0 ] || set -- "$(WARNC_WHICH=1 "$here/../warnc")"
exec python3 -B "$here/trials.py" "$@"
