# Read by parallel.sh and slurm.sh: what they are given, the folder of the groups' parts, and how these are joined.
#
# OUTPUT.parts keeps the part of each group, written whole or not at all. After a failure the same line goes on where it
# stopped; if it asks for something else, it is refused until the folder is removed. `needed` names the program that
# shares the groups out.
set -eu
here=$(dirname "$(readlink -f "$0")")
document() {
    sed -n '2,/^$/s/^# \{0,1\}//p' "$0"
}
usage() {
    document >&2
    exit 2
}
case ${1:-} in
-h | --help)
    document
    exit 0 ;;
esac
[ $# -ge 4 ] || usage
command -v "$needed" > /dev/null || {
    echo "$(basename "$0"): $needed isn't installed" >&2
    exit 2
}
command=$1 slots=$2 network=$(readlink -f "$3") output=$4
shift 4
case $command in report | compile) ;; *) usage ;; esac
case $slots in '' | *[!0-9]* | ??????*) usage ;; esac
[ "$slots" -ge 1 ] && [ "$slots" -le 65535 ] || usage
[ -n "${WARNC:-}" ] || WARNC=$(WARNC_WHICH=1 "$here/../warnc")
WARNC=$(readlink -f "$WARNC")
export WARNC

# A network book that is refused leaves no folder behind.
groups=$("$WARNC" groups < "$network")
mkdir -p "$output.parts"
folder=$(readlink -f "$output.parts")
asked="$command $slots $(sha256sum < "$network") $("$WARNC" --version | head -n 1)"
[ -f "$folder/asked" ] || echo "$asked" > "$folder/asked"
if [ "$asked" != "$(cat "$folder/asked")" ]; then
    echo "$folder is of another run: remove it, or name another output" >&2
    exit 2
fi

# Joins the parts in the order of the groups, if all are there.
join() {
    group=0
    : > "$folder/joined"
    while [ "$group" -lt "$groups" ]; do
        if [ ! -f "$folder/$group" ]; then
            echo "group $group is missing; run the same line again" >&2
            exit 1
        fi
        cat "$folder/$group" >> "$folder/joined"
        group=$((group + 1))
    done
    mv "$folder/joined" "$output"
}
