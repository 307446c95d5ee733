#!/bin/sh
# Writes the parts of a run of groups, each whole or not at all, and leaves those that are there. WARNC is the program.
#
# Usage: group.sh report|compile SLOTS NETWORK FOLDER FIRST LAST
set -eu
if [ $# -ne 6 ]; then
    sed -n '2,/^set/{/^#/s/^# \{0,1\}//p}' "$0"
    [ "${1:-}" = -h ] || [ "${1:-}" = --help ] || exit 2
    exit 0
fi
command=$1 slots=$2 network=$3 folder=$4 group=$5 last=$6
while [ "$group" -le "$last" ]; do
    if [ ! -f "$folder/$group" ]; then
        "$WARNC" "$command" --slots "$slots" --group "$group" < "$network" > "$folder/$group.$$"
        mv "$folder/$group.$$" "$folder/$group"
    fi
    group=$((group + 1))
done
