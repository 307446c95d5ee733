#!/bin/sh
# A task of the array job of slurm.sh: the run of groups that has its number.
#
# Usage: task.sh report|compile SLOTS NETWORK FOLDER GROUPS EACH HERE
set -eu
if [ $# -ne 7 ]; then
    sed -n '2,/^set/{/^#/s/^# \{0,1\}//p}' "$0"
    [ "${1:-}" = -h ] || [ "${1:-}" = --help ] || exit 2
    exit 0
fi
first=$((SLURM_ARRAY_TASK_ID * $6))
last=$((first + $6 - 1))
[ "$last" -lt "$5" ] || last=$(($5 - 1))
exec "$7/group.sh" "$1" "$2" "$3" "$4" "$first" "$last"
