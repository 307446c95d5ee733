#!/bin/sh
# Runs `warnc report` or `warnc compile` on all groups of a network book, by GNU parallel, and joins their outputs.
#
# Usage: parallel.sh report|compile SLOTS NETWORK OUTPUT [OPTION OF PARALLEL ..]
#
# Each group is a task, as many at a time as there are processors. With --sshlogin other machines work too, which have
# to see the same files under the same names. The job log is OUTPUT.parts/log; WARNC names the program, if it isn't this
# one.

needed=parallel
. "$(dirname "$(readlink -f "$0")")/start.sh"
seq 0 $((groups - 1)) | parallel --quote --keep-order --joblog "$folder/log" --resume-failed --env WARNC "$@" \
    "$here/group.sh" "$command" "$slots" "$network" "$folder" {} {} || true
join
