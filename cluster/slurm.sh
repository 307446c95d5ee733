#!/bin/sh
# Runs `warnc report` or `warnc compile` on all groups of a network book, by Slurm, and joins their outputs.
#
# Usage: slurm.sh report|compile SLOTS NETWORK OUTPUT [OPTION OF SBATCH ..]
#
# An array job has a task for each GROUPS_A_TASK groups, 8 if that isn't set. Tasks that failed are run again, three
# times at most. All nodes have to see the same files under the same names. WARNC names the program, if it isn't this
# one.

needed=sbatch
. "$(dirname "$(readlink -f "$0")")/start.sh"
each=${GROUPS_A_TASK:-8}

# The tasks of which a part is missing, as sbatch takes them.
missing() {
    group=0
    while [ "$group" -lt "$groups" ]; do
        [ -f "$folder/$group" ] || echo $((group / each))
        group=$((group + 1))
    done | uniq | paste -s -d , -
}

tries=0
while tasks=$(missing) && [ -n "$tasks" ] && [ "$tries" -lt 3 ]; do
    sbatch --wait --requeue --array="$tasks" --output="$folder/task.%a" --export=ALL "$@" \
        "$here/task.sh" "$command" "$slots" "$network" "$folder" "$groups" "$each" "$here" || true
    tries=$((tries + 1))
done
join
