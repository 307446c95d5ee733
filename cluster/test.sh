#!/bin/sh
# Tries parallel.sh and slurm.sh on this machine: of the tasks of a network one is killed in the middle and run again,
# and what is joined has to be the groups' outputs, one after the other. What isn't installed is skipped, aloud. The
# last line is 'N passed, M failed, K skipped'.
#
# Usage: test.sh [PROGRAM]        PROGRAM is a built warnc, if it isn't this one
set -eu
here=$(dirname "$(readlink -f "$0")")
case ${1:-} in
-*)
    sed -n '2,/^set/{/^#/s/^# \{0,1\}//p}' "$0"
    [ "$1" = -h ] || [ "$1" = --help ] || exit 2
    exit 0 ;;
esac
program=$(readlink -f "${1:-$(WARNC_WHICH=1 "$here/../warnc")}")
folder=$(mktemp -d)
passed=0 failed=0 skipped=0
end() {
    for file in "$folder"/slurm/*.pid; do
        [ ! -f "$file" ] || kill "$(cat "$file")" 2> /dev/null || true
    done
    sleep 1
    rm -rf "$folder"
}
trap end EXIT
tell() {
    echo "cluster/test.sh: $1"
}

# A network of 300 cells, which are five groups.
i=0
while [ "$i" -lt 300 ]; do
    echo "cell,1,$i"
    i=$((i + 1))
done > "$folder/network.csv"
echo 'write,0,a,4370,0,1,en,2,4,0,*,Stay in!' >> "$folder/network.csv"
echo 'update,4,a,en,2,2,0,1-0 1-200,All safe' >> "$folder/network.csv"
for group in 0 1 2 3 4; do
    "$program" report --slots 64 --group "$group" < "$folder/network.csv"
done > "$folder/wanted"

# The program, which kills the task that runs it, once, when half of group 3 is written.
cat > "$folder/warnc" << END
#!/bin/sh
case "\$*" in
*"--group 3"*)
    if mkdir "$folder/killed" 2> /dev/null; then
        "$program" "\$@" | head -c 500
        kill -KILL \$PPID
        exit 1
    fi ;;
esac
exec "$program" "\$@"
END
chmod +x "$folder/warnc"
export WARNC="$folder/warnc"

# Compares what was joined, and says how a way to run the tasks fared.
judge() {
    if [ -d "$folder/killed" ] && cmp -s "$folder/wanted" "$folder/$1.csv"; then
        passed=$((passed + 1))
        tell "$1: a task was killed, and the joined report is the same"
    else
        failed=$((failed + 1))
        tell "$1: the joined report differs"
    fi
    rm -rf "$folder/killed"
}

if command -v parallel > /dev/null; then
    if "$here/parallel.sh" report 64 "$folder/network.csv" "$folder/parallel.csv" 2> /dev/null; then
        tell "parallel: the killed task was not missed"
    fi
    "$here/parallel.sh" report 64 "$folder/network.csv" "$folder/parallel.csv" || true
    judge parallel
else
    skipped=$((skipped + 1))
    tell "GNU parallel isn't installed: skipped"
fi

# A controller and two node daemons on this machine alone.
serve() {
    name=$(hostname -s) base=$folder/slurm
    mkdir -p "$base/state" "$base/spool0" "$base/spool1"
    cat > "$base/slurm.conf" << END
ClusterName=warnc
SlurmctldHost=$name(127.0.0.1)
AuthType=auth/munge
AuthInfo=socket=$base/munge.sock
ProctrackType=proctrack/linuxproc
TaskPlugin=task/none
SwitchType=switch/none
SlurmUser=root
StateSaveLocation=$base/state
SlurmdSpoolDir=$base/spool%n
SlurmctldPidFile=$base/controller.pid
SlurmdPidFile=$base/%n.pid
SlurmctldLogFile=$base/controller.log
SlurmdLogFile=$base/%n.log
SlurmctldPort=16817
SelectType=select/cons_tres
SelectTypeParameters=CR_Core
ReturnToService=2
MpiDefault=none
NodeName=n[0-1] NodeHostname=$name NodeAddr=127.0.0.1 Port=[16818-16819] CPUs=1 RealMemory=500 State=UNKNOWN
PartitionName=p Nodes=n[0-1] Default=YES MaxTime=10 State=UP
END
    head -c 1024 /dev/urandom > "$base/munge.key"
    chmod 400 "$base/munge.key"
    munged --force --key-file="$base/munge.key" --socket="$base/munge.sock" --log-file="$base/munged.log" \
        --pid-file="$base/munged.pid" --seed-file="$base/seed" 2> /dev/null
    export SLURM_CONF="$base/slurm.conf"
    slurmctld
    sleep 2
    slurmd -N n0
    slurmd -N n1
    sleep 3
}

if command -v slurmctld > /dev/null && command -v slurmd > /dev/null && command -v munged > /dev/null &&
    [ "$(id -u)" = 0 ]; then
    if serve; then
        GROUPS_A_TASK=1 "$here/slurm.sh" report 64 "$folder/network.csv" "$folder/slurm.csv" > /dev/null 2>&1 || true
    fi
    judge slurm
else
    skipped=$((skipped + 1))
    tell "Slurm isn't installed, or this isn't root: skipped"
fi
echo "$passed passed, $failed failed, $skipped skipped"
[ "$failed" = 0 ]
