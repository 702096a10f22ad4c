#!/usr/bin/env bash
# Runs a month of 16 parts under Slurm on this machine alone: munged, slurmctld and slurmd are
# started for it, on the loopback address and with configurations of their own in a temporary
# folder, and are ended again. The process of one part is killed while it runs: nothing may be
# merged then, and the part is run again alone. The merged text has to be that of the plain program
# of bench/ over the whole list. Nothing is installed, and no Slurm that runs here already is
# touched.
#
#   cluster/one_machine.sh PROGRAM [LINES]   a month of LINES usage lines, 1,600,000 by default
#   cluster/one_machine.sh --needs           only says which commands are missing
set -euo pipefail
here=$(realpath "$(dirname "$0")")
top=$(realpath "$here/..")

missing=()
for word in sbatch squeue sinfo scontrol slurmctld slurmd munged python3 cargo sha256sum; do
    # Daemons are often where only root's path leads.
    PATH=$PATH:/usr/sbin:/usr/local/sbin command -v "$word" > /dev/null || missing+=("$word")
done
if ((${#missing[@]} > 0)); then
    echo "one_machine.sh: these commands are missing: ${missing[*]}" >&2
    exit 1
fi
[[ ${1-} != --needs ]] || exit 0
PATH=$PATH:/usr/sbin:/usr/local/sbin
program=$(realpath "$1")
lines=${2:-1600000}
[[ $lines =~ ^[1-9][0-9]{2,7}$ ]] && ((lines <= 20000000)) || {
    echo 'one_machine.sh: LINES is a number from 100 to 20000000' >&2
    exit 2
}

# The path of a socket has at most 107 bytes, so a long TMPDIR will not do, and munged refuses
# folders that others may write to.
room=$(mktemp -d --tmpdir month.XXXXXX)
daemons=()
end() {
    local status=$? daemon
    trap - EXIT
    for daemon in "${daemons[@]}"; do kill "$daemon" 2> /dev/null || true; done
    for daemon in "${daemons[@]}"; do wait "$daemon" 2> /dev/null || true; done
    if ((status == 0)); then
        rm -rf "$room"
    else
        echo "one_machine.sh: failed; $room has the logs" >&2
    fi
    exit "$status"
}
trap end EXIT
trap 'exit 1' INT TERM

# start NAME WORD..: a daemon in the foreground of its own process
start() {
    local name=$1
    shift
    "$@" > "$room/$name.out" 2>&1 < /dev/null &
    daemons+=("$!")
}

# wait_for SECONDS WHAT WORD..: until the words end well
wait_for() {
    local left=$1 what=$2 daemon
    shift 2
    until "$@"; do
        for daemon in "${daemons[@]}"; do
            kill -0 "$daemon" 2> /dev/null || {
                echo "one_machine.sh: a daemon ended before $what" >&2
                exit 1
            }
        done
        ((left > 0)) || { echo "one_machine.sh: waited in vain until $what" >&2 && exit 1; }
        left=$((left - 1))
        sleep 1
    done
}

# --- The daemons ---

chmod 711 "$room"
mkdir -m 700 "$room/munge" "$room/state" "$room/spool"
(umask 077 && head -c 1024 /dev/urandom > "$room/munge/key")
start munged munged --foreground --key-file="$room/munge/key" --socket="$room/munged.socket" \
    --pid-file="$room/munge/pid" \
    --log-file="$room/munge/log" --seed-file="$room/munge/seed"
wait_for 20 'munged listens' test -S "$room/munged.socket"

host=$(hostname -s)
user=$(id -un)
# Ports that are most likely free, other than those that Slurm takes by itself.
port=$((20000 + RANDOM % 10000))
memory=$(awk '$1 == "MemTotal:" { print int($2 / 1024 * 0.8) }' /proc/meminfo)
cat > "$room/slurm.conf" <<TEXT
ClusterName=month
SlurmctldHost=$host(127.0.0.1)
SlurmctldPort=$port
SlurmdPort=$((port + 1))
SlurmUser=$user
SlurmdUser=$user
AuthType=auth/munge
AuthInfo=socket=$room/munged.socket
StateSaveLocation=$room/state
SlurmdSpoolDir=$room/spool
SlurmctldPidFile=$room/slurmctld.pid
SlurmdPidFile=$room/slurmd.pid
SlurmctldLogFile=$room/slurmctld.log
SlurmdLogFile=$room/slurmd.log
ProctrackType=proctrack/linuxproc
SelectType=select/cons_tres
SelectTypeParameters=CR_CPU_Memory
ReturnToService=2
MaxArraySize=6
NodeName=$host NodeAddr=127.0.0.1 CPUs=$(nproc) RealMemory=$memory State=UNKNOWN
PartitionName=one Nodes=$host Default=YES MaxTime=INFINITE State=UP
TEXT
export SLURM_CONF=$room/slurm.conf
# Since version 23 slurmd looks for control groups unless it is told not to; earlier ones do not
# know the word.
version=$(slurmd -V | grep -o '[0-9]*' | head -n 1 || true)
((${version:-0} < 23)) || echo 'CgroupPlugin=disabled' > "$room/cgroup.conf"

start slurmctld slurmctld -D -c -f "$SLURM_CONF"
start slurmd slurmd -D -f "$SLURM_CONF"
is_idle() { [[ $(sinfo --noheader --format=%T 2> /dev/null) == idle ]]; }
wait_for 60 'the node is idle' is_idle

# --- The month ---

month=$here/month
cd "$room"
PYTHONPATH=$top python3 -m bench.large made --lines "$lines" --works 20000 --parties 400 --seed 3
files=(--tis made/tis.csv --cwr made/works.cwr --usage made/usage.csv)
plain=$(PYTHONPATH=$top python3 -m tools.plain)
"$plain" run "${files[@]}" --workers 1 --readers 1 --nodes 64 --whole > whole.statements

# Waits until the process that runs the part with this name is there, and kills it.
cat > kill_part.py <<'TEXT'
import os, signal, sys, time

end = time.monotonic() + 300
while time.monotonic() < end:
    for entry in os.listdir("/proc"):
        if not entry.isdigit():
            continue
        try:
            with open(f"/proc/{entry}/cmdline", "rb") as file:
                words = file.read().split(b"\0")
        except OSError:
            continue
        is_run = any(word.endswith(b"royalty_run") for word in words[:2]) and b"run" in words
        if is_run and sys.argv[1].encode() in words:
            os.kill(int(entry), signal.SIGKILL)
            print("killed process", entry, "of", sys.argv[1])
            sys.exit()
    time.sleep(0.002)
sys.exit("no process of " + sys.argv[1])
TEXT

# Tasks ask for less memory than the scripts say, so that several are run at a time here.
options=(-- --mem=500M --cpus-per-task=1)
is_done() {
    local queue
    queue=$(squeue --noheader) && [[ -z $queue ]]
}
# wait_for_jobs SINCE: until no job is left
wait_for_jobs() {
    wait_for 1800 'the jobs of the month have ended' is_done
    echo "the jobs took $((SECONDS - $1)) s"
}

"$month" cut march "${files[@]}" --program "$program" --lines "$(((lines + 15) / 16))"
python3 kill_part.py parts/part-0007.csv &
killer=$! since=$SECONDS
"$month" submit march "${options[@]}"
wait "$killer"
wait_for_jobs "$since"
if [[ -e march/month.statements ]]; then
    echo 'one_machine.sh: it was merged without part 7' >&2
    exit 1
fi
status=0
"$month" status march > said || status=$?
cat said
[[ $status == 1 && $(< said) == *'part-0007: the program was killed by signal 9'* ]]
since=$SECONDS
"$month" again march "${options[@]}"
wait_for_jobs "$since"
"$month" status march
cmp march/month.statements whole.statements
echo 'one_machine.sh: ok'
