# A Slurm job array, for examples/fleet/run: the daemons of Debian's slurm-wlm on one node, with a slurm.conf, a key and folders of their own.
# On a cluster that is there, all that is left of this is the line with sbatch.

needs slurmctld/slurm-wlm sbatch/slurm-wlm munged/munge
begin() {
    node=$(hostname -s)
    mkdir "$room/slurm" "$room/slurm/state" "$room/slurm/spool" "$room/munge"
    chmod 755 "$room"
    head -c 1024 /dev/urandom >"$room/munge/key" && chmod 600 "$room/munge/key"
    cat >"$room/slurm/slurm.conf" <<CONF
ClusterName=fleet
SlurmctldHost=$node(127.0.0.1)
SlurmUser=root
SlurmdUser=root
AuthType=auth/munge
AuthInfo=socket=$room/munge/socket
CredType=cred/munge
SlurmctldPort=18117
SlurmdPort=18118
StateSaveLocation=$room/slurm/state
SlurmdSpoolDir=$room/slurm/spool
SlurmctldLogFile=$room/slurm/slurmctld.log
SlurmdLogFile=$room/slurm/slurmd.log
SlurmctldPidFile=$room/slurm/slurmctld.pid
SlurmdPidFile=$room/slurm/slurmd.pid
ProctrackType=proctrack/linuxproc
TaskPlugin=task/none
SelectType=select/cons_tres
ReturnToService=2
MailProg=/bin/true
NodeName=$node NodeAddr=127.0.0.1 CPUs=2
PartitionName=all Nodes=ALL Default=YES State=UP
CONF
    SLURM_CONF=$room/slurm/slurm.conf
    export SLURM_CONF
    daemon munged --foreground --force --key-file="$room/munge/key" --socket="$room/munge/socket" --pid-file="$room/munge/pid" \
        --log-file="$room/munge/log" --seed-file="$room/munge/seed"
    until_so test -S "$room/munge/socket"
    daemon slurmctld -D
    daemon slurmd -D
    until_so is_idle
}
is_idle() { sinfo -h -o %T 2>/dev/null | grep -qx idle; }
until_so() { # COMMAND..
    tries=0
    until "$@"; do
        tries=$((tries + 1))
        [ "$tries" -lt 300 ] || fail "Slurm does not answer: $(cat "$room/said" "$room"/slurm/*.log "$room/munge/log" 2>/dev/null | tail -n 5)"
        sleep 0.1
    done
}
hand_out() { # PART..
    numbers=
    for part; do number=${part##*.} && numbers=$numbers${numbers:+,}${number}; done
    sbatch --quiet --wait --array="$numbers" --output=/dev/null --chdir="$top" \
        --wrap "exec examples/fleet/worker $room/parts/part.\$(printf %03d \$SLURM_ARRAY_TASK_ID)" 2>>"$room/said" || : # who was killed is seen by what is missing
}
