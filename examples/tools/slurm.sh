# Tests the Slurm script. Read by tools.sh.
# shellcheck shell=bash disable=SC2154  # names that tools.sh and its other files set

# The script's grid over a small trace, in a folder that looks like the top of a checkout.
cd "$work" && mkdir -p array/lab && cd array || exit
ln -s "$bin" bin
cp ../here/kinds.din lab/columns.din
for ((number = 1; number <= 7; number++)); do
    SLURM_ARRAY_TASK_ID=$number bash "$top/examples/sweep.sbatch" || echo "task $number failed"
done >"$out" 2>"$err"
[ ! -s "$out" ] && [ ! -s "$err" ] &&
    grep -q '^#SBATCH --array=1-7$' "$top/examples/sweep.sbatch" &&
    run bin/sweep --gather lab/slurm && [ "$status" -eq 0 ] && lines_at_least "$out" 29 &&
    bin/sweep --vary --l1-dsize 1k,2k,4k,8k,16k,32k,64k --vary --l1-dassoc 1,2,4,8 --l1-isize 32k \
        --l1-ibsize 32 --l1-dbsize 32 --l2-usize 1m --l2-ubsize 32 --l2-uassoc 8 \
        -- lab/columns.din |
    cmp -s - "$out"
verdict "the Slurm script's tasks, one by one" $?
cp "$out" whole
rm -r lab/slurm

# A Slurm of one node, for this user alone.
start_slurm() {
    local folder=$work/slurm port=$((30000 + RANDOM % 10000)) name
    name=$(hostname -s)
    mkdir -p "$folder/state" "$folder/spool"
    chmod 755 "$work" "$folder"
    head -c 1024 /dev/urandom >"$folder/key"
    chmod 400 "$folder/key"
    cat >"$folder/slurm.conf" <<END
ClusterName=one
SlurmctldHost=$name(127.0.0.1)
SlurmUser=$(id -un)
SlurmdUser=$(id -un)
AuthInfo=socket=$folder/munge.socket
SlurmctldPort=$port
SlurmdPort=$((port + 1))
StateSaveLocation=$folder/state
SlurmdSpoolDir=$folder/spool
SlurmctldPidFile=$folder/controller.pid
SlurmdPidFile=$folder/node.pid
ProctrackType=proctrack/linuxproc
TaskPlugin=task/none
SelectType=select/cons_tres
SelectTypeParameters=CR_CPU
MpiDefault=none
NodeName=$name NodeAddr=127.0.0.1 CPUs=$(nproc) State=UNKNOWN
PartitionName=all Nodes=ALL Default=YES State=UP
END
    export SLURM_CONF=$folder/slurm.conf
    env -u TMPDIR munged --force --foreground \
        --key-file="$folder/key" --socket="$folder/munge.socket" \
        --pid-file="$folder/munge.pid" --log-file="$folder/munge.log" --seed-file="$folder/seed" \
        >"$folder/munge.out" 2>&1 &
    daemons+=($!)
    until_true test -S "$folder/munge.socket"
    env -u TMPDIR slurmctld -D >"$folder/controller.log" 2>&1 &
    daemons+=($!)
    env -u TMPDIR slurmd -D -N "$name" >"$folder/node.log" 2>&1 &
    daemons+=($!)
    until_true node_is_idle
}

node_is_idle() {
    timeout 2 sinfo -h -o %t 2>/dev/null | grep -qx idle
}

test_slurm() {
    if ! start_slurm; then
        skip 'the Slurm script on a node' 'a Slurm that can be started'
        return
    fi
    run timeout 60 sbatch --wait --array=1-4 --cpus-per-task=1 "$top/examples/sweep.sbatch"
    cp "$err" "$work/submitted"
    [ "$status" -eq 0 ] && run bin/sweep --gather lab/slurm && [ "$status" -eq 1 ] &&
        head -n 17 "$out" | cmp -s - <(head -n 17 whole) &&
        [ "$(tail -n +18 "$out" | cut -f 37 | sort | uniq -c | tr -s ' \n' ' ')" = ' 12 not simulated ' ]
    verdict 'four tasks of the Slurm script on a node' $?
    unset SLURM_CONF
}

if has sbatch && PATH=$PATH:/usr/sbin has slurmctld && PATH=$PATH:/usr/sbin has munged; then
    PATH=$PATH:/usr/sbin test_slurm
else
    skip 'the Slurm script on a node' 'Slurm (slurm-wlm)'
fi
cd "$work/here" || exit
