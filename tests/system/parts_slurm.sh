#!/bin/sh
# Runs the leaves of a plan as a job array of Slurm on this machine alone (Debian's packages slurmctld, slurmd, slurm-client and munge), then the combining job, which
# waits for them, and compares the report with fold's. It starts munged, slurmctld and slurmd on the loopback and stops them, and has to be run by root.
# Usage: tests/system/parts_slurm.sh PROGRAM [ROWS], as parts_parallel.sh.
set -eu
program=$(realpath "$1")
here=$(realpath "$(dirname "$0")")
. "$here/parts_inputs.sh"
folder=$(mktemp -d)
export SLURM_CONF="$folder/slurm.conf"
stop() {
    for name in slurmd slurmctld munged; do
        if [ -f "$folder/$name.pid" ]; then
            pid=$(cat "$folder/$name.pid")
            while kill "$pid" 2>/dev/null; do sleep 0.1; done
        fi
    done
    rm -rf "$folder"
}
trap stop EXIT
chmod 755 "$folder"
cd "$folder"
mkdir state spool munge
chown munge munge
cat >slurm.conf <<CONF
ClusterName=parts
SlurmctldHost=localhost(127.0.0.1)
SlurmctldPort=16817
SlurmdPort=16818
AuthType=auth/munge
AuthInfo=socket=$folder/munge/socket
CredType=cred/munge
SlurmUser=root
SlurmdUser=root
StateSaveLocation=$folder/state
SlurmdSpoolDir=$folder/spool
SlurmctldPidFile=$folder/slurmctld.pid
SlurmdPidFile=$folder/slurmd.pid
SlurmctldLogFile=$folder/slurmctld.log
SlurmdLogFile=$folder/slurmd.log
ProctrackType=proctrack/linuxproc
TaskPlugin=task/none
MpiDefault=none
SelectType=select/cons_tres
SelectTypeParameters=CR_Core
ReturnToService=2
NodeName=localhost NodeAddr=127.0.0.1 CPUs=$(nproc) State=UNKNOWN
PartitionName=all Nodes=localhost Default=YES State=UP
CONF
dd if=/dev/urandom of=munge/key bs=64 count=1 2>/dev/null
chown munge munge/key
chmod 400 munge/key
su -s /bin/sh munge -c "/usr/sbin/munged --key-file=$folder/munge/key --socket=$folder/munge/socket --pid-file=$folder/munge/munged.pid \
    --log-file=$folder/munge/munged.log --seed-file=$folder/munge/seed"
cp munge/munged.pid munged.pid
slurmctld
slurmd -N localhost
make_inputs "${2:-100000}"
cat >leaf.sh <<LEAF
#!/bin/sh
set -eu
cd "$folder"
node=\$(echo north south east west | cut -d' ' -f"\$SLURM_ARRAY_TASK_ID")
"$program" partial parts.job parts.plan "\$node" >"\$node.partial"
LEAF
cat >combine.sh <<COMBINE
#!/bin/sh
set -eu
cd "$folder"
"$program" combine parts.job parts.plan north.partial south.partial east.partial west.partial >combined.csv
COMBINE
array=$(sbatch --parsable --array=1-4 --output="$folder/leaf-%a.log" leaf.sh)
sbatch --wait --dependency="afterok:$array" --output="$folder/combine.log" combine.sh
"$program" fold parts.job >folded.csv
cmp combined.csv folded.csv
echo "same report of $(wc -l <folded.csv) lines; bytes of the partials: $(cat ./*.partial | wc -c)"
