#!/bin/sh
#SBATCH --job-name=shards
#SBATCH --output=shards-%A-%a.log
#SBATCH --open-mode=append
#SBATCH --ntasks=1
#SBATCH --cpus-per-task=1
#SBATCH --mem=256M
#SBATCH --time=24:00:00
#SBATCH --signal=B:USR1@60
#SBATCH --requeue
# Runs each shard of FOLDER, or each text *.ic in it, as a task of Slurm: sbatch --array=1-COUNT array.sbatch SCRIPTS FOLDER
# [WORD..]. A minute before its time is over, a task stops, and is put into the queue again.
scripts=$1 folder=$2
shift 2
if [ -f "$folder/names" ]; then
    set -- "$scripts/shard" "$folder/$(printf %05d "$SLURM_ARRAY_TASK_ID")" "$@"
else
    set -- "$scripts/large" "$(printf '%s\n' "$folder"/*.ic | sed -n "${SLURM_ARRAY_TASK_ID}p")" "$@"
fi
trap 'kill $! 2>/dev/null; wait $!; exec scontrol requeue "${SLURM_ARRAY_JOB_ID}_$SLURM_ARRAY_TASK_ID"' USR1
until "$@" & wait $!; do
    status=$?
    [ "$status" -eq 6 ] || exit "$status"
    sleep 10
done
