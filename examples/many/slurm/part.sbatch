#!/bin/bash
# One part of the logs of a list: task I of an array of N restarts the lines I, I+N, I+2N .. of it.
#   sbatch --array=1-N --mem=MIB part.sbatch ROOT OUT LIST
# A task whose logs are not all settled is run again, twice, or as often as RQ_RETRIES says; what is done is skipped then.
#SBATCH --job-name=rq-many
#SBATCH --cpus-per-task=1
#SBATCH --requeue
#SBATCH --open-mode=append
#SBATCH --output=rq-many-%A_%a.log
set -u
rq-many run "$1" "$2" --list "$3" --part "$SLURM_ARRAY_TASK_ID/$SLURM_ARRAY_TASK_COUNT"
status=$?
[ $status = 75 ] || exit $status
# Not with 75: a site whose slurm.conf has RequeueExit=75 would run it again without end.
[ "${SLURM_RESTART_COUNT:-0}" -lt "${RQ_RETRIES:-2}" ] || exit 1
# Slurm ends the script now, and begins it again two minutes later.
scontrol requeue "${SLURM_ARRAY_JOB_ID}_$SLURM_ARRAY_TASK_ID" || exit 1
sleep 60
