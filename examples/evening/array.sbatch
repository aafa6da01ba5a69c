#!/usr/bin/env bash
#SBATCH --job-name=evening
#SBATCH --cpus-per-task=1
#SBATCH --mem=1G
#SBATCH --time=00:30:00
#SBATCH --output=/dev/null
# One part of an evening, as a task of a job array. Submit it at the top of the repository:
#   sbatch --array=1-8 examples/evening/array.sbatch FOLDER
# FOLDER is on a file system that all nodes share. Cut the evening in it first, with examples/evening/parts.py.
part=$1/part.$SLURM_ARRAY_TASK_ID
./alphamu --job boards --deal "$part/evening.pbn" --layouts "$part/evening.lay" --moves "${2:-4}" \
    --workers "${SLURM_CPUS_PER_TASK:-1}" >"$part/part" 2>"$part/line"
status=$?
# The answer gets its name once it is whole.
[ "$status" -ne 0 ] || mv "$part/part" "$part/evening.boards"
exit "$status"
