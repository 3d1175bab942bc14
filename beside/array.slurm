#!/bin/sh
# A job array of Slurm: each task makes one trace of an ensemble and has it checked. From the top of the repository,
# with a program that is built, for a record of ten years, whose traces are 0 to 9:
#
#     sbatch --array=0-9 beside/array.slurm BASIN SERIES FOLDER
#
# and when all tasks have ended, `./basin count FOLDER/trace-*.sums` writes the ensemble, or names the missing traces.
#SBATCH --job-name=basin-trace
#SBATCH --ntasks=1
#SBATCH --mem=500M
set -eu
mkdir -p "$3"
sums="$3/trace-$SLURM_ARRAY_TASK_ID"
"${SLURM_SUBMIT_DIR:-.}/basin" trace --check "$1" "$2" "$SLURM_ARRAY_TASK_ID" >"$sums.part"
mv "$sums.part" "$sums.sums"
