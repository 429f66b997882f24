#!/bin/bash
# A Slurm job array: each of its tasks judges its share of a list of class files, on the processors that it was given.
#
#   sbatch --array=0-3 examples/judge.slurm LIST ANSWERS FOLDER..
#
# It is called at the top of this repository, in a folder that all machines share. LIST has a class file a line; examples/count
# counts what comes into the folder ANSWERS.
list=$1 answers=$2
shift 2
awk -v all="$SLURM_ARRAY_TASK_COUNT" -v own="$SLURM_ARRAY_TASK_ID" 'NR % all == own % all' "$list" |
    xargs -d '\n' -P "${SLURM_CPUS_ON_NODE:-1}" -I '{}' examples/judge --keep "$answers" '{}' "$@"
