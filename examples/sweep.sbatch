#!/usr/bin/env bash
# A sweep as a Slurm job array. The grid is cut along its first option into as many parts as the
# array has tasks: here the four configurations of one size go to each of 7 tasks. Change the grid,
# and the number of its parts in both places, then, from the top of a checkout whose program is
# built:
#
#     sbatch examples/sweep.sbatch
#     bin/sweep --gather lab/slurm > lab/columns.tsv       # once the array has ended
#
# A configuration that failed has a line with a fault, and lab/slurm-N.out of its task says why.
# --gather names the tasks that have not left all of their lines; `sbatch --array=N,M-P
# examples/sweep.sbatch` runs these again.
#SBATCH --job-name=sweep
#SBATCH --array=1-7
#SBATCH --cpus-per-task=1
#SBATCH --output=lab/slurm-%a.out
set -euo pipefail

bin/sweep --task "$SLURM_ARRAY_TASK_ID/7" --into lab/slurm \
    --vary --l1-dsize 1k,2k,4k,8k,16k,32k,64k --vary --l1-dassoc 1,2,4,8 \
    --l1-isize 32k --l1-ibsize 32 --l1-dbsize 32 --l2-usize 1m --l2-ubsize 32 --l2-uassoc 8 \
    -- lab/columns.din
