#!/bin/sh
#SBATCH --array=0-19 --cpus-per-task=4
pairs.py check slices/slice-$SLURM_ARRAY_TASK_ID slurm -k 2 -j 4
