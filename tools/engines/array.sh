#!/bin/sh
#SBATCH --ntasks=1 --cpus-per-task=1 --output=array-%a.out
# A Slurm array over a folder of `sweep --emit` that all nodes see: task I runs the lines (I-1)*BATCH+1 to I*BATCH of the file jobs.
#   BATCH=20 sbatch --wait --export=ALL --array=1-$(( ($(wc -l < jobs) + 19) / 20 )) array.sh
first=$(( (SLURM_ARRAY_TASK_ID - 1) * BATCH + 1 ))
sed -n "${first},$(( first + BATCH - 1 ))p" jobs | xargs python3 sweep.pyz --run
