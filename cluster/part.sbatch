#!/usr/bin/env bash
# A task of a month's job array: makes a part. It is given the folder of these scripts, the month's
# folder, and what is added to the task's index to give the number of the part. Slurm runs a copy
# of this file, which knows the folder from its arguments alone. It is given a processor for each
# thread of the plan.
#SBATCH --ntasks=1
#SBATCH --mem=2G
exec "$1/month" part "$2" "$(($3 + SLURM_ARRAY_TASK_ID))"
