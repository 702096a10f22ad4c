#!/usr/bin/env bash
# The last job of a month: looks through its parts, and merges them. It is given the folder of these
# scripts and the month's folder.
#SBATCH --ntasks=1
#SBATCH --cpus-per-task=2
#SBATCH --mem=2G
exec "$1/month" merge "$2"
