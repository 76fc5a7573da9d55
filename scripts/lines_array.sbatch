#!/usr/bin/env bash
#SBATCH --job-name=json_lines
#SBATCH --array=1-4
#SBATCH --cpus-per-task=1
#SBATCH --output=%x-%a.log
# sbatch --wait lines_array.sbatch FILE FOLDER: normalises a file of lines, which all nodes see, a share a task. Then
# `join-shares FOLDER 4` has the answer. split cuts at the ends of lines, by bytes, and writes no copy.
set -euo pipefail
mkdir -p "$2"
split -n "l/$SLURM_ARRAY_TASK_ID/$SLURM_ARRAY_TASK_COUNT" "$1" | one-share "$2" "$SLURM_ARRAY_TASK_ID"
