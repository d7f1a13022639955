#!/usr/bin/env bash
# Checks a pair in parts as a Slurm job array, and behind it the whole pair with the parts' lemmas, as a job of its own.
#
# Usage: slurm.sh A B PARTS FOLDER [OPTIONS OF SBATCH]
#
# FOLDER lies where all nodes see it. The last job leaves FOLDER/proof.0.cnf and FOLDER/proof.0.lrat; its status is that of the check. It waits
# until each part ended, in whatever way (`afterany`): a part that fails costs time and nothing else.
set -eu
here=$(cd "$(dirname "$(readlink -f "$0")")" && pwd)
a=$(readlink -f "$1") b=$(readlink -f "$2") parts=$3 folder=$(readlink -f "$4")
shift 4
cec=${CEC:-cec}
many=$("$here/split.py" "$a" "$b" "$parts" "$folder")
array=$(sbatch --parsable --array="0-$((many - 1))" --output="$folder/%a.said" "$@" \
    --wrap="$cec check $folder/\$SLURM_ARRAY_TASK_ID.a $folder/\$SLURM_ARRAY_TASK_ID.b --workers 1 --save $folder/\$SLURM_ARRAY_TASK_ID.lemmas")
sbatch --parsable --dependency="afterany:$array" --output="$folder/said" "$@" \
    --wrap="$here/merge.py $folder > $folder/lemmas && $cec check $a $b --load $folder/lemmas --out $folder/proof"
