#!/usr/bin/env bash
# Checks a pair in parts by GNU parallel, on this machine or on others, and then the whole pair with the parts' lemmas.
#
# Usage: parallel.sh A B PARTS FOLDER [OPTIONS OF PARALLEL]
#
# It leaves FOLDER/proof.0.cnf and FOLDER/proof.0.lrat, and ends with the status of the last check. `cec` is on the PATH, or CEC names it. A part
# that fails, or takes longer than SECONDS_A_PART (else 3600), costs time and nothing else. On other machines give parallel `--sshloginfile` and a folder
# that they share.
set -u
here=$(cd "$(dirname "$(readlink -f "$0")")" && pwd)
a=$1 b=$2 parts=$3 folder=$4
shift 4
cec=${CEC:-cec}
many=$("$here/split.py" "$a" "$b" "$parts" "$folder") || exit 70
seq 0 $((many - 1)) | parallel --will-cite "$@" \
    timeout "${SECONDS_A_PART:-3600}" "$cec" check "$folder/{}.a" "$folder/{}.b" --workers 1 --save "$folder/{}.lemmas" '>' "$folder/{}.said"
"$here/merge.py" "$folder" > "$folder/lemmas"
exec "$cec" check "$a" "$b" --load "$folder/lemmas" --out "$folder/proof"
