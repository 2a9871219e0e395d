#!/usr/bin/env bash
#SBATCH --job-name=tombolopan --array=1-10 --requeue --time=01:00:00
# An array of Slurm: each task runs a share of the sessions into one store, and nothing where those
# of a user allow more steps than a quota. The same command without --share then says all.
#     array.sbatch SESSIONS QUOTA     as in: sbatch --array=1-40 array.sbatch all 1000000
# BATCH is the path of tools/batch, where that is not Debian's.
set -euo pipefail
if [[ ${1:-} == --help || ${1:-} == -h ]]; then
    sed -n '3,/^set/s/^# \{0,1\}//p' "$0"
    exit
fi
if (($# != 2)) || [[ $1 == -* ]]; then
    echo "array.sbatch: sessions and a quota are needed (--help)" >&2
    exit 2
fi
exec python3 "${BATCH:-/usr/share/tombolopan/tools/batch}" "$1" --quota "$2" --jobs 1 \
    --share "$SLURM_ARRAY_TASK_ID/$SLURM_ARRAY_TASK_COUNT"
