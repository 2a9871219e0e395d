#!/usr/bin/env bash
# Starts a cluster of Dask for `batch --dask tcp://HOST:8786`: a scheduler on this machine, and on
# each machine that is named a worker for each processor, by ssh. They have this folder at the same
# path, and python3-distributed. All end with this script.
#     dask.sh HOST MACHINE...     HOST is the name of this machine for the others
# PORT is another port, and REMOTE what starts a command on a machine, in place of 8786 and ssh.
set -euo pipefail
top=$(cd "$(dirname "$0")/../.." && pwd)
if [[ ${1:-} == --help || ${1:-} == -h ]]; then
    sed -n '2,/^set/s/^# \{0,1\}//p' "$0"
    exit
fi
if (($# < 2)) || [[ $1 == -* ]]; then
    echo "dask.sh: a host and machines are needed (--help)" >&2
    exit 2
fi
host=$1 port=${PORT:-8786}
trap 'kill $(jobs -p) 2> /dev/null; wait' EXIT
dask-scheduler --host "$host" --port "$port" --no-dashboard &
for machine in "${@:2}"; do
    # A worker whose scheduler is gone ends by itself.
    "${REMOTE:-ssh}" "$machine" env PYTHONPATH="$top/tools:$top/examples/embed" \
        ${TOMBOLOPAN:+TOMBOLOPAN="$TOMBOLOPAN"} dask-worker "tcp://$host:$port" --nthreads 1 \
        --nworkers "${WORKERS:-auto}" --no-dashboard --death-timeout 60 &
done
wait -n
