#!/usr/bin/env bash
# Runs a folder or a table of sessions, on all processors of this machine or over Dask, and names
# those that are not as wanted: tools/batch with the library of this checkout, or of the prefix in
# which this is installed. What a session of a folder wrote goes to got.out, got.err and got.status
# there. docs/MANY_SESSIONS.md says the rest.
#     run.sh SESSIONS [OPTIONS OF tools/batch]
set -euo pipefail
here=$(cd "$(dirname "$0")" && pwd)
library=$here/../embed/libtombolopan.so
if [[ -e $here/../../crates.txt && -z ${TOMBOLOPAN:-} && " $* " != *" --help "* &&
    " $* " != *" --program"* ]]; then
    archive=$("$here/../embed/library.sh")
    if [[ ! -e $library || $archive -nt $library ]]; then
        "$here/../embed/shared.sh" "$library.$$" "$archive"
        mv "$library.$$" "$library"
    fi
fi
got=()
if [[ -d ${1:-} ]]; then
    got=(--got)
fi
exec python3 "$here/../../tools/batch" "$@" "${got[@]}"
