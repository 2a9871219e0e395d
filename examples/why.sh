#!/usr/bin/env bash
# Tells why a tenant ended: runs its image alone by the program mte_run that is there (built.sh).
# Where none is, it is built first, without proof, which takes one to two minutes, once.
#     why.sh [OPTION..] ELF
# The options are those of mte_run (docs/MTE_RUN.md). Unless an option says otherwise, accesses are
# compared with the sizes of chunks to the byte (--exact), which tags alone do not find.
# TOMBOLOPAN_BUILT names a folder with a program mte_run that is used as it is.
set -euo pipefail
self=$(readlink -f "$0")
if [[ $# -eq 0 || $1 == --help || $1 == -h ]]; then
    sed -n '2,/^set/s/^# \{0,1\}//p' "$self" | sed "s/^    why\.sh/    $(basename "$0")/"
    [[ $# -ne 0 ]] || exit 2
    exit
fi
# shellcheck source-path=SCRIPTDIR
source "$(dirname "$self")/built.sh"
case " $* " in
    *" --exact"* | *" --gdb "* | *" --version "* | *" -V "*) ;;
    *) set -- --exact "$@" ;;
esac
find_program mte_run "$(basename "$0")"
exec "$program" "$@"
