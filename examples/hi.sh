#!/usr/bin/env bash
#     hi.sh
# Runs the image hi.elf by the script hi.script and prints the report on standard output, by the
# program mte_host that is there (built.sh). Where none is, it is built first, without proof.
# TOMBOLOPAN_BUILT names a folder with a program mte_host that is used as it is.
set -euo pipefail
here=$(cd "$(dirname "$0")" && pwd)
# shellcheck source-path=SCRIPTDIR
source "$here/command_line.sh"
show_help "$0" "$@"
refuse_options 0 "$@"
# shellcheck source-path=SCRIPTDIR
source "$here/built.sh"
find_program mte_host hi.sh
exec "$program" --frames 11 "$here/hi.script" "$here/hi.elf"
