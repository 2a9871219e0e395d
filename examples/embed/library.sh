#!/usr/bin/env bash
# Writes the path of the static library: that of the prefix in which this is installed, or that of
# this checkout. There, where it is missing or older than its sources, tools/build.sh proves and
# builds it first.
#     library.sh
set -euo pipefail
here=$(dirname "$(readlink -f "$0")")
# shellcheck source=examples/command_line.sh
source "$here/../command_line.sh"
show_help "$0" "$@"
refuse_options 0 "$@"
top=$(cd "$here/../.." && pwd)
if [[ ! -e $top/crates.txt ]]; then
    for file in "$top"/../../lib/{,*/}libtombolopan.a; do
        if [[ -e $file ]]; then
            realpath "$file"
            exit
        fi
    done
    echo "library.sh: libtombolopan.a is not there (Debian: libtombolopan-dev)" >&2
    exit 2
fi
name=libtombolopan_c.a
folder=$top/crates/tombolopan_c/out
if [[ ! -e $folder/$name ||
    -n $(find "$top"/crates/*/src "$top/crates.txt" -newer "$folder/$name" -print -quit) ]]; then
    "$top/tools/build.sh" --only "$name" >&2
fi
if [[ -e $folder/$name.unproved ]] && (cd "$folder" && sha256sum -c --status "$name.unproved"); then
    echo "library.sh: $name is built without proof" >&2
fi
echo "$folder/$name"
