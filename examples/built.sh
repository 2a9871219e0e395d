# Finds the programs that the scripts of this folder run; they read it by `source`.
# shellcheck shell=bash

# Puts the path of a program into `program`: of the folder TOMBOLOPAN_BUILT, as it is; of this
# checkout, where tools/build.sh builds it first, without proof, if it is not there or of other
# sources; or of the prefix in which this folder is installed.
find_program() {
    local name=$1 script=$2 here mark
    here=$(dirname "$(readlink -f "${BASH_SOURCE[0]}")")
    if [[ -n ${TOMBOLOPAN_BUILT:-} ]]; then
        program=$TOMBOLOPAN_BUILT/$name
        return
    fi
    program=$here/../crates/$name/out/$name
    mark=$program.unproved
    if [[ ! -e $here/../crates.txt ]]; then
        mark=$here/../unproved
    elif
        # shellcheck source=tools/sources.sh
        source "$here/../tools/sources.sh"
        ! is_current "$here/.." "$program"
    then
        echo "$script: builds $name without proof, once: one to two minutes" >&2
        "$here/../tools/build.sh" --unproved --only "$name" || exit 2
    fi
    if [[ -e $mark ]] && grep "[ /]$name\$" "$mark" |
        (cd "${mark%/*}" && sha256sum --check --status 2>/dev/null); then
        echo "$script: $name is built without proof" >&2
    fi
}
