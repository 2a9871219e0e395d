# What says whether a built file is of the sources that are there; scripts read it by `source`. Its
# sums are in NAME.sources: that of the sources, and its own. Dates count only where it has none, as
# after an rt ci by hand.
# shellcheck shell=bash

# The sum of the sources of a checkout.
sum_of_sources() {
    (cd "$1" && find crates.txt crates/*/{src,specs,proofs} -type f -print0 2>/dev/null |
        LC_ALL=C sort -z | xargs -0 sha256sum | sha256sum | cut -d ' ' -f 1)
}

# Whether a file with sums (NAME.sources, NAME.unproved) has that of NAME.
has_sum() {
    [[ -e $1 ]] && (cd "${1%/*}" && sha256sum --check --status "${1##*/}" 2>/dev/null)
}

# Whether a built file of a checkout is there, and of its sources.
is_current() {
    local top=$1 file=$2
    [[ -e $file ]] || return 1
    if has_sum "$file.sources"; then
        [[ $(head -n 1 "$file.sources") == "# $(sum_of_sources "$top")" ]]
    else
        [[ -z $(find "$top"/crates/*/{src,specs,proofs} "$top/crates.txt" -newer "$file" -print \
            -quit 2>/dev/null) ]]
    fi
}

# Notes that a file was built from sources with a sum.
note_sources() {
    {
        echo "# $2"
        (cd "${1%/*}" && sha256sum "${1##*/}")
    } >"$1.sources"
}
