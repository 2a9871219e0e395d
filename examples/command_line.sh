# What shell scripts do alike with their command lines; they read it by `source`.
# shellcheck shell=bash

# Writes the comment at the head of a script where the first word asks for it, and ends.
show_help() {
    local script=$1
    if [[ ${2:-} == --help || ${2:-} == -h ]]; then
        sed -n '2,/^set/s/^# \{0,1\}//p' "$script" | sed '/^set/d'
        exit 0
    fi
}

# Ends for a wrong command line.
refuse() {
    echo "${0##*/}: $1 (--help)" >&2
    exit 2
}

# Refuses words that are options, and more words than there may be.
refuse_options() {
    local most=$1 word
    shift
    for word in "$@"; do
        [[ $word != -* ]] || refuse "there is no option $word"
    done
    [[ $# -le $most ]] || refuse "$# words are too many"
}
