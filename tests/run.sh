#!/usr/bin/env bash
# The test command: installs what the suite needs, proves every crate, tries every must-fail edit,
# runs all programs and tests (rt ci), says what that cost, and tries what users touch over the
# proved programs.
#     tests/run.sh                 all of it
#     tests/run.sh --suite [..]    the suite alone, over programs that are built, with or without
#                                  proof; files of tests/ and options of pytest
set -euo pipefail
cd "$(dirname "$0")/.."
# shellcheck source=tools/sources.sh
source tools/sources.sh
tests/install.sh
python=/usr/bin/python3
"$python" -c 'import pytest, xdist' 2> /dev/null || python=python3
logs=$(mktemp -d)
trap 'put_back; rm -rf "$logs"' EXIT

# As many at a time as there are processors, and 4 GB of memory for each.
processors=$(nproc)
room=$(awk '/^MemAvailable/ { print int($2 / 4000000) }' /proc/meminfo)
RT_JOBS=$((room < 1 ? 1 : room < processors ? room : processors))
export RT_JOBS

# rt ci empties crates/*/out before it begins. What of the programs and of the library it has not
# built anew, where it fails or is interrupted, is put back from copies.
saved=$logs/saved
save() {
    local file
    for file in crates/*/out/{mte_{host,run},*_c.a}{,.unproved,.sources}; do
        [[ ! -f $file ]] || (mkdir -p "$saved/${file%/*}" && cp -p "$file" "$saved/$file")
    done
}
put_back() {
    local name file
    [[ -d $saved ]] || return 0
    while read -r name; do
        file=${name%.unproved} file=${file%.sources}
        [[ -e $file ]] || (mkdir -p "${name%/*}" && cp -p "$saved/$name" "$name")
    done < <(cd "$saved" && find . -type f -printf '%P\n' | LC_ALL=C sort -r)
}

# Cases of the suite, all or those of files, with options of pytest; what they wrote stays in a
# file.
run_cases() {
    "$python" -m pytest -n "$processors" "${@:2}" | tee "$logs/$1"
}

# How many cases of some parts passed, where none failed, and how many were skipped.
count_cases() {
    local log last passed=0 skipped=0
    for log in "${@/#/$logs/}"; do
        last=$(grep -aE '[0-9]+ (passed|skipped)' "$log" | tail -n 1)
        [[ ! $last =~ ([0-9]+)\ passed ]] || passed=$((passed + BASH_REMATCH[1]))
        [[ ! $last =~ ([0-9]+)\ skipped ]] || skipped=$((skipped + BASH_REMATCH[1]))
    done
    echo "$passed passed, 0 failed, $skipped skipped"
}

# Which commit is tried, and whether files differ from it; after the proofs also the sums of the
# programs. tools/release.sh reads this in the log of a gate.
say_commit() {
    local commit changes=none file
    commit=$(git rev-parse --verify --quiet HEAD 2>/dev/null || echo unknown)
    [[ -z $(git status --porcelain 2>/dev/null) ]] || changes=some
    echo "run.sh: commit $commit, changes $changes"
    for file in "$@"; do
        [[ ! -e $file ]] || sha256sum "$file"
    done
}

if [[ ${1:-} == --suite ]]; then
    for mark in crates/*/out/*.unproved; do
        if has_sum "$mark"; then
            echo "run.sh: built without proof: ${mark%.unproved}" >&2
        fi
    done
    run_cases suite -rs "${@:2}"
    count_cases suite
    exit
fi
# What needs no program takes seconds, and comes first: written files, the border to C, what
# theorems reach, the list of crates, the sentences and numbers of pages, style.
first=(tests/test_style.py tests/test_border.py tests/test_isa.py tests/test_cause_words.py
    tests/test_options.py tests/test_believe.py tests/test_crates.py tests/test_page_words.py)
say_commit
run_cases first "${first[@]}"
save
"$python" tools/gate_cost.py rt ci | tee "$logs/proofs"
run_cases suite -rs "${first[@]/#/--ignore=}"
say_commit crates/mte_{host,run}/out/mte_{host,run}
count_cases first proofs suite
