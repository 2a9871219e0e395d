#!/usr/bin/env bash
# Builds mte_host, mte_run, the library for C, and the libraries of tenants: those of C
# and C++, and core and alloc of Rust.
#     tools/build.sh [--unproved] [--arm64] [--only NAME] [--jobs N] [PREFIX]
#
# What is built from the sources that are there stays: their sum is kept (sources.sh). Programs and
# the library are in crates/*/out, the libraries of tenants in examples/libc/out. Programs and the
# library say of which commit they are (tools/mark.py). With a PREFIX all of it is installed there
# (tools/install.sh). It says of how many crates or steps how many are done.
#     --unproved   builds without proof, in minutes. Beside each such file is NAME.unproved, with
#                  its sum. What is proved of these sources stays as it is.
#     --arm64      programs and the library for Linux on arm64, in crates/*/out/arm64, compiled from
#                  the LLVM module of the proved build where mte_run is proved here, else of one
#                  without proof. That step is not proved, so these are marked as without proof.
#     --only NAME  this one alone: a program, libtombolopan_c.a, programs for these four, or tenants
#                  for the libraries of tenants
#     --jobs N     how many are built at a time without proof (as processors and memory allow)
set -euo pipefail
here=$(cd "$(dirname "$0")" && pwd)
# shellcheck source-path=SCRIPTDIR
source "$here/sources.sh"
top=$(cd "$here/.." && pwd)
crates=$top/crates
libc=$top/examples/libc
every=(mte_host libtombolopan_c.a mte_run)
# The crates of the library for C, as tools/unproved.py has them.
library=(tombolopan_c explain_c)

leave() {
    echo "build.sh: $1" >&2
    exit 2
}

only='' proof=yes jobs='' prefix='' machine=''
while [[ $# -gt 0 ]]; do
    case $1 in
        --help | -h) sed -n '2,/^set/s/^# \{0,1\}//p' "$0"; exit ;;
        --unproved) proof=no ;;
        --arm64) machine=arm64/ ;;
        --only) only=${2:-}; shift ;;
        --jobs) jobs=${2:-}; shift ;;
        -*) leave "$1 is no option (--help)" ;;
        *) [[ -z $prefix ]] || leave "there is one PREFIX"; prefix=$1 ;;
    esac
    shift
done
[[ -z $only || " ${every[*]} programs tenants " == *" $only "* ]] ||
    leave "$only is nothing to build"
[[ -z $jobs || $jobs =~ ^[1-9][0-9]?$ ]] || leave "--jobs takes a number"
if [[ -n $machine ]]; then
    [[ -z $prefix && $only != tenants ]] || leave "--arm64 has no PREFIX and no tenants"
    [[ -n $only ]] || only=programs
    command -v aarch64-linux-gnu-gcc >/dev/null || leave "missing: gcc-aarch64-linux-gnu (Debian)"
fi
if [[ $only != tenants ]]; then
    command -v rt >/dev/null || leave "rt, the toolchain, is not there"
    command -v objcopy >/dev/null || leave "missing: binutils (Debian)"
fi

# The place of a program or of the library.
place() {
    local crate=${1#lib}
    echo "$crates/${crate%.a}/out/$machine$1"
}

# Whether it is marked as built without proof.
is_unproved() {
    has_sum "$(place "$1").unproved"
}

# Whether it is there, of these sources, and proved where that is wanted; for arm64, whether it is
# of the proved build where that is there.
is_built() {
    local file
    file=$(place "$1")
    is_current "$top" "$file" || return 1
    [[ $proof == yes ]] || return 0
    if [[ -z $machine ]]; then
        if is_unproved "$1"; then return 1; fi
    elif [[ ! -e $crates/mte_run/out/mte_run.unproved ]]; then
        grep -q 'the proved build' "$file.unproved"
    fi
}

say() {
    echo "build.sh: $1" >&2
}

# Of the crates that a program or the library is made from, the lowest first.
crates_of() {
    local crate=${1#lib}
    tac "$top/crates.txt" | awk -v RS='\n' -v FS='[ :]+' -v name="${crate%.a}" '
        BEGIN { is_below[name] = 1 }
        /^[a-z]/ && is_below[$1] { print $1; for (at = 2; at <= NF; at++) is_below[$at] = 1 }' | tac
}

# How far a build is, by the last crate or step that its lines name: "38 of 61, a64_step".
progress() {
    local crate at
    crate=$(grep -ao 'jobs [0-9]* for [a-z0-9_]*' "$2" | tail -n 1 || true)
    if [[ -n $crate ]]; then
        crate=${crate/*for /}
        at=$(crates_of "$1" | grep -nx "$crate" | cut -d : -f 1 || true)
        echo "${at:-0} of $(crates_of "$1" | wc -l), $crate"
    else
        grep -ao '^[0-9]* of [0-9]*, .*' "$2" | tail -n 1 || true
    fi
}

# Runs a command whose lines go to a file; says how far it is, and each half minute how long it
# runs.
watched() {
    local what=$1 start=$SECONDS log last now passed seen=''
    shift
    log=$(mktemp)
    # In a process group of its own, which ends with this one.
    set -m
    "$@" >"$log" 2>&1 &
    local child=$!
    set +m
    # shellcheck disable=SC2064
    trap "kill -- -$child 2>/dev/null || true; rm -f '$log'" EXIT
    last=$start
    while kill -0 "$child" 2>/dev/null; do
        sleep 0.2
        now=$(progress "$what" "$log")
        passed=$((SECONDS - start))
        if [[ $now != "$seen" ]] || ((SECONDS - last >= 30)); then
            say "$what: ${now:+$now, }$((passed / 60)) min $((passed % 60)) s"
            seen=$now last=$SECONDS
        fi
    done
    if ! wait "$child"; then
        tail -n 20 "$log" >&2
        say "$what failed"
        return 1
    fi
}

# The library of its crates: over the libraries below them where those are proved already, as by the
# gate, since `rt lib` proves all of them once more.
prove_library() {
    local crate
    if ! "$here/static_library.py" "$1"; then
        for crate in "${library[@]}"; do
            (cd "$crates/$crate" && rt lib --jobs 1) || return 1
        done
        "$here/static_library.py" --join "$1"
    fi
}

# A program is run once, with words that it takes.
prove() {
    local file
    file=$(place "$1")
    if [[ $1 == *.a ]]; then
        prove_library "$file"
    else
        (cd "${file%/out/*}" && rt run -- --help </dev/null)
    fi
    "$here/mark.py" "$file"
    rm -f "$file.unproved"
    note_sources "$file" "$sources"
}

# Builds it without proof beside its place, marks it, and puts it there.
unproved() {
    local file crate=${1#lib} words=() said
    file=$(place "$1")
    mkdir -p "${file%/*}"
    said="Built by tools/build.sh --unproved: nothing is proved of the file with this sum."
    if [[ -z $machine ]]; then
        "$here/unproved.py" "$top" "$file.new" "${crate%.a}"
    else
        [[ $proof == yes ]] || words=(--unproved)
        PYTHONPATH=$here python3 -m arm64.command "${words[@]}" "$top" "$file.new" "${crate%.a}" |
            tee "$file.said"
        said="For arm64, by a step without proof, $(tail -n 1 "$file.said")."
        rm "$file.said"
    fi
    "$here/mark.py" --unproved "$file.new"
    {
        echo "# $said"
        (cd "${file%/*}" && sha256sum "$1.new") | sed "s/$1\.new\$/$1/"
    } >"$file.unproved"
    mv "$file.new" "$file"
    note_sources "$file" "$sources"
}

build() {
    local way=prove how=proved
    if is_built "$1"; then
        how='was there'
        if is_unproved "$1"; then how+=', built without proof'; fi
        say "$1: $how"
        return
    fi
    [[ $proof == yes && -z $machine ]] || { way=unproved; how='built without proof'; }
    watched "$1" "$way" "$1"
    say "$1: $how"
}

# The C library of tenants, and the C++ library where GNU's assembler is there for it; without them
# all else is of use.
build_libc() {
    local sources kinds=() last=libc.a
    if command -v aarch64-linux-gnu-as >/dev/null; then
        kinds=(--c++) last=libc++.a
    else
        say "without the C++ library of tenants: it needs binutils-aarch64-linux-gnu (Debian)"
    fi
    sources=$(cd "$libc" && find src src_cxx include arch build.py cxx_library.py -type f -print0 |
        LC_ALL=C sort -z |
        xargs -0 sha256sum | sha256sum)
    if [[ -e $libc/out/lib/$last && $sources == "$(cat "$libc/out/sum" 2>/dev/null)" ]]; then
        say "the C library of tenants: was there"
    elif (watched "the C library of tenants" "$libc/build.py" "${kinds[@]}" --jobs "$1"); then
        echo "$sources" >"$libc/out/sum"
        say "the C library of tenants: built"
    elif [[ $only == tenants ]]; then
        exit 1
    else
        say "without the C library of tenants there is no tenant-cc"
    fi
}

# core and alloc of Rust, beside the C library, where the compiler and their source are there.
build_rust() {
    local made=$libc/out/rust/version before root
    root=$("${RUSTC:-/usr/bin/rustc}" --print sysroot 2>/dev/null || true)
    export TENANT_LIBRARY=$libc/out TENANT_OUT=$libc/out
    if [[ ! -e $root/lib/rustlib/src/rust/library/core/src/lib.rs ]]; then
        say "without core and alloc of tenants in Rust: they need rustc and rust-src (Debian)"
        return
    fi
    before=$(cat "$made" 2>/dev/null || true)
    if ! (watched "core and alloc of Rust" "$top/examples/rust/build.sh"); then
        [[ $only != tenants ]] || exit 1
    elif [[ $before == "$(cat "$made")" ]]; then
        say "core and alloc of Rust: were there"
    else
        say "core and alloc of Rust: built"
    fi
}

processors=${jobs:-$(nproc)}
if [[ -z $jobs ]]; then
    # 3 GB of memory for each.
    room=$(awk '/^MemAvailable/ { print int($2 / 3000000) }' /proc/meminfo)
    jobs=$((room < 1 ? 1 : room < processors ? room : processors))
fi
wanted=("${every[@]}")
[[ -z $only || $only == programs ]] || wanted=("$only")
if [[ $proof == yes && -z $machine && $only != tenants ]]; then
    say "proves what is not built yet: README.md, \"Build and check\", has the time"
fi
if [[ $only != tenants ]]; then
    sources=$(sum_of_sources "$top")
    # Proofs take turns, since each uses what those before it have proved.
    [[ $proof == no || -n $machine ]] || jobs=1
    # shellcheck disable=SC2046
    trap 'kill $(jobs -p) 2>/dev/null || true' EXIT
    running=0
    for ((at = ${#wanted[@]} - 1; at >= 0; at--)); do
        build "${wanted[at]}" &
        running=$((running + 1))
        if ((running >= jobs)); then
            wait -n
            running=$((running - 1))
        fi
    done
    while ((running > 0)); do
        wait -n
        running=$((running - 1))
    done
fi
if [[ -z $only || $only == tenants ]]; then
    build_libc "$processors"
    build_rust
fi
[[ -z $prefix ]] || "$here/install.sh" "$prefix"
