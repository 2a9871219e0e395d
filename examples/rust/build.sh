#!/usr/bin/env bash
# Builds tenants in Rust: tenant.rs and each PROGRAM (NAME.rs, from where it is run or of this
# folder), as out/NAME.elf. Without a PROGRAM it writes where core and alloc are.
#     build.sh [PROGRAM...]
# The target is aarch64-unknown-none-softfloat. Its core is not among Debian's packages, so core and
# alloc are built from their source, in a minute, for which the compiler has to allow itself what is
# unstable (RUSTC_BOOTSTRAP=1). They are those of the folder `rust` of the C library
# (../libc/out, tools/build.sh builds them there) where this compiler has made them, else those of
# out/rust, where they are built once. `-C passes=loweratomic` makes plain accesses of atomic ones.
# memcpy and its kin, and the arithmetic of f32 and f64, are those of the C library.
# Needed (Debian): rustc, lld, and rust-src where core and alloc are built. The variable RUSTC names
# another compiler than /usr/bin/rustc, TENANT_LIBRARY another library than ../libc/out, and
# TENANT_OUT another folder than out for what is built.
set -euo pipefail
here=$(cd "$(dirname "$0")" && pwd)
# shellcheck source=examples/command_line.sh
source "$here/../command_line.sh"
show_help "$0" "$@"
refuse_options 1000 "$@"
rustc=${RUSTC:-/usr/bin/rustc}
library=$(realpath -m "${TENANT_LIBRARY:-$here/../libc/out}")
out=$(realpath -m "${TENANT_OUT:-$here/out}")
target=aarch64-unknown-none-softfloat
flags=(--edition 2021 --target "$target" -C opt-level=2 -C panic=abort -C passes=loweratomic
    -C relocation-model=static -C force-frame-pointers=yes)
export RUSTC_BOOTSTRAP=1

leave() {
    echo "build.sh: $1" >&2
    exit 2
}

# Makes a folder that is written into.
make_folder() {
    mkdir -p "$1" 2>/dev/null || true
    [[ -w $1 ]] || leave "$1 may not be written to: the variable TENANT_OUT names another folder"
}

[[ -x $rustc ]] || leave "$rustc is not there (Debian: rustc)"
# What core and alloc are made by; a compiler reads those that it has made.
version="$("$rustc" -vV) ${flags[*]}"

# Builds a crate into a folder: its name, and what rustc takes.
crate() { "$rustc" --crate-type rlib --crate-name "$2" "${flags[@]}" --out-dir "$1" "${@:3}"; }

# What the compiler calls by itself comes at the link, so its crate of that has nothing.
build_sysroot() {
    local source made=$1/lib/rustlib/$target/lib kept=(--cap-lints allow)
    kept+=(-Z force-unstable-if-unmarked -L "$made" --remap-path-prefix "$made=")
    source=$("$rustc" --print sysroot)/lib/rustlib/src/rust/library
    [[ -f $source/core/src/lib.rs ]] || leave "$source is not there (Debian: rust-src)"
    make_folder "$made"
    rm -f "$1/version"
    echo "1 of 3, builds core, once" >&2
    crate "$made" core "${kept[@]}" "$source/core/src/lib.rs"
    echo "2 of 3, builds compiler_builtins" >&2
    printf '#![%s]\n' 'feature(compiler_builtins)' compiler_builtins no_std >"$made/nothing.rs"
    crate "$made" compiler_builtins "${kept[@]}" "$made/nothing.rs"
    rm "$made/nothing.rs"
    echo "3 of 3, builds alloc" >&2
    crate "$made" alloc "${kept[@]}" "$source/alloc/src/lib.rs"
    echo "$version" >"$1/version"
}

sysroot=$library/rust
[[ $version == "$(cat "$sysroot/version" 2>/dev/null)" ]] || sysroot=$out/rust
[[ $version == "$(cat "$sysroot/version" 2>/dev/null)" ]] || build_sysroot "$sysroot"
if [[ $# -eq 0 ]]; then
    echo "$sysroot"
    exit
fi
command -v ld.lld >/dev/null || leave "ld.lld is not there (Debian: lld)"
[[ -f $library/lib/libc.a ]] ||
    leave "$library/lib/libc.a is not there: build it by ../libc/build.py"
make_folder "$out"
flags+=(--sysroot "$sysroot" -L "$out")
programs=()
for program in "$@"; do
    [[ ! -e $program ]] || program=$(realpath "$program")
    programs+=("$program")
done
cd "$here"
crate "$out" tenant -C debuginfo=2 tenant.rs
for program in "${programs[@]}"; do
    image=$out/$(basename "$program" .rs).elf
    "$rustc" --crate-type bin "${flags[@]}" -C debuginfo=2 -C linker=ld.lld \
        -C linker-flavor=ld.lld -C link-args="--gc-sections -z norelro $library/lib/libc.a" \
        --extern tenant="$out/libtenant.rlib" -o "$image" "$program"
    "$here/../libc/words.py" "$image"
done
