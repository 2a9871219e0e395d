#!/usr/bin/env bash
# Runs cargo for tenants, in the folder of a package.
#     cargo.sh build --release
#     cargo.sh run --release < INPUT
# The packages that it names are those of Debian (librust-*-dev, in /usr/share/cargo/registry), as
# far as they do without `std`. core and alloc are those that build.sh finds or makes; a program is
# run by mte_run. It has what tenant.rs says: see records/.
# Needed (Debian): what build.sh needs, cargo. The variable CARGO names another cargo than
# /usr/bin/cargo, TENANT_ALONE another mte_run; RUSTC, TENANT_LIBRARY and TENANT_OUT are build.sh's.
set -euo pipefail
here=$(cd "$(dirname "${BASH_SOURCE[0]}")" && pwd)
# shellcheck source=examples/command_line.sh
source "$here/../command_line.sh"
show_help "$0" "$@"
[[ ${1:-} != -* ]] || refuse "a command of cargo comes first, not $1"
cargo=${CARGO:-/usr/bin/cargo}
alone=${TENANT_ALONE:-$here/../../crates/mte_run/out/mte_run}
library=$(realpath -m "${TENANT_LIBRARY:-$here/../libc/out}")/lib/libc.a
out=$(realpath -m "${TENANT_OUT:-$here/out}")

leave() {
    echo "cargo.sh: $1" >&2
    exit 2
}

[[ -x $cargo ]] || leave "$cargo is not there (Debian: cargo)"
command -v ld.lld >/dev/null || leave "ld.lld is not there (Debian: lld)"
[[ -f $library ]] || leave "$library is not there: build it by ../libc/build.py"
registry=/usr/share/cargo/registry
[[ -d $registry ]] || echo "cargo.sh: $registry is not there: librust-*-dev have crates" >&2
sysroot=$("$here/build.sh")
flags=("--sysroot=$sysroot" -Cpasses=loweratomic -Crelocation-model=static -Cpanic=abort
    -Cforce-frame-pointers=yes -Clinker=ld.lld -Clinker-flavor=ld.lld
    "-Clink-args=--gc-sections -z norelro $library")
# cargo splits these at the character 31.
encoded=$(printf '%s\x1f' "${flags[@]}")
export RUSTC_BOOTSTRAP=1 RUSTC=${RUSTC:-/usr/bin/rustc}
export CARGO_ENCODED_RUSTFLAGS=${encoded%?}
export CARGO_BUILD_TARGET=aarch64-unknown-none-softfloat CARGO_NET_OFFLINE=true
export CARGO_TARGET_DIR=${CARGO_TARGET_DIR:-$out/cargo}
export CARGO_TARGET_AARCH64_UNKNOWN_NONE_SOFTFLOAT_RUNNER="$alone --input /dev/stdin"
exec "$cargo" --config 'source.crates-io.replace-with="debian"' \
    --config "source.debian.directory=\"$registry\"" "$@"
