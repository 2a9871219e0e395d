#!/usr/bin/env bash
# Packs what tools/install.sh installs as packages of Debian.
#     tools/deb.sh [--arm64] OUT [FOLDER]
#
#     tombolopan          programs, tenant-cc with the libraries of tenants (of C and C++, core and
#                         alloc of Rust), examples, completions
#     libtombolopan2      the shared library
#     libtombolopan-dev   headers, static library, file for pkg-config, manual pages of the calls
#     python3-tombolopan  the module for Python
#     tombolopan-doc      pages, all theorems (THEOREMS.md, by tools/believe.py --all), and the list
#                         of what is inside (tombolopan.spdx.json)
#
# OUT is the folder to write them into; their paths are printed. FOLDER is that of tools/install.sh.
# With --arm64 the first three are packed for that machine, of what tools/build.sh --arm64 has built
# (or FOLDER/arm64 has) beside what is built for this one.
# The version is that of the file VERSION, and until its tag (CONTRIBUTING.md) lower than it, with
# date and commit; where a program or library is built without proof it ends with ~unproved. Packed
# twice from the same files and commit, wherever the checkout is, packages have the same bytes.
# SOURCE_DATE_EPOCH is the date in place of the commit's; DEBFULLNAME and DEBEMAIL name who makes
# them. Needed: dpkg-dev, binutils, git; with --arm64 gcc-aarch64-linux-gnu.
set -euo pipefail
here=$(cd "$(dirname "$0")" && pwd)
if [[ ${1:-} == --help || ${1:-} == -h ]]; then
    sed -n '2,/^set/s/^# \{0,1\}//p' "$0"
    exit
fi
machine=() needed=(dpkg-deb dpkg-shlibdeps strip git)
if [[ ${1:-} == --arm64 ]]; then
    machine=(--arm64) needed+=(aarch64-linux-gnu-gcc)
    shift
fi
if [[ $# -lt 1 || $# -gt 2 || $1 == -* ]]; then
    echo "usage: deb.sh [--arm64] OUT [FOLDER] (--help)" >&2
    exit 2
fi
for tool in "${needed[@]}"; do
    command -v "$tool" >/dev/null || { echo "deb.sh: missing: $tool" >&2; exit 2; }
done
# Where what is built for arm64 is, in FOLDER or in the checkout.
find_arm64() {
    local name file
    for name in mte_host mte_run libtombolopan_c.a; do
        file=${name#lib}
        file=${1:-$here/../crates/${file%.a}/out}/arm64/$name
        if [[ ! -e $file ]]; then
            echo "deb.sh: not built for arm64: $name (tools/build.sh --arm64)" >&2
            exit 2
        fi
        foreign+=("$file")
    done
}

# Puts it in place of what is built for this machine, and marks it.
take_arm64() {
    local file usr=$work/usr marked=()
    for file in "${foreign[@]}"; do
        case $file in
            *.a) cp "$file" "$usr/lib/libtombolopan.a" ;;
            *) cp "$file" "$usr/bin/${file##*/}"; marked+=("../../bin/${file##*/}") ;;
        esac
    done
    PYTHONPATH=$here python3 -m arm64.shared "$usr/lib/libtombolopan.a" \
        "$usr/lib/libtombolopan.so.2"
    "$here/mark.py" --unproved "$usr/lib/libtombolopan.so.2" "$usr"/bin/mte_{host,run}
    (cd "$usr/share/tombolopan" && sha256sum "${marked[@]}" >unproved)
}

out=$1 foreign=()
shift
[[ ${#machine[@]} -eq 0 ]] || find_arm64 "$@"
work=$(mktemp -d)
trap 'rm -rf "$work"' EXIT
DESTDIR=$work "$here/install.sh" /usr "$@" >/dev/null
if [[ ${#foreign[@]} -gt 0 ]]; then
    take_arm64
else
    "$here/believe.py" --all >"$work/usr/share/doc/tombolopan/THEOREMS.md"
fi
"$here/pack.py" "${machine[@]}" "$work/usr" "$out"
