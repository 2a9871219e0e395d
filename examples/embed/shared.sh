#!/usr/bin/env bash
# Links the static library as a shared object, for Python and others: only its own calls (tb_*) are
# seen from outside.
#     shared.sh OUT.so [LIBRARY.a]
# Without LIBRARY.a it is crates/tombolopan_c/out/libtombolopan_c.a, which library.sh builds where
# it is older than the sources. In a prefix it is then a copy of the one that is installed.
# Needed to link: cc, and the toolchain's rt.
set -euo pipefail
here=$(dirname "$(readlink -f "$0")")
# shellcheck source=examples/command_line.sh
source "$here/../command_line.sh"
show_help "$0" "$@"
refuse_options 2 "$@"
[[ $# -ge 1 ]] || refuse "it needs OUT.so"
if [[ $# -eq 1 && ! -e $here/../../crates.txt ]]; then
    for file in "$here"/../../../../lib/{,*/}libtombolopan.so.2; do
        if [[ -e $file ]]; then
            cp -L "$file" "$1"
            exit
        fi
    done
    echo "shared.sh: libtombolopan.so.2 is not there (Debian: libtombolopan2)" >&2
    exit 2
fi
library=${2:-$("$here/library.sh")}
heap=$(dirname "$(rt doc | head -n 1)")/c/liblibc_c.a
calls=$(mktemp)
trap 'rm -f "$calls"' EXIT
echo '{ global: tb_*; local: *; };' >"$calls"
cc -shared -o "$1" -Wl,-soname,libtombolopan.so.2 -Wl,--version-script="$calls" -Wl,-z,defs \
    -Wl,--gc-sections -Wl,--whole-archive "$library" -Wl,--no-whole-archive "$heap"
