#!/usr/bin/env bash
# Makes mte_run as a WebAssembly module, and a page of one file with it inside that any browser with
# memories of 64 bits opens from disk.
#     tools/wasm.sh [--unproved] OUT
#     tools/wasm.sh [--unproved] [--source FILE].. --with IMAGE INPUT OUT.html [-- OPTION..]
#
# OUT is a folder; it gets mte_run.wasm and tombolopan.html. The module is compiled from the LLVM
# module of the proved build of this checkout where there is one, else of one without proof: the
# page says so, and so does --version. With --with the page has a run inside: that program on that
# input (`-` for none), with options of mte_run, and with source files that stacks lead to.
# Needed: rt, clang, lld.
set -euo pipefail
here=$(cd "$(dirname "$0")" && pwd)
case ${1:-} in
    --help | -h) sed -n '2,/^set/s/^# \{0,1\}//p' "$0"; exit ;;
esac
missing=
for tool in rt clang ld.lld python3; do
    command -v "$tool" >/dev/null || missing="$missing $tool"
done
if [[ -n $missing ]]; then
    echo "wasm.sh: missing:$missing" >&2
    exit 2
fi
PYTHONPATH=$here exec python3 -m wasm.command "$@"
