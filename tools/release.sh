#!/usr/bin/env bash
# Makes all files of a release, and prints a table of their names, bytes and sums.
#     tools/release.sh --gate LOG [--key PRIVATE] OUT
#     tools/release.sh --dry-run [--gate LOG] [--key PRIVATE] [--built FOLDER] OUT
#
# OUT is a folder that is not there yet. It gets the sources of the commit; the packages of Debian
# (tools/deb.sh, with and without --arm64; that of the pages has all theorems); the wheel; the page
# that runs in a browser; the golden steps; the list of what is inside (SPDX); the log of the gate;
# a statement of how they were made (in-toto, in an envelope of DSSE); and SHA256SUMS. Made twice,
# they have the same bytes.
#     --gate LOG      what tests/run.sh wrote on this commit: `tests/run.sh | tee LOG`
#     --key PRIVATE   the key that signs the statement (examples/many/mte_verdict has how to make
#                     one); without it the envelope has no signature
#     --dry-run       makes what needs no proof of what is built, proved or not, with 860 golden
#                     steps, within five minutes; says what a release would be refused for
#     --built FOLDER  has what was built elsewhere, as for tools/install.sh, and may have
#                     tombolopan.html
# A release is refused where files differ from the commit or are not git's; where the commit has no
# tag of the file VERSION, or CHANGELOG.md no day of it; where the log has no counts, a failure,
# another commit or other programs; where something is missing or built without proof (for arm64:
# not compiled of the proved build), or says of itself another version, commit or toolchain. Exit
# status: 0 made; 1 refused; 2 not made.
# Needed: what tools/deb.sh, tools/python_wheel.py and tools/wasm.sh need.
set -euo pipefail
here=$(cd "$(dirname "$0")" && pwd)
case ${1:-} in
    --help | -h) sed -n '2,/^set/s/^# \{0,1\}//p' "$0"; exit ;;
esac
needed=(rt cc git dpkg-deb dpkg-shlibdeps strip objcopy)
# Of a trial some files are left out.
[[ " $* " == *" --dry-run "* ]] || needed+=(aarch64-linux-gnu-gcc clang ld.lld)
for tool in "${needed[@]}"; do
    command -v "$tool" >/dev/null || { echo "release.sh: missing: $tool" >&2; exit 2; }
done
PYTHONPATH=$here exec python3 -m packing.command "$@"
