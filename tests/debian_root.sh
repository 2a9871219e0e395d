#!/usr/bin/env bash
# Tries packages (tools/deb.sh) in a new root of Debian 12, and says what was seen and how long it
# took, on standard error.
#     tests/debian_root.sh MACHINE PACKAGES IMAGE [OLDER]
#
# MACHINE is amd64 or arm64, which runs under QEMU. IMAGE is a tenant that uses a freed chunk.
# PACKAGES is a folder: these for the machine are installed, tried and removed; then those of OLDER,
# another folder, are installed, and these over them. Removed they leave nothing. The root goes away
# at the end, and nothing of this machine changes: QEMU is registered in a namespace of users.
# TOMBOLOPAN_MIRROR is an archive in place of Debian's own. Exit status: 0 all was as it should be.
# Needed: the rights of root; mmdebstrap; for another machine qemu-user-static, Linux 6.7.
set -euo pipefail
mirror=${TOMBOLOPAN_MIRROR:-http://deb.debian.org/debian}
registered=/proc/sys/fs/binfmt_misc
ours=(libtombolopan2 libtombolopan-dev python3-tombolopan tombolopan tombolopan-doc)

leave() {
    echo "debian_root.sh: $1" >&2
    exit 1
}

# In the root: all files but those that a package manager keeps of its own work.
every_file() {
    find / -xdev \( -path /proc -o -path /sys -o -path /dev -o -path /tried -o -path /tmp \
        -o -path /var/cache -o -path /var/log -o -path /var/lib/apt -o -path /var/lib/dpkg \) \
        -prune -o -print | LC_ALL=C sort
}

add() {
    apt-get install -qq --no-install-recommends "$@" >/tried/log 2>&1 || {
        tail -n 20 /tried/log >&2
        leave "not installed: $*"
    }
}

remove() {
    apt-get purge -qq "${ours[@]}" >/dev/null 2>&1
    every_file | diff /tried/before - >/tried/left || leave "removed, they leave: $(</tried/left)"
    echo "removed: nothing is left"
}

# The programs, the library by Python, and what dpkg says of the files.
use() {
    local said status=0
    mte_run --version
    said=$(mte_run /tried/image.elf 2>&1 >/dev/null) || status=$?
    [[ $status -eq 129 && $said == *"Cause: [MTE]: Use After Free"* ]] ||
        leave "mte_run ended with $status: $said"
    cd /usr/share/tombolopan/examples
    mte_host --frames 11 hi.script hi.elf >/tried/report
    python3 -c 'import sys, tombolopan as it
script, image = (open(name, "rb").read() for name in ("hi.script", "hi.elf"))
sys.stdout.buffer.write(it.session(11, script, [image]))' | cmp - /tried/report
    cd /
    dpkg --audit
    said=$(dpkg --verify "${ours[@]}")
    [[ -z $said ]] || leave "files differ from their packages: $said"
    dpkg-query --show --showformat '${Conffiles}' "${ours[@]}" | cmp - /dev/null
}

try_in_root() {
    local file start=$SECONDS
    export DEBIAN_FRONTEND=noninteractive LC_ALL=C.UTF-8
    add python3
    every_file >/tried/before
    add /tried/packages/*.deb
    use
    times >/tried/times
    echo "installed, and a first explanation: $((SECONDS - start)) s, of the processor" \
        "$(awk -F '[ms ]+' 'NR == 2 { print int($1 * 60 + $2 + $3 * 60 + $4) }' /tried/times) s"
    cat /tried/report
    remove
    [[ -d /tried/older ]] || return 0
    add /tried/older/*.deb
    use
    add /tried/packages/*.deb
    use
    for file in /tried/packages/*.deb; do
        dpkg-deb --contents "$file" | awk '{ print $6 }'
    done | sed 's/^\.//; s,/$,,' | LC_ALL=C sort -u >/tried/names
    every_file | comm -13 /tried/before - | comm -23 - /tried/names >/tried/left
    ! grep -v __pycache__ /tried/left >&2 || leave "that is left of the older packages"
    echo "installed over the older ones: nothing of those is left"
    remove
}

# Copies the packages of a folder that the machine takes.
copy_packages() {
    local file
    mkdir -p "$2"
    for file in "$1"/*.deb; do
        case $(dpkg-deb --field "$file" Architecture) in
            "$machine" | all) cp "$file" "$2" ;;
        esac
    done
}

# Copies what is tried into the root, and runs this script there.
try_outside() {
    local tried=$1/tried
    copy_packages "$packages" "$tried/packages"
    [[ -z $older ]] || copy_packages "$older" "$tried/older"
    cp "$image" "$tried/image.elf"
    cp "$0" "$tried/script"
    chroot "$1" /bin/bash /tried/script --in-root
}

# Runs a command in a namespace of users in which programs of arm64 run by QEMU.
with_qemu() {
    # shellcheck disable=SC2016
    coproc inner { exec unshare --user --mount bash -c 'echo ready
        read -r _
        mount -t binfmt_misc none "$1"
        cat /usr/lib/binfmt.d/qemu-aarch64.conf >"$1/register"
        exec "${@:2}" >&2 </dev/null' bash "$registered" "$@"; }
    # shellcheck disable=SC2154
    local child=$inner_PID
    read -r _ <&"${inner[0]}"
    echo "0 0 65536" >"/proc/$child/uid_map"
    echo "0 0 65536" >"/proc/$child/gid_map"
    echo go >&"${inner[1]}"
    wait "$child"
}

case ${1:-} in
    --help | -h) sed -n '2,/^set/s/^# \{0,1\}//p' "$0"; exit ;;
    --in-root) try_in_root; exit ;;
    --outside) machine=$2 packages=$3 image=$4 older=$5; try_outside "$6"; exit ;;
esac
[[ $# -eq 3 || $# -eq 4 ]] || leave "usage: debian_root.sh MACHINE PACKAGES IMAGE [OLDER] (--help)"
here=$(realpath "$0")
words=("$1" "$(realpath "$2")" "$(realpath "$3")" "${4:+$(realpath "${4:-}")}")
make=(mmdebstrap --quiet --mode=root --variant=apt "--architectures=$1" --skip=check/qemu
    "--customize-hook=$(printf '%q ' "$here" --outside "${words[@]}")\"\$1\"" bookworm /dev/null
    "$mirror")
if [[ $1 == "$(dpkg --print-architecture)" || -e $registered/qemu-aarch64 ]]; then
    "${make[@]}"
else
    with_qemu "${make[@]}"
fi
