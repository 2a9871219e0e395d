#!/usr/bin/env bash
# Installs the Debian packages of packages.txt that are missing, where apt-get may; else names them.
set -euo pipefail
here=$(cd "$(dirname "$0")" && pwd)
missing=()
while read -r package _; do
    [[ -z $package || $package == \#* ]] && continue
    status=$(dpkg-query -W -f '${db:Status-Status}' "$package" 2> /dev/null || true)
    [[ $status == installed ]] || missing+=("$package")
done < "$here/packages.txt"
[[ ${#missing[@]} -eq 0 ]] && exit
if [[ $(id -u) -ne 0 ]] || ! command -v apt-get > /dev/null; then
    echo "install.sh: missing, so that some cases are skipped: ${missing[*]}" >&2
    exit
fi
echo "install.sh: installing ${missing[*]}" >&2
export DEBIAN_FRONTEND=noninteractive
apt-get update -qq >&2
apt-get install -y -qq --no-install-recommends "${missing[@]}" > /dev/null
