#!/usr/bin/env bash
# Writes the packets of the captures into a folder, a file each, as fuzzers take them.
#
# usage: bindings/test/inputs.sh FOLDER
set -euo pipefail
captures=$(cd -- "$(dirname -- "$0")/../../captures" && pwd)
mkdir -p -- "$1"
count=0
while read -r line; do
    count=$((count + 1))
    # shellcheck disable=SC2001,SC2059
    printf "$(sed 's/../\\x&/g' <<<"$line")" >"$1/$count"
done < <(cat -- "$captures"/*.lines | grep -E '^[0-9A-Fa-f]+$')
