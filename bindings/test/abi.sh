#!/usr/bin/env bash
# Whether bindings/c/rtp_wire.h is the ABI that abi-1.txt lists: the size and the alignment of each struct, the place,
# the size and the type of each field, each constant, and each function, as bindings/described reads them; layout.c
# compares their places with those of a compiler. Prints what differs; the status is then 1.
#
# usage: bindings/test/abi.sh [--write]      with --write: writes the list anew
#
# It takes pycparser: without it, it says so, and nothing is compared.
set -euo pipefail
here=$(cd -- "$(dirname -- "$0")" && pwd)
scratch=$(mktemp -d)
trap 'rm -rf -- "$scratch"' EXIT
list=$here/abi-$(sed -n 's/^#define RTPW_VERSION "\([0-9]*\)\..*/\1/p' "$here/../c/rtp_wire.h").txt
"$here/../described/make" --abi >"$scratch/list" || { [ $? -eq 3 ] && exit; }
if [ "${1-}" = --write ]; then
    cp -- "$scratch/list" "$list"
    exit
fi
differs=0
diff <(LC_ALL=C sort "$list") <(LC_ALL=C sort "$scratch/list") >"$scratch/diff" || differs=1
sed -n 's/^< */abi.sh: gone or changed: /p; s/^> */abi.sh: new: /p' "$scratch/diff" >&2
exit $differs
