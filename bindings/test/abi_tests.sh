#!/usr/bin/env bash
# Whether bindings/test/abi.sh tells what is gone, new or changed in another header file than that of the list, and
# that its status is 1 then; of the same one it tells nothing.
#
# usage: bindings/test/abi_tests.sh
set -euo pipefail
here=$(cd -- "$(dirname -- "$0")" && pwd)
scratch=$(mktemp -d)
trap 'rm -rf -- "$scratch"' EXIT
fail() {
    echo "abi_tests.sh: $*" >&2
    exit 1
}
mkdir -p "$scratch"/{c,test}
cp "$here"/abi* "$scratch/test"
cp -r "$here/../described" "$scratch"
cp "$here/../c/rtp_wire.h" "$scratch/c"
"$scratch/test/abi.sh" 2>"$scratch/told" || fail "the same: $(cat "$scratch/told")"
! grep 'was left out' "$scratch/told" || exit 0
[ ! -s "$scratch/told" ] || fail 'what is told of the same'
sed -e 's/uint8_t id;/uint16_t id;/' -e '/RTPW_REFUSED/s/10,/17,/' -e '/rtpw_set_marker(/,/;/s/bool/uint8_t/' \
    -e 's/^uint32_t rtpw_version(void);/uint32_t rtpw_versions(void);/' -e '/define RTPW_CSRC_AT/s/12/16/' \
    "$here/../c/rtp_wire.h" >"$scratch/c/rtp_wire.h"
status=0
"$scratch/test/abi.sh" 2>"$scratch/told" || status=$?
[ $status -eq 1 ] || fail "another ABI passed: $status"
LC_ALL=C sort >"$scratch/expected" <<'END'
abi.sh: gone or changed: rtpw_data_element.id at 0, 1 bytes: uint8_t
abi.sh: gone or changed: rtpw_element.id at 24, 1 bytes: uint8_t
abi.sh: gone or changed: constant RTPW_CSRC_AT: 12
abi.sh: gone or changed: constant RTPW_REFUSED: 10
abi.sh: gone or changed: function int32_t rtpw_set_marker(uint8_t *, size_t, _Bool)
abi.sh: gone or changed: function uint32_t rtpw_version(void)
abi.sh: new: rtpw_data_element.id at 0, 2 bytes: uint16_t
abi.sh: new: rtpw_element.id at 24, 2 bytes: uint16_t
abi.sh: new: constant RTPW_CSRC_AT: 16
abi.sh: new: constant RTPW_REFUSED: 17
abi.sh: new: function int32_t rtpw_set_marker(uint8_t *, size_t, uint8_t)
abi.sh: new: function uint32_t rtpw_versions(void)
END
LC_ALL=C sort "$scratch/told" | diff "$scratch/expected" - >&2 || fail 'what is told of another ABI'
