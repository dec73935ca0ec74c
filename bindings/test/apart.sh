#!/usr/bin/env bash
# Builds bindings/c/test/apart.c with generated/apart.c as this machine's compiler makes it, in front of the proved
# functions of the text.
#
# usage: bindings/test/apart.sh PROGRAM
set -euo pipefail
top=$(cd -- "$(dirname -- "$(readlink -f -- "${BASH_SOURCE[0]}")")/../.." && pwd)
program=$1
# shellcheck source=generated/heads.sh
. "$top/generated/heads.sh"
# shellcheck source=generated/anew.sh
. "$top/generated/anew.sh"
proved=$(mktemp --suffix .s)
trap 'rm -f -- "$proved"' EXIT
awk -v end="$not_proved" '$0 == end { exit } { print }' "$(text_of rtp_wire "Linux-$(uname -m)")" >"$proved"
for name in $(in_front); do printf '\t.globl\trtp_proved_%s\n' "$name"; done >>"$proved"
mkdir -p -- "$(dirname -- "$program")"
cc -std=gnu99 -O2 -Wall -Wextra -Werror "$top/generated/apart.c" "$top/bindings/c/test/apart.c" "$proved" -o "$program"
