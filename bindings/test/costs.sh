#!/usr/bin/env bash
# Prints the tables of docs/COSTS.md of what each call of the library for C costs: nanoseconds, and instructions, which
# valgrind's callgrind counts. Each function of the header file has to be measured; the first one leaves out those of
# fewer than 16 instructions, and those for many, of which the second one has what they take for each of 1, 8 and 32, or
# of 1, 3 and 32 receivers of a packet.
#
# usage: bindings/test/costs.sh [CALLS]      of each function in each of nine rounds, by default a million
set -euo pipefail
cd -- "$(dirname -- "$0")/../.."
scratch=$(mktemp -d)
trap 'rm -rf -- "$scratch"' EXIT
cc -std=c99 -O2 -Wall -Wextra -Wno-unused-result -I bindings/c bindings/test/costs.c "generated/rtp_wire-Linux-$(uname -m).s" \
    -o "$scratch/costs"
calls=${1:-1000000}
# What the program prints, and beside each the instructions of a call, of which callgrind sees 900, and of those that
# the program prepares things by a few more.
measure() { # arguments of the program
    "$scratch/costs" "$calls" "$@" >"$scratch/nanoseconds"
    valgrind --tool=callgrind --callgrind-out-file="$scratch/counted" "$scratch/costs" 100 "$@" >/dev/null 2>&1
    callgrind_annotate --inclusive=yes --threshold=100 "$scratch/counted" | tr -d , |
        sed -nE 's/^ *([0-9]+) .*:(rtpw_[a-z0-9_]+).*/\2 \1/p' >"$scratch/instructions"
    while read -r name nanoseconds; do
        echo "$name $nanoseconds $(awk -v name="$name" '$1 == name { print $2 / 900; exit }' "$scratch/instructions")"
    done <"$scratch/nanoseconds"
}
measure >"$scratch/all"
sed -nE 's/^function .*\<(rtpw_[a-z0-9_]+)\(.*/\1/p' bindings/test/abi-1.txt | sort >"$scratch/declared"
cut -d' ' -f1 "$scratch/all" | sort | diff "$scratch/declared" - >&2 || {
    echo 'costs.sh: not the functions of the header file' >&2
    exit 1
}
echo '```'
printf '%-30s %7s %13s\n' '' ns instructions
grep -v -e _many -e rtpw_write_headers "$scratch/all" |
    awk '$3 == "" || $3 >= 15.5 { printf "%-30s %7s %13s\n", $1, $2, $3 == "" ? "?" : int($3 + 0.5) }'
echo '```'
for count in 1 3 8 32; do
    measure "$count" | awk -v count="$count" '
        count != ($1 == "rtpw_write_headers" ? 8 : 3) { print $1, count, $2 / count, $3 / count }'
done >"$scratch/many"
printf '\n%s\n\n```\n' 'For each datagram, number or receiver of so many in one call:'
printf '%-24s %5s %7s %13s\n' 'for each' of ns instructions
sort -s -k1,1 "$scratch/many" | awk '{ printf "%-24s %5s %7.1f %13d\n", $1, $2, $3, $4 + 0.5 }'
echo '```'
