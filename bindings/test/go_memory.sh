#!/usr/bin/env bash
# memmove, memcpy and memset of the package for Go, as the texts generated/go/memory-*.s have them, beside what each has to
# give: every length up to 200 and some longer ones, at each distance of the two places up to 70, both ways, with the bytes
# around them.
#
# usage: bindings/test/go_memory.sh FOLDER      where the program is built
set -euo pipefail
here=$(cd -- "$(dirname -- "$(readlink -f -- "${BASH_SOURCE[0]}")")/../.." && pwd)
mkdir -p -- "$1"
try() { # processor, compiler, what runs the program
    sed -E 's/\b(memmove|memcpy|memset)\b/go_\1/g' "$here/generated/go/memory-$1.s" >"$folder/memory-$1.s"
    "$2" -O1 -std=c99 -Wall -Wextra -Werror -fno-builtin -static "$here/bindings/test/go_memory.c" "$folder/memory-$1.s" -o "$folder/memory-$1"
    "${@:3}" "$folder/memory-$1"
}
folder=$(cd -- "$1" && pwd)
for it in x86_64 aarch64; do
    if [ "$(uname -m)" = $it ]; then
        try $it cc
    elif command -v "$it-linux-gnu-gcc" >/dev/null && command -v "qemu-$it" >/dev/null; then
        try $it "$it-linux-gnu-gcc" "qemu-$it"
    fi
done
