#!/usr/bin/env bash
# Tests the texts of the library for C, and of the program, for systems other than this one, as far as a Linux on x86-64
# can: Windows' under Wine, macOS's from the bytes of their Mach-O objects, and those for RISC-V and ARM emulated. Each text
# of the library has to pass the C tests, the hostile calls between pages that may not be touched and the captures, to give
# back whole registers, and to give one digest with all others of what every function answers and writes in more than a
# million calls of random arguments. The program has to give what is due of the captures, and of a line that is none.
# bindings/js/test/mutants.py counts how many changes of constants such calls and the C tests see.
#
# usage: bindings/test/systems.sh [SYSTEM..]        SYSTEM as in generated/heads.sh; by default all
#
# ROUNDS says how many rounds of such calls there are: 1600, with which all takes about eleven minutes of a slow processor.
#
# It takes cc and clang; mingw and Wine for Windows, qemu-user and the cross compilers of Debian for the others, python3 with
# pycparser for the digest. What isn't there is named, and what needs it is left out.
set -euo pipefail
here=$(cd -- "$(dirname -- "$(readlink -f -- "${BASH_SOURCE[0]}")")" && pwd)
top=$(cd -- "$here/../.." && pwd)
scratch=$(mktemp -d)
export WINEPREFIX=$scratch/wine WINEDEBUG=-all WINEDLLOVERRIDES='mscoree,mshtml=' WINEARCH=win64
trap '[ ! -e "$WINEPREFIX" ] || wine_server -k; rm -rf -- "$scratch" 2>/dev/null || { sleep 4 && rm -rf -- "$scratch"; }' EXIT
cd -- "$top"
# shellcheck source=generated/heads.sh
. generated/heads.sh
said() { printf '%4d s  %s\n' "$SECONDS" "$*"; }
fail() {
    echo "systems.sh: $*" >&2
    exit 1
}
has() { command -v "$1" >/dev/null; }
# So many rounds of hostile are 1.7 million calls, which take seconds of a processor here, and emulated a minute or two.
rounds=${ROUNDS:-1600}
tests='packets blocks padding faults headers statuses receivers reception corners peers standard datagrams routed alone apart'

# What each system takes: the compiler that links, clang's name of the system, what runs the program, and what else is needed.
declare -A linker=(
    [Linux-x86_64]=cc [Linux-aarch64]=aarch64-linux-gnu-gcc [Linux-riscv64]=riscv64-linux-gnu-gcc
    [Darwin-arm64]=aarch64-linux-gnu-gcc [Darwin-x86_64]=cc [Windows-x86_64]=x86_64-w64-mingw32-gcc
)
declare -A program=(
    [Linux-x86_64]=x86_64-linux-gnu [Linux-aarch64]=aarch64-linux-gnu [Linux-riscv64]=riscv64-linux-gnu
    [Darwin-arm64]=aarch64-linux-gnu [Darwin-x86_64]=x86_64-linux-gnu [Windows-x86_64]=x86_64-w64-mingw32
)
declare -A emulator=(
    [Linux-x86_64]='' [Linux-aarch64]=qemu-aarch64 [Linux-riscv64]=qemu-riscv64
    [Darwin-arm64]=qemu-aarch64 [Darwin-x86_64]='' [Windows-x86_64]=wine
)
# Wine's server goes seconds after the last program, and one that begins just then may end without a word: so it is kept.
wine_server() {
    local it
    for it in wineserver /usr/lib/wine/wineserver64 /usr/lib/wine/wineserver; do
        if has "$it"; then
            "$it" "$@" || true
            return
        fi
    done
}
wine() {
    local it
    for it in wine64 /usr/lib/wine/wine64 wine; do
        if has "$it"; then
            if [ ! -e "$WINEPREFIX" ]; then mkdir "$WINEPREFIX" && wine_server -p; fi
            env -u DISPLAY "$it" "$@"
            return
        fi
    done
    return 127
}
needs() { # system: what is missing
    local missing=() it
    for it in "${linker[$1]}" clang ${emulator[$1]}; do
        case $it in
        wine) has wine64 || has /usr/lib/wine/wine64 || has wine || missing+=(wine64) ;;
        *) has "$it" || missing+=("$it") ;;
        esac
    done
    if [ "$1" != Windows-x86_64 ] && [ -z "${emulator[$1]}" ] && [ "$(uname -m)" != x86_64 ]; then missing+=('an x86-64 machine'); fi
    echo "${missing[*]}"
}

# A text of a system, as an object that the linker takes.
assemble() { # system, text
    case $1 in
    Darwin-*)
        clang --target="${triple_of[$1]}" -c "$(text_of "$2" "$1")" -o "$scratch/macho.o"
        "$here/systems/macho.py" "$scratch/macho.o" >"$scratch/image.s"
        ${linker[$1]} -c "$scratch/image.s" -o "$scratch/$2.o"
        ;;
    *) ${linker[$1]} -c "$(text_of "$2" "$1")" -o "$scratch/$2.o" ;;
    esac
}

# Compiles C, and links it with a text that was assembled.
link() { # system, text, program, words
    local words=(-static)
    case $1 in
    Darwin-*) words+=(-no-pie '-Wl,--section-start=.macho=0x4000000') ;;
    Windows-*) words+=(-D__USE_MINGW_ANSI_STDIO=1) ;;
    esac
    ${linker[$1]} -O1 -Wall -Wextra -Ibindings/c "${words[@]}" "${@:4}" "$scratch/$2.o" -o "$scratch/$3.exe"
}
build() { # system, program, words
    link "$1" rtp_wire "${@:2}"
}
run() { # system, program, words
    ${emulator[$1]} "$scratch/$2.exe" "${@:3}"
}

# The hostile calls, and the digest of them: compiled by clang on each system, which draws the random arguments in one order,
# with a `char` that is the same on all.
hostile() { # system
    local file words=(-w -O1 -std=gnu99 -funsigned-char --target="${program[$1]}" -include "$scratch/calls.h" -D_GNU_SOURCE) calls=(-D DIGEST_MAIN)
    case $1 in
    Windows-*) words+=(-I "$here/systems/windows" -D__USE_MINGW_ANSI_STDIO=1) ;;
    *-riscv64) words+=(-isystem /usr/riscv64-linux-gnu/include) ;;
    *Linux-aarch64 | Darwin-arm64) words+=(-isystem /usr/aarch64-linux-gnu/include) ;;
    esac
    mkdir -p "$scratch/objects-$1"
    for file in bindings/test/hostile.c bindings/test/hostile_*.c; do
        clang "${words[@]}" "${calls[@]}" -c "$file" -o "$scratch/objects-$1/${file##*/}.o" || fail "$1: $file"
        calls=()
    done
    build "$1" hostile "$scratch/objects-$1"/*.o
    run "$1" hostile 4 "$rounds" | tr -d '\r' >"$scratch/said" || fail "$1: hostile: $(cat "$scratch/said")"
    digest=$(sed -n 's/^digest //p' "$scratch/said")
    [ -n "$digest" ] || fail "$1: no digest: $(cat "$scratch/said")"
}

try() { # system
    local it digest='' captures=0
    assemble "$1" rtp_wire
    for it in $tests; do
        build "$1" "$it" -std=c99 -Wpedantic -Werror "bindings/c/test/$it.c"
        run "$1" "$it" >"$scratch/said" 2>&1 || fail "$1: bindings/c/test/$it.c: $(cat "$scratch/said")"
    done
    # On x86-64 no caller may take the whole register.
    if [ "${1#*-}" != x86_64 ]; then
        build "$1" narrow -Wno-cast-function-type bindings/test/systems/narrow.c
        run "$1" narrow >"$scratch/said" || fail "$1: $(cat "$scratch/said")"
    fi
    build "$1" lines -std=c99 -Wpedantic -Werror bindings/examples/lines.c
    assemble "$1" rtp_lines
    link "$1" rtp_lines rtp_lines -Wpedantic -Werror generated/heap.c generated/system.c
    for it in captures/*.lines bindings/test/by_hand.lines; do
        run "$1" lines <"$it" | cmp - "${it%.lines}.expected" >&2 || fail "$1: $it"
        run "$1" rtp_lines <"$it" | cmp - "${it%.lines}.expected" >&2 || fail "$1: rtp_lines: $it"
        captures=$((captures + 1))
    done
    it=0
    echo xyz | run "$1" rtp_lines >"$scratch/said" || it=$?
    [ "$it $(cat "$scratch/said")" = '2 line 1: neither a map line nor hex' ] || fail "$1: rtp_lines: a line that is none: $it"
    if [ "${1%%-*}" = Windows ]; then windows; fi
    if [ -e "$scratch/calls.h" ]; then hostile "$1"; fi
    said "$1: the C tests, $captures captures, the program, whole registers, hostile calls${digest:+; digest $digest}"
    [ -z "$digest" ] || echo "$digest" >>"$scratch/digests"
}

# On Windows: a fault within the library is seen from its caller, and the examples without sockets print what they print here.
windows() {
    local it files words here_too="$scratch/here" lines=captures/chromium-sim-16a.lines text
    text=generated/rtp_wire-Linux-$(uname -m).s
    for it in receive forward sfu_lines; do
        files=("bindings/examples/$it.c") words=()
        [ $it != sfu_lines ] || files+=(bindings/examples/sfu.c)
        [ $it != forward ] || words=(77 0 5)
        build Windows-x86_64 $it -std=c99 -Wpedantic -Werror "${files[@]}"
        cc -std=c99 -Ibindings/c "${files[@]}" "$text" -o "$here_too"
        "$here_too" "${words[@]}" <$lines >"$scratch/due"
        run Windows-x86_64 $it "${words[@]}" <$lines | tr -d '\r' | cmp - "$scratch/due" >&2 || fail "Windows: $it"
    done
    ${linker[Windows-x86_64]} -w -O1 -fno-omit-frame-pointer -Ibindings/c bindings/test/systems/windows/unwind.c "$scratch/rtp_wire.o" -o "$scratch/unwind.exe"
    run Windows-x86_64 unwind >"$scratch/said" || fail "Windows: faults that lose their caller: $(cat "$scratch/said")"
}

[ $# -gt 0 ] || read -ra all <<<"${systems_of[rtp_wire]}"
[ $# -eq 0 ] || all=("$@")
if ! "$here/systems/digest.py" >"$scratch/calls.h" 2>"$scratch/said"; then
    rm "$scratch/calls.h"
    said "the hostile calls and the digest are left out: $(tail -n 1 "$scratch/said")"
fi
for system in "${all[@]}"; do
    wanting=$(needs "$system")
    if [ -n "$wanting" ]; then
        said "$system: left out, for want of: $wanting"
    else
        try "$system"
    fi
done
if [ -e "$scratch/digests" ]; then
    [ "$(sort -u "$scratch/digests" | wc -l)" -eq 1 ] || fail "the digests differ: $(sort "$scratch/digests" | uniq -c)"
    said "one digest on $(wc -l <"$scratch/digests") systems"
fi
