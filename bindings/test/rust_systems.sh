#!/usr/bin/env bash
# The crate for Rust on other systems: built for Windows on x86-64 and Linux on ARM with a program that asks what its
# documents show, which is run under Wine and qemu, and checked for macOS on ARM. There is no standard library of Rust for
# these, so `core` is built of its sources.
#
# usage: bindings/test/rust_systems.sh
#
# It takes a rustc whose sources are there (Debian's rustc-web and rust-web-src, or rustup's rust-src), mingw and Wine,
# and gcc-aarch64-linux-gnu and qemu-user. What isn't there is named, and what needs it is left out.
set -euo pipefail
cd -- "$(dirname -- "$(readlink -f -- "${BASH_SOURCE[0]}")")/../.."
scratch=$(mktemp -d)
trap 'rm -rf -- "$scratch"' EXIT
crate=bindings/rust/rtp-wire/src/lib.rs
said() { printf '%4d s  Rust: %s\n' "$SECONDS" "$*"; }
has() { command -v "$1" >/dev/null; }

# A rustc, and the sources of its library.
rustc='' library=''
for it in rustc /usr/bin/rustc; do
    has "$it" || continue
    for of in "$("$it" --print sysroot)/lib/rustlib/src/rust" "/usr/src/rustc-$("$it" --version | cut -d ' ' -f 2)"; do
        if [ -z "$library" ] && [ -e "$of/library/core/src/lib.rs" ]; then rustc=$it library=$of/library; fi
    done
done
[ -n "$library" ] || {
    echo 'Rust on other systems was left out: there is no rustc with its sources'
    exit
}

# Builds a crate for a target, with what was built for it before.
build() { # target, name, kind, edition, file, words
    RUSTC_BOOTSTRAP=1 "$rustc" --target "$1" --sysroot "$scratch" --crate-name "$2" --crate-type "$3" --edition "$4" \
        -C panic=abort -C opt-level=1 -L "$scratch/$1" "${@:6}" "$5"
}
# `core`, and a stand-in for the functions that compilers call: the C library has these.
core_for() { # target, words
    local folder=$scratch/lib/rustlib/$1/lib
    mkdir -p "$folder" "$scratch/$1"
    build "$1" core rlib 2024 "$library/core/src/lib.rs" --cap-lints allow --out-dir "$folder" "${@:2}"
    echo '#![feature(compiler_builtins)] #![allow(internal_features)] #![compiler_builtins] #![no_std]' >"$scratch/none.rs"
    build "$1" compiler_builtins rlib 2021 "$scratch/none.rs" --out-dir "$folder" "${@:2}"
    build "$1" rtp_wire rlib 2021 "$crate" -D warnings --out-dir "$scratch/$1" "${@:2}"
}
try() { # target, linker, words of the emulator
    core_for "$1"
    build "$1" program staticlib 2021 bindings/test/systems/rust.rs --extern rtp_wire -D warnings -o "$scratch/$1/program.a"
    "$2" -static "$scratch/$1/program.a" -o "$scratch/$1/program.exe"
    [ "$("${@:3}" "$scratch/$1/program.exe" 2>/dev/null | tr -d '\r')" = 'all as it is due' ] || {
        "${@:3}" "$scratch/$1/program.exe" >&2 || true
        echo "rust_systems.sh: $1" >&2
        exit 1
    }
    said "$1: built, and what the documents show is so"
}

wine=$(command -v wine64 /usr/lib/wine/wine64 | head -n 1)
export WINEPREFIX=$scratch/wine WINEDEBUG=-all
if has x86_64-w64-mingw32-gcc && [ -n "$wine" ]; then
    try x86_64-pc-windows-gnu x86_64-w64-mingw32-gcc "$wine"
else
    said 'Windows was left out: there is no mingw or Wine'
fi
if has aarch64-linux-gnu-gcc && has qemu-aarch64; then
    try aarch64-unknown-linux-gnu aarch64-linux-gnu-gcc qemu-aarch64
else
    said 'Linux on ARM was left out: there is no gcc-aarch64-linux-gnu or qemu-user'
fi
core_for aarch64-apple-darwin --emit metadata
said 'aarch64-apple-darwin: checked'
