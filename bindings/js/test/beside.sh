#!/usr/bin/env bash
# Compiles the tests of the library for C for WebAssembly, so that they call what the module exports: those with random
# bytes, bindings/test/hostile*.c, and those that are worked out by hand, bindings/c/test. FOLDER/native runs the former
# with the library for this machine, its text or $LIBRARY. usage: beside.sh FOLDER
#
# They are compiled by LLVM 14: later ones give pointers to functions 64 bits, which can't be lowered. With MODULE_ALONE they
# leave out the calls that the module doesn't export, which C, C++ and Go alone have.
set -euo pipefail
top=$(cd -- "$(dirname -- "$(readlink -f -- "${BASH_SOURCE[0]}")")/../../.." && pwd)
# shellcheck source=generated/wasm/link.sh
. "$top/generated/wasm/link.sh"
folder=$1 here=$top/bindings/js/test/beside
by_hand='packets blocks padding faults headers receivers reception corners peers standard datagrams routed whole alone apart'
mkdir -p -- "$folder"
python3 "$top/generated/wasm/glue.py" "$folder"

compile() { # file, object file, more words
    "${CLANG_14:-clang}" --target=wasm64-unknown-unknown -mbulk-memory -msign-ext -std=c99 -O1 -ffreestanding -D_GNU_SOURCE \
        -DMODULE_ALONE -Dmain=main_of_test -isystem "$here" "${@:3}" -c "$1" -o "$2"
}
# The memory is the module's: what is here lies behind what is there.
link_test() { # name, object files
    "$linker" -mwasm64 --no-entry --import-memory --global-base=4194304 --no-stack-first -z stack-size=1048576 \
        --gc-sections --fatal-warnings -o "$folder/$1.linked" "${@:2}" "$folder/wide.o"
    python3 "$top/generated/wasm/narrow_table.py" "$folder/$1.linked" "$folder/$1.narrow"
    lower_memory "$folder/$1.narrow" "$folder/$1.wasm"
    rm -- "$folder/$1.linked" "$folder/$1.narrow"
}

# Where it can be made, a digest of all that the calls with random bytes give back, which is to be the native library's.
digest=()
if [ -e "$top/bindings/test/systems/digest.py" ]; then
    python3 "$top/bindings/test/systems/digest.py" >"$folder/digest_calls.h"
    digest=(-include "$folder/digest_calls.h")
fi

compile "$folder/wide.c" "$folder/wide.o"
compile "$here/libc.c" "$folder/libc.o"
objects=()
for it in "$top"/bindings/test/hostile*.c; do
    objects+=("$folder/$(basename -- "$it" .c).o")
    case $it in */hostile.c) main=(-D DIGEST_MAIN) ;; *) main=() ;; esac
    compile "$it" "${objects[-1]}" -O2 "${digest[@]}" "${main[@]}"
done
link_test hostile "${objects[@]}" "$folder/libc.o"
compile "$here/libc.c" "$folder/by_hand.o" -DBY_HAND
for it in $by_hand; do
    compile "$top/bindings/c/test/$it.c" "$folder/$it.o"
    link_test "$it" "$folder/$it.o" "$folder/by_hand.o"
done
rm -- "$folder"/*.o

# The same tests of the native library, where it is the header file's: a program, which says that digest too.
native=$top/generated/rtp_wire-Linux-$(uname -m).s
if [ -z "${LIBRARY-}" ] && [ -e "$native" ]; then LIBRARY=$native; fi
if [ ${#digest[@]} -ne 0 ] && [ -n "${LIBRARY-}" ]; then
    cc -std=c99 -O1 -D_GNU_SOURCE -DMODULE_ALONE "${digest[@]}" -c "$top/bindings/test/hostile.c" -D DIGEST_MAIN -o "$folder/main.o"
    others=$(find "$top/bindings/test" -name 'hostile_*.c')
    # shellcheck disable=SC2086
    cc -std=c99 -O1 -D_GNU_SOURCE -DMODULE_ALONE "${digest[@]}" $others "$folder/main.o" "$LIBRARY" -o "$folder/native"
    rm -- "$folder/main.o"
fi
