#!/usr/bin/env bash
# Builds the programs that test what sanitizers are told by rtp_wire_sanitized.h: address, thread, memory, and of the
# last one bytes and fields too.
#
# usage: bindings/test/told.sh FOLDER LIBRARY [PROGRAM]
#        FOLDER is made, and LIBRARY is what to link, also an object. Only PROGRAM where it is named. CC is the
#        compiler, clang where it isn't set; gcc has no MemorySanitizer.
set -euo pipefail
folder=$1 library=$2 program=${3-}
tests=$(cd -- "$(dirname -- "$0")/../c/test" && pwd)
mkdir -p -- "$folder"
build() { # program, file, sanitizers, options
    [ -z "$program" ] || [ "$program" = "$1" ] || return 0
    "${CC:-clang}" -std=c99 -g -O1 -Wall -Wextra -Wpedantic -Wcast-qual -Werror -D_GNU_SOURCE "-fsanitize=$3" \
        -fno-sanitize-recover=all "${@:4}" "$tests/$2.c" "$library" -lpthread -o "$folder/$1"
}
case ${CC:-clang} in
*clang*)
    build memory sanitized memory
    build bytes sanitized_bytes memory -fsanitize-recover=memory # it goes on behind what it tells
    build fields sanitized_fields memory -fsanitize-recover=memory
    build address sanitized address,undefined
    ;;
esac
build thread sanitized thread
