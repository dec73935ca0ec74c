#!/usr/bin/env bash
# Builds the examples in C and C++ so that what is undefined, and what is outside of a buffer, ends the program:
# then bindings/test/examples.sh compares what they print.
#
# usage: bindings/test/sanitized.sh FOLDER INCLUDE LIBRARY [FILE [PROGRAM]]
#        FOLDER is made, INCLUDE has rtp_wire.h, and LIBRARY is what to link, also an assembly text. Of FILE, a name
#        in bindings/examples, only the programs that it is a part of, and of these only PROGRAM where it is named.
#        SANITIZERS are those of the compiler's -fsanitize=, address and undefined where it isn't set; none, where it
#        is empty, takes the least time. CC and CXX are the compilers, cc and c++ where they aren't set.
set -euo pipefail
folder=$1 include=$2 library=$3 file=${4-} program=${5-}
examples=$(cd -- "$(dirname -- "$0")/../examples" && pwd)
sanitizers=${SANITIZERS-address,undefined}
built=(-Wall -Wextra -Wpedantic -Werror -I "$include")
[ -z "$sanitizers" ] || built+=(-O1 -g "-fsanitize=$sanitizers" -fno-sanitize-recover=all)
mkdir -p -- "$folder"
build() { # program, standard, files
    [ -z "$file" ] || [[ " ${*:3} " = *" $file "* ]] || return 0
    [ -z "$program" ] || [ "$program" = "$1" ] || return 0
    local it sources=()
    for it in "${@:3}"; do
        case $it in *.c | *.cpp) sources+=("$examples/$it") ;; esac
    done
    case $1,$2 in
    *.o,*) "${CC:-cc}" "-std=$2" -O1 -I "$include" -c "${sources[@]}" -o "$folder/$1" ;; # its own symbols alone
    *,c++*) "${CXX:-c++}" "-std=$2" "${built[@]}" "${sources[@]}" "$library" -o "$folder/$1" ;;
    *) "${CC:-cc}" "-std=$2" "${built[@]}" "${sources[@]}" "$library" -o "$folder/$1" ;;
    esac
}
build lines_c c99 lines.c utf8.h
# MemorySanitizer wants a library for C++ that is built with it.
[[ ,$sanitizers, == *,memory,* ]] || build lines_cpp c++11 lines.cpp utf8.h
build receive c99 receive.c
build forward c99 forward.c
build sfu_c c99 sfu.c sfu_lines.c sfu.h sfu_peers.h utf8.h
build ends c99 ../test/sfu_ends.c sfu.c sfu.h
build many c99 ../test/sfu_many.c sfu.c sfu.h
build sfu.o c99 sfu.c sfu.h
build sockets c99 sfu.c sfu_sockets.c sfu.h sfu_peers.h utf8.h
[ ! -e "$folder/sockets" ] || file='' program='' build udp c99 ../test/sfu_udp.c
