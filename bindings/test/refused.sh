#!/usr/bin/env bash
# Whether a compiler refuses what is wrong in bindings/c/test/refused.cpp, and takes what is beside it.
#
# usage: bindings/test/refused.sh COMPILER STANDARD
#        COMPILER is c++ or clang++, and STANDARD c++17 or c++20. Prints how many wrong things were refused, or the
#        first that wasn't.
set -euo pipefail
file=$(cd -- "$(dirname -- "$0")/../c/test" && pwd)/refused.cpp
last=$(sed -n 's/^#e*l*if REFUSED == \([0-9]*\).*/\1/p' "$file" | tail -n 1)
for ((which = 0; which <= last; which++)); do
    status=0
    said=$("$1" -std="$2" -Wall -Wextra -Wpedantic -Werror -fsyntax-only -D "REFUSED=$which" "$file" 2>&1) || status=$?
    [ $((status != 0)) = $((which != 0)) ] || {
        echo "refused.sh: REFUSED=$which, $1 as $2: $said" >&2
        exit 1
    }
done
echo "$last"
