#!/usr/bin/env bash
# Tests the library for C, C++, Rust and Go: it is installed from its texts, and the programs of bindings/test,
# bindings/c/test and bindings/examples are run with it. Prints a line for each thing that was checked, and ends
# at the first one that fails.
#
# usage: bindings/test.sh [--prove]
#
# It needs cc and c++. What needs cargo, go, valgrind, or aarch64-linux-gnu-gcc and qemu-aarch64 is left out where
# they are missing, and a line says so. With --prove it tests what `rt` proves and builds instead of the texts, but
# without what other tools see of them.
set -euo pipefail
here=$(cd -- "$(dirname -- "$(readlink -f -- "${BASH_SOURCE[0]}")")" && pwd)
cd -- "$here/.."
scratch=$(mktemp -d)
trap 'rm -rf -- "$scratch"' EXIT
said() { printf '%4d s  %s\n' "$SECONDS" "$*"; }
fail() {
    echo "test.sh: $*" >&2
    exit 1
}
has() { command -v "$1" >/dev/null; }
languages='C, C++ and Rust'

case ${1-} in
'' | --prove) proves=${1-} ;;
*) fail "no such option: $1" ;;
esac
# shellcheck disable=SC2086
bindings/install.sh $proves
prefix=$here/out/$(uname -m)-unknown-linux-gnu
library=$prefix/lib/librtp_wire.a
strict=(-O2 -Wall -Wextra -Wpedantic -Werror)
include=(-I"$prefix/include")

# The ABI: what the header file declares is what the list says, and a change of it is told.
abi=bindings/test/abi-$(sed -n 's/^#define RTPW_VERSION "\([0-9]*\)\..*/\1/p' bindings/c/rtp_wire.h).txt
bindings/test/abi.sh || fail "the header file isn't what $abi lists: where that is meant, bindings/test/abi.sh --write"
bindings/test/abi_tests.sh || fail 'what is told of another ABI'
said "the ABI: $(grep -c '^struct' "$abi") structs, $(grep -c '^constant' "$abi") constants and $(grep -c '^function' "$abi") functions, as $abi lists them"

# The names that can be seen, and those that are wanted.
sed -nE 's/^function .*\<(rtpw_[a-z0-9_]+)\(.*/\1/p' "$abi" | sort >"$scratch/declared"
nm -g --defined-only "$library" | awk 'NF == 3 { print $3 }' | sort >"$scratch/exported"
nm -D --defined-only "$prefix/lib/librtp_wire.so" | awk '{ print $3 }' | sort >"$scratch/shared"
diff "$scratch/declared" "$scratch/exported" >&2 || fail 'the list and the library differ'
diff "$scratch/declared" "$scratch/shared" >&2 || fail 'the list and the shared library differ'
wants_as_said() { # nm, library
    "$1" -u "$2" | awk '$1 == "U" { print $2 }' | sort -u | diff <(printf '%s\n' memcpy memmove memset) - >&2 ||
        fail "what $2 wants"
}
wants_as_said nm "$library"
for name in $(sed -nE 's/^function .*\<(rtpw_[a-z0-9_]+)\(.*\*.*/\1/p' "$abi"); do
    grep -qx "#define $name rtpw_sanitized_${name#rtpw_}" bindings/c/rtp_wire_sanitized.h || fail "$name has no line in rtp_wire_sanitized.h"
    grep -q "\<$name(" bindings/c/test/sanitized.c || fail "$name is not called in bindings/c/test/sanitized.c"
done
for name in $(cat "$scratch/exported"); do
    for callers in 'bindings/test/hostile_*.c' bindings/test/stack.c bindings/rust/rtp-wire/src/sys.rs; do
        case $callers in *stack.c) word=${name#rtpw_} ;; *) word=$name ;; esac
        # Those of C, C++ and Go alone (OF_C_AND_GO of bindings/described/header.py).
        case $name-$callers in rtpw_*_fixed_part-*.rs | rtpw_write_data_elements-*.rs) continue ;; esac
        # shellcheck disable=SC2086
        grep -qw -- "$word" $callers || fail "$name is not called in $callers"
    done
    call=${name#rtpw_} call=${call#wide_receiver_}
    grep -qE "(rtpw::|wide\.)${call%_form}(_form)?\(" bindings/c/test/wrapped.cpp || fail "$name is not called in bindings/c/test/wrapped.cpp"
done
said "symbols: $(wc -l <"$scratch/exported") functions, all named rtpw_*, as declared and each tested; they want memcpy, memmove and memset alone"

echo '#include <rtp_wire.h>' >"$scratch/header.c"
for standard in c99 c11 c17; do
    cc -std=$standard "${strict[@]}" "${include[@]}" -fsyntax-only "$scratch/header.c"
done
for standard in c++11 c++17; do
    c++ -std=$standard "${strict[@]}" "${include[@]}" -fsyntax-only -x c++ "$scratch/header.c"
done
# For 32 bits it says that it isn't for them, and why.
for it in 'cc -m32' 'clang --target=i386-linux-gnu' 'clang --target=armv7-linux-gnueabihf'; do
    if ! has "${it%% *}" || [ "$it-$(uname -m)" = 'cc -m32-aarch64' ]; then continue; fi
    ! $it -ffreestanding "${include[@]}" -fsyntax-only "$scratch/header.c" 2>"$scratch/told" || fail "$it takes the header file"
    grep -q 'in the proofs a size has 64 bits' "$scratch/told" || fail "$it: $(cat "$scratch/told")"
done
cc -std=c11 "${strict[@]}" -fsyntax-only bindings/test/layout.c
c++ -std=c++11 "${strict[@]}" -fsyntax-only -x c++ bindings/test/layout.c
with_types=(-std=c11 -g -fno-eliminate-unused-debug-types -c bindings/test/layout.c -o "$scratch/layout.o")
cc "${with_types[@]}"
compared=$(bindings/test/layouts.py "$scratch/layout.o") || fail 'the layouts in C'
said "layouts in C beside DWARF: $compared"
said 'the header file, as C99 to C17 and C++11 to C++17, and where each field lies'

said "$(bindings/test/install_macos.sh)"

# Beside the header files of other libraries for RTP, where they are, before them and after them, in C and C++.
beside=
for it in janus/rtp.h ortp/rtp.h re.h srtp2/srtp.h; do
    folders=(-I/usr/include/janus -I/usr/include/janus/plugins -I/usr/include/re)
    if has pkg-config; then read -ra glib <<<"$(pkg-config --cflags glib-2.0 2>/dev/null || true)"; folders+=("${glib[@]}"); fi
    printf '#include <%s>\n' stdbool.h stddef.h stdint.h "$it" >"$scratch/theirs.c"
    for language in c c++; do
        cc -w -fsyntax-only -x $language "${folders[@]}" "$scratch/theirs.c" 2>/dev/null || continue
        cat "$scratch/theirs.c" "$scratch/header.c" | cc -w -fsyntax-only -x $language "${include[@]}" "${folders[@]}" - || fail "$it, then rtp_wire.h"
        cat "$scratch/header.c" "$scratch/theirs.c" | cc -w -fsyntax-only -x $language "${include[@]}" "${folders[@]}" - || fail "rtp_wire.h, then $it"
        beside+="${beside:+, }$it in ${language^^}"
    done
done
# Each name begins with rtpw_ or RTPW_, but for the file's own.
if grep -hoE '\b(rtp|RTP)_\w+' bindings/c/rtp_wire{,_sanitized}.h | grep -vxE 'rtp_wire(_sanitized)?' >&2; then fail 'names of the header file'; fi
said "the header file beside ${beside:-no other library}"

for it in whole packets blocks padding faults headers statuses receivers reception corners peers standard datagrams routed alone apart; do
    cc -std=c99 "${strict[@]}" bindings/c/test/$it.c "$library" -o "$scratch/by_hand"
    "$scratch/by_hand"
    c++ -std=c++11 "${strict[@]}" -Wno-missing-field-initializers -x c++ bindings/c/test/$it.c -x none "$library" -o "$scratch/by_hand"
    "$scratch/by_hand"
done
said 'values worked out by hand, as C99 and C++11'

# The header file of C++17, with each compiler, and a status or a result that isn't looked at.
cat >"$scratch/status.cpp" <<'END'
#include <rtp_wire.hpp>
void it(rtpw::buffer packet, const rtpw_new_ids &ids, const rtpw_template &made) {
    static_cast<void>(ids), static_cast<void>(made), static_cast<void>(packet);
    LOOKED_AT rtpw::CALL;
}
END
for it in c++ clang++; do
    has $it || continue
    for standard in c++17 c++20; do
        for program in wrapped wrapped_alike wrapped_peers; do
            $it -std=$standard "${strict[@]}" -Wshadow -Wold-style-cast "${include[@]}" bindings/c/test/$program.cpp "$library" -o "$scratch/by_hand"
            "$scratch/by_hand"
        done
        for call in 'set_ssrc(packet, 1)' 'make_template(packet, ids, packet, {}, packet)' 'write_headers(made, packet, packet, {}, packet)'; do
            looks=("$it" "-std=$standard" "${strict[@]}" "${include[@]}" -fsyntax-only "$scratch/status.cpp" -D "CALL=$call")
            "${looks[@]}" -D 'LOOKED_AT=(void)'
            ! "${looks[@]}" -D LOOKED_AT= 2>/dev/null || fail "a status that isn't looked at passed $it: $call"
        done
        bindings/test/refused.sh $it $standard >"$scratch/refused" || fail 'what has to be refused of the header file of C++17'
    done
done
said "the header file of C++17, as C++17 and C++20; a status that is not looked at is told, and $(cat "$scratch/refused") views of what is gone and wrong strides are refused"

# The examples print what rtp_lines does.
cargo=(cargo --quiet)
export CARGO_TARGET_DIR=$here/out/cargo CARGO_NET_OFFLINE=true RUSTFLAGS='-D warnings' RUSTDOCFLAGS='-D warnings'
rust=bindings/rust/rtp-wire
go=bindings/go
export GOCACHE=$here/out/gocache GOPROXY=off GOTOOLCHAIN=local GOFLAGS=
if [ -n "$proves" ]; then
    # The packages with the text of what was proved now.
    mkdir -p "$scratch/bindings/rust"
    cp -r "$go" "$scratch/bindings"
    generated/go/text.py amd64 bindings/out/build-x86_64-unknown-linux-gnu/rtp_wire.s generated/go/memory-x86_64.s "$scratch/$go" >"$scratch/go.log"
    go=$scratch/$go
    cp -r "$rust" "$scratch/bindings/rust"
    for it in s prefix; do
        # shellcheck source=generated/copies.sh
        (top=$PWD && . generated/copies.sh && copy_of bindings/out/build-x86_64-unknown-linux-gnu/rtp_wire.s "$rust/assembly/rtp_wire-Linux-x86_64.$it") \
            >"$scratch/$rust/assembly/rtp_wire-Linux-x86_64.$it"
    done
    rust=$scratch/$rust CARGO_TARGET_DIR+=-proved
fi
crate=(--manifest-path "$rust/Cargo.toml")
shared=("-L$prefix/lib" -lrtp_wire "-Wl,-rpath,$prefix/lib")
cc -std=c99 "${strict[@]}" "${include[@]}" bindings/examples/lines.c "$library" -o "$scratch/lines_c"
cc -std=c99 "${strict[@]}" "${include[@]}" -static bindings/examples/lines.c "$library" -o "$scratch/lines_static"
cc -std=c99 "${strict[@]}" "${include[@]}" bindings/examples/lines.c "${shared[@]}" -o "$scratch/lines_shared"
c++ -std=c++11 "${strict[@]}" "${include[@]}" bindings/examples/lines.cpp "$library" -o "$scratch/lines_cpp"
if has cargo; then
    "${cargo[@]}" build "${crate[@]}"
    "${cargo[@]}" build "${crate[@]}" --example lines
    CARGO_PROFILE_DEV_DEBUG=2 "${cargo[@]}" build "${crate[@]}" --target-dir "$CARGO_TARGET_DIR-dwarf"
    compared=$(bindings/test/layouts.py "$CARGO_TARGET_DIR-dwarf/debug/librtp_wire.rlib") || fail 'the layouts in Rust'
    said "layouts in Rust beside DWARF: $compared"
    cp -- "$CARGO_TARGET_DIR/debug/examples/lines" "$scratch/lines_rust"
else
    languages='C and C++'
    said 'Rust was left out: there is no cargo'
fi
if has go; then
    (cd "$go" && go build -o "$scratch/lines_go" ./examples/lines)
    compared=$(bindings/test/layouts.py "$scratch/lines_go") || fail 'the layouts in Go'
    said "layouts in Go beside DWARF: $compared, of those that an example has"
    languages="${languages/ and /, } and Go"
else
    said 'Go was left out: there is no go'
fi
for it in forward receive; do
    cc -std=c99 "${strict[@]}" "${include[@]}" bindings/examples/$it.c "$library" -o "$scratch/$it"
done
cc -std=c99 "${strict[@]}" "${include[@]}" bindings/examples/sfu{,_lines}.c "$library" -o "$scratch/sfu_c"
cc -std=c99 "${strict[@]}" "${include[@]}" bindings/examples/sfu{,_sockets}.c "$library" -o "$scratch/sockets"
cc -std=c99 "${strict[@]}" "${include[@]}" -c bindings/examples/sfu.c -o "$scratch/sfu.o"
cc -std=c99 "${strict[@]}" bindings/test/sfu_udp.c -o "$scratch/udp"
mkdir "$scratch/plain" && cp -- "$scratch/udp" "$scratch/plain"
cc -std=c99 "${strict[@]}" "${include[@]}" -D PLAIN_SOCKETS bindings/examples/sfu{,_sockets}.c "$library" -o "$scratch/plain/sockets"
if has cargo; then
    "${cargo[@]}" build "${crate[@]}" --example sfu --example receive
    cp -- "$CARGO_TARGET_DIR/debug/examples/sfu" "$scratch/sfu_rust"
    cp -- "$CARGO_TARGET_DIR/debug/examples/receive" "$scratch/receive_rust"
fi
bindings/test/examples.sh "$scratch"
bindings/test/examples.sh "$scratch/plain"
said "the examples in $languages (in C static, shared and all static) against captures/*.expected and by hand"

# In C and C++ the same, where what is undefined and what is outside of a buffer ends the program.
sanitized=(-O1 -g -Wall -Wextra -Wpedantic -Werror "-fsanitize=address,undefined" -fno-sanitize-recover=all)
echo 'int main(void) { return 0; }' >"$scratch/none.c"
if cc "${sanitized[@]}" "$scratch/none.c" -o "$scratch/none" 2>/dev/null && "$scratch/none"; then
    bindings/test/sanitized.sh "$scratch/sanitized" "$prefix/include" "$library"
    bindings/test/examples.sh "$scratch/sanitized"
    said 'the examples in C and C++, under -fsanitize=address,undefined'
else
    said 'the examples under -fsanitize were left out: there is no such compiler'
fi

if has cargo; then
    "${cargo[@]}" test "${crate[@]}" >"$scratch/cargo.log" 2>&1 || { cat "$scratch/cargo.log" >&2; fail 'cargo test'; }
    "${cargo[@]}" test "${crate[@]}" --release >"$scratch/cargo.log" 2>&1 || { cat "$scratch/cargo.log" >&2; fail 'cargo test'; }
    "${cargo[@]}" doc "${crate[@]}" --no-deps
    "${cargo[@]}" fmt "${crate[@]}" --check
    said 'the crate for Rust: cargo test, cargo doc and cargo fmt, without a warning'
fi
if [ -z "$proves" ]; then
    if has cargo; then
        bindings/test/rust_versions.sh "$scratch/versions" "$rust"
        said 'a program with two versions of the crate for Rust, each with its own text: dev, release, thin and fat LTO'
    fi
    .ci/languages
elif has go; then
    (cd "$go" && go test -count=1 ./... >"$scratch/go.log" 2>&1) || { cat "$scratch/go.log" >&2; fail 'go test'; }
    said 'the package for Go: go test'
fi

# The programs of docs/CALLING.md print what stands there: in the section of each language the first block of that
# language is the program, and the first one of none its output. In C a server has one of its own.
block() { .ci/block docs/CALLING.md "$@"; } # section, language
block C c >"$scratch/call.c"
block C++ cpp >"$scratch/call.cpp"
block Rust rust >"$scratch/call.rs"
cc -std=c99 "${strict[@]}" "${include[@]}" "$scratch/call.c" "$library" -o "$scratch/call_C"
c++ -std=c++17 "${strict[@]}" "${include[@]}" "$scratch/call.cpp" "$library" -o "$scratch/call_C++"
if has cargo; then
    rustc --edition 2021 -D warnings "$scratch/call.rs" -o "$scratch/call_Rust" \
        --extern "rtp_wire=$CARGO_TARGET_DIR/debug/librtp_wire.rlib"
fi
if has go; then
    mkdir "$scratch/go"
    block Go go >"$scratch/go/main.go"
    block Go mod | sed "s, => .*, => $(readlink -f "$go")," >"$scratch/go/go.mod"
    (cd "$scratch/go" && go build -o "$scratch/call_Go" .)
fi
for program in "$scratch"/call_*; do
    it=${program##*_}
    "$program" >"$scratch/said_$it"
    block "$it" '' | grep -v '^\$' | diff - "$scratch/said_$it" >&2 || fail "the program in $it of docs/CALLING.md"
done
block 'One packet to all its receivers' c >"$scratch/server.c"
cc -std=c99 "${strict[@]}" "${include[@]}" "$scratch/server.c" "$library" -o "$scratch/server"
"$scratch/server" >"$scratch/said"
block 'One packet to all its receivers' | grep -v '^\$' | diff - "$scratch/said" >&2 || fail 'the server of docs/CALLING.md'
if has pkg-config; then
    flags=$(PKG_CONFIG_PATH=$prefix/lib/pkgconfig pkg-config --cflags --libs rtp_wire)
    # shellcheck disable=SC2086
    cc -std=c99 "$scratch/call.c" $flags -Wl,-rpath,"$prefix/lib" -o "$scratch/call_C"
    "$scratch/call_C" | cmp - "$scratch/said_C" >&2 || fail pkg-config
fi
said "the programs of docs/CALLING.md in $languages"

hostile() { # compiler, library, program, options
    "$1" -std=c99 -g "${strict[@]}" -D_GNU_SOURCE "${@:4}" bindings/test/hostile*.c "$2" -o "$3"
}
hostile cc "$library" "$scratch/hostile"
"$scratch/hostile" 1 100000 >"$scratch/first" &
"$scratch/hostile" 2000003 100000
wait $! || { cat "$scratch/first" >&2; fail hostile; }
said 'each function with random bytes and structs between pages that may not be touched, 200,000 times'
if [ -n "$proves" ]; then
    said 'what else is tried of the texts, which generated/make --check compares with these bytes, is not tried again'
    exit
fi

# What a fuzzer runs, with the packets of the captures as its inputs; and beside one function in place of another.
fuzz() { # program, options
    cc -std=c99 -g "${strict[@]}" -D_GNU_SOURCE -D FUZZ_MAIN "${@:2}" bindings/test/fuzz.c bindings/test/hostile_*.c "$library" -o "$1"
}
bindings/test/inputs.sh "$scratch/inputs"
fuzz "$scratch/fuzz"
"$scratch/fuzz" "$scratch/inputs/"*
for ((len = 0; len < 70; len++)); do head -c "$len" "$scratch/inputs/1" | "$scratch/fuzz"; done
fuzz "$scratch/other" -O0 -D rtpw_extend_u15=rtpw_extend_u16
status=0
{ "$scratch/other" "$scratch/inputs/"* >"$scratch/told"; } 2>"$scratch/aborted" || status=$?
[ $status -eq 134 ] && grep -q rtpw_extend_u15 "$scratch/told" || fail 'a wrong function passed the entry for fuzzers'
said "the entry for fuzzers, with $(find "$scratch/inputs" -type f | wc -l) packets of the captures"

if has valgrind; then
    valgrind --quiet --error-exitcode=9 --leak-check=full "$scratch/hostile" 3 5000 malloc
    said 'the same under valgrind, 5,000 times'
else
    said 'valgrind was left out: it is not there'
fi

# clang's sanitizers see what the library does by rtp_wire_sanitized.h. The programs of random bytes copy and compare no
# bytes from NULL, which C allows since N3322.
told_by_sanitizers() { # those of -fsanitize=, and the programs of bindings/test/told.sh
    local built=(-std=c99 -g "${strict[@]}" "${include[@]}" -D_GNU_SOURCE "-fsanitize=$1" -fno-sanitize-recover=all)
    if ! clang "${built[@]}" "$scratch/none.c" -o "$scratch/none" 2>/dev/null || ! "$scratch/none"; then
        said "clang's -fsanitize=$1 was left out: it is not there"
        return
    fi
    clang "${built[@]}" "$scratch/call.c" "$library" -o "$scratch/call_C"
    "$scratch/call_C" | cmp - "$scratch/said_C" >&2 || fail "-fsanitize=$1, the program in C of docs/CALLING.md"
    : >"$scratch/told"
    for it in ${2-}; do
        bindings/test/told.sh "$scratch/of" "$library" "$it"
        "$scratch/of/$it" >"$scratch/said" 2>&1 || { cat "$scratch/said" >&2; fail "-fsanitize=$1, $it of bindings/test/told.sh"; }
        echo "$(paste -s -d ' ' "$scratch/told" | sed 's/..*/&, /')$(tail -n 1 "$scratch/said")" >"$scratch/told_too"
        mv "$scratch/told_too" "$scratch/told"
    done
    clang++ "${built[@]/-std=c99/-std=c++11}" -x c++ -fsyntax-only "$scratch/header.c"
    for program in wrapped wrapped_alike wrapped_peers; do
        clang++ "${built[@]/-std=c99/-std=c++17}" bindings/c/test/$program.cpp "$library" -o "$scratch/by_hand"
        "$scratch/by_hand" >"$scratch/said" 2>&1 || { cat "$scratch/said" >&2; fail "-fsanitize=$1, $program.cpp"; }
    done
    CC=clang CXX=clang++ SANITIZERS=$1 bindings/test/sanitized.sh "$scratch/$1" "$prefix/include" "$library"
    bindings/test/examples.sh "$scratch/$1"
    hostile clang "$library" "$scratch/hostile_$1" "${built[@]}" -fno-sanitize=nonnull-attribute,pointer-overflow
    "$scratch/hostile_$1" 4 5000 malloc >"$scratch/said" 2>&1 || { cat "$scratch/said" >&2; fail "-fsanitize=$1, hostile"; }
    said "clang's -fsanitize=$1: the examples, the header file of C++17, random bytes, and $(cat "$scratch/told") of all calls that it tells of"
}
if has clang; then
    told_by_sanitizers address,undefined address
    told_by_sanitizers memory 'memory bytes fields'
else
    said "clang's sanitizers were left out: there is no clang"
fi

# ThreadSanitizer too, of gcc and clang: each block that one thread changes while another one has it is told, and what
# threads may share isn't.
for it in gcc clang; do
    has $it || continue
    built=(-std=c99 -g "${strict[@]}" -D_GNU_SOURCE -fsanitize=thread)
    if ! $it "${built[@]}" "$scratch/none.c" -o "$scratch/none" 2>/dev/null || ! "$scratch/none"; then
        said "$it's -fsanitize=thread was left out: it is not there"
        continue
    fi
    CC=$it bindings/test/told.sh "$scratch/of" "$library" thread
    "$scratch/of/thread" >"$scratch/told" || { cat "$scratch/told" >&2; fail "$it's -fsanitize=thread"; }
    $it "${built[@]}" bindings/test/threads.c "$library" -lpthread -o "$scratch/threads"
    "$scratch/threads" 2>&1 | grep -qx 'threads: 4 .*: same' || fail "$it's -fsanitize=thread reports what threads may share"
    ! TSAN_OPTIONS=halt_on_error=1 "$scratch/threads" one >"$scratch/said" 2>&1 || fail "four threads at one receiver pass $it's -fsanitize=thread"
    grep -q 'ThreadSanitizer: data race' "$scratch/said" || fail "what $it's -fsanitize=thread says of one receiver"
    said "$it's -fsanitize=thread: $(cat "$scratch/told") of all calls, each once read and once written meanwhile; one receiver of four threads"
done

# No sanitizer's header file has a warning, also where a const would be cast away.
for it in gcc clang g++ clang++; do
    language=c standard=c99 old=()
    case $it in *++) language=c++ standard=c++11 old=(-Wold-style-cast) ;; esac
    has "$it" || continue
    for sanitizer in address memory thread undefined; do
        case $it,$sanitizer in g*,memory) continue ;; esac
        for level in -O0 -O2; do
            $it -std=$standard "${strict[@]}" "${include[@]}" $level -Wcast-qual -Wshadow -Wconversion "${old[@]}" "-fsanitize=$sanitizer" \
                -x $language -c "$scratch/header.c" -o /dev/null || fail "warnings of rtp_wire_sanitized.h: $it, $sanitizer"
        done
    done
done
said 'the header files under each sanitizer, without a warning'

cc -std=c99 "${strict[@]}" bindings/test/threads.c "$library" -lpthread -o "$scratch/threads"
"$scratch/threads"
cc -std=c99 -D_GNU_SOURCE "${strict[@]}" bindings/test/stack.c "$library" -Wl,-z,now -o "$scratch/stack"
"$scratch/stack"
said 'four threads that share what is const, and the stack, at most 4,096 bytes'

if has aarch64-linux-gnu-gcc && has qemu-aarch64; then
    # shellcheck disable=SC2086
    bindings/install.sh $proves --target aarch64-unknown-linux-gnu
    arm=$here/out/aarch64-unknown-linux-gnu/lib/librtp_wire.a
    aarch64-linux-gnu-gcc -std=c11 "${strict[@]}" -fsyntax-only bindings/test/layout.c
    aarch64-linux-gnu-gcc "${with_types[@]}"
    compared=$(bindings/test/layouts.py "$scratch/layout.o") || fail 'the layouts on ARM'
    said "layouts on ARM beside DWARF: $compared"
    aarch64-linux-gnu-nm -g --defined-only "$arm" | awk 'NF == 3 { print $3 }' | sort | diff "$scratch/declared" - >&2 ||
        fail 'the list and the library for ARM differ'
    wants_as_said aarch64-linux-gnu-nm "$arm"
    aarch64-linux-gnu-gcc -std=c99 "${strict[@]}" "${include[@]}" -static bindings/examples/lines.c "$arm" -o "$scratch/arm"
    mkdir "$scratch/emulated"
    cp "$scratch/arm" "$scratch/emulated/lines_arm"
    bindings/test/examples.sh "$scratch/emulated" qemu-aarch64
    for it in whole packets blocks padding faults headers statuses receivers reception corners peers standard datagrams routed alone apart; do
        aarch64-linux-gnu-gcc -std=c99 "${strict[@]}" -static bindings/c/test/$it.c "$arm" -o "$scratch/arm"
        qemu-aarch64 "$scratch/arm"
    done
    aarch64-linux-gnu-gcc -std=c99 -D_GNU_SOURCE "${strict[@]}" -static bindings/test/stack.c "$arm" -o "$scratch/arm"
    qemu-aarch64 "$scratch/arm"
    aarch64-linux-gnu-gcc -std=c99 -D_GNU_SOURCE "${strict[@]}" -static bindings/test/hostile*.c "$arm" -o "$scratch/arm"
    qemu-aarch64 "$scratch/arm" 4 5000
    said 'on ARM, emulated: symbols, layouts, the example, the values worked out by hand, the stack, and random bytes 5,000 times'
else
    said 'ARM was left out: there is no aarch64-linux-gnu-gcc or no qemu-aarch64'
fi
