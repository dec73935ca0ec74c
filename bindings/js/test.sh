#!/usr/bin/env bash
# Tests the package for JavaScript: it is run in Node and in Chromium, packed, and the tests of the library for C call its
# module. Prints a line for each, ends at the first that fails, and leaves out with a line what needs something that isn't
# there.
#
# usage: bindings/js/test.sh
set -euo pipefail
cd -- "$(dirname -- "$(readlink -f -- "${BASH_SOURCE[0]}")")"
top=$PWD/../..
scratch=$(mktemp -d)
trap 'rm -rf -- "$scratch"' EXIT
said() { printf '%4d s  JavaScript: %s\n' "$SECONDS" "$*"; }
fail() {
    echo "bindings/js/test.sh: $*" >&2
    exit 1
}
has() { command -v "$1" >/dev/null; }
quietly() { # says what a command says only where it fails
    "$@" >"$scratch/log" 2>&1 || {
        tail -n 60 "$scratch/log" >&2
        fail "$*"
    }
}

if ! has node; then
    said 'left out: there is no node'
    exit
fi
if python3 -c 'import pycparser' 2>/dev/null || python3 -c 'import sys; sys.path.append("/usr/lib/python3/dist-packages"); import pycparser' 2>/dev/null; then
    quietly "$top/generated/wasm/make" --digest
    said 'the module is of the sources, and the places of fields those of the header file'
else
    said 'whether the module is of the sources was left out: there is no pycparser'
fi

for it in test/*.test.mjs; do quietly node --test-reporter=tap "$it"; cat "$scratch/log" >>"$scratch/tests"; done
said "$(node --version): $(grep -c '^ok ' "$scratch/tests") tests"
for lines in "$top"/captures/*.lines "$top/bindings/test/by_hand.lines"; do
    node examples/lines.mjs <"$lines" | cmp - "${lines%.lines}.expected" >&2 || fail "examples/lines.mjs, $lines"
done
said 'examples/lines.mjs prints what rtp_lines does'

if has tsc; then
    quietly tsc --strict --noEmit --target es2020 --lib es2020,dom test/use.ts
    said "tsc $(tsc --version | sed 's/Version //'): the types of rtp_wire.d.ts, and a program that uses them"
else
    said 'the types of rtp_wire.d.ts were not checked: there is no tsc'
fi

# The README's programs, as they stand but for the name of the package, and what is beside a line in a comment.
(cd "$top" && node bindings/js/test/readme.mjs "$scratch") >"$scratch/log" 2>&1 || {
    cat "$scratch/log" >&2
    fail 'a program of README.md'
}
said "$(tail -n 1 "$scratch/log")"

if has npm; then
    quietly npm pack --silent --pack-destination "$scratch"
    mkdir -p "$scratch/with/node_modules"
    tar -x -C "$scratch/with/node_modules" -f "$scratch"/rtp-wire-*.tgz
    mv "$scratch/with/node_modules/package" "$scratch/with/node_modules/rtp-wire"
    cat >"$scratch/with/it.mjs" <<'END'
import { Packet, load } from 'rtp-wire';
await load();
console.log(Packet.parse(Buffer.from('8021B798000027100000002C', 'hex')).ssrc);
END
    [ "$(node "$scratch/with/it.mjs")" = 44 ] || fail 'the package that npm packs'
    said "npm pack: $(stat -c %s "$scratch"/rtp-wire-*.tgz) bytes, used by itself"
else
    said 'npm pack was left out: there is no npm'
fi
if has clang && has clang-22 && has wasm-ld-22 && has wasm-opt; then
    quietly test/beside.sh "$scratch/beside"
    quietly node test/beside.mjs rtp_wire.wasm "$scratch/beside" 1 4000
    said "the tests of the library for C call the module: $(tail -n 1 "$scratch/log")"
    if [ -e "$scratch/beside/native" ]; then
        "$scratch/beside/native" 1 4000 >"$scratch/native"
        diff <(grep digest "$scratch/native") <(grep digest "$scratch/log") >&2 || fail "the native library gives back something else"
        said "$(grep digest "$scratch/log"): that of the library for this machine"
    fi
else
    said 'the tests of the library for C were left out: there is no clang, clang-22, wasm-ld-22 or wasm-opt'
fi
node bench/speed.mjs 15 >"$scratch/log" || fail 'bench/speed.mjs'
while read -r line; do said "100,000 packets with four values, Node, $line"; done <"$scratch/log"
test/in_chromium.py >"$scratch/log" || fail "$(cat "$scratch/log")"
while read -r line; do said "$line"; done <"$scratch/log"
