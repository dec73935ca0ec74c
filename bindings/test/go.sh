#!/usr/bin/env bash
# Tests the package for Go: its text, by Go's own tools, and its tests in each way in which Go builds a program. Prints a
# line for each thing that was checked, ends at the first that fails, and leaves out with a line what isn't there. Go finds
# no C compiler but for its race detector and for external linking. It needs no network.
#
# usage: bindings/test/go.sh           all but what follows
#        bindings/test/go.sh stacks    the tests with each stack moved wherever it might be, which takes four minutes
set -euo pipefail
here=$(cd -- "$(dirname -- "$(readlink -f -- "${BASH_SOURCE[0]}")")/../.." && pwd)
cd -- "$here/bindings/go"
scratch=$(mktemp -d)
trap 'rm -rf -- "$scratch"' EXIT
export GOCACHE=$here/bindings/out/gocache GOPROXY=off GOTOOLCHAIN=local GOFLAGS='' CGO_ENABLED=0 CC=no-C-compiler CXX=no-C-compiler
said() { printf '%4d s  %s\n' "$SECONDS" "$*"; }
has() { command -v "$1" >/dev/null; }
quietly() { # says what a command says only where it fails
    "$@" >"$scratch/log" 2>&1 || {
        cat "$scratch/log" >&2
        echo "go.sh: $*" >&2
        exit 1
    }
}

# The text is what is made of the proved one, and what Go links has its bytes.
text() {
    quietly ../../generated/go/make --check
    said "Go: the text is made of the proved one, and what Go links has its bytes: $(grep -c 'are those that Go linked' "$scratch/log") symbols"
    if has cc; then
        quietly ../test/go_memory.sh "$scratch/memory"
        said "Go: memmove, memcpy and memset beside those of C"
    fi
}

tools() {
    local laid_out it systems=()
    laid_out=$(gofmt -l .)
    [ -z "$laid_out" ] || {
        echo "go.sh: gofmt -w $laid_out" >&2
        exit 1
    }
    quietly go vet ./...
    for it in {darwin,windows,freebsd,linux}/{amd64,arm64}; do
        systems+=("$it")
        GOOS=${it%/*} GOARCH=${it#*/} quietly go vet .
        GOOS=${it%/*} GOARCH=${it#*/} quietly go build .
    done
    said "Go: gofmt; go vet and go build, also for ${systems[*]}"
    go doc -all . | grep -v $'\t' >"$scratch/doc" # a field's document has no links
    ! grep -nE '\[[A-Z][A-Za-z0-9]*(\.[A-Z][A-Za-z0-9]*)?\]' "$scratch/doc" >&2 || {
        echo 'go.sh: the documents name what is not there' >&2
        exit 1
    }
    # Debian has it by the first name.
    for it in go-staticcheck staticcheck ''; do ! has "$it" || break; done
    if [ -n "$it" ]; then
        quietly "$it" ./...
        said "Go: staticcheck has no findings"
    else
        said "Go: staticcheck was left out: there is no go-staticcheck"
    fi
    unused
}

# What a call returns in place of a packet is missed by go vet where it is told of these calls.
unused() {
    local module it calls=''
    module=$(../go_path)
    for it in {Put,Add}Element ChangeForm PutBlock RemoveBlock Compact RemovePadding {To,From}Retransmission; do calls+=$module.$it,; done
    mkdir -p "$scratch/unused"
    printf 'package main\n\nimport "%s"\n\nfunc main() {\n\trtpwire.PutElement(nil, 1, nil, rtpwire.AnyForm)\n}\n' "$module" >"$scratch/unused/main.go"
    cp -r -- "$scratch/unused" examples/unused
    ! go vet -unusedresult.funcs="$calls" ./examples/unused >"$scratch/log" 2>&1 || : >"$scratch/log"
    rm -r -- examples/unused
    grep -qF "result of $module.PutElement call not used" "$scratch/log" || {
        cat "$scratch/log" >&2
        echo 'go.sh: go vet sees no unused result of PutElement' >&2
        exit 1
    }
    said "Go: go vet sees where the packet that a call returns is dropped"
}

# The tests, as a program is built and run: with the C compiler for the race detector alone.
tests() {
    quietly go test -count=1 ./...
    quietly go test -count=1 -gcflags='all=-N -l' .
    quietly go test -count=1 -gcflags=all=-d=checkptr .
    quietly go test -count=1 -buildmode=pie .
    quietly go test -count=1 -cover .
    said 'Go: go test, without optimizations, with checkptr, as PIE, and with -cover'
    debug
    if gcc --version >/dev/null 2>&1; then
        CGO_ENABLED=1 CC=gcc quietly go test -count=1 -ldflags=-linkmode=external ./...
        CGO_ENABLED=1 CC=gcc quietly go test -count=1 -ldflags='-linkmode=external -extldflags=-static' ./...
        said 'Go: go test, linked by the linker of C, also without shared libraries'
    else
        said "Go: external linking was left out: it takes gcc"
    fi
    if "${TSAN_CC:-gcc}" --version >/dev/null 2>&1; then
        CGO_ENABLED=1 CC=gcc quietly go test -count=1 -race .
        said 'Go: go test -race'
    else
        said "Go: the race detector was left out: it takes gcc"
    fi
}

# The tests as a program without shared libraries, with what the runtime can be asked to do otherwise. Three settings are
# left out: with gcstoptheworld=2 each program of Go 1.19 ends, with efence=1 each that asks how much memory it has, and
# with sbrk=1 nothing is collected, for which a test waits.
debug() {
    local it settings=({gcstoptheworld,gccheckmark,clobberfree,asyncpreemptoff,gcshrinkstackoff,adaptivestackstart}'=1' 'cgocheck=2')
    quietly go test -c -o "$scratch/tests" .
    ! grep -aq '/ld-linux' "$scratch/tests" || {
        echo 'go.sh: a program without cgo takes shared libraries' >&2
        exit 1
    }
    for it in "${settings[@]}"; do GODEBUG=$it quietly "$scratch/tests"; done
    said "Go: the tests in a static program, with GODEBUG of ${settings[*]}"
}

# Before each test whether the stack has room Go moves the stack, also under the functions of the text.
stacks() {
    local moves=-d=maymorestack=runtime.mayMoreStackMove
    quietly go test -count=1 -gcflags="all=$moves" -asmflags="all=$moves" ./...
    said 'Go: the tests with each stack moved wherever it might be'
}

# The tests on ARM and on Windows, and by each other Go that is installed beside Debian's own.
elsewhere() {
    local it
    if has qemu-aarch64; then
        GOARCH=arm64 quietly go test -c -o "$scratch/arm64" .
        quietly qemu-aarch64 "$scratch/arm64"
        GOGC=1 quietly qemu-aarch64 "$scratch/arm64" -test.short -test.cpuprofile "$scratch/profile"
        said 'Go: the tests on ARM by qemu-aarch64, also with endless collection and a profile'
    else
        said 'Go: ARM was left out: there is no qemu-aarch64'
    fi
    for it in wine64 /usr/lib/wine/wine64 ''; do ! has "$it" || break; done
    if [ -n "$it" ]; then
        GOOS=windows quietly go test -c -o "$scratch/windows.exe" .
        WINEPREFIX=$scratch/wine WINEDEBUG=-all WINEDLLOVERRIDES='mscoree,mshtml=' WINEARCH=win64 quietly "$it" "$scratch/windows.exe"
        said 'Go: the tests as a program for Windows, by Wine'
    else
        said 'Go: Windows was left out: there is no wine64'
    fi
    for it in /usr/lib/go-*/bin/go; do
        [ "$("$it" version)" = "$(go version)" ] || {
            quietly "$it" vet ./...
            quietly "$it" test -count=1 ./...
            GOARCH=arm64 quietly "$it" vet .
            said "Go: go vet and go test by $("$it" version)"
        }
    done
}

versions() {
    quietly ../test/go_versions.sh "$scratch/versions" .
    said 'Go: a program with two versions of the package, each with its own text'
    quietly ../test/go_get.sh "$scratch/get"
    chmod -R u+w "$scratch/get"
    said 'Go: from an empty folder go get of the packed module, and the program of its README, under two paths'
}

beside_pion() {
    local it
    for it in rtp transport; do
        if [ ! -e "/usr/share/gocode/src/github.com/pion/$it/go.mod" ]; then
            said "Go: pion's packages were left out: there is no golang-github-pion-$it-dev"
            return
        fi
    done
    quietly ../test/go_pion.sh "$scratch/pion"
    said "Go: $(tail -n 1 "$scratch/log")"
    cd bench
    quietly go vet ./...
    quietly go test -bench . -benchtime 100x
    go build -o "$scratch/sfu" "$(../../go_path)/examples/sfu"
    go build -o "$scratch/pionsfu" ./pionsfu
    for it in 0 5; do quietly go run ./load -packets 300 -loss "$it" "$scratch/sfu" "$scratch/pionsfu"; done
    said "Go: the benchmark beside pion's package, and the SFUs over UDP, of which none loses a packet"
}

if [ "${1-}" = stacks ]; then
    stacks
    exit
fi
text
tools
tests
elsewhere
versions
(beside_pion)
