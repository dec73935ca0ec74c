#!/usr/bin/env bash
# The module for Go as one who depends on it has it: from an empty folder, `go get` of what bindings/go_proxy packs, and then
# the program of bindings/go/README.md prints what stands there. There is no C compiler on the path, nor anything but go.
# After bindings/go_path under another path it is the same.
#
# usage: bindings/test/go_get.sh FOLDER      where it is done
set -euo pipefail
here=$(cd -- "$(dirname -- "$(readlink -f -- "${BASH_SOURCE[0]}")")/../.." && pwd)
mkdir -p -- "$1"
folder=$(cd -- "$1" && pwd)
fail() {
    echo "go_get.sh: $*" >&2
    exit 1
}
block() { # language, which one of it
    awk -v begins="^\`\`\`$1\$" -v at="$2" '/^```$/ { inside = 0 } inside; $0 ~ begins { inside = ++count == at }' "$readme"
}
mkdir -p "$folder/bin" && ln -sf "$(command -v go)" "$folder/bin"

get_and_run() { # repository, folder
    local readme=$1/bindings/go/README.md module said
    module=$("$1/bindings/go_proxy" "$2/proxy")
    mkdir -p "$2/app"
    block go 1 >"$2/app/main.go"
    (
        cd -- "$2/app"
        export PATH=$folder/bin GOPATH=$2/gopath GOPROXY=file://$2/proxy GOSUMDB=off GOFLAGS=-modcacherw GOTOOLCHAIN=local
        unset CGO_ENABLED CC CXX
        go mod init app && go get "$module" && go vet . && go run .
    ) >"$2/said" 2>"$2/log" || { cat "$2/log" >&2 && fail "$module"; }
    said=$(block console 2 | sed 1d)
    [ -n "$said" ] && [ "$said" = "$(cat "$2/said")" ] || fail "$(cat "$2/said")"
}

get_and_run "$here" "$folder/as_it_is"
mkdir -p "$folder/moved/bindings"
cp -r -- "$here/bindings/go" "$here/bindings/go_path" "$here/bindings/go_proxy" "$folder/moved/bindings"
(cd -- "$folder/moved" && git init -q . && git add -A && bindings/go_path media.example.org/lowest/rtpwire)
[ "$("$folder/moved/bindings/go_path")" = media.example.org/lowest/rtpwire ] || fail 'the path after bindings/go_path'
! grep -rnF "$("$here/bindings/go_path")" "$folder/moved/bindings" >&2 || fail 'the old path is left'
get_and_run "$folder/moved" "$folder/moved_too"
