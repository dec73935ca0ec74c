#!/usr/bin/env bash
# The tests of pion's own packages over the subpackage rtp of the package for Go, in place of pion's headers and packets:
# those of pion/rtp, of the interceptors, of SRTP, and of peer connections. What fails has to be what
# bindings/test/go_pion.txt lists, each with the sentence of the RFC from which pion's test differs.
#
# usage: bindings/test/go_pion.sh FOLDER      FOLDER is where the packages are laid out
#
# It takes Debian's golang-github-pion-rtp-dev, -interceptor-dev, -srtp.v2-dev and -webrtc.v3-dev. Peer connections take
# root and ip, for a network of their own, and a minute and a half, in which they mostly wait.
set -euo pipefail
here=$(cd -- "$(dirname -- "$(readlink -f -- "${BASH_SOURCE[0]}")")/../.." && pwd)
installed=/usr/share/gocode/src/github.com/pion
mkdir -p -- "$1"
folder=$(cd -- "$1" && pwd)
module=$("$here/bindings/go_path")
export GOPATH=$folder:/usr/share/gocode GO111MODULE=off GOFLAGS='' GOTOOLCHAIN=local CGO_ENABLED=0
fail() {
    echo "go_pion.sh: $*" >&2
    exit 1
}

# pion/rtp, of which these files are the subpackage's.
lay_out() {
    local rtp=$folder/src/github.com/pion/rtp
    mkdir -p "$rtp" "$folder/src/${module%/*}"
    cp -r -- "$here/bindings/go" "$folder/src/$module"
    cp -r -- "$installed/rtp/." "$rtp"
    for it in packet error {abssendtime,audiolevel,transportcc}extension; do rm -- "$rtp/$it.go"; done
    for it in "$folder/src/$module"/rtp/*.go; do
        case $it in *_test.go) ;; *) cp -- "$it" "$rtp/of_rtpwire_${it##*/}" ;; esac
    done
    # What pion's tests call beside the API.
    { printf 'package rtp\n\nimport "time"\n' && sed -n '/^func toNtpTime/,$p' "$installed/rtp/abssendtimeextension.go"; } >"$rtp/times_test.go"
}

# The tests of a package, by a command.
run_tests() { # package, command..
    "${@:2}" go test -count=1 -vet=off -v "github.com/pion/$1" >"$folder/said" 2>&1 || true
}
# The names of the tests that failed in a package, of those within others the innermost.
failed_of() { # package
    sed -nE 's/^ *--- FAIL: (\S+) .*/\1/p' "$folder/said" | awk '{ all[NR] = $1 } END { for (i in all) { inner = 0; for (j in all) if (index(all[j], all[i] "/") == 1) inner = 1; if (!inner) print all[i] } }' | sed "s|^|$1 |" | sort -u
}
listed_of() { # package
    grep "^$1 " "$here/bindings/test/go_pion.txt" | sed 's/ |.*//' | sort -u || true
}
count() { # package
    passed=$((passed + $(grep -cE '^--- PASS' "$folder/said" || true)))
    packages=$((packages + 1))
    differ=$((differ + $(listed_of "$1" | wc -l)))
}

try_package() {
    run_tests "$1"
    grep -qE '^(ok|FAIL|PASS|\?)' "$folder/said" || { cat "$folder/said" >&2 && fail "$1"; }
    ! grep -qE '^panic:|build failed|setup failed' "$folder/said" || { tail -n 40 "$folder/said" >&2 && fail "$1"; }
    diff <(listed_of "$1") <(failed_of "$1") >&2 || fail "other tests of $1 fail than bindings/test/go_pion.txt lists"
    count "$1"
}

# With an address that isn't the loopback's, as peers want one, in a network that nothing else is in.
alone_in_a_network() {
    unshare -n bash -c 'ip link set lo up && ip link add one type veth peer name other && ip addr add 10.77.0.1/24 dev one &&
        ip link set one up && ip link set other up && ip route add default via 10.77.0.1 && exec "$@"' - "$@"
}
# These tests have limits of seconds, which a busy machine may miss: so they may be tried three times. Where a limit ends all
# three times they are left out.
try_peer_connections() {
    local it
    for it in 1 2 3; do
        run_tests webrtc alone_in_a_network
        if ! grep -q '^panic:' "$folder/said" && diff -q <(listed_of webrtc) <(failed_of webrtc) >/dev/null; then
            count webrtc
            return
        fi
    done
    grep -q '^panic:' "$folder/said" || {
        diff <(listed_of webrtc) <(failed_of webrtc) >&2 || true
        fail 'other tests of webrtc fail than bindings/test/go_pion.txt lists'
    }
    left_out='; peer connections were left out, on so busy a machine'
}

passed=0 packages=0 differ=0 left_out=
lay_out
try_package rtp
for it in "$installed"/interceptor/pkg/*; do [ ! -e "$it" ] || try_package "interceptor/pkg/${it##*/}"; done
[ ! -e "$installed/srtp/v2" ] || try_package srtp/v2
if [ -e "$installed/webrtc" ] && alone_in_a_network true 2>/dev/null; then
    try_peer_connections
else
    left_out='; peer connections were left out'
fi
echo "$passed tests of $packages of pion's packages pass, and $differ differ as bindings/test/go_pion.txt lists$left_out"
