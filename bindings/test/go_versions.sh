#!/usr/bin/env bash
# A program with two versions of the package for Go, of which each has to call its own text.
#
# usage: bindings/test/go_versions.sh FOLDER PACKAGE
#        FOLDER is where the program is built. The other version is the package as the module of version 2, with a text whose
#        number is that of 2.0.0.
set -euo pipefail
here=$(cd -- "$(dirname -- "$(readlink -f -- "${BASH_SOURCE[0]}")")/../.." && pwd)
package=$(cd -- "$2" && pwd)
module=$(sed -n 's/^module //p' "$package/go.mod")
mkdir -p -- "$1"
cd -- "$1"
fail() {
    echo "go_versions.sh: $*" >&2
    exit 1
}

# The other version, with a text of its own for this processor.
mkdir -p other program
cp -- "$package"/{*.go,*.s} other
rm -- other/*_test.go
sed -i 's/^const Version = .*/const Version = "2.0.0"/' other/doc.go
sed 's#^module .*#&/v2#' "$package/go.mod" >other/go.mod
processor=$(uname -m)
case $processor in
x86_64) of=amd64 says='movl $131072, %eax; retq' ;;
*) of=arm64 says='mov w0, #131072; ret' ;;
esac
sed "/^rtpw_version:/,/\.cfi_startproc/s/\.cfi_startproc.*/&\n\t$says/" "$here/generated/rtp_wire-Linux-$processor.s" >other.s
python3 "$here/generated/go/text.py" $of other.s "$here/generated/go/memory-$processor.s" other >text.log

cat >program/go.mod <<END
module two

go 1.19

require (
	$module v1.0.0
	$module/v2 v2.0.0
)

replace (
	$module => $package
	$module/v2 => $PWD/other
)
END
cat >program/main.go <<END
package main

import (
	"fmt"

	one "$module"
	two "$module/v2"
)

func main() {
	datagram := []byte{0x80, 96, 0, 5, 0, 0, 0, 160, 0, 0, 0, 7}
	var first one.Packet
	var second two.Packet
	if err := first.Parse(datagram, nil); err != nil {
		panic(err)
	}
	if err := second.Parse(datagram, nil); err != nil {
		panic(err)
	}
	fmt.Println(one.Version, one.LibraryVersion(), first.SSRC(), two.Version, two.LibraryVersion(), second.SSRC())
}
END
version=$(sed -nE 's/^#define RTPW_VERSION "(.*)"$/\1/p' "$here/bindings/c/rtp_wire.h")
number=$(sed -n 's/^#define RTPW_VERSION_NUMBER //p' "$here/bindings/c/rtp_wire.h")
(cd program && CGO_ENABLED=0 go build -o ../two .) || fail 'the program is not built'
said=$(./two)
[ "$said" = "$version $number 7 2.0.0 131072 7" ] || fail "$said"
