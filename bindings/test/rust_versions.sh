#!/usr/bin/env bash
# A program with two versions of the crate for Rust, of which each has to call its own text, in each profile in which the
# linker, or the compiler in its place, sees both.
#
# usage: bindings/test/rust_versions.sh FOLDER CRATE
#        FOLDER is where the program is built. The other version is the crate with a text whose number is that of 2.0.0.
set -euo pipefail
here=$(cd -- "$(dirname -- "$(readlink -f -- "${BASH_SOURCE[0]}")")/../.." && pwd)
crate=$(cd -- "$2" && pwd)
mkdir -p -- "$1"
cd -- "$1"
fail() {
    echo "rust_versions.sh: $*" >&2
    exit 1
}

# The other version, with its own texts.
package=bindings/rust/rtp-wire
mkdir -p other/{generated,$package/assembly} program/src
cp -r -- "$crate"/{Cargo.toml,README.md,src} other/$package
sed -i 's/^version = .*/version = "2.0.0"/' other/$package/Cargo.toml
cp -- "$here"/generated/rtp_wire-*.s other/generated
sed '/^rtpw_version:/a movl $131072, %eax; retq' "$here/generated/rtp_wire-Linux-x86_64.s" >other/generated/rtp_wire-Linux-x86_64.s
sed '/^rtpw_version:/a mov w0, #131072; ret' "$here/generated/rtp_wire-Linux-aarch64.s" >other/generated/rtp_wire-Linux-aarch64.s
top=$PWD/other
# shellcheck source=generated/copies.sh
. "$here/generated/copies.sh"
copies | grep "$package/assembly" | while read -r from to; do copy_of "$from" "$to" >"other/$to"; done

cat >program/Cargo.toml <<END
[package]
name = "two"
version = "1.0.0"
edition = "2021"
[dependencies]
one = { package = "rtp-wire", path = "$crate" }
two = { package = "rtp-wire", path = "$PWD/other/$package" }
[profile.release]
opt-level = 1
[profile.thin]
inherits = "release"
lto = "thin"
[profile.fat]
inherits = "release"
lto = "fat"
END
cat >program/src/main.rs <<'END'
fn main() {
    let packet = [0x80, 96, 0, 5, 0, 0, 0, 160, 0, 0, 0, 7];
    let one = one::Packet::parse(&packet).map(|it| it.ssrc());
    let two = two::Packet::parse(&packet).map(|it| it.ssrc());
    println!("{} {one:?} {} {two:?}", one::version(), two::version());
}
END
number=$(sed -n 's/^#define RTPW_VERSION_NUMBER //p' "$here/bindings/c/rtp_wire.h")
for profile in dev release thin fat; do
    said=$(cargo run --quiet --offline --manifest-path program/Cargo.toml --target-dir out --profile $profile) || fail "$profile"
    [ "$said" = "$number Ok(7) 131072 Ok(7)" ] || fail "$profile: $said"
done
