#!/usr/bin/env bash
# bindings/install.sh as on a Mac, as far as Linux can: with stand-ins for `uname` and `cc`, which compile and link for macOS
# by clang and LLVM's linker, and with dash as the shell. What it installs has to be of that system, with its functions alone.
set -euo pipefail
top=$(cd -- "$(dirname -- "$0")/../.." && pwd)
scratch=$(mktemp -d)
trap 'rm -rf -- "$scratch"' EXIT
fail() {
    echo "install_macos.sh: $*" >&2
    exit 1
}
linker=$(compgen -c ld64.lld | sort -u | tail -n 1)
nm=$(compgen -c llvm-nm | sort -u | head -n 1)
if [ -z "$linker" ] || [ -z "$nm" ] || ! command -v clang >/dev/null; then
    echo 'the install on macOS was left out: there is no clang, ld64.lld or llvm-nm'
    exit
fi
for machine in arm64 x86_64; do
    mkdir -p "$scratch/bin"
    printf '#!/bin/sh\ncase $1 in -s) echo Darwin ;; -m) echo %s ;; esac\n' $machine >"$scratch/bin/uname"
    cat >"$scratch/libSystem.tbd" <<'END'
--- !tapi-tbd
tbd-version: 4
targets: [ arm64-macos, x86_64-macos ]
install-name: '/usr/lib/libSystem.B.dylib'
exports:
  - targets: [ arm64-macos, x86_64-macos ]
    symbols: [ _bzero, ___bzero, _memcpy, _memmove, _memset, dyld_stub_binder ]
...
END
    cat >"$scratch/bin/cc" <<END
#!/bin/sh
case \$1 in
-dynamiclib) shift && exec clang --target=$machine-apple-macos11 -fuse-ld=$(command -v "$linker") -mlinker-version=609 -nostdlib -L$scratch -lSystem -dynamiclib "\$@" ;;
*) exec clang --target=$machine-apple-macos11 "\$@" ;;
esac
END
    chmod +x "$scratch"/bin/*
    to=$scratch/$machine
    PATH=$scratch/bin:$PATH "$top/bindings/install.sh" "$to" 2>"$scratch/said" || fail "$machine: $(cat "$scratch/said")"
    sed -n 's/^function .*\<\(rtpw_[a-z0-9_]*\)(.*/_\1/p' "$top"/bindings/test/abi-1.txt | sort >"$scratch/wanted"
    for it in librtp_wire.a librtp_wire.dylib; do
        "$nm" -g --defined-only "$to/lib/$it" | awk 'NF == 3 { print $3 }' | sort | diff "$scratch/wanted" - >&2 || fail "$machine: the names in $it"
    done
    ! grep -q '@[a-z]*@' "$to"/lib/pkgconfig/*.pc "$to"/lib/cmake/rtp_wire/*.cmake || fail "$machine: what is left of a template"
    grep -qF 'librtp_wire.1.dylib' "$to/lib/cmake/rtp_wire/rtp_wire-config.cmake" || fail "$machine: what CMake links"
    PATH=$scratch/bin:$PATH "$top/bindings/install.sh" --uninstall "$to" 2>"$scratch/said"
    [ -z "$(find "$to" ! -type d)" ] || fail "$machine: what --uninstall leaves: $(find "$to" ! -type d)"
done
echo 'the install on macOS, arm64 and x86-64, with stand-ins'
