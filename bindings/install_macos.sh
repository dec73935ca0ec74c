#!/bin/sh
# Installs the library for C on macOS into PREFIX: the static and the shared library, the header files, and what pkg-config
# and CMake ask for. bindings/install.sh calls it there: macOS has an older bash, and other tools. It takes `cc` (or $CC) and
# `ar`, of the Command Line Tools.
#
# usage: bindings/install_macos.sh [--uninstall] [PREFIX]        by default bindings/out/Darwin-MACHINE
set -eu
here=$(cd "$(dirname "$0")" && pwd)
system=$(uname -s)-$(uname -m)
text=$here/../generated/rtp_wire-$system.s
uninstalls=
prefix=
for it; do
    case $it in
    --uninstall) uninstalls=yes ;;
    -*)
        echo "install_macos.sh: no such option on macOS: $it" >&2
        exit 1
        ;;
    *) prefix=$it ;;
    esac
done
[ -e "$text" ] || {
    echo "install_macos.sh: there is no text for $system" >&2
    exit 1
}
mkdir -p "${DESTDIR-}${prefix:-$here/out/$system}"
prefix=${prefix:-$here/out/$system}
to=${DESTDIR-}$prefix
[ -n "${DESTDIR-}" ] || { to=$(cd "$prefix" && pwd) && prefix=$to; }
version=$(sed -n 's/^#define RTPW_VERSION "\(.*\)"$/\1/p' "$here/c/rtp_wire.h")
abi=${version%%.*}
if [ -n "$uninstalls" ]; then
    rm -f "$to/include/rtp_wire.h" "$to/include/rtp_wire.hpp" "$to/include/rtp_wire_sanitized.h" "$to/lib/pkgconfig/rtp_wire.pc" \
        "$to"/lib/cmake/rtp_wire/rtp_wire-config*.cmake "$to/lib/librtp_wire.a" "$to"/lib/librtp_wire.*dylib
    echo "install_macos.sh: removed the library from $to" >&2
    exit
fi

mkdir -p "$to/include" "$to/lib/pkgconfig" "$to/lib/cmake/rtp_wire"
cp "$here/c/rtp_wire.h" "$here/c/rtp_wire.hpp" "$here/c/rtp_wire_sanitized.h" "$to/include"
object=$to/lib/rtp_wire.o
${CC:-cc} -c "$text" -o "$object"
rm -f "$to/lib/librtp_wire.a"
ar rcs "$to/lib/librtp_wire.a" "$object"
${CC:-cc} -dynamiclib -install_name "@rpath/librtp_wire.$abi.dylib" -Wl,-exported_symbol,'_rtpw_*' \
    -o "$to/lib/librtp_wire.$version.dylib" "$object"
rm -f "$object"
ln -sf "librtp_wire.$version.dylib" "$to/lib/librtp_wire.$abi.dylib"
ln -sf "librtp_wire.$abi.dylib" "$to/lib/librtp_wire.dylib"

# The loader looks for an @rpath in the folders that a program names.
fill_in() { # template
    sed -e "s|@prefix@|$prefix|g" -e 's|@libdir@|lib|g' -e 's|@up@|..|g' -e "s|@version@|$version|g" \
        -e "s|@number@|${version%-dev}|g" -e "s|@abi@|$abi|g" -e 's|@rpath@| -Wl,-rpath,${libdir}|g' \
        -e "s|librtp_wire\.so\.$version|librtp_wire.$version.dylib|; s|librtp_wire\.so\.$abi|@rpath/librtp_wire.$abi.dylib|" "$1"
}
fill_in "$here/rtp_wire.pc.in" >"$to/lib/pkgconfig/rtp_wire.pc"
for it in rtp_wire-config rtp_wire-config-version; do
    fill_in "$here/cmake/$it.cmake.in" >"$to/lib/cmake/rtp_wire/$it.cmake"
done
echo "install_macos.sh: installed the text $text, into $to" >&2
