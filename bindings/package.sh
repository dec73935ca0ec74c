#!/usr/bin/env bash
# Packs the library for C for a release: a source archive, which has no Rattle and needs a C compiler alone, a folder for
# Windows, the wheels of the package for Python and its source distribution, the module for Go as a folder for GOPROXY
# (bindings/go_proxy), and for each processor two Debian packages of what
# bindings/install.sh installs, the shared library and what programs are built with. Their bytes are the same on each run: all times are the date of the last release in CHANGELOG.md, or
# $SOURCE_DATE_EPOCH.
#
# usage: bindings/package.sh [FOLDER]      without FOLDER into bindings/out/packages
#
# The folder for Windows takes clang, lld, llvm and mingw-w64, the wheels take python3, clang and lld, and the Debian packages dpkg-deb, and that for another processor its compiler. What isn't there is said.
set -euo pipefail
umask 022
export LC_ALL=C TZ=UTC
top=$(cd -- "$(dirname -- "$(readlink -f -- "${BASH_SOURCE[0]}")")/.." && pwd)
to=$(realpath -m -- "${1:-$top/bindings/out/packages}")
cd -- "$top"
scratch=$(mktemp -d)
trap 'rm -rf -- "$scratch"' EXIT
say() { echo "package.sh: $*" >&2; }
give_up() {
    say "$*"
    exit 1
}

generated/make --digest || give_up 'the texts are not those of the sources'
version=$(sed -n 's/^#define RTPW_VERSION "\(.*\)"$/\1/p' bindings/c/rtp_wire.h)
abi=${version%%.*}
date=$(sed -n 's/^## \[.*\] - //p' CHANGELOG.md | sed -n 1p)
[ -n "$date" ] || give_up 'CHANGELOG.md has no date of a release'
SOURCE_DATE_EPOCH=${SOURCE_DATE_EPOCH:-$(date -d "$date" +%s)}
export SOURCE_DATE_EPOCH
mkdir -p -- "$to"

pack_sources() {
    local name=rtp-wire-c-$version
    mkdir "$scratch/$name"
    cp -r --parents -t "$scratch/$name" CHANGELOG.md LICENSE-APACHE LICENSE-MIT NOTICE SECURITY.md captures \
        bindings/{CMakeLists.txt,README.md,fill_in,install.sh,install_macos.sh,rtp_wire.pc.in,c/rtp_wire{.h,.hpp,_sanitized.h}} bindings/cmake \
        bindings/examples/{*.c,*.cpp,*.h,call*} bindings/test/{fuzz.c,hostile_*.c,*.h,inputs.sh} \
        generated/{heads.sh,rtp_wire-*.s}
    ln -s bindings/README.md "$scratch/$name/README.md"
    tar --format=ustar --sort=name --owner=0 --group=0 --numeric-owner --mode=u+rw,go+r-w,a+X \
        --mtime="@$SOURCE_DATE_EPOCH" -C "$scratch" -c "$name" | gzip -9n >"$to/$name.tar.gz"
    say "packed $name.tar.gz"
}

# A text as a field of Debian's files has it.
paragraphs() {
    sed 's/^$/./; s/^/ /' "$1"
}

# Debian sorts what stands behind a ~ before the release that it becomes.
debian_version=${version/-/"~"}

# Makes of a folder a Debian package, to which the documents that each has are added.
pack_folder() { # package, folder, architecture, template of its control file
    local documents=$2/usr/share/doc/$1 name=$1_${debian_version}_$3.deb kilobytes
    mkdir -p -- "$documents" "$2/DEBIAN"
    gzip -9n <CHANGELOG.md >"$documents/changelog.gz"
    bindings/fill_in bindings/debian/copyright.in notice="$(paragraphs NOTICE)" mit="$(paragraphs LICENSE-MIT)" >"$documents/copyright"
    kilobytes=$(find "$2/usr" -type f -printf '%s\n' | awk '{ sum += int(($1 + 1023) / 1024) } END { print sum }')
    bindings/fill_in "bindings/debian/$4" version="$debian_version" abi="$abi" architecture="$3" kilobytes="$kilobytes" >"$2/DEBIAN/control"
    (cd -- "$2" && find usr -type f -print0 | sort -z | xargs -0 md5sum) >"$2/DEBIAN/md5sums"
    find "$2" -exec touch -hd "@$SOURCE_DATE_EPOCH" {} +
    DPKG_DEB_THREADS_MAX=1 dpkg-deb --root-owner-group -Zxz --build "$2" "$to/$name" >"$scratch/said" 2>&1 ||
        give_up "$(cat "$scratch/said")"
    say "packed $name"
}

pack_for_debian() { # architecture, processor
    local shared=$scratch/$1-shared dev=$scratch/$1-dev libraries=usr/lib/$2-linux-gnu documents
    documents=$dev/usr/share/doc/librtp-wire-dev
    DESTDIR=$dev bindings/install.sh --target "$2-unknown-linux-gnu" --libdir "lib/$2-linux-gnu" /usr 2>"$scratch/said" ||
        give_up "$(cat "$scratch/said")"
    mkdir -p "$shared/$libraries" "$shared/DEBIAN"
    chmod 644 "$dev/$libraries"/*.so.*
    mv -- "$dev/$libraries"/librtp_wire.so.* "$shared/$libraries"
    echo 'activate-noawait ldconfig' >"$shared/DEBIAN/triggers"
    echo "librtp_wire $abi librtp-wire$abi (>= $debian_version)" >"$shared/DEBIAN/shlibs"
    install -Dm 644 -t "$documents/examples" bindings/examples/*.c bindings/examples/*.cpp bindings/examples/*.h
    install -m 644 -t "$documents" bindings/debian/README
    pack_folder "librtp-wire$abi" "$shared" "$1" control.in
    pack_folder librtp-wire-dev "$dev" "$1" control-dev.in
}

# A folder for Windows on x86-64, where MSVC has no assembler for the text: the DLL, which takes what it wants of the C
# library from msvcrt.dll, its import library, the static library, the header files and what CMake asks for.
pack_for_windows() {
    local name=rtp-wire-c-$version-windows-x86_64 folder cmake crt=/usr/x86_64-w64-mingw32/lib/libmsvcrt.a it
    for it in clang lld-link llvm-lib; do
        command -v "$it" >/dev/null || { say "the folder for Windows was left out: there is no $it" && return; }
    done
    [ -e "$crt" ] || { say 'the folder for Windows was left out: there is no mingw-w64' && return; }
    folder=$scratch/$name cmake=$scratch/$name/lib/cmake/rtp_wire
    mkdir -p "$folder"/{bin,include} "$cmake"
    clang --target=x86_64-pc-windows-msvc -mno-incremental-linker-compatible -c generated/rtp_wire-Windows-x86_64.s -o "$scratch/rtp_wire.obj"
    {
        printf 'LIBRARY rtp_wire.dll\nEXPORTS\n'
        sed -nE 's/^(RTPW_CHECKED )?[a-z0-9_]+ (rtpw_[a-z0-9_]+)\(.*/    \2/p' bindings/c/rtp_wire.h
    } >"$scratch/rtp_wire.def"
    # The names of files are kept, as they are given.
    (
        cd -- "$scratch"
        lld-link /machine:x64 /Brepro /dll /noentry /nodefaultlib /out:rtp_wire.dll /implib:rtp_wire.lib /def:rtp_wire.def \
            rtp_wire.obj "$crt" && llvm-lib /out:rtp_wire_static.lib rtp_wire.obj
    ) || give_up 'the folder for Windows was not made'
    mv -- "$scratch/rtp_wire.dll" "$folder/bin"
    mv -- "$scratch"/rtp_wire{,_static}.lib "$folder/lib"
    cp -- bindings/c/rtp_wire{.h,.hpp,_sanitized.h} "$folder/include"
    cp -- LICENSE-APACHE LICENSE-MIT NOTICE CHANGELOG.md SECURITY.md bindings/README.md "$folder"
    cp -- bindings/cmake/rtp_wire-config-windows.cmake "$cmake/rtp_wire-config.cmake"
    bindings/fill_in bindings/cmake/rtp_wire-config-version.cmake.in number="${version%-dev}" abi="$abi" \
        >"$cmake/rtp_wire-config-version.cmake"
    tar --format=ustar --sort=name --owner=0 --group=0 --numeric-owner --mode=u+rw,go+r-w,a+X \
        --mtime="@$SOURCE_DATE_EPOCH" -C "$scratch" -c "$name" | gzip -9n >"$to/$name.tar.gz"
    say "packed $name.tar.gz"
}

# The wheels of the package for Python for all systems, and its source distribution.
pack_for_python() {
    local it
    for it in python3 clang lld; do
        command -v "$it" >/dev/null || { say "the wheels for Python were left out: there is no $it" && return; }
    done
    python3 -B bindings/python/backend/rtp_wire_wheels.py "$to" >"$scratch/said" || give_up 'no wheels for Python'
    (cd -- bindings/python/backend && python3 -B -c 'import sys, rtp_wire_backend as it; print(it.build_sdist(sys.argv[1]))' "$to") >>"$scratch/said"
    while read -r it; do say "packed $it"; done <"$scratch/said"
}

pack_sources
pack_for_windows
pack_for_python
say "packed the module $(bindings/go_proxy "$to/goproxy") for Go, in goproxy"
if ! command -v dpkg-deb >/dev/null; then
    say 'the Debian packages were left out: there is no dpkg-deb'
    exit
fi
for it in 'amd64 x86_64' 'arm64 aarch64'; do
    read -r architecture processor <<<"$it"
    if [ "$processor" = "$(uname -m)" ] || command -v "$processor-linux-gnu-gcc" >/dev/null; then
        pack_for_debian "$architecture" "$processor"
    else
        say "the packages for $architecture were left out: there is no $processor-linux-gnu-gcc"
    fi
done
