#!/usr/bin/env bash
# Installs the library for C into PREFIX: the static and the shared library, the header files, and what pkg-config
# and CMake ask for.
#
# usage: bindings/install.sh [--prove] [--target TARGET] [--libdir DIR] [PREFIX]
#        bindings/install.sh --uninstall [--target TARGET] [--libdir DIR] [PREFIX]
#
# TARGET is x86_64-unknown-linux-gnu, or that for aarch64 or riscv64, by default this machine's. Without PREFIX it
# installs into bindings/out/TARGET. Libraries go into PREFIX/DIR, by default `lib`. Where DESTDIR is set all files
# are put below that folder, for a package, and name PREFIX alone. With --uninstall it removes what it installs.
#
# It takes the assembly text of the folder generated, and a C compiler and binutils of the target: for this machine
# `cc` (or $CC), for the other aarch64-linux-gnu-gcc and the like. With --prove it takes `rt` too, proves and builds
# the library from the sources, which takes minutes the first time, installs that, and says whether it is the text.
# Only the names rtpw_* are visible in both libraries, which want nothing but the C library.
#
# On macOS it is bindings/install_macos.sh, which takes --uninstall and PREFIX alone.
[ "$(uname -s)" != Darwin ] || exec sh "$(dirname -- "$0")/install_macos.sh" "$@"
set -euo pipefail

say() { echo "install.sh: $*" >&2; }
give_up() {
    say "$*"
    exit 1
}

here=$(cd -- "$(dirname -- "$(readlink -f -- "${BASH_SOURCE[0]}")")" && pwd)
top=$(cd -- "$here/.." && pwd)
machine=$(uname -m)
target=$machine-unknown-linux-gnu
libdir=lib
prefix=
proves=
uninstalls=
while [ $# -gt 0 ]; do
    case $1 in
    --prove) proves=yes ;;
    --uninstall) uninstalls=yes ;;
    --target | --libdir)
        [ $# -ge 2 ] || give_up "$1 wants a name"
        if [ "$1" = --target ]; then target=$2; else libdir=${2%/}; fi
        shift
        ;;
    -h | --help)
        sed -n '2,/^\[ /s/^# \{0,1\}//p' "$here/install.sh"
        exit
        ;;
    -*) give_up "no such option: $1" ;;
    *)
        [ -z "$prefix" ] || give_up "one PREFIX, and not also $1"
        prefix=$1
        ;;
    esac
    shift
done
case $target in
x86_64-unknown-linux-gnu | aarch64-unknown-linux-gnu | riscv64-unknown-linux-gnu) processor=${target%%-*} system=Linux-${target%%-*} ;;
*) give_up "no such target: $target" ;;
esac
case /$libdir/ in
// | //* | */./* | */../*) give_up "--libdir wants a folder below PREFIX, and not $libdir" ;;
esac
prefix=$(realpath -m -- "${prefix:-$here/out/$target}")
to=${DESTDIR-}$prefix

# The number of the shared library is the major one: what is linked with it can use each later one of that number.
version=$(sed -n 's/^#define RTPW_VERSION "\(.*\)"$/\1/p' "$here/c/rtp_wire.h")
abi=${version%%.*}
if [ -n "$uninstalls" ]; then
    rm -f -- "$to"/include/rtp_wire{.h,.hpp,_sanitized.h} "$to/$libdir/pkgconfig/rtp_wire.pc" "$to/$libdir"/cmake/rtp_wire/rtp_wire-config{,-version}.cmake \
        "$to/$libdir"/librtp_wire.{a,so,"so.$abi"} "$to/$libdir/librtp_wire.so.$abi."*
    [ ! -d "$to/$libdir/cmake/rtp_wire" ] || rmdir -- "$to/$libdir/cmake/rtp_wire"
    say "removed the library from $to"
    exit
fi

tools=$processor-linux-gnu-
cc=${tools}gcc
if [ "$processor" = "$machine" ]; then
    tools='' cc=${CC:-cc}
fi
for tool in "$cc" "${tools}ar" "${tools}ld" "${tools}objcopy" ${proves:+rt}; do
    command -v "${tool%% *}" >/dev/null || give_up "$tool is not on the path"
done
work=$here/out/build-$target
mkdir -p -- "$work"
# shellcheck source=generated/heads.sh
. "$top/generated/heads.sh"
text=$(text_of rtp_wire "$system")
if [ -d "$top/crates" ]; then
    # shellcheck source=.ci/proving
    . "$top/.ci/proving"
elif [ -n "$proves" ]; then
    give_up 'there are no sources here to prove'
else
    # What bindings/package.sh packs has no sources, and was packed where they were those of the text.
    now[rtp_wire]=$(said_of "$text" sources)
fi
fault=$(fault_of rtp_wire "$system")

# Proves and builds the library, and tells whether it is the text.
take_what_is_proved() {
    log=$work/rt.log times=$work/times
    # shellcheck source=generated/anew.sh
    . "$top/generated/anew.sh"
    lend_kit "$work/kit"
    say "proving and building the library for $target, which takes minutes the first time"
    : >"$log"
    if ! build_for rtp_wire "$system" || ! make_text rtp_wire "$system" "$work/rtp_wire.s"; then
        tail -n 20 -- "$log" >&2
        give_up "the library was not built: $log"
    fi
    grep -q "^logic=proved .*target=$proved_for" "$log" || give_up "the last lines don't say that it is proved: $log"
    say "proved and built after $SECONDS seconds"
    if cmp -s -- "$text" "$work/rtp_wire.s"; then
        what="what was proved, which is the text $text"
    elif [ -n "$fault" ]; then
        what="what was proved, and not the text $text, which $fault: generated/make writes it anew"
    elif [ "$(said_of "$text" kit)" != "$(rt version)" ]; then
        what="what was proved, and not the text $text, which is of $(said_of "$text" kit): here is $(rt version)"
    else
        give_up "the text $text isn't what was proved: generated/make writes it anew"
    fi
    # In front of some functions stands what isn't proved: it is the end of the text.
    local name renamed=()
    for name in $(in_front); do renamed+=(--redefine-sym "rtpw_$name=rtp_proved_$name"); done
    local proved=$top/crates/rtp_c/out/librtp_c.a
    if [ "$target" != "$proved_for" ]; then
        proved=$work/proved.o
        compile "$lent/words_for" ir "$lent/other" "$proved" -c
    fi
    "${tools}objcopy" "${renamed[@]}" "$proved" "$work/librtp_c.a"
    awk -v front="$not_proved" 'found; $0 == front { found = 1 }' "$work/rtp_wire.s" >"$work/apart.s"
    # shellcheck disable=SC2086
    $cc -c "$work/apart.s" -o "$work/apart.o"
    parts=(--whole-archive "$work/librtp_c.a" --no-whole-archive "$work/apart.o")
}

if [ -n "$proves" ]; then
    take_what_is_proved
elif [ -n "$fault" ]; then
    give_up "$text $fault: bindings/install.sh --prove, or else generated/make, proves and builds the sources as they are, and takes rt"
else
    # shellcheck disable=SC2086
    $cc -c "$text" -o "$work/rtp_wire-$system.o"
    parts=("$work/rtp_wire-$system.o")
    what="the text $text"
fi

# One object, of which only rtpw_* can be seen. Sections stay apart, so that a linker can leave out
# what isn't called (--gc-sections).
object=$work/rtp_wire.o
"${tools}ld" -r -o "$object" "${parts[@]}"
"${tools}objcopy" --strip-debug --wildcard --keep-global-symbol='rtpw_*' "$object"
rm -f -- "$work/librtp_wire.a"
"${tools}ar" rcsD "$work/librtp_wire.a" "$object"
# shellcheck disable=SC2086
$cc -shared -o "$work/librtp_wire.so" "$object" \
    -Wl,-soname,"librtp_wire.so.$abi" -Wl,--no-undefined -Wl,-z,noexecstack -Wl,-z,relro -Wl,-z,now

# The loader looks into these folders anyway, once ldconfig has; into any other a program has to name it.
case $prefix in
/usr | /usr/local) rpath='' ;;
*) rpath=' -Wl,-rpath,${libdir}' ;;
esac
fill_in() { # template, file, prefix
    "$here/fill_in" "$1" prefix="$3" libdir="$libdir" up="$(sed -E 's|[^/]+|..|g' <<<"$libdir")" \
        version="$version" number="${version%-dev}" abi="$abi" rpath="$rpath" >"$2"
}
install -d -- "$to/$libdir/pkgconfig" "$to/$libdir/cmake/rtp_wire" "$to/include"
install -m 644 -- "$work/librtp_wire.a" "$to/$libdir"
install -m 755 -- "$work/librtp_wire.so" "$to/$libdir/librtp_wire.so.$version"
ln -sf "librtp_wire.so.$version" "$to/$libdir/librtp_wire.so.$abi"
ln -sf "librtp_wire.so.$abi" "$to/$libdir/librtp_wire.so"
install -m 644 -- "$here"/c/rtp_wire{.h,.hpp,_sanitized.h} "$to/include"
# There a space ends a word, unless a backslash is before it.
fill_in "$here/rtp_wire.pc.in" "$work/rtp_wire.pc" "${prefix// /\\ }"
install -m 644 -- "$work/rtp_wire.pc" "$to/$libdir/pkgconfig"
for it in rtp_wire-config.cmake rtp_wire-config-version.cmake; do
    fill_in "$here/cmake/$it.in" "$work/$it" "$prefix"
    install -m 644 -- "$work/$it" "$to/$libdir/cmake/rtp_wire"
done
say "installed $what, into $to: $(stat -c %s "$work/librtp_wire.a") bytes of librtp_wire.a"
