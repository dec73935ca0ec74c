# Makes the text of what `rt` builds. The scripts prove, bindings/install.sh and generated/make read this file,
# after .ci/proving and generated/heads.sh.
#
# `rt` compiles a proved crate by the clang of its kit. lend_kit puts an `rt` on the path which is that of the
# kit, and whose clang does the same but for two things. It keeps what it was given, so that make_text can have that
# written as text. And it adds call frame information, for which it puts some instructions in another order: so
# what is built by this `rt` has the code of the text.

# The system for which what is compiled for others too is proved and built.
proved_for=x86_64-unknown-linux-gnu

# Takes a folder for the kit that is lent: it is of links, but for clang, and for `rt`, which looks beside itself.
lend_kit() {
    local it kit
    kit=$(dirname -- "$(dirname -- "$(readlink -f -- "$(command -v rt)")")") || return
    lent=$1
    rm -rf -- "$lent"
    mkdir -p -- "$lent/toolchain/bin" "$lent/bin" || return
    for it in "$kit"/* "$kit"/bin/* "$kit"/toolchain/* "$kit"/toolchain/bin/*; do
        case ${it#"$kit/"} in
        bin/rt | bin/*.py) cp -- "$it" "$lent/bin" || return ;;
        bin | toolchain | toolchain/bin | toolchain/bin/clang) ;;
        *) ln -s -- "$it" "$lent/${it#"$kit/"}" || return ;;
        esac
    done
    cat >"$lent/toolchain/bin/clang" <<CLANG
#!/usr/bin/env bash
case " \$* " in
*' -c -x ir '*' -o module.o '*)
    given=" \$* "
    given=\${given#* -x ir }
    set -- "\$@" -fforce-dwarf-frame
    cp -- "\${given%% *}" "$lent/module" && printf '%s\n' "\$@" >"$lent/words" || exit
    ;;
esac
exec "$kit/toolchain/bin/clang" "\$@"
CLANG
    chmod +x "$lent/toolchain/bin/clang"
    PATH=$lent/bin:$PATH
}

# Proves and builds what texts are made of: that for this system, and those for the others that follow in its list (make_text).
# The program for another processor isn't linked: that for x86-64 has to be there, stays, and is run on no input.
build_for() { # text, system
    local crate=${crate_of[$1]} triple=${triple_of[$2]} out status=0
    out=$top/crates/$crate/out
    read -ra crates <<<"$(crates_of "$crate")"
    rm -f -- "$lent/module" "$lent/words"
    case $1-$2 in
    rtp_wire-*) prove_all lib --target "$proved_for" ;;
    rtp_lines-Linux-x86_64)
        # Else rt takes what it built before, and compiles nothing.
        rm -f -- "$out/rtp_lines.stamp"
        prove_all run
        ;;
    *)
        mv -- "$lent/bin/rattle-link" "$out/rtp_lines.stamp" "$out/rtp_lines.o" "$lent"
        ln -s -- "$(type -P true)" "$lent/bin/rattle-link"
        prove_all run --target "$triple" || status=$?
        mv -f -- "$lent/rattle-link" "$lent/bin"
        mv -f -- "$lent/rtp_lines.stamp" "$lent/rtp_lines.o" "$out"
        return "$status"
        ;;
    esac
}

# The functions for C in front of which generated/apart.c stands, without the rtpw_ of their names.
in_front() {
    sed -n 's/^APART(\([a-z_]*\),.*/\1/p' "$top/generated/apart.c"
}

# The words for the kit's clang by which it compiles for a system what it compiled for another: those by which `rt` called
# it, but for what is of one processor or one form of file. On ARM two registers are left alone: x18, which Apple and
# Windows keep for themselves, and x28, in which Go has what it knows of a goroutine. The program takes no instruction that
# older assemblers for Macs don't know.
words_for() { # triple, library or program
    local words at
    mapfile -t words <"$lent/words" || return
    for at in "${!words[@]}"; do
        case ${words[at]-}-$1 in
        --target=*) words[at]=--target=$1 ;;
        -march=*-riscv64-*) words[at]=-march=rv64gc ;;
        -march=*-aarch64-*) words[at]=-march=armv8-a ;;
        -march=*-arm64-*) if [ "$2" = program ]; then words[at]=-mcpu=generic; else unset "words[at]"; fi ;;
        -no-x86-call-frame-opt-x86_64-*) ;;
        -no-x86-call-frame-opt-*) unset "words[at - 1]" "words[at]" ;;
        -fforce-dwarf-frame-*-windows-* | -fPIC-*-windows-*) unset "words[at]" ;;
        esac
    done
    case $1 in
    arm64-* | aarch64-*) words+=(-ffixed-x18 -ffixed-x28) ;;
    riscv64-*) words+=(-mabi=lp64d) ;;
    esac
    printf '%s\n' "${words[@]}"
}

# Lets the kit's clang write what it is given as text, or as an object. For ARM `rt` tells it to leave out the passes
# that it has run before; C needs them.
compile() { # file of words, language, file, where to, -S or -c
    local words at
    mapfile -t words <"$1" || return
    for at in "${!words[@]}"; do
        case ${words[at]-} in
        -c) words[at]=$5 ;;
        -Xclang) [ "$2" = ir ] || unset "words[at]" "words[at + 1]" ;;
        -x) words[at + 1]=$2 words[at + 2]=$3 ;;
        -o) words[at + 1]=$4 ;;
        esac
    done
    "$lent/toolchain/bin/clang" "${words[@]}" -fno-addrsig -fno-verbose-asm
}

# What the kit's clang was given, for another system: the module, in $lent/other, and the words.
retarget() { # triple, what systems.py is to make of the module, and what it takes besides
    local clang=$lent/toolchain/bin/clang layout
    rm -f -- "$lent/other"
    if grep -qx -e "--target=$1" "$lent/words"; then
        ln -s -- module "$lent/other" && cp -- "$lent/words" "$lent/words_for"
        return
    fi
    words_for "$1" "$2" >"$lent/words_for" || return
    layout=$("$clang" --target="$1" -S -emit-llvm -x c /dev/null -o - | sed -n 's/^target datalayout = "\(.*\)"/\1/p') || return
    "$clang" --target="$proved_for" -S -emit-llvm -Xclang -disable-llvm-passes -x ir "$lent/module" -o "$lent/module.ll" || return
    "$top/generated/systems.py" "$2" "$1" "$layout" "${@:3}" <"$lent/module.ll" >"$lent/other"
}

# The line by which a text for macOS says for which version of it the module was compiled.
platform() { # triple
    case $1 in *apple*) grep '^\s\.build_version' "$lent/module.s" ;; esac
}

# The code of the library for C for a system, in which generated/apart.c takes the names of the functions in front of
# which it stands, and is the end.
library_code() { # triple
    local front
    # shellcheck disable=SC2046
    retarget "$1" library "$top/bindings/c/rtp_wire.h" $(in_front) && compile "$lent/words_for" ir "$lent/other" "$lent/module.s" -S &&
        compile "$lent/words_for" c "$top/generated/apart.c" "$lent/apart.s" -S || return
    front=$(in_front | paste -s -d '|')
    sed -i -E "s/\b(_?)rtpw_($front)\b/\1rtp_proved_\2/g" "$lent/module.s" || return
    platform "$1" || return
    "$top/generated/systems.py" text "$1" 'rtpw_[a-z0-9_]*' rtp_ <"$lent/module.s" || return
    echo "$not_proved"
    "$top/generated/systems.py" text "$1" 'rtpw_[a-z0-9_]*' rtp_apart_ <"$lent/apart.s" || return
    case $1 in *apple*) printf '\t.subsections_via_symbols\n' ;; esac
}

# Writes the text of what was built last.
make_text() { # text, system, file
    local what proved='is proved' triple=${triple_of[$2]} for=$proved_for
    case $1 in
    rtp_wire)
        library_code "$triple" >"$lent/code" || return
        what='the library for C' proved='but those at its end is proved'
        ;;
    rtp_lines)
        retarget "$triple" program && compile "$lent/words_for" ir "$lent/other" "$lent/module.s" -S &&
            { platform "$triple" && "$top/generated/systems.py" text "$triple" main rtp_ <"$lent/module.s"; } >"$lent/code" || return
        what='the program'
        [[ " ${proved_on[$1]} " != *" $2 "* ]] || for=$triple
        ;;
    esac
    {
        echo "/*"
        echo " * $1 for ${2%%-*} on ${2#*-}: the assembly text that Rattle's compiler makes of $what, each function of which $proved."
        echo " * Made anew by: generated/make"
        echo " * kit: $(rt version)"
        echo " * proved for: $for"
        echo " * compiled for: $triple"
        echo " * sources: $(sources_digest "${crate_of[$1]}")"
        echo " * SPDX-License-Identifier: MIT OR Apache-2.0"
        echo " * Copyright (c) 2026 The rtp-wire developers (NOTICE)"
        echo " */"
        "$top/generated/systems.py" refusal "$2" <"$lent/code"
    } >"$3"
    sed -i "s/^ \* sources: .*/&\n * text: $(text_digest "$3")/" "$3"
}
