# What the heads of the texts in this folder say. The scripts rtp_lines, prove, bindings/install.sh and
# generated/make read this file, after .ci/proving; they set `top`. It takes a shell and coreutils alone.

# The texts, each with the crate that it is made of, and the systems that it is for, as `uname -s` and `uname -m` name them.
names='rtp_wire rtp_lines'
declare -A crate_of=([rtp_wire]=rtp_c [rtp_lines]=rtp_lines)
declare -A systems_of=(
    [rtp_wire]='Linux-x86_64 Linux-aarch64 Linux-riscv64 Darwin-arm64 Darwin-x86_64 Windows-x86_64'
    [rtp_lines]='Linux-x86_64 Linux-riscv64 Darwin-arm64 Darwin-x86_64 Windows-x86_64 Linux-aarch64'
)
# The systems for which each is proved and built. What was built is then compiled for those that follow in the list.
declare -A proved_on=([rtp_wire]='Linux-x86_64' [rtp_lines]='Linux-x86_64 Linux-aarch64')

# What a compiler calls each system.
declare -A triple_of=(
    [Linux-x86_64]=x86_64-unknown-linux-gnu
    [Linux-aarch64]=aarch64-unknown-linux-gnu
    [Linux-riscv64]=riscv64-unknown-linux-gnu
    [Darwin-arm64]=arm64-apple-macosx11.0.0
    [Darwin-x86_64]=x86_64-apple-macosx11.0.0
    [Windows-x86_64]=x86_64-pc-windows-gnu
)

# The file of a text.
text_of() { # text, system
    echo "$top/generated/$1-$2.s"
}

# The line of the text of the library for C behind which generated/apart.c begins.
not_proved='/* What follows is of generated/apart.c, in front of the functions rtp_proved_*, and is not proved. */'

# The digest of what a crate is made of: the lines of crates.txt for it and for those below it, and
# their src, specs and proofs; and for the library for C generated/apart.c.
sources_digest() { # crate
    local below name part folders=()
    read -ra below <<<"$(crates_of "$1")"
    (
        cd -- "$top" || exit
        for name in "${below[@]}"; do
            grep -E "^$name( staticlib)?:" crates.txt
            for part in src specs proofs; do
                [ ! -d "crates/$name/$part" ] || folders+=("crates/$name/$part")
            done
        done
        find "${folders[@]}" -type f \( -name '*.rt' -o -name '*.antt' \) -print0 |
            LC_ALL=C sort -z | xargs -0 sha256sum
        [ "$1" != rtp_c ] || sha256sum generated/apart.c
    ) | sha256sum | cut -d ' ' -f 1
}

# What the head of a text says of a word, as `sources`.
said_of() { # file, word
    sed -n "s/^ \* $2: //p; /^ \*\/\$/q" "$1"
}

# The digest of a text, but for the line that says it.
text_digest() { # file
    grep -v '^ \* text: ' "$1" | sha256sum | cut -d ' ' -f 1
}

# What stands below the head of a text.
code_of() { # file
    sed '1,/^ \*\/$/d' "$1"
}

# Why a text isn't to be used: nothing where it is whole, and made of the sources as they are. Their digest is
# in `now` where it was found before.
declare -A now
fault_of() { # text, system
    local file
    file=$(text_of "$1" "$2")
    if [ ! -f "$file" ]; then
        echo 'is not there'
    elif [ "$(said_of "$file" text)" != "$(text_digest "$file")" ]; then
        echo 'was changed by hand'
    elif [ "$(said_of "$file" sources)" != "${now[$1]-$(sources_digest "${crate_of[$1]}")}" ]; then
        echo 'is older than a source'
    fi
}
