# The files that stand elsewhere and are copied into the packages for Rust, Go and JavaScript, since a package has only
# what is in its folder. The script generated/make reads this file, after generated/go/digest.sh; it sets `top`.

# Each file, and its copy.
copies() {
    cat <<'END'
generated/rtp_wire-Linux-x86_64.s bindings/rust/rtp-wire/assembly/rtp_wire-Linux-x86_64.s
generated/rtp_wire-Linux-x86_64.s bindings/rust/rtp-wire/assembly/rtp_wire-Linux-x86_64.prefix
generated/rtp_wire-Linux-aarch64.s bindings/rust/rtp-wire/assembly/rtp_wire-Linux-aarch64.s
generated/rtp_wire-Linux-aarch64.s bindings/rust/rtp-wire/assembly/rtp_wire-Linux-aarch64.prefix
generated/rtp_wire-Darwin-arm64.s bindings/rust/rtp-wire/assembly/rtp_wire-Darwin-arm64.s
generated/rtp_wire-Darwin-arm64.s bindings/rust/rtp-wire/assembly/rtp_wire-Darwin-arm64.prefix
generated/rtp_wire-Windows-x86_64.s bindings/rust/rtp-wire/assembly/rtp_wire-Windows-x86_64.s
generated/rtp_wire-Windows-x86_64.s bindings/rust/rtp-wire/assembly/rtp_wire-Windows-x86_64.prefix
bindings/c/rtp_wire.h bindings/rust/rtp-wire/tests/rtp_wire.h
bindings/c/rtp_wire.h bindings/go/rtp_wire.h
LICENSE-APACHE bindings/rust/rtp-wire/LICENSE-APACHE
LICENSE-MIT bindings/rust/rtp-wire/LICENSE-MIT
NOTICE bindings/rust/rtp-wire/NOTICE
LICENSE-APACHE bindings/go/LICENSE-APACHE
LICENSE-MIT bindings/go/LICENSE-MIT
NOTICE bindings/go/NOTICE
LICENSE-APACHE bindings/js/LICENSE-APACHE
LICENSE-MIT bindings/js/LICENSE-MIT
NOTICE bindings/js/NOTICE
END
}

# What each name in a text for Rust begins with: a digest of the text. So a program may have several versions of the
# crate, two states of one version too: without it the linker takes the calls of all of them to one text.
prefix_of() { # text
    printf 'rtp_%.8s_' "$(sha256sum <"$top/$1")"
}

# What a copy has: the file, or in a text for Rust other names and labels, and beside it what these begin with.
copy_of() { # file, its copy
    local prefix
    case $2 in
    bindings/rust/*.prefix) prefix_of "$1" ;;
    bindings/rust/*-Darwin-*.s | bindings/rust/*-Windows-*.s)
        # There all names begin with rtp (generated/systems.py), and on macOS each has a line before it.
        prefix=$(prefix_of "$1")
        sed -E -e "/^( \*|\t\.(asci[iz]|section)\t)/!{s/\<([Ll])rtp_/\1$prefix/g; s/\<(_?)(rtpw?_[a-z])/\1$prefix\2/g}" -- "$top/$1"
        ;;
    bindings/rust/*.s)
        prefix=$(prefix_of "$1")
        sed -E -e "/^\t\.(ascii|section)\t/!s/\"([^\"]*)\"/\"$prefix\1\"/g" \
            -e "/^\t\.(ascii|section)\t/!{s/\.Lrtp_/.L$prefix/g; s/\<(rtpw|rtp_proved)_([a-z])/$prefix\1_\2/g}" -- "$top/$1"
        ;;
    *) cat -- "$top/$1" ;;
    esac
}

# The copies that aren't what they are copied from: each, and that, in one line. The texts for Go's assembler are made by
# generated/go/make.
stale_copies() {
    local from to
    {
        copies | while read -r from to; do
            copy_of "$from" "$to" | cmp -s -- - "$top/$to" || echo "$to isn't $from"
        done
        go_is_current || echo "bindings/go/rtp_wire_*.s aren't generated/rtp_wire-*.s"
    } | paste -s -d ,
}

write_copies() {
    local from to
    copies | while read -r from to; do
        mkdir -p -- "$top/${to%/*}" && copy_of "$from" "$to" >"$top/$to"
    done
    go_is_current || "$top/generated/go/make" >/dev/null
}
