# What the texts for Go's assembler are made of. The scripts generated/make and generated/go/make read this file; they set
# `top`, and generated/go/made_of has what it said when the texts were made.

# The digests of what the texts are made of, and of the texts.
go_made_of() {
    (
        cd -- "$top" || exit
        cat -- bindings/c/rtp_wire.h generated/rtp_wire-Linux-{x86_64,aarch64}.s generated/go/{memory-*.s,*.py} bindings/described/{go,header}.py |
            sha256sum | sed 's/ .*/ sources/'
        cat -- bindings/go/{calls.go,rtp_wire_*.s} | sha256sum | sed 's/ .*/ texts/'
    )
}

go_is_current() {
    [ "$(go_made_of)" = "$(cat -- "$top/generated/go/made_of" 2>/dev/null)" ]
}
