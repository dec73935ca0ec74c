//! The library, as the assembly text that was made of it.
#![allow(unsafe_code)]

use core::arch::global_asm;

#[cfg(not(any(
    all(
        target_os = "linux",
        target_pointer_width = "64",
        target_endian = "little",
        any(target_arch = "x86_64", target_arch = "aarch64"),
    ),
    all(target_os = "macos", target_arch = "aarch64"),
    all(target_os = "windows", target_arch = "x86_64"),
)))]
compile_error!(
    "rtp-wire is for Linux on x86_64 and aarch64 (x86_64-unknown-linux-gnu, aarch64-unknown-linux-musl and the like), \
     macOS on arm64 (aarch64-apple-darwin) and Windows on x86_64 (x86_64-pc-windows-msvc, x86_64-pc-windows-gnu)"
);

/// Takes the text of a system, and defines the name that a function has there: it begins with what no other text's
/// names do, so that a program may have several versions of this crate.
macro_rules! text_of {
    ($text:literal, $prefix:literal $(, $option:ident)?) => {
        global_asm!(include_str!($text), options($($option,)? raw));

        macro_rules! in_the_text {
            ($name:ident) => {
                concat!(include_str!($prefix), stringify!($name))
            };
        }
    };
}

#[cfg(all(target_os = "linux", target_arch = "x86_64"))]
text_of!(
    "../assembly/rtp_wire-Linux-x86_64.s",
    "../assembly/rtp_wire-Linux-x86_64.prefix",
    att_syntax
);
#[cfg(all(target_os = "linux", target_arch = "aarch64"))]
text_of!(
    "../assembly/rtp_wire-Linux-aarch64.s",
    "../assembly/rtp_wire-Linux-aarch64.prefix"
);
#[cfg(all(target_os = "macos", target_arch = "aarch64"))]
text_of!(
    "../assembly/rtp_wire-Darwin-arm64.s",
    "../assembly/rtp_wire-Darwin-arm64.prefix"
);
#[cfg(all(target_os = "windows", target_arch = "x86_64"))]
text_of!(
    "../assembly/rtp_wire-Windows-x86_64.s",
    "../assembly/rtp_wire-Windows-x86_64.prefix",
    att_syntax
);
