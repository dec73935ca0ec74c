"""What is made of the description for Rust: the functions with types of Rust, and the structs."""

from textwrap import indent

from .header import Api, Function, Parameter, Struct, laid_out

MADE = "// Made by bindings/described/make of bindings/c/rtp_wire.h.\n"
TYPES = {"bool": "bool", "char": "u8", "size_t": "usize"}
TYPES.update({f"{sign}int{bits}_t": f"{'u' if sign else 'i'}{bits}" for sign in ("", "u") for bits in (8, 16, 32, 64)})

# The structs that have another name than in C: those of the package, which are public, and those within it.
NAMES = {
    "packet": "PacketParts", "fields": "FieldsView", "element": "Place", "map": "StoredMap", "new_ids": "StoredNewIds",
    "values": "ValuesView", "header": "HeaderView", "frame_marking": "FrameMarkingView",
    "orientation": "OrientationView", "timing": "TimingView", "transport_number": "TransportNumberView",
    "color_space": "ColorSpaceView", "dependency_descriptor": "DependencyDescriptorView",
    "receiver": "ReceiverState", "wide_receiver": "WideState", "restarting_receiver": "NarrowRestartingState",
    "wide_restarting_receiver": "RestartingState", "reception": "ReceptionState", "report": "ReceptionReport",
    "datagram": "PacketSlot", "datagram_header": "HeaderSlot", "whole_datagram": "WholeSlot", "arrival": "ArrivalSlot",
    "template": "TemplateParts", "routed_header": "RoutedSlot", "group": "StoredGroup",
}
# Those that stand in the package by hand, since their fields are public.
BY_HAND = {"report": "reception", "chromaticity": "standard", "hdr_metadata": "standard"}
# What those derive that are public where it isn't all that others do.
DERIVES = {
    **dict.fromkeys(("datagram", "whole_datagram", "datagram_header"), ", Default"), "arrival": "", "routed_header": "",
}
# A parameter that is given in another type, which is that struct and nothing else.
GIVEN_AS = {("receive_many", "receivers"): "crate::receiver::Receiver"}


def name_of(short: str) -> str:
    return NAMES.get(short) or "".join(it.title() for it in short.split("_"))


def type_of(name: str) -> str:
    return TYPES.get(name) or name_of(name[len("rtpw_"):])


def output_of(it: Function):
    """The output that the function returns in Rust: None where the status isn't RTPW_OK."""
    written = [p for p in it.pointers if p.mark == "out"]
    return written[0] if written == it.outputs and len(written) == 1 and it.returns and it.has_status else None


def declared(it: Function) -> str:
    """The function as the linker has it."""
    of_c = {(True, True): "*const ", (True, False): "*mut "}
    given = ", ".join(f"{p.name}: {of_c.get((p.is_pointer, p.is_const), '')}{type_of(p.type)}" for p in it.parameters)
    return f"pub fn {it.name}({given}){'' if it.result == 'void' else f' -> {TYPES[it.result]}'};"


def parameter_of(it: Function, p: Parameter) -> str:
    kind = GIVEN_AS.get((it.short, p.name), type_of(p.type))
    if not p.is_pointer:
        return f"{p.name}: {kind}"
    return f"{p.name}: &{'' if p.is_const else 'mut '}{f'[{kind}]' if p.count else kind}"


def argument_of(it: Function, p: Parameter, output) -> str:
    counted = it.counted_by(p.name)
    if counted:
        return f"{counted.name}.len()"
    if p.count:
        cast = ".cast()" if (it.short, p.name) in GIVEN_AS else ""
        return f"{p.name}.as_{'' if p.is_const else 'mut_'}ptr(){cast}"
    return f"&mut {p.name}" if p is output else p.name


def wrapped(it: Function) -> str:
    """The function with types of Rust."""
    output = output_of(it)
    given = [parameter_of(it, p) for p in it.given(output)]
    arguments = ", ".join(argument_of(it, p, output) for p in it.parameters)
    result = {"void": "", **{name: f" -> {kind}" for name, kind in TYPES.items()}}[it.result]
    call = f"unsafe {{ c::{it.name}({arguments}) }}"
    if output:
        kind = type_of(output.type)
        start = "0" if output.type in TYPES else f"{kind}::default()"
        tells = "(status == OK).then_some(%s)" if not output.written_if else "(status, %s)"
        result = f" -> Option<{kind}>" if not output.written_if else f" -> (i32, {kind})"
        call = f"let status = {call};\n    {tells % output.name}"
    body = [f"    let mut {output.name} = {start};"] if output else []
    written = ", ".join(p.name for p in it.parameters if p.mark in ("out", "inout"))
    body += [f"    // SAFETY: as above{f', where these are exclusive: {written}' if written else ''}.", f"    {call}"]
    return "\n".join([f"pub fn {it.short}({', '.join(given)}){result} {{", *body, "}"])


def struct_of(it: Struct) -> str:
    is_large = any((field.count or 0) > 32 for field in it.fields)
    derives = DERIVES.get(it.short, f"{'' if is_large else ', Default'}, PartialEq, Eq, Hash")
    fields = [f"    pub(crate) {f.name}: {f'[{type_of(f.type)}; {f.count}]' if f.count else type_of(f.type)},"
              for f in it.fields]
    return "\n".join([
        f"/// `{it.name}` in C.", "#[repr(C)]", f"#[derive(Clone, Copy, Debug{derives})]",
        f"pub struct {name_of(it.short)} {{", *fields, "}"])


def layout_of(it: Struct) -> str:
    places = ", ".join(f"{f.name}~{f.at}" for f in it.fields)
    return laid_out(f"lies!({name_of(it.short)}, {it.size}, aligned {it.align}, {places});")


def sys(api: Api) -> str:
    kinds = [("i32" if "RTPW_OK" in enum else "u8", enum) for enum in api.enums]
    kinds.append(("usize", {name: api.constants[name] for name in ("RTPW_CSRC_AT", "RTPW_URI_SIZE")}))
    constants = "\n".join(
        f"pub const {name[5:]}: {kind} = {number};" for kind, enum in kinds for name, number in enum.items())
    texts = "\n".join(f'    pub const {name[5:]}: &str = "{text}";' for name, text in api.texts.items() if name)
    ranges = "\n".join(
        f"    pub const {it.short.upper()}_{f.name.upper()}: RangeInclusive<i32> = {f.range[0]}..={f.range[1]};"
        for it in api.structs for f in it.fields if f.range)
    return f"""{MADE}
//! The functions of `rtp_wire.h`, called with the types of Rust. This is the one module with `unsafe`; what it
//! calls is the text in `assembly`.
//!
//! Each of them may be called with any values: it asks only that a pointer is aligned and is to as many
//! bytes as is said, and that what it writes overlaps nothing else that it is given. A reference of Rust
//! is never NULL, and an exclusive one overlaps no other. No function keeps a pointer. That is the reason of
//! each call below.
#![allow(unsafe_code, dead_code, clippy::wildcard_imports)]

use crate::views::*;

{constants}

/// What each status says.
pub mod text {{
{texts}
}}

/// What may be written of a field.
pub mod range {{
    use core::ops::RangeInclusive;

{ranges}
}}

/// Declares functions of the library under their names in its text.
macro_rules! of_the_text {{
    ($(pub fn $name:ident($($argument:ident: $kind:ty),* $(,)?) $(-> $result:ty)?;)*) => {{
        extern "C" {{
            $(
                #[link_name = in_the_text!($name)]
                pub fn $name($($argument: $kind),*) $(-> $result)?;
            )*
        }}
    }};
}}

mod c {{
    use super::*;

    of_the_text! {{
{indent(chr(10).join(declared(it) for it in api.functions), " " * 8)}
    }}
}}

{(chr(10) * 2).join(wrapped(it) for it in api.functions)}
"""


def views(api: Api) -> str:
    made = [it for it in api.structs if it.short not in BY_HAND]
    by_hand = "\n".join(f"pub use crate::{module}::{name_of(name)};" for name, module in BY_HAND.items())
    return f"""{MADE}
//! The structs of `rtp_wire.h`.
#![allow(dead_code, unused_imports)]

use core::mem::offset_of;

{by_hand}

{(chr(10) * 2).join(struct_of(it) for it in made)}

// A program isn't built where a struct has another size than in C, or a field lies elsewhere.
macro_rules! lies {{
    ($it:ty, $size:expr, aligned $align:expr, $($field:ident $at:expr),*) => {{
        const _: () = assert!(size_of::<$it>() == $size && align_of::<$it>() == $align);
        $(const _: () = assert!(offset_of!($it, $field) == $at, stringify!($field));)*
    }};
}}

{chr(10).join(layout_of(it) for it in api.structs)}
"""


def files(api: Api):
    folder = "bindings/rust/rtp-wire/src"
    return {f"{folder}/sys.rs": sys(api), f"{folder}/views.rs": views(api)}
