"""What is made of the description for C++: a call with a pointer, a length and an output as C++ has them, where
rtp_wire.hpp.in has no call of it."""

import re
from textwrap import indent

from .header import HEADER, SIZES, Api, Function, Parameter, laid_out, template

# These come last, and have a default.
DEFAULTS = {"allowed": "RTPW_ANY_FORM"}
# What a receiver with a window of words has of its own.
MEMBERS = {"receiver": "&state", "words": "words", "count": "count"}


def type_of(name: str) -> str:
    return name if name in ("bool", "char", "void") or name not in SIZES else f"std::{name}"


def parameter_of(p: Parameter) -> str:
    kind = ("const " if p.is_const else "") + type_of(p.type)
    if p.count:
        return f"{'bytes' if p.is_const else 'buffer'} {p.name}" if p.type == "uint8_t" else f"span<{kind}> {p.name}"
    if p.is_pointer:
        return f"{kind} &{p.name}"
    return f"{kind} {p.name}" + (f" = {DEFAULTS[p.name]}" if p.name in DEFAULTS else "")


def argument_of(it: Function, p: Parameter, output) -> str:
    counted = it.counted_by(p.name)
    if counted:
        return f"{counted.name}.size()"
    is_told = p is output and it.has_status
    return f"{p.name}.data()" if p.count else "it" if is_told else f"&{p.name}" if p.is_pointer else p.name


def wrapped(it: Function, members=(), start="inline ") -> str:
    """The function, of which these parameters are members of a class."""
    output = next((p for p in it.outputs if p.name not in members), None)
    given = sorted((p for p in it.given(output) if p.name not in members), key=lambda p: p.name in DEFAULTS)
    arguments = [MEMBERS[p.name] if p.name in members else argument_of(it, p, output) for p in it.parameters]
    call, kind = f"::{it.name}({', '.join(arguments)})", type_of(output.type if output else it.result)
    result = kind
    if output and it.has_status:
        result = f"result<{kind}>"
        lines = [f"return {result}([&]({kind} *it) {{ return {call}; }});"]
        if len(lines[0]) > 112:
            lines = [f"return {result}([&]({kind} *it) {{", f"    return {call};", "});"]
    elif output:
        lines = [f"{kind} {output.name};", f"{call};", f"return {output.name};"]
    elif it.has_status or it.short.endswith("standing_of"):
        result = "status" if it.has_status else "standing"
        lines = [f"return {result}({call});"]
    else:
        lines = [f"{'' if kind == 'void' else 'return '}{call};"]
    stays = " const" if members and all(p.is_const for p in it.pointers) else ""
    named = it.short[len("wide_receiver_"):] if members else it.short
    parameters = ", ".join(parameter_of(p).replace(" ", "~") for p in given)
    first = laid_out(f"{start}{result} {named}({parameters}){stays} noexcept {{", others=8)
    return "\n".join([first, *(laid_out(line, 4, 12) for line in lines), "}"])


def text_of(name: str) -> str:
    """What tells a text of values, and sets it."""
    return f"""\
inline std::optional<std::string_view> {name}(const rtpw_values &values RTPW_BOUND) noexcept {{
    return values.has_{name} ? std::optional<std::string_view>(values.{name}) : std::nullopt;
}}
std::optional<std::string_view> {name}(const rtpw_values &&) = delete;
inline status set_{name}(rtpw_values &values, std::string_view to) noexcept {{
    return detail::set_text(values.{name}, values.has_{name}, to);
}}"""


def calls(api: Api, by_hand) -> str:
    """The calls that aren't written by hand, under their headings in C's header file."""
    made, heading = [], ""
    for line in HEADER.read_text("utf-8").splitlines():
        name = re.match(r"(?:RTPW_CHECKED )?\w+ rtpw_(\w+)\(", line)
        heading = f"\n{line}\n" if line.startswith("/* ---- ") else heading
        if name and name[1] not in by_hand and not name[1].startswith("wide_receiver_"):
            made += [heading, wrapped(api.function[f"rtpw_{name[1]}"])]
            heading = None
    return "\n".join(it for it in made if it is not None).strip("\n")


def files(api: Api):
    text = template("rtp_wire.hpp.in")
    by_hand = set(re.findall(r"::rtpw_(\w+)\(", text))
    methods = [wrapped(it, MEMBERS, "") for it in api.functions if it.short.startswith("wide_receiver_")]
    made = {
        "STATUSES": ",\n    ".join(f"{name[5:].lower()} = {name}" for name, number in api.enums[0].items()),
        "TEXTS": "\n".join(text_of(it.name) for it in api.struct["rtpw_values"].fields if it.type == "char"),
        "CALLS": calls(api, by_hand),
        "METHODS": indent("\n".join(methods), "    ").strip(),
    }
    said = "/* Made by bindings/described/make of rtp_wire.h and bindings/described/rtp_wire.hpp.in. */\n"
    return {"bindings/c/rtp_wire.hpp": said + re.sub(r"@([A-Z]+)@", lambda it: made[it[1]], text)}
