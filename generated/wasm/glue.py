#!/usr/bin/env python3
"""Writes what stands between the library for WebAssembly and its callers, out of the header file for C.

usage: glue.py FOLDER            writes narrow.c, apart.c, wide.c and layout.mjs there
       glue.py --layout          prints layout.mjs alone

    narrow.c    the functions as the module exports them: pointers and sizes are numbers of 32 bits, a number of 64 bits
                is two of 32, the low one first, and one that is returned is written where the last argument points
    apart.c     what stands in front of the functions whose data may lie in their buffer, as in generated/apart.c: a
                call in WebAssembly has to have the types of what it calls
    wide.c      the functions of the header file, over those that the module exports: for C beside the module
    layout.mjs  where each field lies, the constants, and what each status says, for JavaScript

A size is a number of 64 bits in the structs, whatever pointers have. Whether each field lies where it is said is asked
of the compiler, in narrow.c.
"""

import re
import sys
from pathlib import Path

TOP = Path(__file__).resolve().parent.parent.parent
sys.path.insert(0, str(TOP / "bindings"))
sys.dont_write_bytecode = True
from described.header import HEADER, read  # noqa: E402

APART = TOP / "generated/apart.c"
INCLUDE = f'#include "{HEADER}"\n'
# What is returned, as WebAssembly has it.
RESULTS = {"void": "void", "int32_t": "int32_t"}


def number_of(parameter):
    """What a parameter is that is no pointer."""
    return "int32_t" if parameter.type == "int32_t" else "uint32_t"


def is_wide(parameter):
    return parameter.type == "uint64_t" and not parameter.is_pointer


def declared(parameters):
    return ", ".join(f"{it.c}{'' if it.is_pointer else ' '}{it.name}" for it in parameters) or "void"


def narrow(function):
    """A function as the module exports it, over that of the header file."""
    taken, passed = [], []
    for it in function.parameters:
        if is_wide(it):
            taken += [f"uint32_t {it.name}_low", f"uint32_t {it.name}_high"]
            passed.append(f"(uint64_t){it.name}_high << 32 | {it.name}_low")
        elif it.is_pointer:
            taken.append(f"uint32_t {it.name}")
            passed.append(f"({it.c})(uintptr_t){it.name}")
        else:
            taken.append(f"{number_of(it)} {it.name}")
            passed.append(f"{it.name} != 0" if it.type == "bool" else f"({it.type}){it.name}")
    call, result = f"{function.name}({', '.join(passed)})", function.result
    if result == "uint64_t":
        taken.append("uint32_t result")
        result, call = "void", f"*(uint64_t *)(uintptr_t)result = {call}"
    kind, given = RESULTS.get(result, "uint32_t"), "" if result == "void" else "return "
    exported = f'__attribute__((export_name("{function.short}"))) {kind} narrow_{function.short}'
    arguments = ", ".join(taken) or "void"
    return f"{exported}({arguments});\n{kind} narrow_{function.short}({arguments}) {{ {given}{call}; }}"


def wide(function):
    """A function of the header file, over the one that the module exports."""
    types, passed = [], []
    for it in function.parameters:
        if is_wide(it):
            types += ["uint32_t", "uint32_t"]
            passed += [f"(uint32_t){it.name}", f"(uint32_t)({it.name} >> 32)"]
        elif it.is_pointer:
            types.append("uint32_t")
            passed.append(f"(uint32_t)(uintptr_t){it.name}")
        elif it.type == "size_t":
            # No buffer has as many bytes as 32 bits tell; what is longer is passed on as longer than any.
            types.append("uint32_t")
            passed.append(f"({it.name} >> 32 != 0 ? UINT32_MAX : (uint32_t){it.name})")
        else:
            types.append(number_of(it))
            passed.append(f"({types[-1]}){it.name}")
    before, after, kind = f"return ({function.result})", "", RESULTS.get(function.result, "uint32_t")
    if function.result == "void":
        before = ""
    if function.result == "uint64_t":
        types.append("uint32_t")
        passed.append("(uint32_t)(uintptr_t)&it")
        before, after, kind = "uint64_t it; ", " return it;", "void"
    imported = f'__attribute__((import_module("rtp_wire"), import_name("{function.short}")))'
    call = f"narrow_{function.short}({', '.join(passed)})"
    return (
        f"{imported} {kind} narrow_{function.short}({', '.join(types) or 'void'});\n"
        f"{function.result} {function.name}({declared(function.parameters)}) {{ {before}{call};{after} }}"
    )


def apart(function):
    """What stands in front of a function one of whose arguments may lie in the buffer that it writes; else nothing."""
    data = next((it for it in function.parameters if it.may_overlap), None)
    if data is None:
        return ""
    buf = next(it for it in function.parameters if it.name == data.may_overlap)
    taken, passed = declared(function.parameters), ", ".join(it.name for it in function.parameters)
    compared = f"share((uintptr_t){data.name}, {data.count}, (uintptr_t){buf.name}, {buf.count})"
    proved = f"rtp_proved_{function.short}"
    return (
        f"int32_t {proved}({taken});\nint32_t {function.name}({taken}) {{\n"
        f"    return {compared} ? BAD_FIELD : {proved}({passed});\n}}\n"
    )


def camel(name):
    return re.sub(r"_(\w)", lambda it: it[1].upper(), name)


def frozen(name, members):
    """An object of JavaScript with these members."""
    listed = "".join(f"\n    {key}: {value}," for key, value in members)
    return f"export const {name} = Object.freeze({{{listed}\n}});"


def layout(api):
    """The places of all fields, the constants and the texts, for JavaScript."""
    out = [
        "// SPDX-License-Identifier: MIT OR Apache-2.0",
        "// Copyright (c) 2026 The rtp-wire developers (NOTICE)",
        "",
        "// Where each field lies, the constants, and what each status says. Made from bindings/c/rtp_wire.h by",
        "// generated/wasm/glue.py.",
        f"export const VERSION_NUMBER = {api.constants['RTPW_VERSION_NUMBER']};",
    ]
    for it in api.structs:
        places = [("size", it.size), *((camel(field.name), field.at) for field in it.fields)]
        out.append(frozen(it.name.removeprefix("rtpw_").upper(), places))
    for name, first in (("STATUS", "OK"), ("FORM", "NO_BLOCK"), ("KIND", "KIND_NONE"), ("STANDING", "NEW")):
        members = next(it for it in api.enums if f"RTPW_{first}" in it)
        short = [(re.sub("^RTPW_(KIND_)?", "", key), value) for key, value in members.items()]
        out.append(frozen(name, short))
    texts = dict(api.texts)
    told = [(key.removeprefix("RTPW_"), '"' + text.replace('"', '\\"') + '"') for key, text in texts.items() if "RTPW" in key]
    return "\n".join([*out, frozen("STATUS_TEXTS", told)]) + "\n"


def main():
    api = read()
    if sys.argv[1] == "--layout":
        print(layout(api), end="")
        return
    folder = Path(sys.argv[1])
    places = [f"_Static_assert(sizeof({it.name}) == {it.size}, \"\");" for it in api.structs]
    for it in api.structs:
        places += [f"_Static_assert(offsetof({it.name}, {field.name}) == {field.at}, \"\");" for field in it.fields]
    share = APART.read_text()
    share = share[: share.index("/* A function of these arguments")]
    (folder / "narrow.c").write_text("\n".join([INCLUDE, *places, *map(narrow, api.functions), ""]))
    (folder / "apart.c").write_text("\n".join([share, INCLUDE, *filter(None, map(apart, api.functions)), ""]))
    (folder / "wide.c").write_text("\n".join([INCLUDE, *map(wide, api.functions), ""]))
    (folder / "layout.mjs").write_text(layout(api))


main()
