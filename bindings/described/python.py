"""What is made of the description for Python: the structs and functions, as ctypes has them."""

from .header import Api, Field, Function, Parameter, Struct, laid_out

TYPES = {"bool": "c_bool", "char": "c_char", "size_t": "c_size_t"}
TYPES.update({f"{sign}int{bits}_t": f"c_{sign}int{bits}" for sign in ("", "u") for bits in (8, 16, 32, 64)})
# Of the receivers for a sender that may start again the package has the one with a window of any size, its version is
# that of its metadata, and many packets with values are whole ones.
OF_C_ALONE = {"restarting_receive", "restarting_receiver", "version", "parse_many", "datagram_header"}


def type_of(name: str) -> str:
    return TYPES.get(name) or "Raw" + "".join(it.title() for it in name.split("_")[1:])


def parameter_of(it: Parameter) -> str:
    if not it.is_pointer:
        return "SIZE" if it.type == "size_t" else type_of(it.type)
    return "BYTES" if it.type == "uint8_t" else f"POINTER({type_of(it.type)})"


def declared(it: Function) -> str:
    result = {"void": "None", "int32_t": "STATUS"}.get(it.result) or type_of(it.result)
    given = "".join(f", {parameter_of(p)}" for p in it.parameters)
    return laid_out(f'{it.short} = declare({result}, "{it.name}"{given})')


def told(it: Field) -> str:
    """What a field holds for who reads it."""
    if it.type == "char":
        return "bytes"
    return "Any" if it.count else "int" if it.type in TYPES else type_of(it.type)


def flags_of(it: Struct):
    """The flags has_.. of a struct that has many, which Python reads at once."""
    flags = [field for field in it.fields if field.name.startswith("has_")]
    return flags if len(flags) > 8 else []


def struct_of(it: Struct) -> str:
    flags = flags_of(it)
    fields = [field for field in it.fields if field not in flags]
    # One that begins with a header has the fields of that.
    base = type_of(fields.pop(0).type) if fields[0].type == "rtpw_header" else "Structure"
    kinds = {f.name: f"{type_of(f.type)}{f' * {f.count}' if f.count else ''}" for f in fields}
    rows = [(f.name, f"cast(Any, {kinds[f.name]})" if told(f).startswith("Raw") else kinds[f.name]) for f in fields]
    said = [f"    {f.name}: {told(f)}" for f in fields]
    if flags:
        rows.append(("has", f"c_uint8 * {len(flags)}"))
        said.append("    has: Any")
    listed = [f'        ("{name}", {kind}),' for name, kind in rows]
    lines = [f"class {type_of(it.name)}({base}):", *said, "    _fields_ = [", *listed, "    ]"]
    if flags:
        names = ", ".join(f'"{f.name[4:]}"' for f in flags)
        lines[:0] = [f"# What each of {type_of(it.name)}.has is for, in order: in C {flags[0].name} and so on.",
                     laid_out(f"VALUES = ({names})"), "", ""]
    return "\n".join(lines)


def files(api: Api):
    functions = [declared(it) for it in api.functions if it.short not in OF_C_ALONE]
    structs = [struct_of(it) for it in api.structs if it.short not in OF_C_ALONE]
    ranges = "\n".join(
        f'    "{type_of(it.name)}.{f.name}": {f.range},' for it in api.structs for f in it.fields if f.range)
    texts = "\n".join(f'    {api.constants[name]}: "{text}",' for name, text in api.texts.items() if name)
    kinds = sorted({name for name in TYPES.values() if f"{name}" in "\n".join(functions + structs)})
    text = f'''# Made by bindings/described/make of bindings/c/rtp_wire.h.
"""The structs and functions of rtp_wire.h."""

from ctypes import (
    POINTER,
    Structure,
{chr(10).join(f"    {it}," for it in kinds)}
    c_void_p,
)
from typing import Any, Dict, Tuple, cast

from ._loaded import declare

BYTES, SIZE, STATUS = c_void_p, c_size_t, c_int32

# What each status says.
TEXTS: Dict[int, str] = {{
{texts}
}}

# The least and the most that may be written of a field.
RANGES: Dict[str, Tuple[int, int]] = {{
{ranges}
}}


{(chr(10) * 3).join(structs)}


{chr(10).join(functions)}
'''
    return {"bindings/python/src/rtp_wire/_library.py": text}
