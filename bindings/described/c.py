"""What is made of the description for C: where the fields of each struct lie, and the list of the ABI."""

from .header import Api

LAYOUT = """\
/* Made by bindings/described/make of bindings/c/rtp_wire.h. */
/* Where the fields of each struct lie on a machine of 64 bits, and the numbers of each constant. */
#include "../c/rtp_wire.h"

#ifdef __cplusplus
#define HOLDS(fact) static_assert(fact, #fact)
#else
#define HOLDS(fact) _Static_assert(fact, #fact)
#endif
"""


def layout(api: Api) -> str:
    lines = []
    for it in api.all_structs:
        lines += ["", f"HOLDS(sizeof({it.name}) == {it.size});"]
        for f in it.fields:
            size = f"sizeof((({it.name} *)0)->{f.name}) == {f.size}"
            lines.append(f"HOLDS(offsetof({it.name}, {f.name}) == {f.at} && {size});")
    lines += ["", *(f"HOLDS({name} == {number});" for name, number in api.constants.items()), ""]
    return LAYOUT + "\n".join(lines)


def abi(api: Api) -> str:
    """The list of what a program that is linked with the library relies on."""
    library = f"librtp_wire.so.{api.version.split('.')[0]}"
    lines = [f"# What a program that is linked with {library} relies on. Made anew by: bindings/test/abi.sh --write"]
    for it in api.all_structs:
        lines.append(f"struct {it.name}: {it.size} bytes, aligned to {it.align}")
        for f in it.fields:
            kind = f"{f.type}[{f.count}]" if f.count else f"const {f.type} *" if f.is_pointer else f.type
            lines.append(f"    {it.name}.{f.name} at {f.at}, {f.size} bytes: {kind}")
    numbers = {name: number for name, number in api.constants.items() if name != "RTPW_VERSION_NUMBER"}
    lines += [f"constant {name}: {number}" for name, number in numbers.items()]
    of_c = {"bool": "_Bool"}
    functions = [(it, ", ".join(of_c.get(p.c, p.c) for p in it.parameters) or "void") for it in api.all_functions]
    lines += sorted(f"function {of_c.get(it.result, it.result)} {it.name}({given})" for it, given in functions)
    return "\n".join([*lines, ""])


def files(api: Api):
    return {"bindings/test/layout.c": layout(api)}
