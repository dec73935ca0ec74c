"""What is made of the description for Go: the structs, the statuses, and the functions, as those of Go's assembler text
and over these with types of Go.

A function `rtpw_NAME` is text_NAME of the assembler text (generated/go/make), of which two make several calls, and in a
program with a race detector it tells that what is read and what is written: a struct, all of an array, of a packet its
header where that is read or changed, and the whole of it where its payload may move."""

from typing import List, Tuple

from .header import SIZES, Api, Function, Parameter, Struct

MADE = "// Made by bindings/described/make of bindings/c/rtp_wire.h: do not edit.\n"
TYPES = {it: it[:-2] for it in SIZES if it.endswith("_t")}
TYPES.update({"bool": "bool", "char": "byte", "uint8_t": "byte", "size_t": "uintptr"})
# In place of names that have a meaning in Go, and what a word of a name is written as.
PARAMETERS = {"map": "m", "len": "n"}
KEYWORDS = {"map", "type", "range"}
WORDS = {"id": "ID", "ids": "IDs", "csrc": "CSRC", "uri": "URI", "rtcp": "RTCP", "ntp": "NTP", "ok": "OK"}
# The structs that have another name in Go than in C, and None of what two are.
NAMES = {
    "packet": "PacketFields", "element": "Place", "new_ids": "NewIDs", "values": "ReadValues",
    "reception": "ReceptionStatistics", "report": "ReceptionReport", "whole_packet": "wholePacket",
    "wide_receiver": "wideState", "datagram": "datagram", "datagram_header": "datagramHeader", "arrival": "arrival",
    "fixed_part": "FixedPart", "data_element": "DataElement", "template": "template", "group": "PreparedGroup", "routed_header": "routedHeader", "wide_restarting_receiver": None,
}
# Of these nil ends a call in Go's own code, whatever the library looks at.
NOT_NIL = {"map", "new_ids", "header", "whole_packet", "layers", "receiver"}
# What has a type of its own in Go, by its name in C.
NUMBERS = {"form": "Form", "allowed": "Forms", "kind": "Kind"}
# What a race detector is told of parameters where it takes more than the description to tell: before a call, and after.
BEFORE = {
    ("receive_many", "receivers"): "writesReceivers(receivers, receiver_count, arrivals, count)",
    ("read_original", "payload"): "reads(unsafe.Pointer(payload), least(n, 2))",
    ("write_data_elements", "elements"): "readsDataElements(elements, count)",
}
AFTER = {
    ("make_template", "buf"): "writes(unsafe.Pointer(buf), uintptr(made.header_len))",
    ("make_from_group", "buf"): "writes(unsafe.Pointer(buf), uintptr(made.header_len))",
    ("write_headers", "buf"): "writes(unsafe.Pointer(buf), endOf(receivers, count))",
    ("pad", "count"): "writes(unsafe.Add(unsafe.Pointer(datagram), header_len), *count)",
    ("next_elements", "elements"): "writes(unsafe.Pointer(elements), found*unsafe.Sizeof(*elements))",
}
# What Go's package doesn't call: it sets fields together, reads many headers by parse_many, and has others elsewhere.
LEFT_OUT = {
    "map_get", "map_remove", "read_many", "restarting_receive", "set_marker", "set_sequence_number", "set_ssrc",
    "set_timestamp", "write_with",
}
# Of these the status is looked at; of the others it is an error. The last ones are called as in C, which saves a call.
TELL_STATUS = {
    "read", "packet_parse", "parse", "parse_layers", "next_element", "wide_restarting_receive", "set_payload_type",
    "values_read", "read_fixed_part",
}
AS_IN_C = {
    "make_from_group", "make_template", "next_elements", "packet_read", "packet_read_muxed", "write_data_elements",
    "write_headers",
}


def functions_of(api: Api) -> List[Function]:
    """Those that Go's package calls."""
    return [it for it in api.all_functions if it.short not in LEFT_OUT]


def joined(api: Api) -> List[Tuple[Function, List[str]]]:
    """The call of packet_parse, and where the block has elements then that of values_read for its body; and that on a port
    that RTCP shares, behind the call of is_rtcp. With each the calls that it makes."""
    once, then = api.function["rtpw_packet_parse"], api.function["rtpw_values_read"]
    *given, packet = once.parameters
    parameters = (*given, then.named["map"], packet, then.named["values"])
    calls = {"packet_read": [once.name, then.name], "packet_read_muxed": ["rtpw_is_rtcp", once.name, then.name]}
    return [(Function("rtpw_" + name, once.result, parameters), those) for name, those in calls.items()]


def structs_of(api: Api) -> List[Struct]:
    """The structs that these take, and those within them."""
    wanted = {p.type for it in functions_of(api) for p in it.parameters}
    for it in reversed(api.all_structs):
        if it.name in wanted:
            wanted |= {field.type for field in it.fields}
    return [it for it in api.all_structs if it.name in wanted]


def type_of(name: str) -> str:
    return TYPES.get(name, name)


def name_of(it: str) -> str:
    return PARAMETERS.get(it, it)


def camel(name: str) -> str:
    first, *others = name.split("_")
    return first + "".join(WORDS.get(word, word.title()) for word in others)


def text_of(it: Function) -> str:
    """The name of the function in Go's assembler text."""
    return "text_" + it.short


def places_of(it: Function) -> Tuple[List[Tuple[str, int]], int]:
    """Where Go's ABI0 has each parameter, with its size, and where they end."""
    places, at = [], 0
    for p in it.parameters:
        size = 8 if p.is_pointer else SIZES[p.type]
        at = -(-at // size) * size
        places.append((f"{name_of(p.name)}+{at}", size))
        at += size
    return places, at


def told_of(it: Function) -> Tuple[List[str], List[str]]:
    """What a race detector is told before a call, and after one that succeeded."""
    before = [BEFORE[it.short, p.name] for p in it.pointers if (it.short, p.name) in BEFORE]
    after = [AFTER[it.short, p.name] for p in it.pointers if (it.short, p.name) in AFTER]
    for p in it.pointers:
        name, room = name_of(p.name), name_of(p.count) if p.count else ""
        at = f"unsafe.Pointer({name})"
        if p.type == "size_t" or (it.short, p.name) in {**BEFORE, **AFTER}:
            continue
        if p is it.grown:
            before.append(f"reads({at}, least(*n, {room}))")
            after.append(f"writes({at}, *n)")
        elif p.each and p.packet:
            told = camel(f"reads_{it.named[p.each].short_type}s")
            before.append(f"{told}({name}, {room}, {p.each}, {it.named[p.each].count})")
        elif p.name == "datagram":
            before.append(f"readsPacket({name}, {room})")
            after += [f"writesHeader({name}, {room})"] if p.mark != "in" else []
        elif p.mark == "out" and p.type == "uint8_t":
            after.append(f"writes({at}, {'*n' if it.fills(p) else p.part[1]})")
        else:
            does = "reads" if p.mark == "in" else "writes"
            before.append(f"{does}({at}, {room + '*' if room else ''}unsafe.Sizeof(*{name}))")
    return before, after


def struct_of(it: Struct) -> str:
    names = [field.name + "_" * (field.name in KEYWORDS) for field in it.fields]
    width = max(map(len, names))
    shapes = [f"[{field.count}]" if field.count else "*" * field.is_pointer for field in it.fields]
    kinds = [shape + type_of(field.type) for shape, field in zip(shapes, it.fields)]
    rows = [f"\t{name:{width}} {kind}" for name, kind in zip(names, kinds)]
    return "\n".join([f"type {it.name} struct {{", *rows, "}", ""])


def parameter_of(it: Parameter) -> str:
    return f"{name_of(it.name)} {'*' if it.is_pointer else ''}{type_of(it.type)}"


def function_of(it: Function) -> str:
    given = ", ".join(map(parameter_of, it.parameters))
    result = "" if it.result == "void" else " " + type_of(it.result)
    call = f"{text_of(it)}({', '.join(name_of(p.name) for p in it.parameters)})"
    before, after = told_of(it)
    lines = ["//go:noescape", f"func {text_of(it)}({given}){result}", "", f"func {it.name}({given}){result} {{"]
    if before or after:
        lines += ["\tif racing {", *(f"\t\t{line}" for line in before)]
        if after and it.has_status:
            lines += [f"\t\tstatus := {call}", "\t\tif status == statusOK {", *(f"\t\t\t{line}" for line in after)]
            lines += ["\t\t}", "\t\treturn status"]
        elif after:
            lines += [f"\t\tfound := {call}", *(f"\t\t{line}" for line in after), "\t\treturn found"]
        lines.append("\t}")
    return "\n".join([*lines, f"\t{'return ' if result else ''}{call}", "}", ""])


def go_type(name: str) -> str:
    """What a type of C is in Go's package."""
    short = name[len("rtpw_"):]
    return type_of(name) if name in SIZES else NAMES.get(short, short.title().replace("_", "")) or name


def first_of(kind: str) -> str:
    """The function that tells where values of this type lie."""
    return "first" if kind == "uint8_t" else camel(f"first_{type_of(kind).replace('rtpw_', '')}")


def addresses(functions: List[Function]):
    """What gives the addresses of structs and slices of Go as those of C."""
    pointers = [p for it in functions for p in it.pointers if p.type != "size_t"]
    for name in dict.fromkeys(p.type for p in pointers if not p.count and not p.is_plain and go_type(p.type) != p.type):
        check = "\n\t_ = *it // nil ends here" * (name[len("rtpw_"):] in NOT_NIL)
        yield f"func (it *{go_type(name)}) c() *{name} {{{check}\n\treturn (*{name})(unsafe.Pointer(it))\n}}\n"
    for name in dict.fromkeys(p.type for p in pointers if p.count):
        kind = go_type(name)
        yield f"func {first_of(name)}(values []{kind}) *{type_of(name)} {{"
        yield f"\treturn (*{type_of(name)})(unsafe.Pointer((*[0]{kind})(values)))\n}}\n"


class Bound:
    """A function with types of Go: slices, structs of the package, and what is written as what is returned."""

    def __init__(self, it: Function):
        self.it, self.tells, out = it, it.short in TELL_STATUS, it.outputs
        fills = [p for p in it.pointers if it.fills(p) or p.name == "len"]
        others = [p for p in it.pointers if p not in fills]
        # The data of a value are appended to others.
        is_of_one = not others[1:] and not any(p.count for p in others)
        self.appends = it.short.startswith("write_") and len(fills) == 2 and is_of_one
        is_returned = len(out) == 1 and it.has_status and (out[0].is_plain or it.returns and not self.tells)
        self.output = out[0] if is_returned and not self.appends else None

    def kind_of(self, p: Parameter) -> str:
        own = {"size_t": "int", "uint8_t": NUMBERS.get(p.name, "byte" if p.count else "uint8")}
        return ("[]" if p.count else "*" * (p.is_pointer and p is not self.output)) + own.get(p.type, go_type(p.type))

    def given(self) -> str:
        given = ["data []byte"] if self.appends else []
        for p in self.it.given(self.output):
            if not self.appends or p.name not in ("buf", "len"):
                of_length = p.name == "len" and self.it.grown
                given.append("length int" if of_length else f"{camel(name_of(p.name))} {self.kind_of(p)}")
        return ", ".join(given)

    def argument_of(self, p: Parameter) -> str:
        name, of = camel(name_of(p.name)), self.it.counted_by(p.name)
        if self.appends and p.name in ("buf", "size", "len"):
            return {"buf": "&it.data[0]", "size": "uintptr(len(it.data))", "len": "&it.n"}[p.name]
        if of:
            return f"uintptr(len({camel(name_of(of.name))}))"
        if p.count:
            return f"{first_of(p.type)}({name})"
        if p.is_plain:
            own = "uintptr" if p.type == "size_t" else "uint8" if p.type == "uint8_t" and p.name in NUMBERS else ""
            return f"&{name}" if p.is_pointer else f"{own}({name})" if own else name
        return name + ".orNone()" * (p.c == "const rtpw_map *") + ".c()" * (go_type(p.type) != p.type)

    def text(self) -> str:
        it, call = self.it, f"{self.it.name}({', '.join(map(self.argument_of, self.it.parameters))})"
        name, result, status = camel(it.short), "([]byte, error)", "status" if self.tells else "errorOf(status)"
        lines = [f"{p.name} = apart({p.name}, {p.may_overlap})" for p in it.parameters if p.may_overlap]
        if self.appends:
            name = name.replace("write", "append", 1)
            lines += ["var it written", f"status := {call}", "return it.after(data, status)"]
        elif it.grown:
            lines += ["n := uintptr(length)", f"status := {call}", "return upTo(buf, n, status)"]
        elif self.output and self.output.name == "new_len":
            lines += ["var newLen uintptr", f"status := {call}", "return upTo(datagram, newLen, status)"]
        elif self.output:
            out, kind = camel(name_of(self.output.name)), self.kind_of(self.output)
            result = f"({kind}, {'int32' if self.tells else 'error'})"
            lines += [f"var {out} {'uintptr' if kind == 'int' else kind}", f"status := {call}"]
            lines.append(f"return {f'int({out})' if kind == 'int' else out}, {status}")
        elif it.has_status:
            result = "int32" if self.tells else "error"
            lines.append(f"return {call if self.tells else f'errorOf({call})'}")
        else:
            result = {"void": "", "size_t": "int", "uint8_t": "uint8"}.get(it.result, type_of(it.result))
            lines.append(f"return int({call})" if result == "int" else f"{'return ' * bool(result)}{call}")
        start = f"func {name}({self.given()}) {result}".rstrip() + " {"
        return "\n".join([start, *(f"\t{line}" for line in lines), "}", ""])


def statuses(api: Api) -> str:
    numbers = next(it for it in api.enums if "RTPW_OK" in it)
    named = {camel(name.replace("RTPW", "status").lower()): number for name, number in numbers.items()}
    width = max(map(len, named))
    return "\n".join(["const (", *(f"\t{name:{width}} = {number}" for name, number in named.items()), ")", ""])


def files(api: Api):
    functions = [*functions_of(api), *(it for it, _ in joined(api))]
    text = [MADE, "package rtpwire\n", 'import "unsafe"\n']
    text += ["// The statuses, the structs and the functions of rtp_wire.h.\n", statuses(api)]
    text += [*map(struct_of, structs_of(api)), *map(function_of, functions)]
    text += ["// The functions with types of Go.\n", *addresses(functions)]
    text += [Bound(it).text() for it in functions if it.short not in AS_IN_C]
    return {"bindings/go/calls.go": "\n".join(text)}
