"""What rtp_wire.h says, as one description: it is read by pycparser, a parser of C, with the marks of its parameters.

    from described.header import read
    api = read()                              # of bindings/c/rtp_wire.h
    api.function["rtpw_read"].parameters[0]   # Parameter(name='datagram', type='uint8_t', ..)
    api.struct["rtpw_packet"].fields[0]       # Field(name='payload_at', type='size_t', .., count=None, at=0, size=8)

Sizes and offsets are those of a machine with 64 bits, by the rules of its ABI: bindings/test/layout.c compares them
with what compilers make. pycparser is Debian's python3-pycparser, from 2.21 on.
"""

import re
import sys
from dataclasses import dataclass, field
from pathlib import Path
from textwrap import fill
from typing import Dict, List, Optional, Tuple

HEADER = Path(__file__).resolve().parent.parent / "c/rtp_wire.h"
SIZES = {"bool": 1, "char": 1, "size_t": 8}
SIZES.update({f"{sign}int{bits}_t": bits // 8 for sign in ("", "u") for bits in (8, 16, 32, 64)})
# What C, C++ and Go alone have: the others have structs of their own for it, and copy what they are given.
OF_C_AND_GO = {
    "rtpw_fixed_part", "rtpw_layout", "rtpw_data_element", "rtpw_read_fixed_part", "rtpw_write_fixed_part",
    "rtpw_write_data_elements",
}


def all_of(mark: str) -> property:
    """What a mark has, and nothing without it."""
    return property(lambda self: self.marks.get(mark, ()))


def only(mark: str) -> property:
    """The one thing that a mark has, and None without it."""
    return property(lambda self: self.marks.get(mark, (None,))[0])


@dataclass(frozen=True)
class Marked:
    """What may have marks: these by their names behind RTPW_, with what they have."""

    name: str
    type: str  # as "uint8_t" or "rtpw_map"; of a pointer that of what it is to
    marks: Dict[str, Tuple[str, ...]]

    part = all_of("PART")  # where it is looked at, and how many bytes
    written_if = all_of("WRITTEN_IF")  # the statuses, but for RTPW_OK alone
    is_plain = property(lambda self: self.type in SIZES, doc="Whether it is of numbers, and of no structs.")
    short_type = property(lambda self: self.type[len("rtpw_"):], doc="The name of the struct without rtpw_.")


@dataclass(frozen=True)
class Parameter(Marked):
    """A parameter of a function."""

    is_pointer: bool
    is_const: bool  # of a pointer: to what is only read

    count = only("COUNT")  # of a pointer to several: the parameter that says how many; NULL is allowed with 0
    may_overlap, each, read_if = only("MAY_OVERLAP"), only("EACH"), only("READ_IF")
    packet = all_of("PACKET")  # what is looked at of a packet
    without = all_of("BUT")  # the fields that aren't looked at

    @property
    def mark(self) -> str:
        """Of a pointer: "in", "out" or "inout"."""
        return next((it.lower() for it in ("OUT", "INOUT") if it in self.marks), "in" if self.is_pointer else "")

    @property
    def c(self) -> str:
        """The type, as C has it."""
        return f"{'const ' if self.is_const else ''}{self.type}{' *' if self.is_pointer else ''}"


@dataclass(frozen=True)
class Named:
    name: str

    short = property(lambda self: self.name[len("rtpw_"):], doc="The name without rtpw_.")


@dataclass(frozen=True)
class Function(Named):
    """A function; `result` is a type as a parameter has it, or "void". A status is told by "int32_t"."""

    result: str
    parameters: Tuple[Parameter, ...]

    has_status = property(lambda self: self.result == "int32_t")
    named = property(lambda self: {it.name: it for it in self.parameters})
    pointers = property(lambda self: [it for it in self.parameters if it.is_pointer])
    outputs = property(lambda self: [it for it in self.pointers if it.mark == "out" and not it.count])

    def given(self, output: Optional[Parameter]) -> List[Parameter]:
        """What is given where what is written to this one is returned, and a pointer tells how many there are."""
        return [it for it in self.parameters if it is not output and not self.counted_by(it.name)]

    def fills(self, p: Parameter) -> bool:
        """Whether it is a buffer of which the first *len bytes are written."""
        return p.mark == "out" and bool(p.count) and "len" in self.named and self.named["len"].mark == "out"

    @property
    def returns(self) -> bool:
        """Whether what it writes is what it is for."""
        return bool(re.match("(read|next|last)_|(?!write_).*_(receive|report)$", self.short))

    @property
    def grown(self) -> Optional[Parameter]:
        """The buffer that has a packet of *len bytes at its front, which may get another length."""
        grows = any(it.name == "len" and it.mark == "inout" for it in self.parameters)
        return next((it for it in self.parameters if it.packet and grows), None)

    def counted_by(self, name: str) -> Optional[Parameter]:
        """The pointer whose count this parameter is."""
        return next((it for it in self.parameters if it.count == name), None)


@dataclass(frozen=True)
class Field(Marked):
    """A field of a struct."""

    is_pointer: bool  # to what is only read
    count: Optional[int]  # of an array: how many it has
    at: int
    size: int
    told: Optional[str]  # the field without which it isn't looked at, being 0

    counted = only("COUNT")  # of an array: the field that says how many of it are looked at
    is_out = property(lambda self: "OUT" in self.marks, doc="Whether it is written alone.")
    range = property(lambda self: tuple(map(int, self.marks.get("RANGE", ()))), doc="The least and the most.")


@dataclass(frozen=True)
class Struct(Named):
    size: int
    align: int
    fields: Tuple[Field, ...]

    field = property(lambda self: {it.name: it for it in self.fields})


@dataclass
class Api:
    """What the header file declares, each in its order."""

    functions: List[Function] = field(default_factory=list)
    structs: List[Struct] = field(default_factory=list)
    of_c_and_go: List[Named] = field(default_factory=list)  # the functions and the structs that these alone have
    enums: List[Dict[str, int]] = field(default_factory=list)  # the constants of each enum
    constants: Dict[str, int] = field(default_factory=dict)  # of all enums, and then the macros that are numbers
    version: str = ""
    texts: Dict[str, str] = field(default_factory=dict)  # of each status by its constant, and of none by ""

    all_functions = property(lambda self: self.functions + [it for it in self.of_c_and_go if isinstance(it, Function)])
    all_structs = property(lambda self: self.structs + [it for it in self.of_c_and_go if isinstance(it, Struct)])
    function = property(lambda self: {it.name: it for it in self.all_functions})
    struct = property(lambda self: {it.name: it for it in self.all_structs})


def laid_out(text: str, first: int = 0, others: int = 4) -> str:
    """The text in lines, the first and the others with so many spaces before them; a ~ is a space within a line."""
    made = fill(text, 116, initial_indent=" " * first, subsequent_indent=" " * others, break_long_words=False)
    return made.replace("~", " ")


def template(name: str) -> str:
    """A file of this folder, of which a part is made; in place of a line @NAME@ stands the file of that name."""
    text = Path(__file__).with_name(name).read_text("utf-8")
    return re.sub(r"^@(\w+\.\w+\.in)@\n", lambda it: template(it[1]), text, flags=re.M)


def declarations(text: str) -> str:
    """What a header file declares, as pycparser reads it: without comments and lines for a preprocessor, and with its
    marks as something that may stand in a declaration of C11; those of constants go."""
    marks = re.findall(r"^#define (\w+)", text.partition("#ifndef RTPW_OUT\n")[2].partition("#endif")[0], re.M)
    text = re.sub(r"/\*.*?\*/|\bRTPW_CHECKED\b|\bRTPW_KIND\([^)]*\)", "", text, flags=re.S)
    text = re.sub(r"^#ifdef __cplusplus\n[^#]*#endif\n|^#.*\n", "", text, flags=re.M)
    text = re.sub(rf"\b({'|'.join(marks)})\b(\([^)]*\))?", lambda it: f"_Alignas({it[1]}{it[2] or '()'})", text)
    # The marks of a field stand behind its type: before it pycparser 2.21 takes the type for the field's name.
    text = re.sub(r"^ +(_Alignas\(.*\))\n( +\w+) ", r"\2 \1 ", text, flags=re.M)
    return "".join(f"typedef int {it};\n" for it in SIZES if it != "char") + text


def read(header: Path = HEADER, word: int = 8) -> Api:
    """The description of a header file, for a machine whose size_t has so many bytes: 4 on wasm32."""
    sys.path.append("/usr/lib/python3/dist-packages")  # for a python3 that isn't Debian's
    from pycparser import c_ast, c_generator, c_parser

    text = header.read_text("utf-8")
    of_c = Reader(c_ast, c_generator.CGenerator(reduce_parentheses=True).visit, word)
    of_c.api.version = re.search(r'^#define RTPW_VERSION "(.*)"$', text, re.M)[1]
    for node in c_parser.CParser().parse(declarations(text), str(header)).ext:
        of_c.add(node)
    macros = re.findall(r"^#define (RTPW_\w+) (\d+)$", text, re.M)
    of_c.api.constants.update((name, int(number)) for name, number in macros)
    return of_c.api


class Reader:
    """Adds what is declared to the description; `text` makes text of an expression."""

    def __init__(self, ast, text, word: int):
        self.ast, self.text, self.api = ast, text, Api()
        self.sizes = {name: (size, size) for name, size in {**SIZES, "size_t": word}.items()}

    def add(self, node) -> None:
        ast, api = self.ast, self.api
        if isinstance(node, ast.Typedef) and isinstance(node.type.type, ast.Struct):
            (api.of_c_and_go if node.name in OF_C_AND_GO else api.structs).append(self.struct(node))
        elif isinstance(node, ast.Decl) and isinstance(node.type, ast.Enum):
            api.enums.append({it.name: int(it.value.value) for it in node.type.values.enumerators})
            api.constants.update(api.enums[-1])
        elif isinstance(node, ast.Decl) and isinstance(node.type, ast.FuncDecl):
            (api.of_c_and_go if node.name in OF_C_AND_GO else api.functions).append(self.function(node))
        elif isinstance(node, ast.FuncDef) and node.decl.name == "rtpw_status_text":
            for case in node.body.block_items[0].stmt.block_items:
                name = case.expr.name if isinstance(case, ast.Case) else ""
                api.texts[name] = case.stmts[0].expr.value[1:-1]

    def marks_of(self, node) -> Dict[str, Tuple[str, ...]]:
        calls = [it.alignment for it in node.align]
        return {it.name.name[len("RTPW_"):]: tuple(map(self.text, it.args.exprs)) if it.args else () for it in calls}

    def struct(self, node) -> Struct:
        fields, end, most, decls = [], 0, 1, node.type.type.decls
        marked = {it.name: self.marks_of(it) for it in decls}
        told = {name[len("has_"):]: name for name in marked if name.startswith("has_")}
        told.update({name: flag for flag, marks in marked.items() for name in marks.get("TELLS", ())})
        for it in decls:
            count = int(it.type.dim.value) if isinstance(it.type, self.ast.ArrayDecl) else None
            is_pointer = isinstance(it.type, self.ast.PtrDecl)
            kind = (it.type.type if is_pointer or count is not None else it.type).type.names[0]
            size, align = self.sizes["size_t" if is_pointer else kind]
            at = -(-end // align) * align
            end, most = at + size * (1 if count is None else count), max(most, align)
            fields.append(Field(it.name, kind, marked[it.name], is_pointer, count, at, end - at, told.get(it.name)))
        self.sizes[node.name] = -(-end // most) * most, most
        return Struct(node.name, *self.sizes[node.name], tuple(fields))

    def function(self, node) -> Function:
        given = [self.parameter(it, node.name) for it in node.type.args.params if it.name is not None]
        named = {it.name for it in given}
        for it in given:
            assert {it.count, it.may_overlap, it.each} - {None} <= named, f"{node.name}: a mark of {it.name}"
        return Function(node.name, node.type.type.type.names[0], tuple(given))

    def parameter(self, node, of: str) -> Parameter:
        is_pointer = isinstance(node.type, self.ast.PtrDecl)
        inner = node.type.type if is_pointer else node.type
        is_const = is_pointer and "const" in inner.quals
        made = Parameter(node.name, inner.type.names[0], self.marks_of(node), is_pointer, is_const)
        assert (made.mark in ("out", "inout")) == (is_pointer and not is_const), f"{of}: whether {made.name} is written"
        return made
