"""What the text for Go is on amd64.

Each instruction that moves the stack pointer is written as one of Go's assembler, which so knows at each place how far
the caller's frame is: a profile or a panic finds its way, and a fault can be recovered. Of two instructions that take
128 bytes it is the one that Go's assembler makes, with a number of 8 bits. Where the frame information tells
of another offset at a label than the instruction before it leaves, an instruction that never runs is put between."""

import re
import struct

from linked import APART_AT, MOST_UNASKED, insist

NAME, TOOLS, FILL, AFTER = "amd64", "", "", 4
# No jump crosses a place that divides by 32, nor ends at one: Intel's processors from Skylake to Cascade Lake take such jumps from
# no cache of what they have decoded. What fills up are nops.
AS = ("-malign-branch-boundary=32", "-malign-branch=jcc+fused+jmp", "-malign-branch-prefix-size=0")
RETURN_ADDRESS, RED_ZONE = 8, 128  # what a function may use below its stack pointer is the red zone
ABSOLUTE = (1, 10, 11)
NEVER = re.compile(r"%[fg]s:|\b(syscall|int|ldmxcsr|fldcw|std|[xyz]*mm(1[6-9]|[23]\d)|[yz]mm\d+)\b|\b(call|callq)\s+\*")
REGISTER = ["AX", "CX", "DX", "BX", "SP", "BP", "SI", "DI"] + [f"R{i}" for i in range(8, 16)]
ARGUMENTS = ["DI", "SI", "DX", "CX", "R8", "R9"]
RESULT = "AX"
LOAD = {8: "MOVQ", 4: "MOVL", 2: "MOVWLZX", 1: "MOVBLZX"}
STORE = {8: "MOVQ", 4: "MOVL", 2: "MOVW", 1: "MOVB"}
IS_ODD = b"\x40\xf6\xc4\x08"  # test $8, %spl; of TESTB Go's assembler would say that it writes the stack pointer
WORDS = ((8, "QUAD", 1), (4, "LONG", 1), (2, "WORD", 1), (1, "BYTE", 1))


def bytes_of(words):
    return bytes.fromhex(words)


def is_call(it):
    return it.words.startswith("call")


def target_of(it):
    """Where a call or a jump leads, but for a jump by a table, which stays in its function."""
    word, _, to = it.words.partition(" ")
    if not word.startswith(("call", "j")) or to.strip().startswith("*"):
        return None
    return int(re.search(r"([0-9a-f]+) <", to)[1], 16)


def prepared(lines):
    """The text in which each change of a frame's offset is one of an instruction."""
    changes = re.compile(r"\t(push|pop)q?\t|\t(sub|add)q\t\$-?\d+, ?%rsp$")
    other = {"sub": "add", "add": "sub"}
    leaves = re.compile(r"\t(retq?|jmpq?|ud2)\b")
    out, offset, leave, changed = [], 8, None, False
    for line in lines:
        new = None
        line = re.sub(r"^\t(sub|add)q\t\$128(?=, ?%rsp$)", lambda it: f"\t{other[it[1]]}q\t$-128", line)
        if line.startswith("\t.cfi_startproc"):
            offset, leave = 8, None
        elif line.startswith("\t.cfi_endproc"):
            new, changed = 8, False
        elif line.startswith("\t.cfi_def_cfa_offset "):
            new = int(line.split()[1])
        elif re.match(r"\t[a-z]", line):
            changed, leave = bool(changes.match(line)), None
        if new is not None:
            if new != offset and not changed:
                insist(leave is not None, "another offset where the code goes on:", line)
                out[leave:leave] = step(new - offset, new)
            offset, changed = new, False
        out.append(line)
        if leaves.match(line):
            leave = len(out)
    return out


def step(by, offset):
    word, number = ("sub", by) if by > 0 else ("add", -by)
    if number == 128:
        word, number = {"sub": "add", "add": "sub"}[word], -128
    return [f"\t{word}q\t${number}, %rsp", f"\t.cfi_def_cfa_offset {offset}"]


def taken(linked, frames):
    found = {}
    for (begin, end), rows in frames.items():
        rows = sorted(rows) or [(begin, "rsp+8")]
        insist(rows[0] == (begin, "rsp+8"), "frame information of", linked.functions[begin])
        for (where, offset), (to, _) in zip(rows, rows[1:] + [(end, "")]):
            insist(offset.startswith("rsp+"), "frame information of", linked.functions[begin], offset)
            found.update((p, int(offset[4:]) - 8) for p in range(where, to))
    return found


def moving(it, by):
    """The instruction of Go's assembler that has these bytes, and moves the stack pointer so."""
    b = it.bytes
    if len(b) == 1 or len(b) == 2 and b[0] == 0x41:
        insist((b[-1] & 0xF8, by) in ((0x50, 8), (0x58, -8)), "the stack moves otherwise than is said:", it.words)
        return ("PUSHQ " if by > 0 else "POPQ ") + REGISTER[(b[-1] & 7) + 8 * (len(b) - 1)]
    insist(b[0] == 0x48 and b[1] in (0x81, 0x83) and b[2] in (0xEC, 0xC4), "the stack moves otherwise than is said:", it.words)
    number, = struct.unpack("<b" if b[1] == 0x83 else "<i", b[3:])
    insist(b[1] == 0x83 or not -129 < number < 129, "an instruction that Go's assembler makes in fewer bytes:", it.words)
    insist((number if b[2] == 0xEC else -number) == by, "the stack moves otherwise than is said:", it.words)
    return f"ADJSP ${by}"


def write_code(out, linked):
    inside = [it for it in linked.instructions if it.at < APART_AT]
    write_instructions(out, linked, inside)
    out.pending += linked.code[linked.text_end :]


def write_instructions(out, linked, instructions):
    tracked, end = 0, instructions[0].at
    for it in instructions:
        if it.at in linked.functions:
            out.emit(f"\t// {it.at}: {linked.functions[it.at]}")
        insist(it.at == end and linked.taken.get(it.at, 0) == tracked, "the stack isn't where it is said at", it)
        end = it.at + len(it.bytes)
        after = linked.taken.get(end, 0) if end in linked.function_of else 0
        line = addressing(linked, it)
        if line:
            insist(after == tracked, "the stack moves where an address is told:", it.words)
            out.emit(line)
        elif after != tracked:
            out.emit("\t" + moving(it, after - tracked))
            tracked = after
        else:
            out.pending += it.bytes
    insist(tracked == 0, "the stack at the end")


def addressing(linked, it):
    """The instruction of Go's assembler for one that has an address in another symbol."""
    b = it.bytes
    table = next((linked.to_table[w] for w in range(it.at, it.at + len(b)) if w in linked.to_table), None)
    if table is not None:
        insist(b[:2] == b"\x48\x8d" and b[2] & 0xC7 == 5 and len(b) == 7, "an address of the table that isn't loaded:", it.words)
        return f"\tLEAQ {linked.name}_table<>+{table}(SB), {REGISTER[b[2] >> 3 & 7]}"
    to = reached(linked, it)
    if to is None:
        return None
    if b[0] == 0xE8:
        return f"\tCALL {linked.name}<>+{to}(SB)"
    insist(b[:3] == b"\x66\x0f\x6e" and b[3] & 0xC7 == 5 and len(b) == 8, "an address that isn't understood:", it.words)
    return f"\tMOVL {linked.name}<>+{to}(SB), X{b[3] >> 3 & 7}"


def reached(linked, it):
    """The place in the library that an instruction apart from it tells by its last four bytes."""
    where = it.at + len(it.bytes) - 4
    if it.at < APART_AT or where not in linked.places:
        return None
    return linked.places[where][1] + AFTER


def after_code(out, linked):
    """Constants lie behind the code, and what fills a table are their places in it."""
    return linked.name, 0


def sites(linked):
    """The four bytes that Go's linker fills in for an address, and the symbol and the place there that it has to be of."""
    found = {where: f"{linked.name}_table {to}" for where, to in linked.to_table.items()}
    for it in linked.instructions:
        to = reached(linked, it)
        if to is not None:
            found[it.at + len(it.bytes) - 4] = f"{linked.name} {to}"
    return found


def bytes_to_compare(linked):
    return bytes(linked.code)


def frame_for(need, rest):
    """The frame that has room for the call, or 0 where it needn't be asked for: with the arguments that lie on the stack, and
    what aligns the stack pointer."""
    room = need + 8 * (rest + 1)
    return 0 if room <= MOST_UNASKED else -(-room // 16) * 16


def write_apart(out, linked, entry, frame):
    """Loads R11 with the place of a function that stands here, and jumps over it."""
    inside = [it for it in linked.instructions if entry <= it.at < linked.end[entry]]
    by = frame + 8  # what Go has taken here, with room for a frame pointer
    insist(by > 128, "an instruction that Go's assembler makes in fewer bytes")
    size = len(linked.bytes_of(entry))
    out.emit("\t// Here stands the function, behind an instruction that never runs: by it Go knows where its frame begins.")
    out.pending += b"\x4c\x8d\x1d" + struct.pack("<i", 5 + 7)  # lea 12(%rip), %r11
    out.pending += b"\xe9" + struct.pack("<i", 7 + size + 7)  # jmp
    out.emit(f"\tADJSP $-{by}")
    write_instructions(out, linked, inside)
    out.emit("\t// Nor does this one.")
    out.emit(f"\tADJSP ${by}")


def write_call(out, linked, entry, frame, loads, rest, store):
    """Calls the function, or what R11 has: one with places in the stack with the stack pointer at a multiple of 16, whichever
    one it is here."""
    for load in loads:
        out.emit(load)
    ways = [(None, 0)]
    if entry is None or linked.has_places(entry):
        out.pending += IS_ODD
        out.emit("\tJNE odd")
        ways.append(("odd:", 1))
    for label, unaligned in ways:
        out.emit(label)
        by = 8 * ((len(rest) + unaligned) % 2) - frame
        out.emit(f"\tADJSP ${by}" if by else None)
        for load in reversed(rest):
            out.emit(load("AX"))
            out.emit("\tPUSHQ AX")
            by += 8
        out.emit("\tCALL R11" if entry is None else f"\tCALL {linked.name}<>+{entry}(SB)")
        out.emit(f"\tADJSP ${-by}" if by else None)
        out.emit(store)
        out.emit("\tRET")
def write_joined(out, linked, entries, frame, given, result, fields, rtcp):
    """Calls the last function but one, and where it succeeds, and the block has one of the two forms with elements, the last
    one; where there is one before these, it ends with the status rtcp where that one is true."""
    datagram, size, kinds, packet, values = (f"{place}(FP)" for place in given)
    form, body_at, body_len = (f"{at}(BX)" for at in fields)
    *is_rtcp, parse, read = (f"CALL {linked.name}<>+{entry}(SB)" for entry in entries)
    bytes_given = [f"MOVQ {datagram}, DI", f"MOVQ {size}, SI"]
    out.pending += IS_ODD
    out.emit("\tJNE odd")
    for suffix, unaligned in (("", 0), ("_odd", 1)):
        done, by = "done" + suffix, 8 * unaligned - frame
        out.emit("odd:" if unaligned else None)
        out.emit(f"\tADJSP ${by}" if by else None)
        for call in is_rtcp:
            for line in (*bytes_given, call, "TESTB AX, AX", f"MOVL ${rtcp}, AX", f"JNE {done}"):
                out.emit("\t" + line)
        for line in (*bytes_given, f"MOVQ {packet}, DX", parse, "TESTL AX, AX", f"JNE {done}", f"MOVQ {packet}, BX"):
            out.emit("\t" + line)
        for line in (f"MOVBLZX {form}, DX", "LEAL -1(DX), CX", "CMPL CX, $1", f"JHI {done}", f"MOVQ {datagram}, DI"):
            out.emit("\t" + line)
        for line in (f"ADDQ {body_at}, DI", f"MOVQ {body_len}, SI", f"MOVQ {kinds}, CX", f"MOVQ {values}, R8", read):
            out.emit("\t" + line)
        out.emit(f"{done}:")
        out.emit(f"\tADJSP ${-by}" if by else None)
        for line in (f"MOVL AX, {result}(FP)", "RET"):
            out.emit("\t" + line)
