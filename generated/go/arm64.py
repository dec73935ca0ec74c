"""What the text for Go is on arm64.

The constants are data of Go: of a word that is 0 the assembler of Go 1.19 makes the word before it, so that they can't
lie in the code. An ADRP tells the page of a constant, and what follows adds the rest: here two instructions of Go's
assembler, for which `prepared` makes room, tell the address at once, and what follows adds nothing.

Each frame begins with its return address (frames.py), and each instruction that moves the stack pointer is written as one of
Go's assembler: so a profile or a panic finds its way, and a fault can be recovered."""

import re
import struct
from collections import Counter

from frames import BOTTOM, with_frames
from linked import APART_AT, TABLE_AT, insist

NAME, TOOLS, FILL, AFTER = "arm64", "aarch64-linux-gnu-", " =0x1f2003d5", 0
AS = ()
RETURN_ADDRESS, RED_ZONE = 0, 0
ABSOLUTE = (257,)
# Go has its goroutine in x28, which a signal handler takes there, and Darwin and Windows have x18 for themselves.
NEVER = re.compile(r"\b(svc|mrs|msr|blr|[xw]18|[xw]28)\b")
ARGUMENTS = [f"R{i}" for i in range(8)]
RESULT = "R0"
LOAD = {8: "MOVD", 4: "MOVWU", 2: "MOVHU", 1: "MOVBU"}
STORE = {8: "MOVD", 4: "MOVW", 2: "MOVH", 1: "MOVB"}
# What puts bytes, how many, and at the multiples of what it may stand.
WORDS = ((8, "DWORD", 8), (4, "WORD", 4))
NOP = 0xD503201F
ADRP, PLAIN, LOW_12 = 275, (0, 282, 283), (277, 278, 284, 285, 286, 299)


def bytes_of(words):
    return bytes.fromhex(words)[::-1]


def is_call(it):
    return it.words.split()[0] == "bl"


def target_of(it):
    word = it.words.split()[0]
    if word not in ("bl", "b", "cbz", "cbnz", "tbz", "tbnz") and not word.startswith("b."):
        return None
    return int(re.search(r"([0-9a-f]+) <", it.words)[1], 16)


def prepared(lines):
    out = []
    for line in with_frames(lines):
        out.append(line)
        if line.startswith("\tadrp\t"):
            out.append("\tnop")
    return out


def moved(it):
    """How far the instruction moves the stack pointer down."""
    move = re.match(r"(sub|add)\tsp, sp, #(0x[0-9a-f]+)$", it.words)
    insist(move or not re.match(r"\w+\tsp,(?! #)|.*\[sp.*\]!|.*\[sp\], ", it.words), "the stack moves:", it.words)
    return int(move[2], 16) * (1 if move[1] == "sub" else -1) if move else 0


def taken(linked, frames):
    found, after = {}, 0
    for it in linked.instructions:
        begin = linked.function_of.get(it.at)
        if begin is not None:
            insist(after == 0 or it.at != begin, "the stack at the end of what is before", linked.functions[begin])
            found.update((p, after) for p in range(it.at, it.at + 4))
            after += moved(it)
    insist(after == 0, "the stack at the end")
    return found


def write_code(out, linked):
    write_instructions(out, linked, [it for it in linked.instructions if it.at < APART_AT])


def write_instructions(out, linked, instructions):
    skipped, told = None, {}
    for it in instructions:
        if it.at in linked.functions:
            out.emit(f"\t// {it.at}: {linked.functions[it.at]}")
            told = {}
        word = int.from_bytes(it.bytes, "little")
        if it.at == skipped:
            insist(word == NOP, "no room behind an ADRP:", it)
            continue
        kind, to = linked.places.get(it.at, (0, 0))
        if kind == ADRP:
            register, skipped = word & 31, it.at + 4
            told[register] = to
            name, base = ("table", TABLE_AT) if to >= TABLE_AT else ("constants", linked.text_end)
            out.emit(f"\tMOVD ${linked.name}_{name}<>+{to - base}(SB), R{register}")
            continue
        by = moved(it)
        if by:
            out.emit(f"\t{'SUB' if by > 0 else 'ADD'} ${abs(by)}, RSP")
            continue
        if leads_out(linked, it):
            out.emit(f"\tCALL {linked.name}<>+{to}(SB)")
            continue
        if kind in LOW_12:
            insist(told.get(word >> 5 & 31) == to, "the rest of an address that isn't told:", it)
            word &= ~(0xFFF << 10)
            linked.put(it.at, struct.pack("<I", word))
        insist(word != 0 and kind in PLAIN + LOW_12, "an instruction that isn't understood:", it, kind)
        if not out.pending:
            out.start = it.at
        out.pending += struct.pack("<I", word)


def leads_out(linked, it):
    """Whether it is a call of the library from a function that stands apart from it."""
    return it.at >= APART_AT and is_call(it) and linked.places[it.at][1] < APART_AT


def after_code(out, linked):
    """Writes the constants; what fills a table are their places there."""
    out.emit("")
    data = linked.code[linked.text_end :]
    data += bytes(-len(data) % 8)
    for i, (word,) in enumerate(struct.iter_unpack("<Q", data)):
        out.emit(f"DATA {linked.name}_constants<>+{8 * i}(SB)/8, $0x{word:x}")
    out.emit(f"GLOBL {linked.name}_constants<>(SB), RODATA, ${len(data)}")
    return linked.name + "_constants", linked.text_end


def sites(linked):
    """The two instructions that tell an address, and the calls of the library from elsewhere, which Go's assembler and linker
    make."""
    told = {i: "-" for where, (kind, _) in linked.places.items() if kind == ADRP for i in range(where, where + 8)}
    return told | {i: "-" for it in linked.instructions if leads_out(linked, it) for i in range(it.at, it.at + 4)}


def bytes_to_compare(linked):
    return bytes(linked.code[: linked.text_end])


def frame_for(need, rest):
    """The frame that has room for the call, with what aligns the stack pointer."""
    return -(-(need + 8) // 16) * 16 + 8 * rest


def write_apart(out, linked, entry, frame):
    """Loads R19 with the place of a function that stands here, and jumps over it."""
    inside = [it for it in linked.instructions if entry <= it.at < linked.end[entry]]
    by = frame + 16 + frame % 16  # what Go has taken here, with the return address and the frame pointer
    out.emit("\t// Here stands the function, behind an instruction that never runs: by it Go knows where its frame begins.")
    out.words = WORDS[1:]  # it isn't known at a multiple of what it stands
    out.pending += struct.pack("<II", 0x10000073, 0x14000000 | len(inside) + 3)  # adr x19, .+12; b
    out.emit(f"\tADD ${by}, RSP")
    write_instructions(out, linked, inside)
    out.emit("\t// Nor does this one.")
    out.words = WORDS
    out.emit(f"\tSUB ${by}, RSP")


def raised(rise):
    """Leaves room for the call above the frame's end, with the return address at its bottom."""
    return f"\tMOVD R30, {rise}(RSP)", f"\tADD ${rise}, RSP"


def write_call(out, linked, entry, frame, loads, rest, store):
    for load in loads:
        out.emit(load)
    rise = frame - 8 * len(rest)
    for i, load in enumerate(rest):
        out.emit(load(f"R{9 + i}"))
    for line in raised(rise):
        out.emit(line)
    for i in range(len(rest)):
        out.emit(f"\tMOVD R{9 + i}, {BOTTOM + 8 * i}(RSP)")
    out.emit("\tCALL (R19)" if entry is None else f"\tCALL {linked.name}<>+{entry}(SB)")
    out.emit(f"\tSUB ${rise}, RSP")
    out.emit(store)
    out.emit("\tRET")
def write_joined(out, linked, entries, frame, given, result, fields, rtcp):
    """Calls the last function but one, and where it succeeds, and the block has one of the two forms with elements, the last
    one; where there is one before these, it ends with the status rtcp where that one is true."""
    datagram, size, kinds, packet, values = (f"{place}(FP)" for place in given)
    form, body_at, body_len = (f"{at}(R21)" for at in fields)
    *is_rtcp, parse, read = (f"CALL {linked.name}<>+{entry}(SB)" for entry in entries)
    for line in (f"MOVD {datagram}, R19", f"MOVD {kinds}, R20", f"MOVD {packet}, R21", f"MOVD {values}, R22", f"MOVD {size}, R23"):
        out.emit("\t" + line)
    for line in raised(frame):
        out.emit(line)
    for call in is_rtcp:
        for line in ("MOVD R19, R0", "MOVD R23, R1", call, "ANDW $255, R0, R3", f"MOVD ${rtcp}, R0", "CBNZW R3, done"):
            out.emit("\t" + line)
    for line in ("MOVD R19, R0", "MOVD R23, R1", "MOVD R21, R2", parse, "CBNZW R0, done", f"MOVBU {form}, R2"):
        out.emit("\t" + line)
    for line in ("SUBW $1, R2, R3", "CMPW $1, R3", "BHI done", f"MOVD {body_at}, R0", "ADD R19, R0", f"MOVD {body_len}, R1"):
        out.emit("\t" + line)
    for line in ("MOVD R20, R3", "MOVD R22, R4", read):
        out.emit("\t" + line)
    out.emit("done:")
    for line in (f"SUB ${frame}, RSP", f"MOVW R0, {result}(FP)", "RET"):
        out.emit("\t" + line)
