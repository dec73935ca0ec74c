#!/usr/bin/env python3
"""Writes the library as text for Go's assembler, from its assembly text.

usage: text.py amd64|arm64 TEXT MEMORY FOLDER

FOLDER/rtp_wire_ARCH.s gets the bytes that binutils make of TEXT and MEMORY, linked at address 0, as one symbol, and in
front of it a function of Go for each of bindings/c/rtp_wire.h that Go's package calls (bindings/described/go.py), and two
that call rtpw_packet_parse and rtpw_values_read. What it and what it calls take of the stack is known by the frame
information and the call graph: on amd64 it doesn't ask for the stack where that is less than Go keeps for those that
don't, and else it has a frame with room for all. FOLDER/*_ARCH.bytes and FOLDER/*_ARCH.sites have what is compared with
what Go linked: these bytes, and the places that Go's linker fills in, with what it has to fill in where that is known.

Go is told at each instruction how far the caller's frame is, and on arm64 each frame has its return address where Go looks
for it (frames.py). Of a function that doesn't ask for its stack its linker takes no frame as large as those of two of the
library have. Each of these, which no other calls, stands behind the beginning of its function of Go, which asks.

What Go's assembler text can't carry is refused: recursion, calls by pointer, data that change, thread-local data, names
from outside, addresses in the code, wrong frame information, and on arm64 the registers x18 and x28."""

import re
import struct
import sys
from pathlib import Path

sys.dont_write_bytecode = True
sys.path.insert(0, str(Path(__file__).resolve().parent.parent.parent / "bindings"))
import amd64
import arm64
from described import go
from described.header import SIZES, read
from linked import Linked, Refused, insist, run


class Text:
    """Lines of text for Go's assembler."""

    def __init__(self, processor):
        self.processor, self.lines, self.pending, self.start, self.words = processor, [], bytearray(), 0, processor.WORDS

    def emit(self, line):
        self.flush()
        if line is not None:
            self.lines.append(line)

    def flush(self):
        i = 0
        while i < len(self.pending):
            left, at = len(self.pending) - i, self.start + i
            size, word = next((size, word) for size, word, multiple in self.words if left >= size and at % multiple == 0)
            # As few characters as there can be, since a text is mostly these.
            self.lines.append(f"{word} $0x{int.from_bytes(self.pending[i:i + size], 'little'):x}")
            i += size
        self.pending.clear()

    def function(self, linked, it):
        """The function of Go that calls one of the library."""
        given, end = go.places_of(it)
        size = SIZES.get(it.result, 0)
        end = -(-end // 8) * 8 if size else end
        p, entry = self.processor, linked.address[it.name]
        need = linked.depths[entry] + p.RETURN_ADDRESS
        loads = [f"\t{p.LOAD[width]} {place}(FP), {register}" for (place, width), register in zip(given, p.ARGUMENTS)]
        rest = [lambda to, place=place, width=width: f"\t{p.LOAD[width]} {place}(FP), {to}" for place, width in given[len(p.ARGUMENTS) :]]
        store = f"\t{p.STORE[size]} {p.RESULT}, ret+{end}(FP)" if size else None
        frame = p.frame_for(need, len(rest))
        self.emit(f"// At most {need} bytes of the stack.")
        self.emit(f"TEXT ·{go.text_of(it)}(SB), {0 if frame else 'NOSPLIT'}, ${frame}-{end + size}")
        self.emit("\tNO_LOCAL_POINTERS")
        if it.name in linked.apart:
            p.write_apart(self, linked, entry, frame)
            entry = None
        p.write_call(self, linked, entry, frame, loads, rest, store)
        self.emit("")

    def in_one(self, linked, it, calls, packet, rtcp):
        """The function of Go that calls those of the library for a packet and for the body of its block."""
        given, end = go.places_of(it)
        insist([width for _, width in given] == [8] * 5, "other parameters of", *calls)
        end = -(-end // 8) * 8
        entries = [linked.address[name] for name in calls]
        need = max(linked.depths[entry] for entry in entries) + self.processor.RETURN_ADDRESS
        frame, size = self.processor.frame_for(need, 0), SIZES[it.result]
        self.emit(f"// {', then '.join(calls)}: it takes at most {need} bytes of the stack.")
        self.emit(f"TEXT ·{go.text_of(it)}(SB), {0 if frame else 'NOSPLIT'}, ${frame}-{end + size}")
        self.emit("\tNO_LOCAL_POINTERS")
        fields = [packet.field[name].at for name in ("block_form", "body_at", "body_len")]
        self.processor.write_joined(self, linked, entries, frame, [place for place, _ in given], f"ret+{end}", fields, rtcp)
        self.emit("")

    def library(self, linked):
        self.emit("// The library, and its constants.")
        self.emit(f"TEXT {linked.name}<>(SB), NOSPLIT|NOFRAME, $0-0")
        self.emit("\tNO_LOCAL_POINTERS")
        self.processor.write_code(self, linked)
        name, base = self.processor.after_code(self, linked)
        self.emit("")
        for i, (to,) in enumerate(struct.iter_unpack("<Q", linked.table)):
            self.emit(f"DATA {linked.name}_table<>+{8 * i}(SB)/8, ${name}<>+{to - base}(SB)")
        if linked.table:
            self.emit(f"GLOBL {linked.name}_table<>(SB), RODATA, ${len(linked.table)}")
            self.emit("")


def objects_of(processor, texts, folder):
    for text in texts:
        lines = re.sub(r"\n+$", "\n", Path(text).read_text()).split("\n")
        prepared, to = folder / (Path(text).stem + ".s"), folder / (Path(text).stem + ".o")
        prepared.write_text("\n".join(processor.prepared(lines)))
        run(processor.TOOLS + "as", *processor.AS, prepared, "-o", to)
        yield to


def main():
    arch, text, memory, folder = sys.argv[1:]
    processor, api = {"amd64": amd64, "arm64": arm64}[arch], read()
    functions = go.functions_of(api)
    work = Path(folder) / arch
    work.mkdir(parents=True, exist_ok=True)
    names = [it.name for it in functions]
    objects = list(objects_of(processor, (text, memory), work))
    linked = Linked("rtp_wire", processor, objects, names, work)
    linked = Linked("rtp_wire", processor, objects, names, work, linked.too_large())
    out = Text(processor)
    out.emit(f"// Made by generated/go/make of generated/{Path(text).name} and generated/go/{Path(memory).name}: do not edit.")
    out.lines += ["", "//go:build gc", "", '#include "textflag.h"', '#include "funcdata.h"', ""]
    for it in functions:
        out.function(linked, it)
    for it, calls in go.joined(api):
        out.in_one(linked, it, calls, api.struct["rtpw_packet"], api.constants["RTPW_RTCP"])
    out.library(linked)
    out.flush()
    (Path(folder) / f"rtp_wire_{arch}.s").write_text("\n".join(out.lines).rstrip() + "\n")
    write_what_is_compared(processor, linked, Path(folder), arch)
    needs = [linked.depths[linked.address[it]] + processor.RETURN_ADDRESS for it in names]
    print(f"{arch}: {len(needs)} functions, {len(linked.code)} bytes; they take {min(needs)} to {max(needs)} bytes of the stack")


def write_what_is_compared(processor, linked, folder, arch):
    """Each symbol's bytes, and at which of them Go's linker fills in what."""
    for old in folder.glob(f"*_{arch}.bytes"):
        old.unlink()
    parts = [(linked.name, 0, processor.bytes_to_compare(linked))]
    for it in linked.apart:
        begin = linked.address[it]
        parts.append((it.replace("rtpw_", "text_", 1), begin, linked.bytes_of(begin)))
    sites = processor.sites(linked)
    for name, begin, words in parts:
        (folder / f"{name}_{arch}.bytes").write_bytes(words)
        inside = (at for at in sorted(sites) if begin <= at < begin + len(words))
        (folder / f"{name}_{arch}.sites").write_text("".join(f"{at - begin} {sites[at]}\n" for at in inside))


if __name__ == "__main__":
    try:
        main()
    except Refused as why:
        sys.exit(f"text.py: Go's assembler can't carry it: {why}")
