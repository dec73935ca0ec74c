#!/usr/bin/env python3
"""Gives the table of functions of a module places of 32 bits. The linker of LLVM 22 gives it places of 64 bits where the
memory has such, which older tools and Node 20 refuse. The code isn't looked at: what is called through the table has to be
compiled for places of 32 bits, as LLVM 14 does.

usage: narrow_table.py IN.wasm OUT.wasm
"""

import sys
from pathlib import Path

TABLE, ELEMENTS = 4, 9
FUNCTIONS, HAS_64_BITS = 0x70, 4
I32_CONST, I64_CONST = 0x41, 0x42


def number(data, at):
    """A number in LEB128, and where what follows it begins."""
    value = shift = 0
    while True:
        byte = data[at]
        at += 1
        value |= (byte & 127) << shift
        shift += 7
        if byte < 128:
            return value, at


def main():
    data = bytearray(Path(sys.argv[1]).read_bytes())
    at = 8
    while at < len(data):
        kind = data[at]
        size, body = number(data, at + 1)
        if kind in (TABLE, ELEMENTS):
            count, here = number(data, body)
            if count != 1:
                sys.exit("narrow_table: there is more than one table, or list of functions")
        if kind == TABLE:
            if data[here] != FUNCTIONS:
                sys.exit("narrow_table: the table isn't one of functions")
            data[here + 1] &= ~HAS_64_BITS
        if kind == ELEMENTS and data[here + 1] == I64_CONST:
            if data[here] != 0 or data[here + 2] > 63:
                sys.exit("narrow_table: the functions are placed in another way")
            data[here + 1] = I32_CONST
        at = body + size
    Path(sys.argv[2]).write_bytes(data)


main()
