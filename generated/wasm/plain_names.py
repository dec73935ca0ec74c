#!/usr/bin/env python3
"""Gives each name of an assembly text for WebAssembly letters, digits, underscores, points and dollars alone: LLVM writes
names with other characters in quotes, which its assembler for WebAssembly doesn't read.

usage: plain_names.py IN.s OUT.s
"""

import re
import sys
from pathlib import Path

TYPED = re.compile(r"(\t\.functype\t)(.*?)( \([^()]*\) -> \([^()]*\))$")
DATA = re.compile(r"\t\.(ascii|asciz|string)\b")
LEFT_OUT = re.compile(r"\t\.(file|ident|export_name)\b")
names = {}


def plain(name):
    """A name that no other one has."""
    if name not in names:
        changed = re.sub(r"[^A-Za-z0-9_.$]", "_", name)
        names[name] = changed if changed == name else f"{changed}_{len(names)}"
    return names[name]


def line_of(line):
    typed = TYPED.match(line)
    if typed:
        return typed[1] + plain(typed[2].strip('"')) + typed[3]
    if DATA.match(line):
        return line
    line = re.sub(r"\s*# .*", "", line)
    return re.sub(r'"([^"]*)"', lambda it: plain(it[1]) if it[1] else '""', line)


def main():
    lines = Path(sys.argv[1]).read_text().split("\n")
    Path(sys.argv[2]).write_text("\n".join(line_of(it) for it in lines if not LEFT_OUT.match(it)))


main()
