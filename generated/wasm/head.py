#!/usr/bin/env python3
"""What a module says of itself, in a custom section: lines, each a word, a colon and what it is.

usage: head.py say MODULE           prints the lines
       head.py put MODULE           puts what comes at its input there, and a line `code:` with the digest of all other bytes
       head.py whole MODULE         whether that digest is the code's
"""

import hashlib
import sys
from pathlib import Path

NAME = b"rtp-wire"


def number(data, at):
    """A number in LEB128, and where what follows it begins."""
    value = shift = 0
    while True:
        byte = data[at]
        at += 1
        value |= (byte & 127) << shift
        shift += 7
        if byte < 128:
            return value, at


def leb(value):
    out = bytearray()
    while value >= 128:
        out.append(value & 127 | 128)
        value >>= 7
    return bytes([*out, value])


def parts(data):
    """The bytes of the module without the section, and what the section says."""
    code, head, at = bytearray(data[:8]), "", 8
    while at < len(data):
        size, body = number(data, at + 1)
        section = data[at : body + size]
        if data[at] == 0 and data[body : body + 1 + len(NAME)] == bytes([len(NAME)]) + NAME:
            head = data[body + 1 + len(NAME) : body + size].decode()
        else:
            code += section
        at = body + size
    return bytes(code), head


def main():
    what, file = sys.argv[1], Path(sys.argv[2])
    code, head = parts(file.read_bytes())
    digest = f"code: {hashlib.sha256(code).hexdigest()}\n"
    if what == "say":
        print(head, end="")
    elif what == "whole":
        sys.exit(digest not in head)
    else:
        said = bytes([len(NAME)]) + NAME + (sys.stdin.read() + digest).encode()
        file.write_bytes(code + b"\0" + leb(len(said)) + said)


main()
