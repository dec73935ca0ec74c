#!/usr/bin/env python3
"""Compares the library in a program that Go linked with the bytes that its text was made of.

usage: compare.py amd64|arm64 PROGRAM FOLDER

FOLDER/*_ARCH.bytes have the bytes of each symbol, and FOLDER/*_ARCH.sites the places that Go's linker fills in. Only
there they may differ: where the site names a symbol and a place in it, the four bytes have to tell that one, as the
distance from their end. What stands behind the beginning of a function of Go is looked for there."""

import re
import struct
import subprocess
import sys
from pathlib import Path


def run(*words):
    return subprocess.run(words, check=True, stdout=subprocess.PIPE, text=True).stdout


class Program:
    """What Go linked: where each symbol lies, and the bytes from there on."""

    def __init__(self, arch, path):
        tools = {"amd64": "", "arm64": "aarch64-linux-gnu-"}[arch]
        self.path, self.elf = path, Path(path).read_bytes()
        at, offset = re.search(r" \.text +PROGBITS +([0-9a-f]+) ([0-9a-f]+)", run(tools + "readelf", "-SW", path)).groups()
        self.shift = int(offset, 16) - int(at, 16)
        self.names = run(tools + "nm", path)

    def address(self, name):
        found = re.findall(rf"^([0-9a-f]+) [tTrR] (?:\S+\.)?{name}(?:\.abi0)?$", self.names, re.M)
        if len(found) != 1:
            sys.exit(f"compare.py: {self.path} has {name} {len(found)} times")
        return int(found[0], 16)

    def bytes_at(self, address, count):
        return self.elf[address + self.shift :][:count]


def differing(program, address, wanted, sites):
    """At which bytes other ones lie at the address."""
    found = program.bytes_at(address, len(wanted))
    filled = {at + i for at, (name, _) in sites.items() for i in range(4 if name else 1)}
    differ = [i for i, byte in enumerate(wanted) if found[i] != byte and i not in filled]
    for at, (name, to) in sites.items():
        if name and not differ:
            by, = struct.unpack_from("<i", found, at)
            differ += [at] if address + at + 4 + by != program.address(name) + to else []
    return differ


def main():
    arch, path, folder = sys.argv[1:]
    program = Program(arch, path)
    for part in sorted(Path(folder).glob(f"*_{arch}.bytes")):
        name, wanted, sites = part.name[: -len(f"_{arch}.bytes")], part.read_bytes(), {}
        for line in part.with_suffix(".sites").read_text().split("\n")[:-1]:
            at, symbol, *to = line.split()
            sites[int(at)] = (symbol, int(to[0])) if to else (None, 0)
        place = program.address(name)
        begins = range(place, place + 1) if name == "rtp_wire" else range(place, place + 100)
        differ = min((differing(program, begin, wanted, sites) for begin in begins), key=len)
        if differ or name == "rtp_wire" and place % {"amd64": 32, "arm64": 16}[arch]:
            sys.exit(f"compare.py: {arch}: {len(differ)} bytes of {name} are others, first at {differ[:4]}; it lies at {place:x}")
        print(f"{arch}: the {len(wanted)} bytes of {name} are those that Go linked, but for {len(sites)} places that its linker fills in")


if __name__ == "__main__":
    main()
