#!/usr/bin/env python3
"""Makes of a Mach-O object a text that the assembler for Linux reads: its bytes, as they would be in memory at BASE, and the
names of its functions. So programs for Linux on the same processor call what Apple's would.

usage: macho.py library.o > image.s      (link: -static -no-pie -Wl,--section-start=.macho=0x4000000)
SPDX-License-Identifier: MIT OR Apache-2.0
Copyright (c) 2026 The rtp-wire developers (NOTICE)
"""
import struct
import sys

data = open(sys.argv[1], 'rb').read()
BASE = 0x4000000
magic, cpu, _, kind, ncmds, _, flags, _ = struct.unpack_from('<8I', data)
assert magic == 0xFEEDFACF and cpu in (0x0100000C, 0x01000007), 'no Mach-O object for arm64 or x86-64'
arm = cpu == 0x0100000C
at, sections, symbols = 32, [], []
for _ in range(ncmds):
    cmd, size = struct.unpack_from('<2I', data, at)
    if cmd == 0x19:
        n = struct.unpack_from('<I', data, at + 64)[0]
        for i in range(n):
            s = at + 72 + 80 * i
            name, segment = (data[s + k:s + k + 16].split(b'\0')[0].decode() for k in (0, 16))
            addr, length, offset, align, reloff, nreloc = struct.unpack_from('<2Q4I', data, s + 32)
            sections.append((segment, name, addr, length, offset, reloff, nreloc))
    elif cmd == 2:
        symoff, nsyms, stroff, _ = struct.unpack_from('<4I', data, at + 8)
        for i in range(nsyms):
            strx, typ, sect, desc, value = struct.unpack_from('<IBBHQ', data, symoff + 16 * i)
            end = data.index(b'\0', stroff + strx)
            symbols.append((data[stroff + strx:end].decode(), typ, sect, value))
    at += size
top = max(s[2] + s[3] for s in sections)
top = (top + 15) // 16 * 16
outside = sorted(n for n, typ, sect, value in symbols if typ & 0x0E == 0 and sect == 0)
image = bytearray(top + 16 * len(outside))
for segment, name, addr, length, offset, reloff, nreloc in sections:
    image[addr:addr + length] = data[offset:offset + length]
stub = {n: top + 16 * i for i, n in enumerate(outside)}
for n in outside:
    if arm:
        struct.pack_into('<2I', image, stub[n], 0x58000050, 0xD61F0200)  # ldr x16, .+8; br x16
    else:
        image[stub[n]:stub[n] + 6] = b'\xff\x25\x02\0\0\0'  # jmpq *2(%rip)


def place(n):
    name, typ, sect, value = symbols[n]
    return BASE + (value if sect else stub[name])


counts = {}
for segment, name, addr, length, offset, reloff, nreloc in sections:
    if name in ('__compact_unwind', '__eh_frame'):
        continue
    addend = 0
    for i in range(nreloc):
        where, word = struct.unpack_from('<iI', data, reloff + 8 * i)
        number, pcrel, width, external, typ = word & 0xFFFFFF, word >> 24 & 1, word >> 25 & 3, word >> 27 & 1, word >> 28
        counts[typ] = counts.get(typ, 0) + 1
        p = addr + where
        if not arm:
            if typ == 0:  # UNSIGNED
                assert width == 3
                old = struct.unpack_from('<Q', image, p)[0]
                struct.pack_into('<Q', image, p, (place(number) if external else BASE) + old)
            elif typ in (1, 2, 6, 7, 8):  # SIGNED, BRANCH; what lies in the object is there already
                assert width == 2
                if external:
                    old = struct.unpack_from('<i', image, p)[0]
                    struct.pack_into('<i', image, p, place(number) + old - BASE - p - 4)
            else:
                raise SystemExit(f'relocation {typ} in {name}')
            continue
        if typ == 10:  # ADDEND
            addend = number - (1 << 24 if number & 0x800000 else 0)
            continue
        target = (place(number) if external else None)
        old = struct.unpack_from('<I', image, p)[0]
        if typ == 2:  # BRANCH26
            new = old & 0xFC000000 | ((target + addend - BASE - p) >> 2 & 0x3FFFFFF)
        elif typ == 3:  # PAGE21
            pages = ((target + addend) >> 12) - ((BASE + p) >> 12)
            new = old & 0x9F00001F | (pages & 3) << 29 | (pages >> 2 & 0x7FFFF) << 5
        elif typ == 4:  # PAGEOFF12
            low = (target + addend) & 0xFFF
            shift = 0
            if old & 0x3B000000 == 0x39000000:
                shift = old >> 30
                if shift == 0 and old & 0x04800000 == 0x04800000:
                    shift = 4
            assert low & ((1 << shift) - 1) == 0
            new = old & ~(0xFFF << 10) | (low >> shift) << 10
        elif typ == 0:  # UNSIGNED
            assert width == 3
            struct.pack_into('<Q', image, p, (target if external else BASE) + struct.unpack_from('<Q', image, p)[0])
            new = struct.unpack_from('<I', image, p)[0]
        elif typ == 1:
            raise SystemExit('SUBTRACTOR')
        else:
            raise SystemExit(f'relocation {typ} in {name}')
        struct.pack_into('<I', image, p, new)
        addend = 0
print('/* relocations: %s; from outside: %s */' % (counts, ' '.join(outside)))
print('\t.section\t.note.GNU-stack,"",%progbits\n\t.section\t.macho,"ax"\n\t.p2align\t14')
marks = {v: n[1:] for n, t, s, v in symbols if s and t & 1}
outs = {stub[n] + 8: n.lstrip('_') for n in outside}
i = 0
while i < len(image):
    if i in marks:
        print(f'\t.globl\t{marks[i]}\n\t.type\t{marks[i]}, %function\n{marks[i]}:')
    if i in outs:
        print(f'\t.quad\t{outs[i]}')
        i += 8
    else:
        print(f'\t.byte\t{image[i]}')
        i += 1
