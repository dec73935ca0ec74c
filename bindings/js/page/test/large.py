#!/usr/bin/env python3
"""Writes a large capture: so many packets of RTP with 1,000 bytes each, of four sources with a transport number and a
mid, one in 200 of which is missing. With `--sources` each packet has a source of its own.

usage: large.py OUT.pcap [PACKETS] [--sources]"""

import struct
import sys


def main(out: str, packets: int = 200_000, *words: str) -> None:
    size = 60 if words else 1000
    header = bytes.fromhex("45000000 00000000 40110000 C0000201 C0000202".replace(" ", ""))
    ethernet = bytes(12) + b"\x08\x00"
    payload = bytes(range(256)) * 4
    with open(out, "wb") as file:
        file.write(struct.pack("<IHHiIII", 0xA1B2C3D4, 2, 4, 0, 0, 65535, 1))
        made = []
        for place in range(packets):
            if place % 200 == 13 and not words:
                continue
            source, number = (place, 1) if words else (place % 4, place // 4)
            rtp = struct.pack("!BBHII", 0x90, 96 + (place & 1), number & 0xFFFF, number * 90 & 0xFFFFFFFF, 1000 + source)
            rtp += struct.pack("!HHBHBBx", 0xBEDE, 2, 0x31, place & 0xFFFF, 0x40, 48 + source % 4) + bytes(1)
            rtp += payload[: size - len(rtp)]
            frame = ethernet + header + struct.pack("!HHHH", 50000, 40000, 8 + len(rtp), 0) + rtp
            time = place * 300
            made.append(struct.pack("<IIII", 1_764_000_000 + time // 10**6, time % 10**6, len(frame), len(frame)) + frame)
            if len(made) == 4096:
                file.write(b"".join(made))
                made.clear()
        file.write(b"".join(made))


main(sys.argv[1], *map(int, sys.argv[2:3]), *sys.argv[3:])
