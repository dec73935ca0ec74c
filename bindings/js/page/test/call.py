#!/usr/bin/env python3
"""Writes a capture of a call of a minute: audio with levels and voice, two streams of video with their retransmissions,
over a network that loses, doubles and delays packets, most of them from 31 s to 36 s.

usage: call.py OUT.pcap"""

import math
import random
import sys
from pathlib import Path
from struct import pack

sys.path.append(str(Path(__file__).resolve().parents[3] / "python/tests"))
import made_captures as made

SECOND, SECONDS = made.SECOND, 60
# video-layers-allocation00: two streams of a spatial layer each, at first both, then the lower one alone, then both.
BOTH = bytes.fromhex("1100 AC02 B80A 013F00B31E 027F01671E".replace(" ", ""))
LOWER = bytes.fromhex("0100 F401 013F00B31E".replace(" ", ""))


def is_lossy(time):
    return 31 <= time < 36


class Network:
    """What comes of packets that are sent, in a random way that is always the same."""

    def __init__(self):
        self.chance, self.frames, self.number = random.Random(7), [], 0

    def send(self, time, number, stamp, ssrc, payload_type, elements, size, **more):
        self.number += 1
        send_time = round(time * 2**18) % 2**24
        common = [(2, send_time.to_bytes(3, "big")), (3, pack("!H", self.number & 0xFFFF))]
        packet = made.rtp(number, stamp & 0xFFFFFFFF, ssrc, payload_type, [*elements, *common], bytes(size), **more)
        if self.chance.random() < (0.09 if is_lossy(time) else 0.001):
            return
        late = self.chance.expovariate(1 / (0.009 if is_lossy(time) else 0.0015))
        for _ in range(2 if self.chance.random() < 0.001 else 1):
            self.frames.append((made.START + round((time + 0.02 + late) * SECOND), made.frame(packet)))


def audio(network, time, place):
    loud = max(0.0, math.sin(time / 3.1) * math.sin(time / 0.7))
    level = round(20 + 60 * (1 - loud)) + network.chance.randrange(6)
    voice = 0x80 if loud > 0.25 else 0
    network.send(time, 65000 + place & 0xFFFF, 960 * place, 0x1F3A0001, 111, [(1, bytes([voice | level])), (4, b"0")], 70 + int(60 * loud))


def video(network, time, frame, ssrc, rid, packets, sent):
    for part in range(packets):
        elements = [(4, b"1"), (10, rid)]
        if frame % 30 == 0 and part == 0:
            elements.append((9, LOWER if 40 <= time < 50 else BOTH))
        sent[ssrc] = sent.get(ssrc, 0) + 1
        marker = part == packets - 1
        network.send(time + part * 0.0008, sent[ssrc] & 0xFFFF, 3000 * frame, ssrc, 96, elements, 1000, marker=marker)
        if network.chance.random() < (0.07 if is_lossy(time) else 0.001):  # asked for again
            sent[ssrc + 1] = sent.get(ssrc + 1, 0) + 1
            network.send(time + 0.06, sent[ssrc + 1], 3000 * frame, ssrc + 1, 97, [(4, b"1"), (11, rid)], 1002)


def main(out):
    network, sent = Network(), {}
    for place in range(50 * SECONDS):
        audio(network, place / 50, place)
    for frame in range(30 * SECONDS):
        time = frame / 30
        video(network, time, frame, 0x2B770010, b"q", 1, sent)
        if not 40 <= time < 50:
            video(network, time, frame, 0x2B770020, b"h", 5, sent)
    for second in range(SECONDS):
        network.frames.append((made.START + second * SECOND, made.frame(bytes([0x80, 200, 0, 6]) + bytes(24))))
        network.frames.append((made.START + second * SECOND, made.frame(bytes([0, 1]) + bytes(18))))
    Path(out).write_bytes(made.pcap(sorted(network.frames)))


if __name__ == "__main__":
    main(sys.argv[1])
