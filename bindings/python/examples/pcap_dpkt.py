"""Prints the table of pcap.py as dpkt and a program of its own read the capture, so that the two can be laid side by
side: dpkt reads the file, Ethernet, IP, UDP and RTP's fixed part; what numbers are replays, which of them are lost, and
what the header extension of RFC 8285 holds is found here. Only a capture of Ethernet, a level under the id 1.

    pcap_dpkt.py FILE"""

import sys
from typing import Dict, Iterator, List, Optional, Set, Tuple

import dpkt  # type: ignore


def datagrams_of(name: str) -> Iterator[Tuple[float, bytes]]:
    """When each datagram of UDP was sent, and its payload."""
    with open(name, "rb") as file:
        for time, frame in dpkt.pcap.Reader(file):
            ip = dpkt.ethernet.Ethernet(frame).data
            if isinstance(ip, (dpkt.ip.IP, dpkt.ip6.IP6)) and isinstance(ip.data, dpkt.udp.UDP):
                yield float(time), bytes(ip.data.data)


def level_of(rest: bytes) -> Optional[int]:
    """The audio level, in decibels, in the block of header extensions at the front of these bytes."""
    level, end = None, 4 + 4 * int.from_bytes(rest[2:4], "big")
    if rest[:2] != b"\xbe\xde":
        return None
    at = 4
    while at < end:
        if rest[at] == 0:
            at += 1
            continue
        id, length = rest[at] >> 4, (rest[at] & 15) + 1
        if id == 15 or at + 1 + length > end:
            break
        if id == 1 and length == 1:
            level = -(rest[at + 1] & 127)
        at += 1 + length
    return level


def is_cut(data: bytes) -> bool:
    """Whether the sources of a packet, or its block of header extensions, go on behind what was captured."""
    end = 12 + 4 * (data[0] & 15)
    if data[0] & 16:  # X
        end += 4 + 4 * int.from_bytes(data[end + 2 : end + 4], "big")
    return end > len(data)


class Source:
    """What was received of an SSRC: as extended numbers, of which those that came already, and those that are 128 and
    more below the greatest, are refused."""

    def __init__(self) -> None:
        self.numbers: Set[int] = set()
        self.highest: Optional[int] = None
        self.times: List[float] = []
        self.levels: List[int] = []
        self.refused = 0

    def receive(self, number: int, time: float, level: Optional[int]) -> None:
        highest = 65536 + number if self.highest is None else self.highest
        number = highest + (number - highest + 32768) % 65536 - 32768
        self.times.append(time)
        if number in self.numbers or number <= highest - 128:
            self.refused += 1
            return
        self.numbers.add(number)
        self.highest = max(highest, number)
        if level is not None:
            self.levels.append(level)

    def __str__(self) -> str:
        lost = max(self.numbers) - min(self.numbers) + 1 - len(self.numbers)
        level = f"{sum(self.levels) / len(self.levels):.1f}" if self.levels else "-"
        return f"{len(self.numbers):8}{lost:6}{self.refused:9}{self.times[-1] - self.times[0]:9.3f}{level:>7}"


def main(name: str) -> int:
    sources: Dict[int, Source] = {}
    for time, data in datagrams_of(name):
        if len(data) < 12 or data[0] >> 6 != 2 or 192 <= data[1] <= 223 or is_cut(data):  # no RTP, or RTCP
            continue
        packet = dpkt.rtp.RTP(data)
        level = level_of(packet.data) if packet.x else None
        sources.setdefault(packet.ssrc, Source()).receive(packet.seq, time, level)
    print(f"{'ssrc':>10}{'packets':>8}{'lost':>6}{'refused':>9}{'seconds':>9}{'level':>7}")
    for ssrc, source in sorted(sources.items()):
        print(f"{ssrc:10}{source}")
    return 0


if __name__ == "__main__":
    sys.exit(main(sys.argv[1]))
