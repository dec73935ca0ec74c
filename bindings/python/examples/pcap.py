"""Reads a capture as tcpdump writes it (pcap, of Ethernet with IPv4 or IPv6), and prints of each SSRC how many packets
there are, how many are lost, how many are refused since they came twice or too late, the seconds from the first to the
last, and the mean audio level in decibels.

    pcap.py FILE [ID=URI ..]

The ids are those of the lines a=extmap of the SDP; without any they are the usual ones, of which 1 is the level."""

import sys
from dataclasses import dataclass, field
from struct import unpack_from
from typing import Dict, Iterable, Iterator, List, Optional, Tuple

from rtp_wire import Columns, Map, Receiver, Verdict

# The first four bytes of a file: its byte order, and what its fractions of a second are.
MAGICS = {
    b"\xa1\xb2\xc3\xd4": (">", 1e-6),
    b"\xd4\xc3\xb2\xa1": ("<", 1e-6),
    b"\xa1\xb2\x3c\x4d": (">", 1e-9),
    b"\x4d\x3c\xb2\xa1": ("<", 1e-9),
}
ETHERNET, UDP = 1, 17


def payload_of(data: bytes, at: int, end: int) -> Optional[Tuple[int, int]]:
    """Where the payload of UDP begins and ends in the frame that lies there; None where it has none. Fragments, and
    IPv6 with extension headers, are left out."""
    at += 12
    while data[at : at + 2] in (b"\x81\x00", b"\x88\xa8"):  # a tag of a virtual LAN
        at += 4
    kind, at = data[at : at + 2], at + 2
    if kind == b"\x08\x00" and at + 20 <= end:
        is_udp = data[at + 9] == UDP and not unpack_from(">H", data, at + 6)[0] & 0x3FFF
        at += 4 * (data[at] & 15)
    elif kind == b"\x86\xdd" and at + 40 <= end:
        is_udp = data[at + 6] == UDP
        at += 40
    else:
        return None
    if not is_udp or at + 8 > end:
        return None
    (length,) = unpack_from(">H", data, at + 4)
    return at + 8, min(max(at + length, at + 8), end)


def datagrams_of(data: bytes) -> Iterator[Tuple[int, int, float]]:
    """Where the payload of each datagram of UDP begins in the file, how many bytes it has, and when it was sent."""
    order, fraction = MAGICS[data[:4]]
    at = 24
    while at + 16 <= len(data):
        seconds, part, captured, _ = unpack_from(order + "IIII", data, at)
        place = payload_of(data, at + 16, min(at + 16 + captured, len(data)))
        if place:
            yield place[0], place[1] - place[0], seconds + part * fraction
        at += 16 + captured


@dataclass
class Source:
    """What was received of an SSRC."""

    numbers: List[int] = field(default_factory=list)
    times: List[float] = field(default_factory=list)
    levels: List[int] = field(default_factory=list)
    refused: int = 0

    def __str__(self) -> str:
        lost = max(self.numbers) - min(self.numbers) + 1 - len(self.numbers)
        level = f"{sum(self.levels) / len(self.levels):.1f}" if self.levels else "-"
        return f"{len(self.numbers):8}{lost:6}{self.refused:9}{self.times[-1] - self.times[0]:9.3f}{level:>7}"


def sources_of(data: bytes, map: Map) -> Dict[int, Source]:
    found = list(datagrams_of(data))
    at, lengths, times = zip(*found) if found else ((), (), ())
    columns = Columns.parse(data, at, lengths, map, ["audio_level"])
    receivers: Dict[int, Receiver] = {}
    verdicts = columns.receive(receivers)
    sources = {ssrc: Source() for ssrc in receivers}
    rows = zip(columns.ssrc, *verdicts, times, columns.values["audio_level"])
    for ssrc, number, verdict, time, level in rows:
        if verdict == Verdict.NONE:
            continue
        source = sources[ssrc]
        source.times.append(time)
        if verdict == Verdict.REFUSED:
            source.refused += 1
            continue
        source.numbers.append(number)
        if level is not None:
            source.levels.append(level)
    return sources


def map_of(ids: Iterable[str]) -> Map:
    """The map of words ID=URI. ValueError where one is none, or an id isn't 1 to 255."""
    return Map.from_uris((int(id), uri) for id, uri in (it.split("=", 1) for it in ids))


def main(name: str, *ids: str) -> int:
    try:
        map = map_of(ids) if ids else Map.standard()
    except ValueError:
        print("usage: pcap.py FILE [ID=URI ..]")
        return 2
    with open(name, "rb") as file:
        data = file.read()
    if data[:4] not in MAGICS or len(data) < 24:
        print(f"{name}: no pcap file")
        return 2
    if unpack_from(MAGICS[data[:4]][0] + "I", data, 20)[0] != ETHERNET:
        print(f"{name}: not of Ethernet")
        return 2
    print(f"{'ssrc':>10}{'packets':>8}{'lost':>6}{'refused':>9}{'seconds':>9}{'level':>7}")
    for ssrc, source in sorted(sources_of(data, map).items()):
        print(f"{ssrc:10}{source}")
    return 0


if __name__ == "__main__":
    sys.exit(main(*sys.argv[1:]))
