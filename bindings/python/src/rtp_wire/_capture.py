"""The datagrams of a capture: a file of pcap or pcapng, or of lines of hexadecimal digits."""

from __future__ import annotations

import re
from array import array
from typing import Dict, List, NamedTuple, Optional, Tuple

from ._frames import PCAP, PCAPNG, SECOND, Frame, Frames, pcap_frames, pcapng_frames
from ._links import KNOWN, Fragment, Left, payload_of

GZIP, ZSTD = b"\x1f\x8b", b"\x28\xb5\x2f\xfd"
# A mark of UTF-8 before the first line.
MARK = b"\xef\xbb\xbf"
# So many causes are told, for which frames were left out.
MOST_CAUSES = 6


class Sentence(NamedTuple):
    """What is told of a file beside its tables: which sentence of tables.json, and what stands in it."""

    name: str
    words: Dict[str, object]


class Capture:
    """The datagrams of a file, by columns, and what is to be said of it."""

    def __init__(self, data: bytes) -> None:
        self.data = data  # what the places are of
        self.at, self.lengths = array("Q"), array("Q")
        self.sizes = array("Q")
        self.times: List[int] = []  # nanoseconds from the earliest datagram
        self.flow_of = array("Q")  # an index of the flows
        self.flows: Dict[bytes, int] = {}
        self.is_timed = True
        self.map_lines: Dict[int, str] = {}
        self.sentences: List[Sentence] = []

    def say(self, name: str, **words: object) -> None:
        self.sentences.append(Sentence(name, words))

    def add(self, time: int, at: int, length: int, size: int, flow: bytes) -> None:
        self.times.append(time)
        self.at.append(at)
        self.lengths.append(length)
        self.sizes.append(size)
        self.flow_of.append(self.flows.setdefault(flow, len(self.flows)))

    def __len__(self) -> int:
        return len(self.times)


def read_capture(data: bytes) -> Capture:
    """The datagrams of UDP in a file."""
    capture = Capture(data)
    if not data:
        capture.say("empty")
    elif data[:4] in PCAP:
        _take_frames(capture, pcap_frames(capture.say, data))
    elif data[:4] == PCAPNG:
        _take_frames(capture, pcapng_frames(capture.say, data))
    elif data[:2] == GZIP or data[:4] == ZSTD:
        capture.say("compressed")
    elif is_lines(data[:4096]):
        _take_lines(capture, data)
    else:
        capture.say("no_capture", bytes=data[:4].hex(" "))
    return capture


def _take_frames(capture: Capture, frames: Frames) -> None:
    unknown: Dict[int, int] = {}
    left: Dict[Left, int] = {}
    rests = first = short = untimed = 0
    times: List[Optional[int]] = []
    data = capture.data
    for frame in frames:
        if isinstance(frame, Frame) and frame.link not in KNOWN:
            unknown[frame.link] = unknown.get(frame.link, 0) + 1
            continue
        found = frame if isinstance(frame, Left) else payload_of(data, frame.at, frame.at + frame.length, frame.link)
        if isinstance(found, Left):
            left[found] = left.get(found, 0) + 1
        elif isinstance(found, Fragment):
            rests += 1
        elif isinstance(frame, Frame):
            first += found.is_fragment
            short += found.length < found.size and not found.is_fragment
            untimed += not frame.is_timed
            times.append(frame.time)
            capture.add(0, found.at, found.length, found.size, found.flow)
    for link, count in sorted(unknown.items()):
        capture.say("links", count=count, link=link)
    if rests or first:
        capture.say("fragments", count=rests, first=first)
    if short:
        capture.say("short", count=short)
    if left:
        capture.say("left_out", count=sum(left.values()), causes=_causes(left))
    _count_times(capture, times, untimed)
    if not capture.times and not capture.sentences:
        capture.say("no_datagram")


def _causes(left: Dict[Left, int]) -> List[Tuple[str, int, int]]:
    """Why frames were left out: the causes with their numbers and counts, that of most first."""
    listed = sorted(((*cause, count) for cause, count in left.items()), key=lambda it: (-it[2], it[:2]))
    if len(listed) <= MOST_CAUSES:
        return listed
    told, rest = listed[: MOST_CAUSES - 1], listed[MOST_CAUSES - 1 :]
    return [*told, ("others", 0, sum(count for _, _, count in rest))]


def _count_times(capture: Capture, times: List[Optional[int]], untimed: int) -> None:
    """Has the times count from the earliest one; where none is told they are places, as those of lines."""
    start = min((it for it in times if it is not None), default=None)
    if start is None:
        capture.is_timed = not times
        capture.times = [place * SECOND for place in range(len(times))]
        return
    capture.times = [0 if it is None else it - start for it in times]
    earlier = sum(time < before for before, time in zip(capture.times, capture.times[1:]))
    if earlier:
        capture.say("unordered", count=earlier)
    if untimed:
        capture.say("untimed_some", count=untimed)


# ---- Lines of hexadecimal digits, as the program rtp_lines takes them ----

_MAP_LINE = re.compile(rb"map ([0-9]{1,3}) (.+)", re.DOTALL)
_HEX_LINE = re.compile(rb"(?:[0-9a-fA-F]{2})*")


def is_lines(beginning: bytes) -> bool:
    """Whether the file begins with a line of digits, or one that maps an id. Empty lines may stand before it."""
    lines = (it.removesuffix(b"\r") for it in beginning.removeprefix(MARK).split(b"\n"))
    line = next(filter(None, lines), b"")
    return bool(re.fullmatch(rb"[0-9a-fA-F]+", line) or _MAP_LINE.fullmatch(line))


def _map_line(line: bytes) -> "Tuple[int, str] | None":
    words = _MAP_LINE.fullmatch(line)
    if not words or not 1 <= int(words[1]) <= 255:
        return None
    return int(words[1]), words[2].decode("utf-8", "replace")


def _take_lines(capture: Capture, data: bytes) -> None:
    """The datagrams of the lines, one behind the other. A bad line, at which the program ends, is left out."""
    decoded = bytearray()
    bad = first_bad = 0
    capture.is_timed = False
    lines = data.removeprefix(MARK).split(b"\n")
    if not lines[-1]:
        lines.pop()
    for place, line in enumerate(lines, 1):
        line = line.removesuffix(b"\r")
        mapped = None if capture.times else _map_line(line)
        if mapped:
            capture.map_lines[mapped[0]] = mapped[1]
        elif _HEX_LINE.fullmatch(line):
            datagram = bytes.fromhex(line.decode())
            capture.add(len(capture) * SECOND, len(decoded), len(datagram), len(datagram), b"")
            decoded += datagram
        else:
            bad, first_bad = bad + 1, first_bad or place
    capture.data = bytes(decoded)
    if bad:
        capture.say("lines", count=bad, line=first_bad)
    elif not capture.times:
        capture.say("no_datagram")
