"""The frames of a file of pcap or pcapng."""

from __future__ import annotations

from struct import unpack_from
from typing import Callable, Iterator, List, NamedTuple, Optional, Union

from ._links import Left

# The first four bytes of a file of pcap: its byte order, and how many fractions a second has.
PCAP = {
    b"\xa1\xb2\xc3\xd4": (">", 10**6),
    b"\xd4\xc3\xb2\xa1": ("<", 10**6),
    b"\xa1\xb2\x3c\x4d": (">", 10**9),
    b"\x4d\x3c\xb2\xa1": ("<", 10**9),
}
PCAPNG = b"\x0a\x0d\x0d\x0a"
INTERFACE, OLD_PACKET, SIMPLE_PACKET, PACKET = 1, 2, 3, 6
RESOLUTION, OFFSET = 9, 14
SECOND = 10**9
# A record of pcap has no more bytes, whatever it says.
LONGEST = 1 << 18

Say = Callable[..., None]
"""Takes the name of a sentence of tables.json, and its words."""


class Frame(NamedTuple):
    """A frame where it lies in the file."""

    time: Optional[int]  # nanoseconds; None where neither it nor one before it tells one
    at: int
    length: int
    link: int
    is_timed: bool = True


Frames = Iterator[Union[Frame, Left]]
"""Frames, and in place of one that can't be read why it is left out."""


def pcap_frames(say: Say, data: bytes) -> Frames:
    order, per_second = PCAP[data[:4]]
    if len(data) < 24:
        say("cut", at=0, got=len(data), want=24)
        return
    link = unpack_from(order + "I", data, 20)[0] & 0xFFFF
    at = 24
    while at < len(data):
        if at + 16 > len(data):
            say("cut", at=at, got=len(data) - at, want=16)
            return
        seconds, part, length, _ = unpack_from(order + "IIII", data, at)
        if length > LONGEST:
            say("bad_block", at=at, want=16 + length)
            return
        if at + 16 + length > len(data):
            say("cut", at=at, got=len(data) - at, want=16 + length)
            return
        yield Frame(seconds * SECOND + part * (SECOND // per_second), at + 16, length, link)
        at += 16 + length


class _Interface(NamedTuple):
    link: int
    per_second: int
    offset: int  # nanoseconds

    def time(self, high: int, low: int) -> int:
        return (high << 32 | low) * SECOND // self.per_second + self.offset


def pcapng_frames(say: Say, data: bytes) -> Frames:
    order, at = "<", 0
    time: Optional[int] = None
    interfaces: List[_Interface] = []
    while at < len(data):
        if at + 12 > len(data):
            say("cut", at=at, got=len(data) - at, want=12)
            return
        if data[at : at + 4] == PCAPNG:
            order, interfaces = "<" if data[at + 8 : at + 12] == b"\x4d\x3c\x2b\x1a" else ">", []
        kind, size = unpack_from(order + "II", data, at)
        if size < 12 or size % 4:
            say("bad_block", at=at, want=size)
            return
        if at + size > len(data):
            say("cut", at=at, got=len(data) - at, want=size)
            return
        if kind == INTERFACE and size >= 20:
            interfaces.append(_interface_of(data, at, size, order))
        elif kind in (PACKET, OLD_PACKET, SIMPLE_PACKET):
            frame = _frame_of(data, at, kind, order, interfaces, time)
            time = frame.time if isinstance(frame, Frame) else time
            yield frame
        at += size


def _interface_of(data: bytes, at: int, size: int, order: str) -> _Interface:
    per_second, offset = 10**6, 0
    here, end = at + 16, at + size - 4
    while here + 4 <= end:
        code, length = unpack_from(order + "HH", data, here)
        if code == 0 or here + 4 + length > end:
            break
        if code == RESOLUTION and length == 1:
            unit = data[here + 4]
            per_second = 2 ** (unit & 127) if unit & 128 else 10**unit
        elif code == OFFSET and length == 8:
            offset = unpack_from(order + "q", data, here + 4)[0] * SECOND
        here += 4 + length + -length % 4
    return _Interface(unpack_from(order + "H", data, at + 8)[0], per_second, offset)


def _frame_of(
    data: bytes, at: int, kind: int, order: str, interfaces: List[_Interface], before: Optional[int]
) -> Union[Frame, Left]:
    """The frame of a block. One that tells no time has that of the one before it."""
    size = unpack_from(order + "I", data, at + 4)[0]
    if kind == SIMPLE_PACKET:
        if size < 16 or not interfaces:
            return Left("block" if size < 16 else "interface")
        length = min(unpack_from(order + "I", data, at + 8)[0], size - 16)
        return Frame(before, at + 12, length, interfaces[0].link, False)
    if size < 32:
        return Left("block")
    index = unpack_from(order + ("I" if kind == PACKET else "H"), data, at + 8)[0]
    high, low, length = unpack_from(order + "III", data, at + 12)
    if index >= len(interfaces) or length > size - 32:
        return Left("interface" if index >= len(interfaces) else "block")
    interface = interfaces[index]
    return Frame(interface.time(high, low), at + 28, length, interface.link)
