"""Makes captures by hand, packet by packet, for tests of what is told of them."""

from ipaddress import ip_address
from struct import pack
from typing import Iterable, List, Optional, Sequence, Tuple

MILLISECOND, SECOND = 10**6, 10**9
# Nanoseconds since 1970: a time with a fraction.
START = 1_764_000_000 * SECOND + 250 * MILLISECOND

Frames = Iterable[Tuple[int, bytes]]


def rtp(
    number: int,
    timestamp: int = 0,
    ssrc: int = 44,
    payload_type: int = 96,
    elements: Sequence[Tuple[int, bytes]] = (),
    payload: bytes = b"media",
    marker: bool = False,
) -> bytes:
    """A packet of RTP, with a block in the one-byte form where there are elements."""
    body = b"".join(bytes([id << 4 | len(data) - 1]) + data for id, data in elements)
    body += bytes(-len(body) % 4)
    block = pack("!HH", 0xBEDE, len(body) // 4) + body if elements else b""
    first = 0x90 if elements else 0x80
    return pack("!BBHII", first, payload_type | marker << 7, number, timestamp, ssrc) + block + payload


def udp(
    payload: bytes, ports: Tuple[int, int] = (50000, 40000), length: Optional[int] = None
) -> bytes:
    said = 8 + len(payload) if length is None else length
    return pack("!HHHH", *ports, said, 0) + payload


def ipv4(
    data: bytes, of: str = "192.0.2.1", to: str = "192.0.2.2", protocol: int = 17, fragment: int = 0, options: bytes = b""
) -> bytes:
    """`fragment` are the flags and the offset."""
    words = 5 + len(options) // 4
    head = pack("!BBHHHBBH", 0x40 | words, 0, 4 * words + len(data), 7, fragment, 64, protocol, 0)
    return head + ip_address(of).packed + ip_address(to).packed + options + data


def ipv6(data: bytes, kind: int = 17, of: str = "2001:db8::1", to: str = "2001:db8:0:1::2") -> bytes:
    return pack("!IHBB", 6 << 28, len(data), kind, 64) + ip_address(of).packed + ip_address(to).packed + data


def ethernet(data: bytes, tags: Sequence[int] = ()) -> bytes:
    """A frame, with tags of virtual LANs by their types."""
    kind = 0x86DD if data[0] >> 4 == 6 else 0x0800
    return bytes(12) + b"".join(pack("!HH", it, 5) for it in tags) + pack("!H", kind) + data


def frame(payload: bytes) -> bytes:
    return ethernet(ipv4(udp(payload)))


def pcap(frames: Frames, link: int = 1, order: str = "<", unit: int = 1000, most: int = 65535) -> bytes:
    """A file of pcap, whose fractions of a second have so many nanoseconds, and of each frame so many bytes at most."""
    made = [pack(order + "IHHiIII", 0xA1B23C4D if unit == 1 else 0xA1B2C3D4, 2, 4, 0, 0, most, link)]
    for time, data in frames:
        words = time // SECOND, time % SECOND // unit, min(len(data), most), len(data)
        made += [pack(order + "IIII", *words), data[:most]]
    return b"".join(made)


def block(kind: int, body: bytes, order: str = "<") -> bytes:
    body += bytes(-len(body) % 4)
    return pack(order + "II", kind, 12 + len(body)) + body + pack(order + "I", 12 + len(body))


def section(order: str = "<") -> bytes:
    return block(0x0A0D0D0A, pack(order + "IHHq", 0x1A2B3C4D, 1, 0, -1), order)


def option(code: int, data: bytes, order: str = "<") -> bytes:
    return pack(order + "HH", code, len(data)) + data + bytes(-len(data) % 4)


def interface(link: int = 1, options: bytes = b"", order: str = "<") -> bytes:
    return block(1, pack(order + "HHI", link, 0, 0) + options, order)


def enhanced(ticks: int, data: bytes, index: int = 0, order: str = "<") -> bytes:
    words = index, ticks >> 32, ticks & 0xFFFFFFFF, len(data), len(data)
    return block(6, pack(order + "IIIII", *words) + data, order)


def paced(numbers: Iterable[int], late: Sequence[int] = ()) -> List[Tuple[int, bytes]]:
    """Packets of 48,000 Hz, one each 20 ms, with these numbers; those at the places `late` are 10 ms late."""
    made = []
    for place, number in enumerate(numbers):
        time = START + (20 * place + 10 * (place in late)) * MILLISECOND
        made.append((time, frame(rtp(number, 960 * place, payload_type=111))))
    return made
