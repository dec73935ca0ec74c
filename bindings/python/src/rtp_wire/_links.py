"""Where the payload of UDP lies in a captured frame."""

from __future__ import annotations

from ipaddress import ip_address
from struct import unpack_from
from typing import NamedTuple, Tuple, Union

ETHERNET, NULL, LOOP, COOKED, COOKED_2 = 1, 0, 108, 113, 276
RAW = (12, 14, 101, 228, 229)
KNOWN = (ETHERNET, NULL, LOOP, COOKED, COOKED_2, *RAW)
UDP, IPV4, IPV6 = 17, 0x0800, 0x86DD
# Tags of virtual LANs, which stand before the type of what is carried (IEEE 802.1Q).
TAGS = (0x8100, 0x88A8, 0x9100)
# The extension headers of IPv6 that may stand before UDP (RFC 8200, 4): all but these two count words of eight bytes.
EXTENSIONS = (0, 43, 44, 51, 60, 135)
FRAGMENT, AUTHENTICATION = 44, 51


class Payload(NamedTuple):
    """A datagram's payload where it lies in the file."""

    at: int
    length: int
    """How many bytes are captured."""
    size: int
    """How many it had."""
    flow: bytes
    """The addresses and ports, sender's first."""
    is_fragment: bool
    """Whether it is the first of several fragments."""


class Fragment(NamedTuple):
    """One that is not the first of its datagram."""


class Left(NamedTuple):
    """A frame that is left out."""

    cause: str
    """A name of `left` in tables.json."""
    number: int = 0
    """The Ethernet type, or the protocol of IP."""


Found = Union[Payload, Fragment, Left]
CUT, NO_IP = Left("cut"), Left("no_ip")
# Below these types the number says how long a frame of IEEE 802.3 is.
FIRST_TYPE = 0x0600


def payload_of(data: bytes, at: int, end: int, link: int) -> Found:
    """The payload of UDP in the frame that lies there."""
    ip = _network_at(data, at, end, link)
    if isinstance(ip, Left):
        return ip
    if ip >= end:
        return CUT
    version = data[ip] >> 4
    return _of_ipv4(data, ip, end) if version == 4 else _of_ipv6(data, ip, end) if version == 6 else NO_IP


def _network_at(data: bytes, at: int, end: int, link: int) -> Union[int, Left]:
    """Where the header of IP begins in a frame."""
    if link in RAW:
        return at
    if link in (NULL, LOOP):
        return at + 4
    type_at, ip = {ETHERNET: (12, 14), COOKED: (14, 16), COOKED_2: (0, 20)}[link]
    if at + ip > end:
        return CUT
    (kind,), ip = unpack_from(">H", data, at + type_at), at + ip
    while kind in TAGS and ip + 4 <= end:
        (kind,), ip = unpack_from(">H", data, ip + 2), ip + 4
    if kind in (IPV4, IPV6):
        return ip
    return CUT if kind in TAGS else Left("type", kind) if kind >= FIRST_TYPE else Left("no_type")


def _of_ipv4(data: bytes, at: int, end: int) -> Found:
    length = 4 * (data[at] & 15)
    if at + 20 > end or length < 20:
        return CUT if at + 20 > end else NO_IP
    if data[at + 9] != UDP:
        return Left("protocol", data[at + 9])
    (flags,) = unpack_from(">H", data, at + 6)
    if flags & 0x1FFF:
        return Fragment()
    return _of_udp(data, at + length, end, data[at + 12 : at + 20], flags & 0x2000 != 0)


def _of_ipv6(data: bytes, at: int, end: int) -> Found:
    if at + 40 > end:
        return CUT
    kind, here, is_fragment = data[at + 6], at + 40, False
    while kind in EXTENSIONS:
        if here + 8 > end:
            return CUT
        if kind == FRAGMENT:
            (offset,) = unpack_from(">H", data, here + 2)
            if offset >> 3:
                return Fragment()
            is_fragment = offset & 1 != 0
        kind, here = data[here], here + _extension_length(data, kind, here)
    return _of_udp(data, here, end, data[at + 8 : at + 40], is_fragment) if kind == UDP else Left("protocol", kind)


def _extension_length(data: bytes, kind: int, at: int) -> int:
    if kind == FRAGMENT:
        return 8
    return 4 * (data[at + 1] + 2) if kind == AUTHENTICATION else 8 * (data[at + 1] + 1)


def _of_udp(data: bytes, at: int, end: int, addresses: bytes, is_fragment: bool) -> Found:
    if at + 8 > end:
        return CUT
    (said,) = unpack_from(">H", data, at + 4)
    # A length of 0 is that of a datagram above 65,535 bytes (RFC 2675), or of one that the card has yet to split.
    size = said - 8 if said >= 8 else end - at - 8
    return Payload(at + 8, min(size, end - at - 8), size, addresses + data[at : at + 4], is_fragment)


def ends_of(flow: bytes) -> Tuple[str, str]:
    """The sender and the receiver of a flow, as address and port; no text where they aren't known."""
    if not flow:
        return "", ""
    length = (len(flow) - 4) // 2
    texts = []
    for place, port in ((flow[:length], flow[-4:-2]), (flow[length:-4], flow[-2:])):
        address = ip_address(place)
        text = str(address) if address.version == 4 else f"[{address}]"
        texts.append(f"{text}:{int.from_bytes(port, 'big')}")
    return texts[0], texts[1]
