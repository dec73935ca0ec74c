"""Files that the page is tested with, made by hand: captures, and files of which not all can be read."""

import sys
from pathlib import Path

sys.path.append(str(Path(__file__).resolve().parents[3] / "python/tests"))
import made_captures as made
from made_cases import cases  # noqa: F401

MILLISECOND, SECOND, START = made.MILLISECOND, made.SECOND, made.START


def call_of(numbers, **more):
    """Packets each 20 ms of a source with a level, a mid and a transport number."""
    for place, number in enumerate(numbers):
        elements = [(1, bytes([0x80 * (place % 3 == 0) | place % 100])), (3, place.to_bytes(2, "big")), (4, b"0")]
        time, packet = START + 20 * MILLISECOND * place, made.rtp(number, 960 * place & 0xFFFFFFFF, elements=elements, **more)
        yield time, made.frame(packet)


def layered():
    """Packets of a simulcast whose layers change: two streams, the second of which begins after a second."""
    for place in range(100):
        # video-layers-allocation00: RID 0, streams less 1, no bitmask of all; temporal layers; rates; sizes
        one = bytes.fromhex("01 00 64 027F 0167 1E".replace(" ", ""))
        two = bytes.fromhex("11 00 64 E807 013F 00B3 0F 027F 0167 1E".replace(" ", ""))
        yield START + 20 * MILLISECOND * place, made.frame(made.rtp(place, 1800 * place, elements=[(9, one if place < 50 else two)]))


def plain_call():
    """Half a thousand packets, of which some are lost."""
    lossy = [it for it in range(65500, 66000) if it % 97 and not 65700 <= it < 65740]
    return list(call_of([it & 0xFFFF for it in lossy]))


def streams():
    """Captures by their names, each with an SDP or none: what senders and networks do."""
    plain = plain_call()
    vla = "a=extmap:9 http://www.webrtc.org/experiments/rtp-hdrext/video-layers-allocation00"
    sdp = "a=rtpmap:111 opus/48000/2\r\na=rtpmap:96 VP8/90000\r\na=ssrc-group:FID 44 45\r\na=extmap:4 urn:ietf:params:rtp-hdrext:sdes:mid"
    rtx = list(call_of(range(20), ssrc=45, payload_type=97))
    order = [*range(50), 52, 51, 51, 53, 54, 3000, 1500, 40000, 40001, 40005, 40003]
    yield "lossy.pcap", made.pcap(plain), None
    yield "sdp.pcap", made.pcap(sorted([*plain, *rtx])), sdp
    yield "order.pcap", made.pcap(call_of(order), order=">", unit=1), None
    yield "layers.pcap", made.pcap(layered()), vla
    yield "late.pcap", made.pcap(made.paced(range(200), late=range(0, 200, 7))), None
    yield "restart.pcap", made.pcap(made.paced([1, 2, 3, 40000, 40001, 40002], late=[2])), None


def forms():
    """The same: the forms of files, of flows and of datagrams."""
    plain = plain_call()
    flows = [(it, made.ethernet(made.ipv6(made.udp(made.rtp(place, ssrc=place % 3))))) for place, (it, _) in enumerate(plain)]
    for of in ("2001:db8:0:0:1:0:0:2", "1:0:2:3:4:5:6:7", "::1", "1::"):
        flows += [(START, made.ethernet(made.ipv6(made.udp(made.rtp(it)), of=of))) for it in (1, 2)]
    ports = [(it, made.ethernet(made.ipv4(made.udp(made.rtp(place), (50000, 40001))))) for place, (it, _) in enumerate(plain)]
    yield "flows.pcap", made.pcap(sorted([*plain, *flows, *ports])), None
    ng = made.section() + made.interface(1, made.option(9, b"\x09")) + b"".join(made.enhanced(*it) for it in plain)
    ng += made.section(">") + made.interface(101, order=">")  # of raw IP, in microseconds
    for place in range(20):
        ng += made.enhanced(START // 1000 + 900 * place, made.ipv4(made.udp(made.rtp(place, ssrc=9))), order=">")
    yield "section.pcapng", ng, None
    # three bytes that stay, two that jump, one that stays: no signs of what they usually are
    still = [(1, b"\x01"), (2, bytes(3)), (13, b"\x01\x02")]
    signs = [(START + it, made.frame(made.rtp(it, elements=[*still, (3, (999 * it).to_bytes(2, "big"))]))) for it in range(9)]
    yield "signs.pcap", made.pcap(signs), None
    yield "upper.lines", made.rtp(1, elements=still).hex().upper().encode() + b"\n" + made.rtp(3).hex().encode(), None
    # more than a slice of the file, so that packets go on behind its end
    long = [(it, made.frame(made.rtp(place & 0xFFFF, payload=bytes(900)))) for place, it in enumerate(range(START, START + 9000, 1))]
    yield "slices.pcap", made.pcap(long, unit=1), None
    kinds = [(START + it, made.frame(bytes([it, it * 7 & 255, 0, it]) + bytes(it % 40))) for it in range(256)]
    yield "kinds.pcap", made.pcap(kinds), None
    backwards = [(START + SECOND - it * MILLISECOND, made.frame(made.rtp(it, 90 * it))) for it in range(100)]
    yield "backwards.pcap", made.pcap(backwards), None


def damaged():
    """Files of which not all can be read."""
    whole = made.pcap(call_of(range(10)))
    fragments = [made.ethernet(made.ipv4(made.udp(made.rtp(1), length=900), fragment=it)) for it in (0x2000, 0x2001, 1)]
    yield "empty", b""
    yield "short", b"\x80"
    yield "picture.png", b"\x89PNG\r\n\x1a\n" + bytes(100)
    yield "packed.gz", b"\x1f\x8b\x08" + bytes(20)
    yield "none.pcap", made.pcap([])
    yield "head.pcap", whole[:20]
    yield "cut.pcap", whole[:-1]
    yield "record.pcap", whole + bytes(15)
    yield "long.pcap", whole + b"\xff" * 16 + bytes(300)
    yield "link.pcap", made.pcap(call_of(range(3)), link=147)
    yield "fragments.pcap", made.pcap((START, it) for it in fragments)
    yield "snapped.pcap", made.pcap(call_of(range(9)), most=70)
    yield "cut.pcapng", (made.section() + made.interface())[:-3]
    yield "block.pcapng", made.section() + made.interface() + made.block(6, bytes(3)) + b"\x06\0\0\0\x07\0\0\0" + bytes(9)
    yield "bad.lines", b"map 1 urn:x\n" + made.rtp(1).hex().encode() + b"\r\nmap 2 urn:y\n8\nxy\n" + made.rtp(3).hex().encode()
    yield "many.pcap", made.pcap((START + it, made.frame(made.rtp(it & 1, ssrc=it // 2))) for it in range(8400))
