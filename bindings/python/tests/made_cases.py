"""Captures that are made by hand with what has to be told of them, at a terminal and by the page for browsers."""

from struct import pack
from typing import Dict, Iterator, NamedTuple, Optional, Tuple

from made_captures import (
    MILLISECOND,
    SECOND,
    START,
    block,
    enhanced,
    ethernet,
    frame,
    interface,
    ipv4,
    ipv6,
    paced,
    pcap,
    rtp,
    section,
    udp,
)


class Case(NamedTuple):
    """A capture: sentences that are among those of it, ones that aren't, what stands in the row of its one source, and of
    each id in the table of header extensions the end of its URI and what tells that."""

    name: str
    data: bytes
    said: Tuple[str, ...] = ()
    unsaid: Tuple[str, ...] = ()
    source: Dict[str, str] = {}
    sdp: Optional[str] = None
    extensions: Optional[Dict[str, Tuple[str, str]]] = None


NONE_LOST = "No packet is lost."
RESTARTED = "A sender began anew 1 times under its SSRC: what was lost there isn't known."


def _second(second: int, number: int, timestamp: int, rate: int = 1000) -> Iterator[Tuple[int, bytes]]:
    """A second of a source that sends so many packets in each, from a number and a timestamp of 90,000 Hz on."""
    for it in range(rate):
        time = START + second * SECOND + it * SECOND // rate
        yield time, frame(rtp(number + it & 0xFFFF, timestamp + it * 90000 // rate & 0xFFFFFFFF))


def outages() -> Iterator[Case]:
    """Gaps of 3,000 numbers or more."""
    begin = list(_second(0, 65000, 2**32 - 90000))
    # a second from 65,000 on, and then 4 s later: 4,000 numbers are missing
    lost = {"packets": "2000", "expected": "6000", "lost": "4000", "gap": "4000", "outside": "0", "restarts": "0"}
    lost |= {"worst": "5", "worst_lost": "4000"}
    after = [*begin, *_second(5, 464 + 4000, 360000)]
    yield Case("outage.pcap", pcap(after), ("Most packets were lost from 5 to 6 s: 4000 of 5000.",), (NONE_LOST, RESTARTED), lost)
    # a second by which the timestamp is off is as near as it may be, and a tick more isn't
    new = {"packets": "2000", "expected": "1999", "lost": "0", "outside": "1", "restarts": "1"}
    for off, wanted in ((90000, lost), (-90000, lost), (90001, new), (-90001, new)):
        data = pcap([*begin, *_second(5, 464 + 4000, 360000 + off)])
        yield Case(f"off{off}.pcap", data, (RESTARTED,) if wanted is new else (), (NONE_LOST,), wanted)
    # in 1.001 s the numbers go on four times as fast, 4,004, and faster; backwards; and not at all for so long that they may have rolled over
    for name, second, number, wanted in (
        ("fast", 2, 464 + 4003, {"expected": "6003", "lost": "4003"}),
        ("faster", 2, 464 + 4010, new),
        ("backwards", 5, 464 - 6000, new),
        ("rolled_over", 35, 464 + 10000, new),
    ):
        data = pcap([*begin, *_second(second, number, (second - 1) * 90000)])
        yield Case(f"{name}.pcap", data, (RESTARTED,) if wanted is new else (), (NONE_LOST,), wanted)
    # one packet alone is no sign that the stream goes on there
    one = pcap([*begin, next(_second(5, 464 + 4000, 360000)), *_second(6, 464, 450000)])
    yield Case("stray.pcap", one, source={"lost": "0", "outside": "1", "restarts": "0"})
    # the sender begins anew, and after that a number is lost
    yield Case("anew.pcap", pcap(paced([1, 2, 3, 40000, 40001])), (RESTARTED,), (NONE_LOST,))
    yield Case("anew_lossy.pcap", pcap(paced([1, 2, 3, 40000, 40001, 40003])), (RESTARTED, "Most packets were lost from 0 to 1 s: 1 of 6."))


def clocks() -> Iterator[Case]:
    """Clocks by the payload type, the SDP, or a guess."""
    static = {0: 8000, 3: 8000, 6: 16000, 8: 8000, 9: 8000, 10: 44100, 11: 44100, 13: 8000, 14: 90000}
    static |= {16: 11025, 17: 22050, 18: 8000, 26: 90000, 34: 90000}
    for payload_type, clock in static.items():
        # the timestamps run with 48,000 Hz
        data = pcap((START + 20 * MILLISECOND * it, frame(rtp(it, 960 * it, payload_type=payload_type))) for it in range(40))
        yield Case(f"static{payload_type}.pcap", data, source={"clock": str(clock), "clock_by": "RFC 3551"})
    yield Case("told.pcap", data, source={"clock": "12000", "clock_by": "SDP"}, sdp="a=rtpmap:34 x/12000")
    of_44100 = pcap((START + 20 * MILLISECOND * it, frame(rtp(it, 882 * it))) for it in range(40))
    yield Case("guessed.pcap", of_44100, source={"clock": "44100", "clock_by": "guessed"})


def cut() -> Iterator[Case]:
    """Captures that have only the beginning of each frame."""
    # of each tenth packet the block is longer than what the capture has of it, 12 + 4 + 8 bytes; the eighth is lost
    level = [(1, b"\x8a"), (2, bytes(3))]
    long = [*level, (4, b"0123456789abcde")]
    frames = [
        (START + 20 * MILLISECOND * it, frame(rtp(it, 960 * it, elements=level if it % 10 else long)))
        for it in range(100)
        if it != 8
    ]
    short = "Of 99 datagrams the capture has only the beginning."
    headers = "Of {} packets the capture has not the whole header: their numbers and times count, and values of theirs aren't known."
    wanted = {"packets": "99", "expected": "100", "lost": "1", "clock": "48000"}
    yield Case("cut_block.pcap", pcap(frames, most=42 + 24), (short, headers.format(10)), source=wanted)
    yield Case("cut_fixed.pcap", pcap(frames, most=42 + 12), (short, headers.format(99)), source=wanted)
    yield Case("cut_short.pcap", pcap(frames, most=42 + 11), (short,), (NONE_LOST, headers.format(99)))


def left_out() -> Iterator[Case]:
    """Frames without a datagram of UDP, each with the cause."""
    ip = ipv4(udp(rtp(1)))
    protocol = {it: ethernet(ipv4(udp(rtp(1)), protocol=it)) for it in (1, 4, 6, 99)}
    types = {it: bytes(12) + pack("!H", it) + ip for it in (0x0806, 0x8864, 0x05FF, 0x0600)}
    tag = bytes(12) + b"\x81\x00\x00\x05"  # and nothing behind it
    short = [ethernet(ip)[:it] for it in (13, 14, 33, 41)] + [ethernet(ipv6(udp(rtp(1))))[: 14 + 39], tag]
    for name, frames, causes in (
        ("tcp", [protocol[6]] * 3, "3 of TCP"),
        ("protocols", [*[protocol[99]] * 3, *[protocol[4]] * 2, ethernet(ipv6(udp(rtp(1)), 58))], "3 of the IP protocol 99, 2 of IP in IP, 1 of ICMPv6"),
        ("types", [*[types[0x8864]] * 2, types[0x0806], types[0x05FF], types[0x0600]], "2 of the Ethernet type 0x8864, 1 of IEEE 802.3 without a type, 1 of the Ethernet type 0x0600, 1 of the Ethernet type 0x0806"),
        ("short", short, "6 cut before the payload"),
        ("no_ip", [ethernet(b"\x44" + ip[1:]), bytes(12) + b"\x08\x00\x55" + bytes(60)], "2 without a header of IP"),
        ("many", [*protocol.values(), *types.values(), *short], "6 cut before the payload, 1 of IEEE 802.3 without a type, 1 of ICMP, 1 of IP in IP, 1 of TCP, 4 for other causes"),
    ):
        told = f"{len(frames)} frames were left out: {causes}."
        yield Case(f"{name}.pcap", pcap((START, it) for it in frames), (told,), ("No datagram of UDP is in it.",))
    # beside datagrams, and in a file of pcapng: of an interface that no block declares, and two whose blocks are too small
    packet = frame(rtp(1))
    words = pack("<IIIII", 0, 0, 0, 1000, 1000)
    data = section() + block(3, pack("<I", 10) + packet) + interface() + enhanced(START // 1000, packet)
    data += enhanced(START // 1000, packet, 1) + block(6, words + bytes(100)) + block(6, bytes(8))
    data += enhanced(START // 1000, frame(rtp(2)))
    told = "4 frames were left out: 2 that their block cuts short, 2 of an interface that no block declares."
    yield Case("interface.pcapng", data, (told,), source={"packets": "2"})


def times() -> Iterator[Case]:
    """Times that run back, and none."""
    packets = [(START + 20 * MILLISECOND * it, frame(rtp(it, 160 * it, payload_type=0))) for it in range(100) if it not in (3, 4)]
    told = "{} datagrams have an earlier time than the one before them: the frames aren't in the order of time, which counts from the earliest one."
    worst = "Most packets were lost from 0 to 1 s: 2 of 50."
    read = "98 datagrams of UDP in 1.980 s: 98 RTP, 0 RTCP, 0 other; 1 sources."
    yield Case("sorted.pcap", pcap(packets), (read, worst), (told.format(1),), {"begin": "0.000", "seconds": "1.980"})
    # those from the number 62 on come first
    yield Case("back.pcap", pcap(packets[60:] + packets[:60]), (read, worst, told.format(1)), source={"begin": "0.000", "seconds": "1.980"})
    simple = [block(3, pack("<I", len(it)) + it) for _, it in packets]
    untimed = "98 datagrams, without times: 98 RTP, 0 RTCP, 0 other; 1 sources."
    yield Case("simple.pcapng", section() + interface() + b"".join(simple), (untimed,), (read,), {"begin": "", "clock": "", "lost": "2"})
    # one of 98 has a time
    some = "97 datagrams have no time: each has that of the one before it."
    one = section() + interface() + simple[0] + enhanced(START // 1000, packets[1][1]) + b"".join(simple[2:])
    wanted = {"begin": "0.000", "seconds": "0.000"}
    yield Case("some.pcapng", one, ("98 datagrams of UDP in 0.000 s: 98 RTP, 0 RTCP, 0 other; 1 sources.", some), source=wanted)


def lines() -> Iterator[Case]:
    """Lines of digits behind a mark of UTF-8, and behind empty lines."""
    digits = b"".join(rtp(it).hex().encode() + b"\r\n" for it in (1, 2, 4))
    untimed = "{} datagrams, without times: 3 RTP, 0 RTCP, {} other; 1 sources."
    for name, begin, empty in (("mark", b"\xef\xbb\xbf", 0), ("empty", b"\n\r\n\n", 3), ("both", b"\xef\xbb\xbf\n", 1)):
        yield Case(f"{name}.lines", begin + digits, (untimed.format(3 + empty, empty),), source={"packets": "3", "lost": "1"})


def extensions() -> Iterator[Case]:
    """Ids that occur, and what they mean."""
    usual = "guessed: the usual id"
    yield Case("no_ids.pcap", pcap(paced(range(9))), extensions={})
    # levels that don't change, but for that of silence, and send times and numbers that stay are none
    for byte, told in ((b"\x00", ("", "nothing")), (b"\x7f", ("ssrc-audio-level", usual)), (b"\xff", ("ssrc-audio-level", usual))):
        elements = [(1, byte), (2, bytes(3)), (3, bytes(2)), (13, b"\x00"), (14, bytes(4))]
        data = pcap((START + 20 * MILLISECOND * it, frame(rtp(it, 960 * it, elements=elements))) for it in range(9))
        nothing = ("", "nothing")
        wanted = {"1": told, "2": nothing, "3": nothing, "13": ("urn:3gpp:video-orientation", usual), "14": nothing}
        yield Case(f"stay{byte.hex()}.pcap", data, extensions=wanted)
    # packets that overtake each other: send times that run with the time, and numbers that go to and fro
    order = [it ^ 1 for it in range(40)]
    sent = [[(2, (5 * it * 2**18 // 1000).to_bytes(3, "big")), (3, pack("!H", it))] for it in order]
    data = pcap((START + 5 * MILLISECOND * it, frame(rtp(order[it], elements=sent[it]))) for it in range(40))
    wanted = {"2": ("abs-send-time", "guessed"), "3": ("draft-holmer-rmcat-transport-wide-cc-extensions-01", usual)}
    yield Case("overtaken.pcap", data, extensions=wanted)
    # of the ids of an SDP those that occur, and one of which it says nothing
    sdp = "a=extmap:1 urn:x:a\r\na=extmap:2 urn:x:b\r\na=extmap:5 urn:x:c"
    wanted = {"2": ("urn:x:b", "SDP"), "3": nothing}
    yield Case("sdp_ids.pcap", data, sdp=sdp, extensions=wanted)


def doubtful() -> Iterator[Case]:
    """What begins as RTP, and has no two numbers of one stream."""
    call = paced(range(3))
    told = "{} more sources have no two numbers of one stream, and may be none: their {} packets are counted as RTP alone."
    one = [(START, frame(rtp(7, ssrc=it))) for it in (1, 2)]
    twice = [(START, frame(rtp(7, ssrc=3)))] * 2
    far = [(START, frame(rtp(it, ssrc=4))) for it in (7, 3007)]
    yield Case("doubtful.pcap", pcap([*call, *one, *twice, *far]), (told.format(4, 6), NONE_LOST), source={"packets": "3"})
    yield Case("doubtful_alone.pcap", pcap(one), (told.format(2, 2), "2 datagrams of UDP in 0.000 s: 2 RTP, 0 RTCP, 0 other; 0 sources."), (NONE_LOST,))
    for name, numbers in (("near", (7, 3006)), ("late", (7, 6)), ("over", (65535, 0))):
        yield Case(f"{name}.pcap", pcap((START, frame(rtp(it))) for it in numbers), source={"packets": "2"})
    yield Case("type_of_the_sdp.pcap", pcap(one[:1]), source={"packets": "1"}, sdp="a=rtpmap:96 VP8/90000")
    yield Case("mid.pcap", pcap([(START, frame(rtp(1, elements=[(4, b"0")])))]), source={"packets": "1", "mid": "0"})


def cases() -> Iterator[Case]:
    yield from outages()
    yield from clocks()
    yield from cut()
    yield from left_out()
    yield from times()
    yield from lines()
    yield from extensions()
    yield from doubtful()
