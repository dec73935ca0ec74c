"""What is told of captures that are made by hand: each number here is reckoned by hand."""

import contextlib
import io
import json
import tempfile
import unittest
from pathlib import Path
from struct import pack
from typing import Any, Dict, List, Optional, Tuple

from made_captures import (
    MILLISECOND,
    SECOND,
    START,
    block,
    enhanced,
    ethernet,
    frame,
    interface,
    ipv4,
    ipv6,
    option,
    paced,
    pcap,
    rtp,
    section,
    udp,
)

from rtp_wire import Map
from rtp_wire.__main__ import main
from rtp_wire._analysis import Analysis
from rtp_wire._capture import read_capture
from rtp_wire._described import DESCRIBED
from rtp_wire._fields import fields_of
from rtp_wire._sdp import Sdp
from rtp_wire._tables import (
    Table,
    as_csv,
    as_text,
    datagram_rows,
    extension_rows,
    packet_rows,
    sentences_of,
    shown,
    source_rows,
)


def analysed(data: bytes, sdp: Optional[str] = None) -> Analysis:
    return Analysis(read_capture(data), None if sdp is None else Sdp(sdp))


def told(name: str, rows: Table) -> List[Dict[str, str]]:
    """What stands in a table, by the names of its columns, without what is empty."""
    columns = DESCRIBED["tables"][name]["columns"]
    return [{it["name"]: shown(cell, it) for it, cell in zip(columns, row) if shown(cell, it)} for row in rows]


def sources_of(data: bytes, sdp: Optional[str] = None) -> List[Dict[str, str]]:
    return told("sources", source_rows(analysed(data, sdp)))


def said_of(data: bytes) -> List[str]:
    return list(sentences_of(analysed(data)))


class Sources(unittest.TestCase):
    def check(self, data: bytes, **wanted: object) -> None:
        (source,) = sources_of(data)
        self.assertEqual({it: source.get(it) for it in wanted}, {it: str(value) for it, value in wanted.items()})

    def test_losses_duplicates_and_reordering(self) -> None:
        # 1, 6, 7 and 8 are lost, 3 comes twice, and 4 after 5
        data = pcap(paced([65534, 65535, 0, 2, 3, 3, 5, 4, 9]))
        self.check(data, packets=9, expected=12, lost=4, lost_share="33.3", gap=3, duplicates=1, late=0, reordered=1)
        self.check(data, outside=0, restarts=0, begin="0.000", seconds="0.160", worst=0, worst_lost=4)

    def test_the_lowest_number_may_come_late(self) -> None:
        self.check(pcap(paced([11, 10, 12])), packets=3, expected=3, lost=0, reordered=1)

    def test_nothing_is_lost(self) -> None:
        source = sources_of(pcap(paced(range(5))))[0]
        self.assertEqual((source["lost"], source["lost_share"], source["gap"]), ("0", "0.0", "0"))
        self.assertNotIn("worst", source)

    def test_too_late(self) -> None:
        # 3,500 is 2,500 above 1,000, less than 3,000; 2,477 is 1,023 below it, in the window, and 2,476 isn't
        data = pcap(paced([1000, 3500, 2477, 2476]))
        self.check(data, packets=4, expected=2501, lost=2498, gap=1476, late=1, duplicates=0, reordered=1)

    def test_a_restart(self) -> None:
        # 40,000 is far from the stream, and with 40,001 the sender has started again; 40,002 is lost
        data = pcap(paced([10, 11, 12, 40000, 40001, 40003]))
        self.check(data, packets=6, expected=6, lost=1, gap=1, outside=1, restarts=1, reordered=0, duplicates=0)

    def test_a_packet_outside_is_no_restart(self) -> None:
        self.check(pcap(paced([10, 11, 40000, 12])), packets=4, expected=3, lost=0, outside=1, restarts=0)

    def test_jitter(self) -> None:
        # RFC 3550, A.8: the third packet is 480 ticks late, and the fourth comes 480 ticks early behind it, so in 16ths
        # the jitter is 480, 480 + 480 - 30 = 930 and then 930 - 58 = 872: 30, 58 and 54 ticks of 48,000 a second
        self.check(pcap(paced(range(3), late=[2])), jitter="0.6", jitter_highest="0.6", clock=48000)
        self.check(pcap(paced(range(4), late=[2])), jitter="1.2", jitter_highest="1.2")
        self.check(pcap(paced(range(5), late=[2])), jitter="1.1", jitter_highest="1.2")

    def test_jitter_begins_anew_with_a_restart(self) -> None:
        self.check(pcap(paced([1, 2, 3, 40000, 40001, 40002], late=[2])), jitter="0.0", jitter_highest="0.6")

    def test_the_clock(self) -> None:
        for clock, step in ((8000, 160), (16000, 320), (48000, 960), (90000, 1800)):
            frames = [(START + 20 * MILLISECOND * it, frame(rtp(it, 2**32 - 900 + step * it & 0xFFFFFFFF))) for it in range(40)]
            self.check(pcap(frames), clock=clock)
        # the SDP's counts before that of the timestamps; of one packet nothing is told
        frames = [(START + 20 * MILLISECOND * it, frame(rtp(it, 480 * it))) for it in range(40)]
        self.assertEqual(sources_of(pcap(frames), "a=rtpmap:96 x/24000")[0]["clock"], "24000")
        self.assertNotIn("clock", sources_of(pcap([frames[0], (START, frame(rtp(1, 480)))]))[0])
        # what is told after half a second counts, not a jump behind it
        frames = [(START + SECOND // 2 * it, frame(rtp(it, 4000 * it + 10**6 * (it > 1)))) for it in range(4)]
        self.check(pcap(frames), clock=8000)

    def test_the_rate(self) -> None:
        # five packets of 17 bytes in 80 ms: 680 bits, and 8.5 kbit/s
        self.check(pcap(paced(range(5))), rate=8)
        # bytes that the capture has cut off count: 17 bytes of each, of which it has 12
        data = pcap(paced(range(5)), most=14 + 20 + 8 + 12)
        self.check(data, rate=8)
        self.assertIn("Of 5 datagrams the capture has only the beginning.", said_of(data))

    def test_the_worst_second(self) -> None:
        # packets each 100 ms: 2 are lost in the second 1, and 3 in the second 2
        numbers = [it for it in range(40) if it not in (12, 14, 22, 24, 26)]
        data = pcap((START + 100 * MILLISECOND * it, frame(rtp(it, 800 * it))) for it in numbers)
        self.check(data, worst=2, worst_lost=3, lost=5)
        # the seconds 1 and 2 have 15 packets that came, and 5 that didn't
        self.assertIn("Most packets were lost from 1 to 3 s: 5 of 20.", said_of(data))

        # of two seconds with two each the first one is told
        numbers = [it for it in range(40) if it not in (12, 14, 22, 24)]
        data = pcap((START + 100 * MILLISECOND * it, frame(rtp(it, 800 * it))) for it in numbers)
        self.check(data, worst=1, worst_lost=2)

    def test_a_source_is_one_of_a_flow(self) -> None:
        frames = [*paced([1, 2, 3]), *((START, ethernet(ipv4(udp(rtp(it), (50000, 40001))))) for it in (7, 9))]
        frames += [(START, ethernet(ipv6(udp(rtp(it))))) for it in (8, 7)]
        found = sources_of(pcap(frames))
        self.assertEqual([it["packets"] for it in found], ["3", "2", "2"])
        ends = [(it["origin"], it["target"]) for it in found]
        wanted = [("192.0.2.1:50000", "192.0.2.2:40000"), ("192.0.2.1:50000", "192.0.2.2:40001")]
        self.assertEqual(ends, [*wanted, ("[2001:db8::1]:50000", "[2001:db8:0:1::2]:40000")])

    def test_payload_types_and_texts(self) -> None:
        mid, rid = (4, b"0"), (10, b"hi")
        frames = [(START, frame(rtp(1, payload_type=111, elements=[mid])))]
        frames += [(START, frame(rtp(2, payload_type=13, elements=[mid, rid])))]
        sdp = "a=rtpmap:111 opus/48000/2\na=extmap:4 urn:ietf:params:rtp-hdrext:sdes:mid\n"
        sdp += "a=extmap:10 urn:ietf:params:rtp-hdrext:sdes:rtp-stream-id"
        (source,) = sources_of(pcap(frames), sdp)
        self.assertEqual((source["types"], source["mid"], source["rid"]), ("13, 111 opus", "0", "hi"))


class Retransmissions(unittest.TestCase):
    REPAIRED, RID = "urn:ietf:params:rtp-hdrext:sdes:repaired-rtp-stream-id", "urn:ietf:params:rtp-hdrext:sdes:rtp-stream-id"
    MID = "urn:ietf:params:rtp-hdrext:sdes:mid"
    SDP = f"a=extmap:4 {MID}\na=extmap:10 {RID}\na=extmap:11 {REPAIRED}\n"

    def pairs(self, packets: List[bytes], sdp: str) -> List[Tuple[str, Optional[str]]]:
        found = sources_of(pcap((START, frame(it)) for it in packets), sdp)
        return [(it["ssrc"], it.get("repairs")) for it in found]

    def test_by_the_repaired_rid(self) -> None:
        packets = [rtp(it, ssrc=1, elements=[(4, b"1"), (10, b"h")]) for it in (1, 2, 3)]
        packets += [rtp(it, ssrc=2, elements=[(4, b"1"), (10, b"q")]) for it in (1, 2, 3, 4)]
        packets += [rtp(1, ssrc=3, elements=[(4, b"1"), (11, b"h")])]
        wanted = [("0x00000002", None), ("0x00000001", None), ("0x00000003", "0x00000001")]
        self.assertEqual(self.pairs(packets, self.SDP), wanted)
        # the rid of another media section is another one
        packets += [rtp(1, ssrc=4, elements=[(4, b"2"), (11, b"h")])]
        self.assertEqual(self.pairs(packets, self.SDP)[-1], ("0x00000004", None))

    def test_by_the_groups_of_the_sdp(self) -> None:
        packets = [rtp(1, ssrc=1), rtp(2, ssrc=1), rtp(1, ssrc=2), rtp(2, ssrc=2), rtp(1, ssrc=3)]
        wanted = [("0x00000001", None), ("0x00000003", None), ("0x00000002", "0x00000003")]
        self.assertEqual(self.pairs(packets, "a=ssrc-group:FID 3 2"), wanted)

    def test_by_the_payload_type_and_the_mid(self) -> None:
        sdp = self.SDP + "a=rtpmap:97 rtx/90000\na=fmtp:97 apt=96"
        packets = [rtp(1, ssrc=1, elements=[(4, b"1")]), rtp(1, ssrc=2, elements=[(4, b"2")])]
        packets += [rtp(1, ssrc=3, payload_type=97, elements=[(4, b"2")])]
        self.assertEqual(self.pairs(packets, sdp)[2], ("0x00000003", "0x00000002"))
        self.assertEqual(self.pairs(packets[:1] + packets[2:], sdp)[1], ("0x00000003", None))


class Links(unittest.TestCase):
    """The same packet over each kind of link."""

    PACKET = rtp(7)

    def payloads(self, link: int, *frames: bytes) -> List[bytes]:
        capture = read_capture(pcap(((START, it) for it in frames), link))
        return [capture.data[at : at + length] for at, length in zip(capture.at, capture.lengths)]

    def test_links(self) -> None:
        for ip in (ipv4(udp(self.PACKET)), ipv6(udp(self.PACKET))):
            kind = b"\x86\xdd" if ip[0] >> 4 == 6 else b"\x08\x00"
            for link, made in (
                (1, ethernet(ip)),
                (1, ethernet(ip, [0x8100])),
                (1, ethernet(ip, [0x88A8, 0x8100])),
                (113, bytes(14) + kind + ip),
                (113, bytes(14) + b"\x81\x00\x00\x05" + kind + ip),
                (276, kind + bytes(18) + ip),
                (101, ip),
                (12, ip),
                (228 if ip[0] >> 4 == 4 else 229, ip),
                (0, b"\x02\x00\x00\x00" + ip),
                (108, b"\x00\x00\x00\x02" + ip),
            ):
                self.assertEqual(self.payloads(link, made), [self.PACKET], (link, made))

    def test_what_is_no_udp(self) -> None:
        packet = udp(self.PACKET)
        arp = bytes(12) + b"\x08\x06" + ipv4(packet)
        short = ethernet(ipv4(packet))[: 14 + 20 + 7]
        bad = b"\x44" + ipv4(packet)[1:]
        for made in (arp, ethernet(ipv4(packet, protocol=6)), ethernet(ipv6(packet, 6)), short, b"", bytes(14), ethernet(bad)):
            self.assertEqual(self.payloads(1, made), [], made)
        self.assertEqual(said_of(pcap([(START, arp)])), ["1 frames were left out: 1 of the Ethernet type 0x0806."])

    def test_options_and_lengths(self) -> None:
        self.assertEqual(self.payloads(1, ethernet(ipv4(udp(self.PACKET), options=bytes(8)))), [self.PACKET])
        # bytes behind the datagram, as those that fill a short frame, aren't its own
        self.assertEqual(self.payloads(1, frame(self.PACKET) + bytes(9)), [self.PACKET])
        # a length of 0 is that of all there is
        self.assertEqual(self.payloads(1, ethernet(ipv4(udp(self.PACKET, length=0)))), [self.PACKET])

    def test_ipv6_extension_headers(self) -> None:
        packet = udp(self.PACKET)
        hop = b"\x3c\x00" + bytes(6)  # then destination options of 16 bytes, and UDP
        options = b"\x11\x01" + bytes(14)
        self.assertEqual(self.payloads(1, ethernet(ipv6(hop + options + packet, 0))), [self.PACKET])
        authentication = b"\x11\x04" + bytes(22)  # 4 + 2 words of four bytes
        self.assertEqual(self.payloads(1, ethernet(ipv6(authentication + packet, 51))), [self.PACKET])
        routing = b"\x3b\x00" + bytes(6)  # then nothing (59)
        self.assertEqual(self.payloads(1, ethernet(ipv6(routing + packet, 43))), [])

    def test_fragments(self) -> None:
        packet = udp(self.PACKET, length=2000)
        first, later = ethernet(ipv4(packet, fragment=0x2000)), ethernet(ipv4(packet, fragment=0x2001))
        last = ethernet(ipv4(packet, fragment=0x00B9))
        whole = ethernet(ipv4(udp(self.PACKET), fragment=0x4000))  # not to be split
        self.assertEqual(self.payloads(1, first, later, last, whole), [self.PACKET, self.PACKET])
        wanted = "2 fragments were left out, which are not the first of their datagram; 1 first ones were read."
        self.assertIn(wanted, said_of(pcap((START, it) for it in (first, later, last, whole))))

        def fragment(offset: int) -> bytes:
            return ethernet(ipv6(b"\x11\x00" + pack("!HI", offset, 9) + packet, 44))

        self.assertEqual(self.payloads(1, fragment(1), fragment(8), fragment(9)), [self.PACKET])
        self.assertIn(wanted, said_of(pcap((START, it) for it in (fragment(1), fragment(8), fragment(9)))))

    def test_an_unknown_link(self) -> None:
        data = pcap([(START, frame(self.PACKET)), (START, frame(self.PACKET))], link=147)
        self.assertEqual(said_of(data), ["2 frames of the link type 147 were left out: it isn't known here."])


class Files(unittest.TestCase):
    def test_forms_of_pcap(self) -> None:
        frames = paced([1, 2, 4])
        wanted = sources_of(pcap(frames))
        self.assertEqual(wanted[0]["seconds"], "0.040")
        for order in "<>":
            for unit in (1, 1000):
                self.assertEqual(sources_of(pcap(frames, order=order, unit=unit)), wanted)
        # the high bits of the link say what else there is
        self.assertEqual(sources_of(pcap(frames, link=0x10000001)), wanted)

    def test_times(self) -> None:
        times = [START + 999_999_999, START + SECOND + 1]
        data = pcap(((time, frame(rtp(it))) for it, time in enumerate(times)), unit=1)
        self.assertEqual(read_capture(data).times, [0, 2])

    def test_pcapng(self) -> None:
        packets = [frame(rtp(it, 960 * it)) for it in range(5)]
        nanoseconds, halves = option(9, b"\x09"), option(9, b"\x8a")  # 10^-9 s, and 2^-10 s
        data = section() + interface() + interface(1, nanoseconds + option(0, b"")) + block(5, bytes(8))
        data += enhanced(START // 1000, packets[0]) + enhanced(START + 20 * MILLISECOND, packets[1], 1)
        data += block(3, pack("<I", len(packets[2])) + packets[2])  # without a time, that of the one before it
        data += block(2, pack("<HHIIII", 1, 0, START >> 32, START & 0xFFFFFFFF, len(packets[3]), 0) + packets[3])
        data += section(">") + interface(1, option(2, b"x", ">") + option(9, b"\x8a", ">"), ">")
        data += enhanced((START // SECOND + 1) * 1024 + 512, packets[4], order=">")
        # the last one came at 1.5 s of a second whose first packet came at 0.25 s
        self.assertEqual(read_capture(data).times, [0, 20 * MILLISECOND, 20 * MILLISECOND, 0, 1250 * MILLISECOND])
        self.assertEqual(sources_of(data)[0]["packets"], "5")
        # an offset is in seconds, and with a sign
        for seconds in (-3600, 7200):
            made = section() + interface(1, halves + option(14, pack("<q", seconds)))
            made += interface() + enhanced(1024 * 9000, packets[0])
            made += enhanced((9000 + seconds) * 10**6 + 5, packets[1], 1)
            self.assertEqual(read_capture(made).times, [0, 5000])

    def test_blocks_of_pcapng_that_are_wrong(self) -> None:
        good = section() + interface() + enhanced(START // 1000, frame(rtp(1)))
        no_interface = enhanced(START // 1000, frame(rtp(2)), 1)
        long = block(6, pack("<IIIII", 0, 0, 0, 1000, 1000) + bytes(100))
        self.assertEqual(len(read_capture(good + no_interface + long + good)), 2)
        for size in (8, 0, 14):
            told = f"What begins at byte {len(good)} can't be read: it says that it has {size} bytes. All before it was read."
            data = good + pack("<III", 6, size, 0) + bytes(40)
            self.assertIn(told, said_of(data))
            self.assertEqual(len(read_capture(data)), 1)

    def test_files_that_are_cut(self) -> None:
        one, two = pcap(paced([1])), pcap(paced([1, 2]))
        for data, at, got, want in (
            (one[:23], 0, 23, 24),
            (one + two[len(one) : len(one) + 15], len(one), 15, 16),
            (two[:-1], len(one), len(two) - len(one) - 1, len(two) - len(one)),
            ((section() + interface())[:-1], 28, 19, 20),
            (section() + b"\x06\0\0\0", 28, 4, 12),
        ):
            told = f"The file is cut short: of what begins at byte {at}, {got} of {want} bytes are there. All before it was read."
            self.assertIn(told, said_of(data))
        self.assertEqual(len(read_capture(two[:-1])), 1)
        bad = one + pack("<IIII", 0, 0, 262145, 262145) + bytes(262145)
        told = f"What begins at byte {len(one)} can't be read: it says that it has 262161 bytes. All before it was read."
        self.assertIn(told, said_of(bad))
        longest = one + pack("<IIII", 0, 0, 262144, 262144) + bytes(262144)
        left = "1 frames were left out: 1 of IEEE 802.3 without a type."
        self.assertEqual([it for it in said_of(longest)[1:] if it != left], said_of(one)[1:])

    def test_what_is_no_capture(self) -> None:
        no = "This is no capture: it begins with {}, and not as pcap or pcapng, nor with a line of hexadecimal digits."
        for data, told in (
            (b"", "The file has 0 bytes."),
            (b"\x1f\x8b\x08\0", "This file is compressed: decompress it first."),
            (b"\x28\xb5\x2f\xfd", "This file is compressed: decompress it first."),
            (b"\x89PNG\r\n", no.format("89 50 4e 47")),
            (b"hello\n", no.format("68 65 6c 6c")),
            (b"\n\r\n", no.format("0a 0d 0a")),
            (pcap([]), "No datagram of UDP is in it."),
        ):
            self.assertEqual(said_of(data), [told])

    def test_many_sources(self) -> None:
        frames = [(START, frame(rtp(number, ssrc=it))) for it in range(4100) for number in (1, 2)]
        analysis = analysed(pcap([*frames, (START, frame(rtp(3, ssrc=4097)))]))
        told = "There are 4100 sources: the first 4096 are told, and 9 packets of the others are counted as RTP alone."
        self.assertIn(told, list(sentences_of(analysis)))
        self.assertEqual((len(analysis.sources), analysis.counts["rtp"][0]), (4096, 8201))


class Lines(unittest.TestCase):
    def test_lines(self) -> None:
        mid = b"map 1 urn:ietf:params:rtp-hdrext:sdes:mid\n"
        text = mid + rtp(7, elements=[(1, b"a")]).hex().encode() + b"\n" + rtp(9).hex().upper().encode() + b"\r\n\n80"
        analysis = analysed(text)
        (source,) = told("sources", source_rows(analysis))
        wanted = {"packets": "2", "expected": "3", "lost": "1", "mid": "a"}
        self.assertEqual({it: source[it] for it in wanted}, wanted)
        self.assertFalse({"jitter", "rate", "worst", "begin"} & source.keys())
        self.assertEqual([it["origin"] for it in told("extensions", extension_rows(analysis))], ["map line"])
        wanted_words = "4 datagrams, without times: 2 RTP, 0 RTCP, 2 other; 1 sources."
        self.assertEqual(list(sentences_of(analysis)), [wanted_words])

    def test_bad_lines_are_left_out(self) -> None:
        # a map line counts before the first datagram alone, and has an id of 1 to 255
        text = b"map 256 urn:x\n" + rtp(1).hex().encode() + b"\nmap 1 urn:x\n8\nxy\n" + rtp(2).hex().encode() + b"\n"
        told = "4 lines are neither map lines nor hexadecimal digits, the first of them line 1: they were left out."
        self.assertIn(told, said_of(text))
        self.assertEqual(sources_of(text)[0]["packets"], "2")
        self.assertEqual(len(said_of(b"802\n8g")), 1)
        self.assertEqual(said_of(b"map 1 urn:x"), ["No datagram of UDP is in it."])


class Kinds(unittest.TestCase):
    def test_datagrams(self) -> None:
        # RFC 7983: by the first byte; RFC 5761: RTCP has the types 192 to 223
        def of(first: int, second: int = 0) -> bytes:
            return bytes([first, second]) + bytes(18)

        kinds = {"STUN": [of(0), of(3)], "ZRTP": [of(16), of(19)], "DTLS": [of(20), of(63)]}
        kinds["TURN channel"] = [of(64), of(79)]
        kinds["Other"] = [of(4), of(15), of(80), of(127), of(192), of(255), b""]
        kinds["RTP"] = [of(128), of(128, 191), of(128, 224)]
        kinds["RTCP"] = [of(128, 192), of(191, 223)]
        kinds["RTP's first byte, and no packet"] = [of(143), b"\x80\x60" + bytes(9)]
        frames = [(START, frame(it)) for of_kind in kinds.values() for it in of_kind]
        rows = told("datagrams", datagram_rows(analysed(pcap(frames))))
        counted = {it["kind"]: (int(it["count"]), int(it["bytes"])) for it in rows}
        self.assertEqual(counted, {kind: (len(them), sum(map(len, them))) for kind, them in kinds.items()})


class Guesses(unittest.TestCase):
    def origins(self, frames: List[Tuple[int, bytes]]) -> Dict[str, Tuple[str, str]]:
        analysis = analysed(pcap(frames))
        self.assertIn(DESCRIBED["sentences"]["guessed"], list(sentences_of(analysis)))
        rows = told("extensions", extension_rows(analysis))
        return {it["id"]: (it.get("uri", "").rpartition(":")[2].rpartition("/")[2], it["origin"]) for it in rows}

    def test_by_the_data(self) -> None:
        # each 20 ms a send time of 6 bits of seconds and 18 of fraction, a transport number, and a level; and a mid, and
        # of the second source a rid
        frames = []
        for it in range(50):
            time = 20 * it * 2**18 // 1000
            elements = [(3, time.to_bytes(3, "big")), (5, pack("!H", 65530 + it & 0xFFFF)), (7, bytes([it % 3 + 20])), (9, b"a")]
            frames.append((START + 20 * MILLISECOND * it, frame(rtp(it, 960 * it, 1 + it % 2, elements=elements + [(2, b"h")] * (it % 2)))))
        wanted = {"3": ("abs-send-time", "guessed"), "7": ("ssrc-audio-level", "guessed"), "9": ("mid", "guessed")}
        wanted |= {"2": ("rtp-stream-id", "guessed"), "5": ("draft-holmer-rmcat-transport-wide-cc-extensions-01", "guessed")}
        found = self.origins(frames)
        self.assertEqual(found, wanted)

    def test_what_is_no_sign(self) -> None:
        # three bytes that stay, two that jump, one that stays and is no text: they aren't what the ids usually mean
        frames = [
            (START + it, frame(rtp(it, elements=[(1, b"\x01"), (2, bytes(3)), (3, pack("!H", 999 * it)), (13, b"\x01\x02")])))
            for it in range(9)
        ]
        self.assertEqual(self.origins(frames), {it: ("", "nothing") for it in ("1", "2", "3", "13")})
        # of one packet the data tell nothing but their lengths
        usual = "guessed: the usual id"
        wanted = {"1": ("ssrc-audio-level", usual), "2": ("abs-send-time", usual), "13": ("", "nothing")}
        self.assertEqual(self.origins(frames[:1]), {**wanted, "3": ("draft-holmer-rmcat-transport-wide-cc-extensions-01", usual)})

    def test_an_sdp_without_ids(self) -> None:
        analysis = analysed(pcap(paced([1])), "v=0")
        self.assertIn(DESCRIBED["sentences"]["sdp"], list(sentences_of(analysis)))


class SessionDescriptions(unittest.TestCase):
    def test_lines(self) -> None:
        text = "m=audio\r\na=extmap:1 urn:x\r\na=extmap:2/sendonly urn:y param\r\na=extmap:0 urn:z\r\na=extmap:256 urn:z\r\n"
        text += "a=rtpmap:111 opus/48000/2\r\na=rtpmap:97 rtx/90000\r\na=fmtp:97 rtx-time=3000;apt=96\r\n"
        text += "a=ssrc-group:FID 4294967295 7\r\na=ssrc-group:SIM 1 2"
        for of in (text, json.dumps(text)):
            sdp = Sdp(of)
            self.assertEqual(sdp.uris, {1: "urn:x", 2: "urn:y"})
            self.assertEqual((sdp.names, sdp.clocks), ({111: "opus", 97: "rtx"}, {111: 48000, 97: 90000}))
            self.assertEqual((sdp.repaired_types, sdp.repaired), ({97: 96}, {7: 4294967295}))


class Packets(unittest.TestCase):
    def test_rows(self) -> None:
        level = "a=extmap:1 urn:ietf:params:rtp-hdrext:ssrc-audio-level\n"
        level += "a=extmap:3 http://www.ietf.org/id/draft-holmer-rmcat-transport-wide-cc-extensions-01"
        packets = [rtp(5, 160, elements=[(1, b"\x8a"), (3, b"\x01\x02")], marker=True), b"\x80\xc8" + bytes(26), rtp(5, 160), rtp(4, 0)]
        frames = [(START + 1500 * it, frame(packet)) for it, packet in enumerate(packets)]
        analysis = analysed(pcap(frames), level)
        rows = told("packets", packet_rows(analysis, range(4)))
        same = {"ssrc": "0x0000002c", "type": "96"}
        first = {"row": "1", "time": "0.000000", "number": "5", "extended": "65541", "timestamp": "160", "marker": "1"}
        first |= {"size": "29", "verdict": "taken", "level": "-10", "voice": "yes", "transport": "258", "jitter": "0.0"}
        second = {"row": "3", "time": "0.000003", "number": "5", "timestamp": "160", "marker": "0", "size": "17"}
        third = {"row": "4", "time": "0.000004", "number": "4", "extended": "65540", "timestamp": "0", "marker": "0", "size": "17"}
        del rows[1]["jitter"], rows[2]["jitter"]
        wanted = [first, {**second, "verdict": "duplicate"}, {**third, "verdict": "taken"}]
        self.assertEqual(rows, [{**same, **it} for it in wanted])

    def test_fields(self) -> None:
        mid, level = "urn:ietf:params:rtp-hdrext:sdes:mid", "urn:ietf:params:rtp-hdrext:ssrc-audio-level"
        map = Map.from_uris({1: level, 2: mid, 3: "urn:x"})
        packet = bytes.fromhex("B1E0000500000064 0000002C 00000007 BEDE0003 108A 2130 31 3FFF 4301 020304 68690002".replace(" ", ""))
        # the mid has two bytes, that of the id 3 as many as it says: its length is 15 + 1, cut short, so reading ends
        rows = [tuple(it) for it in fields_of(memoryview(packet), map)]
        wanted = [
            ("0", "b1", "Version", "2"),
            ("0", "b1", "Padding", "yes"),
            ("0", "b1", "Extension", "yes"),
            ("0", "b1", "CSRC count", "1"),
            ("1", "e0", "Marker", "yes"),
            ("1", "e0", "Payload type", "96"),
            ("2-3", "00 05", "Sequence number", "5"),
            ("4-7", "00 00 00 64", "Timestamp", "100"),
            ("8-11", "00 00 00 2c", "SSRC", "0x0000002c"),
            ("12-15", "00 00 00 07", "CSRC 1", "0x00000007"),
            ("16-17", "be de", "Extension profile", "0xbede, one-byte form"),
            ("18-19", "00 03", "Extension length", "3 words"),
            ("21", "8a", "Element 1: audio level", "-10 dB, voice"),
            ("23-24", "30 31", "Element 2: mid", "01"),
            ("32-33", "68 69", "Payload", "2 bytes"),
            ("34-35", "00 02", "Padding", "2 bytes"),
        ]
        self.assertEqual(rows, wanted)

    def test_long_fields(self) -> None:
        rows = list(fields_of(memoryview(rtp(1, payload=bytes(range(20)))), Map()))
        self.assertEqual(rows[-1], ("12-31", " ".join(f"{it:02x}" for it in range(16)) + " ..", "Payload", "20 bytes"))


class Terminal(unittest.TestCase):
    def setUp(self) -> None:
        folder = tempfile.TemporaryDirectory()
        self.addCleanup(folder.cleanup)
        self.file = Path(folder.name, "call.pcap")
        self.file.write_bytes(pcap(paced([1, 2, 4])))
        self.sdp = Path(folder.name, "call.sdp")
        self.sdp.write_text("a=rtpmap:111 opus/48000/2", "utf-8")

    def run_main(self, *words: str) -> Tuple[int, str, str]:
        out, err = io.StringIO(), io.StringIO()
        with contextlib.redirect_stdout(out), contextlib.redirect_stderr(err):
            status = main([*words])
        return status, out.getvalue(), err.getvalue()

    def test_tables(self) -> None:
        status, out, _ = self.run_main(str(self.file), "--sdp", str(self.sdp))
        self.assertEqual(status, 0)
        lines = out.splitlines()
        self.assertEqual(lines[0], "3 datagrams of UDP in 0.040 s: 3 RTP, 0 RTCP, 0 other; 1 sources.")
        self.assertEqual(lines[1], "Most packets were lost from 0 to 1 s: 1 of 4.")
        self.assertIn("RTP           3     51", lines)
        self.assertRegex(lines[-1], r"\A0x0000002c  192\.0\.2\.1:50000  192\.0\.2\.2:40000  111 opus        3         4     1 ")

    def test_csv(self) -> None:
        status, out, _ = self.run_main(str(self.file), "--table", "datagrams", "--csv")
        self.assertEqual((status, out), (0, "Kind,Datagrams,Bytes\r\nRTP,3,51\r\n"))

    def test_a_packet(self) -> None:
        status, out, _ = self.run_main(str(self.file), "--packet", "3", "--csv")
        self.assertEqual((status, out.splitlines()[7]), (0, "2-3,00 04,Sequence number,4"))
        status, out, err = self.run_main(str(self.file), "--packet", "4")
        self.assertEqual((status, out, err), (2, "", "rtp_wire: there is no datagram 4, but 1 to 3\n"))

    def test_what_is_wrong_with_a_file(self) -> None:
        # beside a table it goes to the other stream; without one it stands among the sentences
        self.file.write_bytes(pcap(paced([1, 2, 4]))[:-1])
        status, out, err = self.run_main(str(self.file), "--table", "datagrams", "--csv")
        self.assertEqual((status, out), (0, "Kind,Datagrams,Bytes\r\nRTP,2,34\r\n"))
        cut = "The file is cut short: of what begins at byte 174, 74 of 75 bytes are there. All before it was read.\n"
        self.assertEqual(err, f"rtp_wire: {cut}")
        self.assertEqual(self.run_main(str(self.file), "--packet", "1")[2], f"rtp_wire: {cut}")
        status, out, err = self.run_main(str(self.file))
        self.assertEqual((status, err), (0, ""))
        self.assertIn(cut, out)

    def test_what_is_no_capture(self) -> None:
        for data in (b"", b"hello\n", b"\x1f\x8b\x08\0"):
            self.file.write_bytes(data)
            for words in ("", "--table sources --csv", "--packet 1"):
                status, out, err = self.run_main(str(self.file), *words.split())
                self.assertEqual((status, out, err), (2, "", f"rtp_wire: {said_of(data)[0]}\n"))

    def test_a_file_that_is_not_there(self) -> None:
        status, out, err = self.run_main(str(self.file) + "x")
        self.assertEqual((status, out), (2, ""))
        self.assertRegex(err, r"\Artp_wire: .*No such file")


class Tables(unittest.TestCase):
    def test_numbers(self) -> None:
        two: Dict[str, Any] = {"decimals": 2}
        for cell, text in ((0, "0.00"), (7, "0.07"), (-7, "-0.07"), (123, "1.23"), (None, "")):
            self.assertEqual(shown(cell, two), text)
        self.assertEqual((shown(-12, {}), shown("a", two)), ("-12", "a"))

    def test_csv_is_quoted(self) -> None:
        self.assertEqual(as_csv("datagrams", [['a,"b"', 1, None]]).splitlines()[1], '"a,""b""",1,')

    def test_columns_in_which_nothing_stands_are_left_out(self) -> None:
        self.assertEqual(as_text("datagrams", [["RTP", 12, None]]), "Kind  Datagrams\nRTP          12\n")

    def test_each_row_has_each_column(self) -> None:
        analysis = analysed(pcap((START, frame(rtp(it, elements=[(1, b"\x8a")]))) for it in (1, 2)))
        rows = {"datagrams": datagram_rows(analysis), "extensions": extension_rows(analysis), "sources": source_rows(analysis)}
        rows["packets"] = packet_rows(analysis, [0])
        for name, of_table in rows.items():
            self.assertEqual({len(it) for it in of_table}, {len(DESCRIBED["tables"][name]["columns"])}, name)


if __name__ == "__main__":
    unittest.main()
