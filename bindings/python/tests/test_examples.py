"""What the documents and examples show."""

import contextlib
import doctest
import importlib.util
import io
import random
import re
import runpy
import subprocess
import sys
import tempfile
import time
import unittest
import unittest.mock
from pathlib import Path
from struct import pack
from typing import Any, List

import rtp_wire

HERE = Path(__file__).resolve().parent.parent
README = (HERE / "README.md").read_text("utf-8")
CAPTURES = HERE.parent.parent / "captures"
LINES = [*CAPTURES.glob("*.lines"), *(HERE.parent / "test").glob("by_hand.lines")]


# No map lines: of an id that none has or that no one to three digits spell, without a URI, or with other spaces.
BAD_MAPS = [
    *(b"map 0 urn:x", b"map 256 urn:x", b"map +3 urn:x", b"map -3 urn:x", b"map 0003 urn:x", b"map 1234 urn:x"),
    *(b"map 3a urn:x", b"map 3", b"map 3 ", b"map", b"map ", b"map  3 urn:x", b"map\t3 urn:x", b"map 3\turn:x"),
    *(b" map 3 urn:x", b"mop 3 urn:x", b"MAP 3 urn:x", b"map \xC2\xB2 urn:x"),
]


@unittest.skipUnless(LINES, "there are no captures here")
class Captures(unittest.TestCase):
    def lines(self, text: bytes) -> "subprocess.CompletedProcess[bytes]":
        command = [sys.executable, str(HERE / "examples/lines.py")]
        return subprocess.run(command, input=text, stdout=subprocess.PIPE, check=False)

    def test_lines_are_those_of_rtp_lines(self) -> None:
        self.assertGreater(len(LINES), 4)
        for lines in LINES:
            said = self.lines(lines.read_bytes())
            self.assertEqual(said.returncode, 0)
            self.assertEqual(said.stdout.decode(), lines.with_suffix(".expected").read_text("utf-8"), lines)

    def test_a_bad_line(self) -> None:
        for bad in (b"802", b"8G", b"80\r80", b"80\r\r", b"80 80", *BAD_MAPS):
            said = self.lines(bad + b"\n")
            self.assertEqual((said.returncode, said.stdout), (2, b"line 1: neither a map line nor hex\n"))
        for bad in (b"802", b"8G", b"map 3 urn:x"):
            said = self.lines(b"80\n" + bad + b"\n")
            told = b"packet 1: unreadable\nverdict 1: unreadable\nline 2: neither a map line nor hex\n"
            self.assertEqual((said.returncode, said.stdout), (2, told))
        # one to three digits, and a carriage return that the input ends in is no end of a line
        for good in (b"80\r\n", b"map 3 urn:x\nmap 03 urn:x\nmap 003 urn:x\nmap 255 urn:x y\nmap 7  \r\n80"):
            said = self.lines(good)
            self.assertEqual((said.returncode, said.stdout), (0, b"packet 1: unreadable\nverdict 1: unreadable\n"))
        said = self.lines(b"80\r")
        self.assertEqual((said.returncode, said.stdout), (2, b"line 1: neither a map line nor hex\n"))

    def test_a_uri_is_the_rest_of_the_line(self) -> None:
        # with something behind it, it has no kind: of the elements A and B, of the ids 1 and 2, no mid is told
        mid = b"urn:ietf:params:rtp-hdrext:sdes:mid"
        maps = b"map 1 " + mid + b" \nmap 2 " + mid + b"\rx\n"
        said = self.lines(maps + b"90000001000000010000002CBEDE000110412042\n")
        told = b"packet 1: pt 0 seq 1 ts 1 ssrc 44 marker no padding no extension yes csrc 0 header 20\n"
        self.assertEqual(said.stdout, told + b"verdict 1: taken 1\n")

    def test_the_last_line_of_an_id_counts(self) -> None:
        # a URI that isn't known is none of a mid, also where a line before it had that
        mid, other = b"map 1 urn:ietf:params:rtp-hdrext:sdes:mid\n", b"map 1 urn:x\n"
        for maps, told in ((mid + other, b""), (other + mid, b" mid A"), (other + mid + other, b"")):
            said = self.lines(maps + b"90000001000000010000002CBEDE000110410000\n")
            first = b"packet 1: pt 0 seq 1 ts 1 ssrc 44 marker no padding no extension yes csrc 0 header 20"
            self.assertEqual(said.stdout, first + told + b"\nverdict 1: taken 1\n")

    def test_flags(self) -> None:
        # each of P, X and M with and without each of the others: a block, where there is one, has no word
        lines, told = "", ""
        for number in range(8):
            padding, extension, marker = number & 1, number >> 1 & 1, number >> 2
            lines += f"{0x80 | padding << 5 | extension << 4:02X}{96 | marker << 7:02X}{number:04X}000000010000002C"
            lines += "BEDE0000\n" if extension else "\n"
            m, p, x = ("yes" if flag else "no" for flag in (marker, padding, extension))
            told += f"packet {number + 1}: pt 96 seq {number} ts 1 ssrc 44 marker {m} padding {p} extension {x} csrc 0"
            told += f" header {16 if extension else 12}\nverdict {number + 1}: taken {number}\n"
        self.assertEqual(self.lines(lines.encode()).stdout.decode(), told)

    def test_nanoseconds(self) -> None:
        # the least of the runs: 250 calls in 0.00025 seconds are 1,000 nanoseconds each
        times = runpy.run_path(str(HERE / "examples/times.py"))
        self.assertEqual(times["CALLS"], 250)
        asked: List[Any] = []

        def repeat(call: str, **how: Any) -> List[float]:
            asked.append((call, how["timer"], how["repeat"], how["number"], how["globals"]["receiver"].number_of(1)))
            return [0.0005, 0.00025, 0.0003]

        times["nanoseconds"].__globals__["repeat"] = repeat
        self.assertEqual(times["nanoseconds"]("None"), 1000)
        self.assertEqual(asked, [("None", time.process_time, 400, 250, 65537)])

    def test_what_is_measured(self) -> None:
        # each row does what its name says, and each has a line
        times = runpy.run_path(str(HERE / "examples/times.py"))
        names: Any = {"WRITABLE": bytearray(times["DATAGRAM"]), "receiver": rtp_wire.Receiver(1), **times}
        made = {name: eval(call, names) for name, call in times["ROWS"].items()}
        # 66,051 units of 2^-18 seconds are 251,964.6 microseconds
        values = rtp_wire.Values(
            mid="0", audio_level=-10, voice_activity=True, transport_number=12, send_time=251_964
        )
        self.assertEqual(list(made["a header alone"].elements()), [])
        self.assertEqual((len(made["a header alone"]), made["a header alone"].sequence_number), (12, 47000))
        found = [(it.id, len(it.data)) for it in made["four elements"].elements()]
        self.assertEqual((found, made["four elements"].payload), ([(1, 1), (2, 3), (3, 2), (4, 1)], b"payload"))
        of_values = [made["four elements, and their values"], made["the same of a bytearray"]]
        self.assertEqual([*of_values, made["the same as a header"].values], [values] * 3)
        self.assertEqual((made["a number taken"], names["receiver"].highest, len(made)), (65537, 65537, 6))
        said = io.StringIO()
        with unittest.mock.patch("timeit.repeat", lambda *_, **__: [0.00025]), contextlib.redirect_stdout(said):
            runpy.run_path(str(HERE / "examples/times.py"), run_name="__main__")
        many = {name: eval(call, names) for name, call in times["MANY_ROWS"].items()}
        plain, columns, verdicts = many.values()
        self.assertEqual((len(plain), plain.values, list(verdicts.verdict[:3])), (100_000, {}, [1, 2, 2]))
        self.assertEqual((columns.values["audio_level"][99_999], columns.texts["mid"][50_000]), (-10, "0"))
        self.assertEqual((columns.values["send_time"][7], columns.values["transport_number"][8]), (251_964, 12))
        lines = [f"  1000 ns  {name}: {call}\n" for name, call in times["ROWS"].items()]
        # 0.00025 seconds for 100,000 packets
        lines += [f"     2 ns  {name}: {call}\n" for name, call in times["MANY_ROWS"].items()]
        self.assertEqual(said.getvalue(), "".join(lines))

    def test_the_table_of_the_readme(self) -> None:
        program = blocks("python")[0]
        self.assertLessEqual(len(program.splitlines()), 15)
        said = subprocess.run(
            [sys.executable, "-c", program],
            cwd=CAPTURES.parent,
            stdout=subprocess.PIPE,
            check=True,
            text=True,
        )
        shown = next(it for it in blocks("") if it.startswith("$ python3 table.py\n"))
        self.assertEqual(said.stdout, shown.partition("\n")[2])
        # a report, STUN and an empty line among the packets change nothing
        others = ["80C80006 00000007 00000001 00000002 00000003 00000004 00000005", "00010000" + "00" * 16, ""]
        lines = (CAPTURES / "firefox-sim.lines").read_text("utf-8").splitlines()
        lines[6:6] = [it.replace(" ", "") for it in others]
        with tempfile.TemporaryDirectory() as folder:
            (Path(folder) / "captures").mkdir()
            (Path(folder) / "captures/firefox-sim.lines").write_text("\n".join(lines), "utf-8")
            again = subprocess.check_output(
                [sys.executable, "-c", program.replace("lines[:10]", "lines[:13]")], cwd=folder, text=True
            )
        self.assertEqual(again, said.stdout)


def packet(number: int, ssrc: int, level: int = -1) -> bytes:
    """A packet with this audio level below 0, under the id 1, where it is one."""
    block = b"" if level < 0 else bytes([0xBE, 0xDE, 0, 1, 0x10, level, 0, 0])
    return bytes([0x90 if block else 0x80, 111]) + pack(">HII", number, 0, ssrc) + block + b"payload"


def udp(payload: bytes) -> bytes:
    return pack(">HHHH", 5004, 5006, 8 + len(payload), 0) + payload


def ipv4(payload: bytes, protocol: int = 17, fragment: int = 0, options: bytes = b"") -> bytes:
    words, length = 5 + len(options) // 4, 20 + len(options) + len(payload)
    header = pack(">BBHHHBBH8s", 0x40 | words, 0, length, 0, fragment, 64, protocol, 0, bytes(8))
    return b"\x08\0" + header + options + payload


def ipv6(payload: bytes, next_header: int = 17) -> bytes:
    header = pack(">IHBB32s", 0x60000000, len(payload), next_header, 64, bytes(32))
    return b"\x86\xDD" + header + payload


def pcap(order: str, magic: int, frames: List[Any], link: int = 1) -> bytes:
    """A file of tcpdump's. Of each frame: the seconds, their fraction, and what follows Ethernet's two addresses."""
    file = pack(order + "IHHiIII", magic, 2, 4, 0, 0, 65535, link)
    for seconds, part, rest in frames:
        frame = bytes(12) + rest
        file += pack(order + "IIII", seconds, part, len(frame), len(frame)) + frame
    return file


class Pcap(unittest.TestCase):
    HEADING = "      ssrc packets  lost  refused  seconds  level\n"

    def told(self, data: bytes, *ids: str) -> str:
        with tempfile.NamedTemporaryFile() as file:
            file.write(data)
            file.flush()
            command = [sys.executable, str(HERE / "examples/pcap.py"), file.name, *ids]
            said = subprocess.run(command, stdout=subprocess.PIPE, check=False, text=True)
            self.assertEqual(said.returncode, 0 if said.stdout.startswith(self.HEADING) else 2)
            return said.stdout.replace(file.name, "it")

    def test_a_capture(self) -> None:
        # of 7 the numbers 65534 to 2 without 0, 1 twice, and the levels 10, 20 and 40 below; of 9 two packets
        padded = ipv4(udp(packet(65535, 7, 20))) + bytes(7)  # Ethernet's padding
        frames = [
            (100, 0, ipv4(udp(packet(65534, 7, 10)))),
            (100, 5, b"\x08\x06" + bytes(46)),  # ARP
            (101, 0, padded),
            (101, 1, ipv6(udp(packet(3, 9)))),
            (101, 2, ipv4(udp(bytes.fromhex("80C90001 00000007 00000000")))),  # a receiver report
            (102, 0, b"\x81\0\0\5" + ipv4(udp(packet(1, 7, 40)), options=bytes(4))),
            (102, 1, ipv4(udp(packet(1, 7, 40)))),
            (102, 2, ipv4(udp(packet(9, 7)), protocol=6)),
            (102, 3, ipv6(udp(packet(9, 7)), next_header=0)),
            (102, 4, ipv4(udp(packet(9, 7)), fragment=0x2000)),
            (102, 5, ipv4(udp(packet(9, 7)), fragment=1)),
            (102, 6, ipv4(udp(b"\0\1 no RTP"))),
            (103, 400_000, ipv4(udp(packet(2, 7)), fragment=0x4000)),
            (103, 1, ipv6(udp(packet(4, 9)))),
        ]
        rows = "         7       4     1        1    3.{:03}  -23.3\n"
        rows += "         9       2     0        0    2.{:03}      -\n"
        for order in "<>":
            for magic, milliseconds in ((0xA1B2C3D4, 400), (0xA1B23C4D, 0)):  # 400,000 nanoseconds are 0.4
                wanted = self.HEADING + rows.format(milliseconds, 0)
                self.assertEqual(self.told(pcap(order, magic, frames)), wanted)
        whole = pcap("<", 0xA1B2C3D4, frames)
        level = "=urn:ietf:params:rtp-hdrext:ssrc-audio-level"
        rows = rows.format(400, 0)
        self.assertEqual(self.told(whole, "2=urn:x", "1" + level), self.HEADING + rows)
        self.assertEqual(self.told(whole, "2" + level), self.HEADING + rows.replace("-23.3", "    -"))
        # a capture that is cut is read up to there
        sources_of = runpy.run_path(str(HERE / "examples/pcap.py"))["sources_of"]
        counts = []
        for length in range(24, len(whole) + 1):
            sources = sources_of(whole[:length], rtp_wire.Map.standard()).values()
            counts.append(sum(len(it.numbers) for it in sources))
        self.assertEqual((counts, set(counts)), (sorted(counts), set(range(7))))

    @unittest.skipUnless(importlib.util.find_spec("dpkt"), "dpkt isn't there")
    def test_the_same_by_dpkt(self) -> None:
        draw = random.Random(9)
        frames = []
        for at in range(3000):
            ssrc = draw.choice((5, 5, 5, 70, 900))
            number = 65_000 + at - draw.choice((0, 0, 0, 0, 1, 2, 9, 130))  # some come twice, some late, some too late
            data = udp(packet(number % 65536, ssrc, draw.randrange(-40, 128)))
            if draw.random() > 0.1:  # the others are lost
                rest = ipv4(data) if draw.random() < 0.5 else ipv6(data)
                frames.append((100 + at // 50, 20_000 * (at % 50), rest))
        file = tempfile.NamedTemporaryFile()
        file.write(pcap("<", 0xA1B2C3D4, frames))
        file.flush()
        told = [
            subprocess.check_output([sys.executable, str(HERE / "examples" / name), file.name], text=True)
            for name in ("pcap.py", "pcap_dpkt.py")
        ]
        self.assertEqual(told[0], told[1])
        rows = [line.split() for line in told[0].splitlines()[1:]]
        self.assertEqual([row[0] for row in rows], ["5", "70", "900"])
        # each source has lost packets, has refused some, and has levels
        self.assertTrue(all(int(row[2]) > 500 and int(row[3]) > 20 and float(row[5]) < -30 for row in rows))

    @unittest.skipUnless(importlib.util.find_spec("dpkt"), "dpkt isn't there")
    def test_the_same_of_frames_that_are_cut(self) -> None:
        # as by a snap length: a packet of which the sources or the block were not captured whole is none
        plain = packet(0, 7, 10)
        sources = bytes([plain[0] | 2]) + plain[1:12] + bytes(8) + plain[12:]
        whole = [ipv4(udp(packet(at, 5, 10 + at))) for at in range(3)] + [ipv6(udp(sources))]
        frames = [(100, 0, it[:length]) for it in whole for length in range(3, len(it) + 1)]
        with tempfile.NamedTemporaryFile() as file:
            file.write(pcap("<", 0xA1B2C3D4, frames))
            file.flush()
            told = [
                subprocess.check_output([sys.executable, str(HERE / "examples" / name), file.name], text=True)
                for name in ("pcap.py", "pcap_dpkt.py")
            ]
        self.assertEqual(told[0], told[1])
        self.assertEqual([line.split()[0] for line in told[0].splitlines()], ["ssrc", "5", "7"])

    def test_tags_of_virtual_lans(self) -> None:
        # none, one and several, as IEEE 802.1Q and 802.1ad have them
        one, other = b"\x81\0\0\5", b"\x88\xA8\0\7"
        tags = (b"", one, other, other + one, one + one + one)
        frames = [(at, 0, tag + ipv4(udp(packet(10 * at, 7)))) for at, tag in enumerate(tags)]
        frames += [(at, 0, tag + ipv6(udp(packet(10 * at + 1, 9)))) for at, tag in enumerate(tags)]
        wanted = "".join(f"         {ssrc}       5    36        0    4.000      -\n" for ssrc in (7, 9))
        self.assertEqual(self.told(pcap("<", 0xA1B2C3D4, frames)), self.HEADING + wanted)

    def test_datagrams_that_are_cut(self) -> None:
        # by the length of UDP, or since fewer bytes were captured: what is there is read
        one = ipv4(pack(">HHHH", 1, 2, 20, 0) + packet(5, 7))
        none = ipv4(pack(">HHHH", 1, 2, 4, 0) + packet(6, 7)), ipv4(udp(packet(7, 7)))[:20], ipv4(b"")
        data = pcap("<", 0xA1B2C3D4, [(0, 0, it) for it in (one, *none)])
        self.assertEqual(self.told(data), self.HEADING + "         7       1     0        0    0.000      -\n")

    def test_what_is_none(self) -> None:
        for data in (b"", b"\x0A\x0D\x0D\x0A" + bytes(40), pcap("<", 0xA1B2C3D4, [])[:23]):
            self.assertEqual(self.told(data), "it: no pcap file\n")
        self.assertEqual(self.told(pcap(">", 0xA1B2C3D4, [], link=113)), "it: not of Ethernet\n")
        self.assertEqual(self.told(pcap(">", 0xA1B2C3D4, [])), self.HEADING)
        for ids in ("1", "=urn:x", "x=urn:x", "0=urn:x", "256=urn:x", ""):
            self.assertEqual(self.told(b"", "1=urn:x", ids), "usage: pcap.py FILE [ID=URI ..]\n")


def blocks(language: str) -> List[str]:
    """The blocks of code of the README that are in this language."""
    return [body for it, body in re.findall(r"^```(\w*)\n(.*?)^```$", README, re.M | re.S) if it == language]


class Doctests(unittest.TestCase):
    def test_the_readme(self) -> None:
        test = doctest.DocTestParser().get_doctest(README, {}, "README.md", "README.md", 0)
        self.assertGreater(len(test.examples), 2)
        self.is_right(test)

    def test_the_package(self) -> None:
        for file in (HERE / "src/rtp_wire").glob("_[a-z]*.py"):
            for test in doctest.DocTestFinder().find(importlib.import_module(f"rtp_wire.{file.stem}")):
                self.is_right(test)

    def is_right(self, test: doctest.DocTest) -> None:
        said = io.StringIO()
        with contextlib.redirect_stdout(said):
            failed = doctest.DocTestRunner(optionflags=doctest.NORMALIZE_WHITESPACE).run(test).failed
        self.assertEqual((failed, said.getvalue()), (0, ""))


if __name__ == "__main__":
    unittest.main()
