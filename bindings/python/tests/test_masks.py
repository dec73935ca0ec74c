"""Which of many datagrams are packets of RTP, what of a column is there, and how far numbers are apart. Expected values
are worked out by hand from RFC 3550, 5.1 and 6.4.2, and RFC 5761, 4."""

import unittest
from array import array
from itertools import compress
from typing import Any, List

from rtp_wire import BadField, Columns, Header, Map, Receiver, Values, Verdict

MAP = Map.standard()
# of 7 with 10 below, of 8 without a level and with two bytes of padding; a receiver report on 7; no packet
PARTS = [
    bytes.fromhex("90E00005 000000A0 00000007 BEDE0001 108A0000 6869"),
    bytes.fromhex("A0600006 000000A1 00000008 616263 0002"),
    bytes.fromhex("81C90007 00000009 00000007") + bytes(20),
    bytes.fromhex("80600007 000000A2"),
    bytes.fromhex("90E00006 000000A3 00000007 BEDE0001 10940000 686921"),
    bytes.fromhex("A0600007 000000A4 00000008 616209"),
]


def columns_of(parts: List[bytes]) -> Columns:
    at = [sum(map(len, parts[:it])) for it in range(len(parts))]
    return Columns.parse(b"".join(parts), at, map(len, parts), MAP, ["audio_level", "mid"])


class Masks(unittest.TestCase):
    def test_packets_of_rtp(self) -> None:
        columns = columns_of(PARTS)
        self.assertEqual(list(columns.mask), [True, True, False, False, True, True])
        self.assertEqual({type(it) for it in columns.mask}, {bool})
        self.assertEqual(list(columns.ssrc), [7, 8, 7, 0, 7, 8])
        self.assertEqual(list(compress(columns.ssrc, columns.mask)), [7, 8, 7, 8])
        self.assertEqual(columns.mask.format, "?")
        self.assertEqual(list(Columns.parse(b"", [], []).mask), [])
        columns.is_rtp[0] = 0  # it is the same memory
        self.assertEqual(columns.mask.tolist(), [False, True, False, False, True, True])

    def test_payloads_without_padding(self) -> None:
        columns = columns_of(PARTS)
        payloads = [columns.payload(it) for it in range(6)]
        unpadded = [columns.unpadded_payload(it) for it in range(-6, 0)]
        self.assertEqual(payloads, [b"hi", b"abc\0\2", bytes(16), None, b"hi!", b"ab\x09"])
        self.assertEqual(unpadded, [b"hi", b"abc", bytes(16), None, b"hi!", None])

    def test_slices(self) -> None:
        texts = [Header(values=Values(mid=it)).write(MAP) for it in ("a", "")]
        columns = columns_of([*PARTS, *texts])
        levels: List[Any] = [-10, None, None, None, -20, None, None, None]
        mids: List[Any] = [None] * 6 + ["a", ""]
        ends: Any
        for ends in ((0, 3), (None,), (3, 99), (None, None, -1), (-3, None), (1, 8, 3), (5, 2)):
            rows = slice(*ends)
            self.assertEqual(columns.values["audio_level"][rows], levels[rows])
            self.assertEqual(columns.texts["mid"][rows], mids[rows])
        column: Any
        for column in (columns.values["audio_level"], columns.texts["mid"]):
            for row in (8, -9):
                self.assertRaises(IndexError, column.__getitem__, row)
            self.assertRaises(TypeError, column.__getitem__, "a")
            self.assertEqual([column[it] for it in range(-8, 0)], list(column))


class Differences(unittest.TestCase):
    def test_each_to_the_one_of_its_source_before(self) -> None:
        rows = [
            (7, 65534, 0),
            (8, 100, 0),
            (7, 65535, 1),
            (7, 2, 3),  # 0 and 1 are missing
            (8, 105, 5),
            (7, 0, -2),  # late
            (7, 0, 0),  # a copy, which is refused
            (8, 104, -1),
            (7, 3, 3),
            (9, 5, 0),
        ]
        parts = [Header(sequence_number=number, ssrc=ssrc).write(Map()) for ssrc, number, _ in rows]
        columns = columns_of([*parts, PARTS[2], PARTS[3]])
        verdicts = columns.receive({})
        found = columns.differences(verdicts)
        self.assertEqual((list(found), found.typecode), ([it for _, _, it in rows] + [0, 0], "q"))
        self.assertEqual(verdicts.verdict[6], Verdict.REFUSED)
        # of numbers that go on, and of none
        receivers = {7: Receiver(1)}
        receivers[7].receive(5)
        columns = columns_of(parts[:3])
        self.assertEqual(list(columns.differences(columns.receive(receivers))), [0, 0, 1])
        columns = columns_of([])
        self.assertEqual(list(columns.differences(columns.receive({}))), [])

    def test_modulo_64_bits(self) -> None:
        # at the rollover count 0 a packet from before the first one has a number near 2^64
        columns = columns_of([Header(sequence_number=it).write(Map()) for it in (5, 65534)])
        verdicts = columns.receive({}, 0)
        self.assertEqual(list(verdicts.number), [5, (1 << 64) - 2])
        self.assertEqual(list(columns.differences(verdicts)), [0, -7])
        half = 1 << 63
        for first, second, found in ((0, half - 1, half - 1), (0, half, -half), (1, 0, -1), (half, 0, -half)):
            other = verdicts._replace(number=array("Q", [first, second]), verdict=array("B", [1, 1]))
            self.assertEqual(list(columns.differences(other)), [0, found])

    def test_verdicts_of_others(self) -> None:
        columns, others = columns_of(PARTS), columns_of(PARTS[:2])
        for one, other in ((columns, others), (others, columns)):
            with self.assertRaisesRegex(BadField, f"^there are {len(other)} verdicts and {len(one)} datagrams$"):
                one.differences(other.receive({}))


if __name__ == "__main__":
    unittest.main()
