"""Many packets in a structured array of numpy, where that is there: beside columns, and worked out by hand from RFC 3550,
5761 and 8285."""

import importlib.util
import random
import unittest
from importlib import import_module
from typing import Any, Dict, List, Optional, Tuple

from rtp_wire import BadField, Columns, Header, Kind, Map, Receiver, Status, Values, Verdict, structured_array

THERE = importlib.util.find_spec("numpy") is not None
# PT=96, 5, 160, 7, of the one-byte form: 1 (10 below, with voice), 3 (258), 4 ("ab"); the payload "hi"
FULL = bytes.fromhex("90E00005 000000A0 00000007 BEDE0003 108A 310102 416162 00000000 6869")
PLAIN = bytes.fromhex("80600006 000000A1 00000008 616263")
# a receiver report on the source 7, which as a packet of RTP would be one of the source 7
REPORT = bytes.fromhex("81C90007 00000009 00000007") + bytes(20)
# a sender's with X, whose elements, of the one-byte form, would be 1 (20 below)
WITH_A_LEVEL = bytes.fromhex("90C80006 00000009 00000007 BEDE0001 10140000")
MAP = Map({1: Kind.AUDIO_LEVEL, 3: Kind.TRANSPORT_NUMBER, 4: Kind.MID})
NAMES = ["audio_level", "transport_number", "mid"]
FIELDS = [
    *("status", "is_rtcp", "sequence_number", "timestamp", "ssrc", "payload_type", "marker", "payload_at"),
    *("payload_len", "unpadded_len", "padding_fits", "is_rtp"),
]
Places = Tuple[List[int], List[int]]


def table_of(buffer: bytes, places: Places, *given: Any) -> Any:
    return structured_array(buffer, *places, *given)


@unittest.skipIf(THERE, "numpy is there")
class Absent(unittest.TestCase):
    def test_it_is_no_dependency(self) -> None:
        with self.assertRaises(ImportError):
            structured_array(FULL, [0], [len(FULL)])


@unittest.skipUnless(THERE, "numpy isn't there")
class Structured(unittest.TestCase):
    def test_rows_worked_out_by_hand(self) -> None:
        buffer = FULL + PLAIN + REPORT + FULL[:11]
        table = table_of(buffer, ([0, 30, 45, 77, 77], [30, 15, 32, 11, 12]), MAP, NAMES)
        self.assertEqual(table.dtype.names, (*FIELDS, *NAMES))
        wanted = [
            (0, 0, 5, 160, 7, 96, 1, 28, 2, 2, 1, True, -10, 258, b"ab"),
            (0, 0, 6, 161, 8, 96, 0, 42, 3, 3, 1, True, None, None, None),
            (0, 1, *[None] * 9, False, None, None, None),
            (1, 0, *[None] * 9, False, None, None, None),
            (9, 0, *[None] * 9, False, None, None, None),
        ]
        self.assertEqual(table.tolist(), wanted)
        # what is masked is 0
        self.assertEqual([tuple(it)[-3:] for it in table.data], [(-10, 258, b"ab")] + [(0, 0, b"")] * 4)
        for name in FIELDS[2:]:
            self.assertEqual(table.data[name][2:].tolist(), [0, 0, 0], name)
        self.assertEqual(float(table["audio_level"].mean()), -10.0)
        self.assertEqual(table["mid"].dtype, "S17")
        self.assertEqual((Status(table["status"][4]), table["status"].dtype), (Status.BAD_FIELD, "i4"))

    def test_packets_of_rtp_alone(self) -> None:
        # a report on a source is no packet of it, and what is none isn't one of the source 0
        numpy: Any = import_module("numpy")
        parts = [FULL, REPORT, WITH_A_LEVEL, FULL[:11], b"", PLAIN, FULL]
        at = [sum(map(len, parts[:it])) for it in range(7)]
        table = table_of(b"".join(parts), (at, list(map(len, parts))), MAP, NAMES)
        self.assertEqual(table["is_rtp"].tolist(), [True, False, False, False, False, True, True])
        self.assertEqual(table[table["is_rtp"]]["ssrc"].tolist(), [7, 8, 7])
        self.assertEqual(table[table["ssrc"] == 7]["timestamp"].tolist(), [160, 160])
        self.assertEqual(table["ssrc"].compressed().tolist(), [7, 8, 7])
        self.assertEqual((numpy.ma.count(table["audio_level"]), int(table["audio_level"].sum())), (2, -20))
        columns = Columns.parse(b"".join(parts), at, map(len, parts), MAP, NAMES)
        self.assertEqual(numpy.asarray(columns.ssrc)[columns.mask].tolist(), [7, 8, 7])

    def test_flags_are_masks(self) -> None:
        # M of the first alone; by its second byte the report would have it too
        parts = [FULL, REPORT, PLAIN, FULL[:11], b"\xA0" + PLAIN[1:]]
        at = [sum(map(len, parts[:it])) for it in range(5)]
        table = table_of(b"".join(parts), (at, list(map(len, parts))), MAP, ["voice_activity"])
        rows = [("marker", [160]), ("padding_fits", [160, 161]), ("voice_activity", [160]), ("is_rtp", [160, 161, 161])]
        for name, times in rows:
            self.assertEqual(table[table[name]]["timestamp"].tolist(), times, name)
        self.assertEqual(table[~table["is_rtcp"]]["timestamp"].tolist(), [160, 161, None, 161])

    def test_differences_have_a_sign(self) -> None:
        # 5, 8, and the two that come late
        numpy: Any = import_module("numpy")
        datagrams = [Header(sequence_number=it, ssrc=9).write(Map()) for it in (5, 8, 6, 7, 9)]
        table = table_of(b"".join(datagrams), (list(range(0, 60, 12)), [12] * 5), None, [], {})
        self.assertEqual(numpy.diff(table["number"]).tolist(), [3, -2, 1, 2])
        self.assertEqual(table["number"].dtype, "i8")
        # at the rollover count 0 one from before the first has a number near 2^64
        datagrams = [Header(sequence_number=it).write(Map()) for it in (5, 65534)]
        table = table_of(b"".join(datagrams), ([0, 12], [12] * 2), None, [], {}, 0)
        self.assertEqual((table["number"].tolist(), numpy.diff(table["number"]).tolist()), ([5, -2], [-7]))

    def test_verdicts(self) -> None:
        rows = [(5, 7), (5, 7), (4, 7), (9, 8), (6, 7), (65535, 8), (9, 8)]
        datagrams = [Header(sequence_number=number, ssrc=ssrc).write(Map()) for number, ssrc in rows]
        buffer = b"".join(datagrams) + REPORT
        places = list(range(0, 96, 12)), [*[12] * 7, 32]
        receivers = {7: Receiver(3)}
        table = table_of(buffer, places, None, ["audio_level"], receivers)
        numbers = [196613, None, 196612, 65545, 196614, 65535, None, None]
        self.assertEqual(table.dtype.names, (*FIELDS, "number", "verdict", "audio_level"))
        self.assertEqual(table["number"].tolist(), numbers)
        taken, refused, none = Verdict.TAKEN, Verdict.REFUSED, Verdict.NONE
        verdicts = [taken, refused, taken, taken, taken, taken, refused, none]
        self.assertEqual(table["verdict"].tolist(), verdicts)
        self.assertEqual({ssrc: it.highest for ssrc, it in receivers.items()}, {7: 196614, 8: 65545})
        # the receivers go on, and begin where it is said
        table = table_of(datagrams[4] + datagrams[3], ([0, 12], [12, 12]), None, [], receivers)
        self.assertEqual(table["verdict"].tolist(), [refused, refused])
        table = table_of(datagrams[3], ([0], [12]), None, [], {}, 2)
        self.assertEqual(table["number"].tolist(), [131081])

    def test_a_receiver_of_two_sources(self) -> None:
        shared, other = Receiver(1), Receiver(1)
        datagrams = [Header(sequence_number=it % 3, ssrc=it).write(Map()) for it in (5, 8, 11, 4, 5, 7)]
        receivers = {5: shared, 8: shared, 11: shared, 7: other}
        table = table_of(b"".join(datagrams), (list(range(0, 72, 12)), [12] * 6), None, [], receivers)
        self.assertEqual(table["verdict"].tolist(), [1, 2, 2, 1, 2, 1])
        self.assertEqual((shared.highest, other.highest), (65538, 65537))

    def test_it_is_one_piece_of_memory(self) -> None:
        numpy: Any = import_module("numpy")
        table = table_of(FULL * 100, (list(range(0, 3000, 30)), [30] * 100), MAP, NAMES, {})
        self.assertIsInstance(table, numpy.ma.MaskedArray)
        rows = table.data
        for name in table.dtype.names:
            field = table[name]
            self.assertTrue(numpy.shares_memory(field.data, rows), name)
            self.assertEqual(field.strides, (table.dtype.itemsize,))
            self.assertTrue(rows[name].flags.aligned, name)
        table["ssrc"][3] = 99
        self.assertEqual(rows["ssrc"][3], 99)

    def test_each_is_as_in_columns(self) -> None:
        numpy: Any = import_module("numpy")
        draw = random.Random(3)
        every: Dict[int, Kind] = {kind: kind for kind in Kind if Kind.NONE < kind < Kind.OWN}
        map = Map(every)
        names = [
            *("send_time", "capture_time", "capture_offset", "playout_delay_min", "playout_delay_max"),
            *("transmission_offset", "frame_marking", "transport_number", "video_orientation", "audio_level"),
            *("video_content_type", "voice_activity", "encode_start", "encode_finish", "packetize_complete"),
            *("last_left_pacer", "timing_flags", "mid", "rid", "repaired_rid"),
        ]
        for count in (0, 1, 31, 32, 33, 100):
            buffer, at, lengths = b"", [], []
            for _ in range(count):
                values = Values(
                    mid=draw.choice((None, "", "a" * 16)),
                    rid=draw.choice((None, "r")),
                    audio_level=draw.choice((None, -draw.randrange(128))),
                    voice_activity=draw.choice((False, True)),
                    send_time=draw.choice((None, draw.randrange(1 << 20))),
                    capture_time=draw.choice((None, draw.randrange(1 << 64))),
                    transmission_offset=draw.choice((None, draw.randrange(1 << 32))),
                    transport_number=draw.choice((None, draw.randrange(1 << 16))),
                    video_orientation=draw.choice((None, 0, 270)),
                )
                header = Header(has_extension=True, values=values, ssrc=draw.randrange(4), timestamp=draw.randrange(99))
                header.sequence_number = draw.randrange(300)
                datagram = header.write(map) + b"payload"
                if draw.random() < 0.2:
                    datagram = draw.choice((datagram[: draw.randrange(16)], REPORT))
                at.append(len(buffer))
                lengths.append(draw.choice((len(datagram), len(datagram), len(datagram) + 1)))
                buffer += datagram
            ours: Dict[int, Receiver] = {}
            theirs: Dict[int, Receiver] = {}
            columns = Columns.parse(buffer, at, lengths, map, names)
            verdicts = columns.receive(ours)
            table = structured_array(buffer, numpy.array(at, "q"), numpy.array(lengths, "q"), map, names, theirs)
            self.assertEqual((len(table), ours), (count, theirs))
            self.assertEqual(table["is_rtp"].tolist(), list(columns.mask))
            for name in FIELDS:
                there: List[bool] = [name in ("status", "is_rtcp", "is_rtp") or bool(it) for it in columns.mask]
                due = [value * is_there for value, is_there in zip(getattr(columns, name), there)]
                self.assertEqual(table.data[name].tolist(), due, name)
                self.assertEqual((~numpy.ma.getmaskarray(table[name])).tolist(), there, name)
            for name in names:
                found: List[Optional[object]] = table[name].tolist()
                if name in columns.texts:
                    found = [it if it is None else it.decode() for it in table[name].tolist()]
                column: Any = columns.texts[name] if name in columns.texts else columns.values[name]
                wanted = [value if is_rtp else None for value, is_rtp in zip(column, columns.mask)]
                self.assertEqual(found, wanted, name)
            self.assertEqual(table["verdict"].tolist(), list(verdicts.verdict))
            self.assertEqual(table.data["number"].tolist(), list(verdicts.number))

    def test_what_it_is_refused_for(self) -> None:
        for name in ("layers", "video_timing", "ssrc", "status", "number", ""):
            with self.assertRaisesRegex(BadField, f"there is no column of '{name}'"):
                structured_array(FULL, [0], [12], MAP, [name])
        with self.assertRaisesRegex(BadField, "there are 2 places and 1 lengths"):
            structured_array(FULL, [0, 1], [12])
        with self.assertRaisesRegex(TypeError, "a map is dict"):
            structured_array(FULL, [0], [12], {})  # type: ignore[arg-type]
        # a value that is named twice is there once
        table = structured_array(FULL, [0], [30], MAP, ["mid", "audio_level", "mid"])
        self.assertEqual((table.dtype.names[-2:], table["mid"].tolist()), (("mid", "audio_level"), [b"ab"]))


if __name__ == "__main__":
    unittest.main()
