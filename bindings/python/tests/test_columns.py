"""Many packets at once. Expected values are worked out by hand from RFC 3550, 5761 and 8285, or are those that each
datagram has alone."""

import random
import unittest
from array import array
from dataclasses import fields
from typing import Any, Dict, Iterable, List, Optional, Tuple

from rtp_wire import (
    BadField,
    Cause,
    Columns,
    Header,
    Kind,
    Map,
    NotAPacket,
    Packet,
    Receiver,
    RestartingReceiver,
    Status,
    Time,
    Values,
    Verdict,
    VideoTiming,
    WideReceiver,
    is_rtcp,
)

# V=2, P, X, CC=2; M, PT=33; 47,000; 10,000; 44; the sources 1 and 2; a block of two words in the one-byte form: 1 (AA),
# 2 (BB CC), 1 (DD), and padding; a payload of 3 bytes and 2 of padding
SAMPLE = bytes.fromhex("B2A1B798 00002710 0000002C 00000001 00000002 BEDE0002 10AA21BB CC10DD00 0102030002")
# PT=96, 5, 160, 7, of the one-byte form: 1 (0 dB, no voice); the payload "hi"
LEVEL = bytes.fromhex("90600005 000000A0 00000007 BEDE0001 10000000 6869")
PLAIN = bytes.fromhex("80600006 000000A1 00000008 6869")
# a block of ONVIF's
CAMERA = bytes.fromhex("90E00007 00015F90 00000009 ABAC0003 E58B3C40 80000000 E0070000 414243")
# a receiver report without and with a report of nothing: as RTP the first is cut, the second a packet of the SSRC 0
REPORTS = bytes.fromhex("80C90001 00000009"), bytes.fromhex("80C90001 00000009 00000000")
EVERY: Dict[int, Kind] = {kind: kind for kind in Kind if Kind.NONE < kind < Kind.OWN}
NAMES = [it.name for it in fields(Values) if it.name not in ("layers", "video_timing")]
TIMES = ["encode_start", "encode_finish", "packetize_complete", "last_left_pacer", "timing_flags"]
FULL = Values(
    mid="audio_1",
    rid="r1",
    repaired_rid="12345678",
    audio_level=-127,
    voice_activity=True,
    send_time=63_000_000,
    transport_number=65535,
    video_orientation=270,
    capture_time=(1 << 64) - 1,
    capture_offset=-2,
    transmission_offset=0xFFFFFFFF,
    playout_delay_min=Time(5, 100),
    playout_delay_max=Time(4095, 100),
    video_content_type=1,
    video_timing=VideoTiming(1, 20, 300, 65535, flags=3),
    frame_marking=0xDEADBEEF,
)
ZEROS = Values(
    mid="",
    rid="",
    repaired_rid="",
    audio_level=0,
    voice_activity=False,
    send_time=0,
    transport_number=0,
    video_orientation=0,
    capture_time=0,
    capture_offset=0,
    transmission_offset=0,
    playout_delay_min=Time(0, 100),
    playout_delay_max=Time(0, 100),
    video_content_type=0,
    video_timing=VideoTiming(0, 0, 0, 0, flags=0),
    frame_marking=0,
)


def joined(datagrams: Iterable[bytes]) -> Tuple[bytes, List[int], List[int]]:
    """The datagrams in one buffer, each behind a byte of none, where each begins, and how long each is."""
    buffer, at, lengths = b"", [], []
    for datagram in datagrams:
        at.append(len(buffer) + 1)
        lengths.append(len(datagram))
        buffer += b"\xEE" + datagram
    return buffer + b"\xEE", at, lengths


def packet_of(values: Values, number: int = 0, ssrc: int = 0) -> bytes:
    """A packet with an element of each kind that has one of these values."""
    header = Header(sequence_number=number, ssrc=ssrc, has_extension=True, values=values)
    return header.write(Map(EVERY))


def numbered(number: int, ssrc: int) -> bytes:
    return bytes.fromhex("8060") + number.to_bytes(2, "big") + bytes(4) + ssrc.to_bytes(4, "big")


def told(columns: Columns, row: int) -> Dict[str, Any]:
    """What the columns of fields have in a row."""
    names = ("sequence_number", "timestamp", "ssrc", "payload_type", "marker", "payload_len", "unpadded_len")
    return {name: getattr(columns, name)[row] for name in names}


def alone(datagram: bytes) -> Dict[str, Any]:
    """What a packet has alone."""
    packet = Packet.parse(datagram)
    names = ("sequence_number", "timestamp", "ssrc", "payload_type", "marker")
    unpadded = packet.unpadded_payload
    return {
        **{name: getattr(packet, name) for name in names},
        "payload_len": len(packet.payload),
        "unpadded_len": 0 if unpadded is None else len(unpadded),
    }


def columns_of(columns: Columns) -> Dict[str, Any]:
    """The columns of values and texts."""
    found: Dict[str, Any] = dict(columns.values)
    found.update(columns.texts)
    return found


def value_of(values: Values, name: str) -> Any:
    """A value as its column has it."""
    if name in TIMES:
        timing = values.video_timing
        return timing and getattr(timing, name.replace("timing_", ""))
    value = getattr(values, name)
    return value.ticks if isinstance(value, Time) else value


class Reading(unittest.TestCase):
    def read(self, datagrams: List[bytes], map: Optional[Map] = None, names: Iterable[str] = ()) -> Columns:
        columns = Columns.parse(*joined(datagrams), map, names)
        self.assertEqual(len(columns), len(datagrams))
        return columns

    def test_each_is_as_alone(self) -> None:
        cut_block, long_padding = CAMERA[:27], SAMPLE[:-1] + b"\6"
        rows = [
            (SAMPLE, None),
            (b"", Cause.CUT_FIXED_PART),
            (SAMPLE[:11], Cause.CUT_FIXED_PART),
            (LEVEL, None),
            (b"\x72" + SAMPLE[1:], Cause.OTHER_VERSION),
            (SAMPLE[:19], Cause.CUT_SOURCES),
            (SAMPLE[:23], Cause.CUT_BLOCK_HEADER),
            (CAMERA, None),
            (cut_block, Cause.CUT_BLOCK),
            (SAMPLE[:31], Cause.CUT_BLOCK),
            (PLAIN, None),
            (REPORTS[0], Cause.CUT_FIXED_PART),
            (REPORTS[1], None),
            (long_padding, None),
        ]
        datagrams = [datagram for datagram, _ in rows]
        for names in ((), ["audio_level", "mid"]):
            columns = self.read(datagrams, Map.standard(), names)
            buffer, at, _ = joined(datagrams)
            self.assertEqual(list(columns.status), [cause or 0 for _, cause in rows])
            for row, (datagram, cause) in enumerate(rows):
                self.assertEqual(columns.is_rtcp[row], is_rtcp(datagram))
                self.assertEqual(columns.is_rtp[row], cause is None and not is_rtcp(datagram))
                self.assertEqual(columns.datagram(row), datagram)
                if cause:
                    with self.assertRaises(NotAPacket) as raised:
                        Packet.parse(datagram)
                    self.assertEqual(raised.exception.cause, cause)
                    self.assertEqual(set(told(columns, row).values()), {0})
                    self.assertEqual((columns.payload_at[row], columns.padding_fits[row]), (0, 0))
                    self.assertEqual(columns.payload(row), None)
                    self.assertEqual([it[row] for it in columns.values.values()], [None] * len(columns.values))
                    continue
                packet = Packet.parse(datagram, Map.standard())
                self.assertEqual(told(columns, row), alone(datagram))
                self.assertEqual(columns.payload(row), packet.payload)
                self.assertEqual(columns.payload_at[row], at[row] + packet.header_len)
                self.assertEqual(columns.padding_fits[row], packet.unpadded_payload is not None)
                for name in names:
                    self.assertEqual(columns_of(columns)[name][row], getattr(packet.values, name))

    def test_by_hand(self) -> None:
        columns = self.read([SAMPLE, LEVEL], Map.standard(), ["audio_level", "voice_activity", "send_time", "mid"])
        self.assertEqual(list(columns.ssrc), [44, 7])
        self.assertEqual(list(columns.sequence_number), [47000, 5])
        self.assertEqual(list(columns.timestamp), [10000, 160])
        self.assertEqual((list(columns.marker), list(columns.payload_type)), ([1, 0], [33, 96]))
        self.assertEqual((list(columns.payload_at), list(columns.payload_len)), ([33, 59], [5, 2]))
        self.assertEqual((list(columns.unpadded_len), list(columns.padding_fits)), ([3, 2], [1, 1]))
        # 0xDD is 93 below, with voice; 0 is 0, without
        self.assertEqual(list(columns.values["audio_level"]), [-93, 0])
        self.assertEqual(list(columns.values["voice_activity"]), [1, 0])
        self.assertEqual(list(columns.values["send_time"]), [None, None])
        self.assertEqual(list(columns.texts["mid"]), [None, None])
        self.assertEqual(bytes(columns.values["audio_level"].there), b"\1\1")
        self.assertEqual(list(columns.values), ["audio_level", "voice_activity", "send_time"])
        self.assertEqual(list(columns.texts), ["mid"])

    def test_every_value_and_its_absence(self) -> None:
        # full, then without any, with zeros, and without any again: nothing of the one before stays
        values = [FULL, Values(), ZEROS, Values(), FULL] * 14
        columns = self.read([packet_of(it) for it in values], Map(EVERY), [*NAMES, *TIMES])
        found = columns_of(columns)
        self.assertEqual(sorted(found), sorted([*NAMES, *TIMES]))
        for name, column in found.items():
            wanted = [value_of(it, name) for it in values]
            self.assertEqual(list(column), wanted, name)
            self.assertEqual([column[row] for row in range(len(column))], wanted, name)
            self.assertEqual(list(column.there), [int(it is not None) for it in wanted], name)
            self.assertEqual((len(column), column[-1], column[-2]), (70, wanted[-1], wanted[-2]))
            for row in (70, -71):
                with self.assertRaises(IndexError):
                    column[row]
        for number in columns.values.values():
            self.assertEqual([value for value, there in zip(number.data, number.there) if not there], [0] * 28)
        self.assertEqual((columns.texts["mid"].size, columns.texts["rid"].size), (17, 9))
        self.assertEqual(columns.texts["mid"].data[:34], b"audio_1".ljust(34, b"\0"))
        without = self.read([packet_of(FULL)], None, NAMES)
        self.assertEqual([it[0] for it in without.values.values()], [None] * len(without.values))

    def test_each_count(self) -> None:
        for count in (0, 1, 31, 32, 33, 63, 64, 65, 100):
            values = [Values(transport_number=it, mid=str(it)) if it % 3 else Values() for it in range(count)]
            datagrams = [packet_of(it, at, at + 1) for at, it in enumerate(values)]
            columns = self.read(datagrams, Map(EVERY), ["mid", "transport_number"])
            self.assertEqual(list(columns.sequence_number), list(range(count)))
            self.assertEqual(list(columns.ssrc), [it + 1 for it in range(count)])
            self.assertEqual(list(columns.values["transport_number"]), [it.transport_number for it in values])
            self.assertEqual(list(columns.texts["mid"]), [it.mid for it in values])
            verdicts = columns.receive({})
            self.assertEqual(list(verdicts.number), [65536 + it for it in range(count)])
        none = Columns.parse(b"", [], [], Map.standard(), ["mid", "audio_level"])
        self.assertEqual((len(none), list(none.texts["mid"]), list(none.values["audio_level"])), (0, [], []))
        self.assertEqual([list(it) for it in none.receive({})], [[], []])

    def test_nothing_of_another_packet_stays(self) -> None:
        full = packet_of(FULL, 7, 9)
        for other in (full[:-1], CAMERA, b"", REPORTS[0]):
            columns = self.read([full] * 40 + [other] * 40 + [full] * 30, Map(EVERY), [*NAMES, *TIMES])
            for name, column in columns_of(columns).items():
                wanted = value_of(FULL, name)
                self.assertEqual(list(column), [wanted] * 40 + [None] * 40 + [wanted] * 30, name)
            if columns.status[40]:
                self.assertEqual(list(columns.ssrc), [9] * 40 + [0] * 40 + [9] * 30)

    def test_places_past_the_buffer(self) -> None:
        top = (1 << 63) - 1
        rows = [(0, 14, 0), (0, 15, 9), (1, 14, 9), (14, 0, 1), (14, 1, 9), (15, 0, 9), (-1, 2, 9), (-1, 15, 9)]
        rows += [(1, -1, 9), (0, -1, 9), (-14, 14, 9), (1 << 32, 14, 9), (top, 1, 9), (top, top, 9), (2, top, 9)]
        rows += [(-top - 1, -top - 1, 9), (0, 14, 0)]
        at, lengths, statuses = zip(*rows)
        columns = Columns.parse(PLAIN, at, lengths, Map.standard(), ["mid"])
        self.assertEqual(list(columns.status), list(statuses))
        self.assertEqual(list(columns.ssrc), [8 if status == 0 else 0 for status in statuses])
        for row, status in enumerate(statuses):
            datagram, payload = columns.datagram(row), columns.payload(row)
            self.assertEqual(datagram, None if status == Status.BAD_FIELD else b"" if status else PLAIN)
            self.assertEqual(payload, None if status else b"hi")
        self.assertEqual(list(Columns.parse(b"", [0, 0], [0, 1]).status), [1, 9])
        unsigned = Columns.parse(PLAIN, array("Q", [(1 << 64) - 1, 0]), array("Q", [14, (1 << 64) - 1]))
        self.assertEqual((list(unsigned.status), unsigned.datagram(0)), ([9, 9], None))

    def test_what_places_are(self) -> None:
        places: List[Any] = [[0, 3], (0, 3), range(0, 6, 3), iter([0, 3]), b"\0\3"]
        places += [array(it, [0, 3]) for it in "qQlLiIhHbB"]
        for at in places:
            columns = Columns.parse(b"\0\0\0" + PLAIN, at, memoryview(array("q", [17, 14])))
            self.assertEqual((list(columns.status), list(columns.ssrc)), ([2, 0], [0, 8]), at)
        for wrong in (1 << 63, -(1 << 63) - 1):
            for given in ([wrong, 0], [0, wrong]):
                with self.assertRaisesRegex(BadField, "a place is no number of 64 bits"):
                    Columns.parse(PLAIN, given, [0, 0])
                with self.assertRaises(BadField):
                    Columns.parse(PLAIN, [0, 0], given)
        counts: List[Tuple[List[int], List[int]]] = [([0], []), ([], [0]), ([0, 0], [14])]
        for at, lengths in counts:
            with self.assertRaisesRegex(BadField, f"there are {len(at)} places and {len(lengths)} lengths"):
                Columns.parse(PLAIN, at, lengths)
        bad: List[Any] = [[0.0], ["0"], [None], array("d", [0.0]), "0", 0, None]
        for places in bad:
            with self.assertRaises(TypeError):
                Columns.parse(PLAIN, places, [14])
        apart = memoryview(array("q", [0, 7, 14]))[::2]
        for at in (apart, apart.tolist()):
            self.assertEqual(list(Columns.parse(PLAIN, at, [14, 0]).status), [0, 1])
        apart = memoryview(array("q", [14, 99, 0, 99]))[::2]
        self.assertEqual(list(Columns.parse(PLAIN, [0, 14], apart).status), [0, 1])

    def test_overlapping_datagrams(self) -> None:
        columns = Columns.parse(SAMPLE, [0] * 7, range(31, 38))
        self.assertEqual(list(columns.status), [6, *[0] * 6])
        self.assertEqual(list(columns.payload_len), [0, 0, 1, 2, 3, 4, 5])
        # the last byte counts: 1 of 1, 2 of 2, 3 of 3, 0 of 4, 2 of 5
        self.assertEqual(list(columns.unpadded_len), [0, 0, 0, 0, 0, 4, 3])
        self.assertEqual(list(columns.padding_fits), [0, 1, 1, 1, 1, 1, 1])

    def test_values_that_are_no_columns(self) -> None:
        for name in ("layers", "video_timing", "marker", "", "MID", "color_space"):
            with self.assertRaisesRegex(BadField, f"there is no column of '{name}'"):
                Columns.parse(LEVEL, [0], [22], Map.standard(), [name])
        columns = Columns.parse(LEVEL, [0], [22], Map.standard(), ["audio_level", "mid", "audio_level", "mid"])
        self.assertEqual((columns.values["audio_level"][0], columns.texts["mid"][0]), (0, None))
        with self.assertRaises(TypeError):
            Columns()

    def test_each_column_is_a_buffer(self) -> None:
        columns = self.read([SAMPLE, LEVEL], Map.standard(), ["audio_level", "transport_number", "mid"])
        formats = {"status": "i", "ssrc": "I", "timestamp": "I", "sequence_number": "H", "payload_at": "Q"}
        formats["is_rtp"] = "B"
        for name, code in formats.items():
            view = memoryview(getattr(columns, name))
            self.assertEqual((view.format, view.shape), (code, (2,)), name)
        columns.ssrc[0] = 9
        self.assertEqual(memoryview(columns.ssrc)[0], 9)
        for number, code in (("audio_level", "b"), ("transport_number", "H")):
            self.assertEqual(memoryview(columns.values[number].data).format, code)
        self.assertEqual(len(columns.texts["mid"].data), 34)

    def test_receivers_that_judge_one_by_one(self) -> None:
        columns = Columns.parse(PLAIN, [0], [14])
        for judge in (RestartingReceiver(), WideReceiver(2, 1), None, 5):
            receivers: Any = {8: judge, 9: judge}
            with self.assertRaises(TypeError) as raised:
                columns.receive(receivers)
            self.assertIn(f"the receiver of 8 is {type(judge).__name__}, and not Receiver", str(raised.exception))
            self.assertEqual(receivers, {8: judge, 9: judge})
        others: Any = {9: RestartingReceiver()}  # of a source that has no packet here
        self.assertEqual(list(columns.receive(others).verdict), [1])

    def test_buffers(self) -> None:
        buffers: List[Any] = [PLAIN, bytearray(PLAIN), memoryview(PLAIN), array("b", PLAIN)]
        buffers.append(memoryview(b"\0" + PLAIN)[1:])
        for buffer in buffers:
            columns = Columns.parse(buffer, [0], [14])
            self.assertEqual((columns.ssrc[0], bytes(columns.payload(0) or b"")), (8, b"hi"))
        with self.assertRaises(TypeError):
            Columns.parse(memoryview(PLAIN * 2)[::2], [0], [14])
        with self.assertRaises(TypeError):
            Columns.parse(array("H", PLAIN), [0], [14])
        lent = bytearray(PLAIN)
        columns = Columns.parse(lent, [0], [14])
        with self.assertRaises(BufferError):
            lent.append(0)
        payload = columns.payload(0)
        assert payload
        payload[0] = 0x48
        self.assertEqual(lent[12:], b"Hi")
        del columns, payload
        lent.append(0)

    def test_at_random(self) -> None:
        chance = random.Random(1)
        source, _, _ = joined([SAMPLE, LEVEL, CAMERA, packet_of(FULL), *REPORTS])
        map = Map(EVERY)
        for _ in range(150):
            buffer = bytearray(source)
            for _ in range(chance.randrange(8)):
                buffer[chance.randrange(len(buffer))] = chance.randrange(256)
            at = [chance.randrange(len(buffer) + 2) for _ in range(40)]
            lengths = [chance.randrange(len(buffer) + 2) for _ in range(40)]
            columns = Columns.parse(bytes(buffer), at, lengths, map, NAMES)
            for row in range(40):
                datagram = columns.datagram(row)
                if datagram is None:
                    self.assertGreater(at[row] + lengths[row], len(buffer))
                    self.assertEqual(columns.status[row], Status.BAD_FIELD)
                    continue
                self.assertEqual(datagram, buffer[at[row] : at[row] + lengths[row]])
                try:
                    packet = Packet.parse(datagram, map)
                except NotAPacket as error:
                    self.assertEqual(columns.status[row], error.cause)
                    continue
                self.assertEqual((columns.status[row], told(columns, row)), (0, alone(bytes(datagram))))
                found = columns_of(columns)
                wanted = {name: value_of(packet.values, name) for name in NAMES}
                self.assertEqual({name: column[row] for name, column in found.items()}, wanted)


class Judging(unittest.TestCase):
    def test_each_by_the_receiver_of_its_ssrc(self) -> None:
        rows = [
            (65535, 7, 131071, Verdict.TAKEN),
            (65535, 9, 65535, Verdict.TAKEN),  # a receiver of the caller's, which began at 0
            (0, 7, 131072, Verdict.TAKEN),
            (0, 7, 0, Verdict.REFUSED),
            (0, 9, 65536, Verdict.TAKEN),
            (200, 7, 131272, Verdict.TAKEN),
            (72, 7, 0, Verdict.REFUSED),  # 128 below
            (73, 7, 131145, Verdict.TAKEN),
        ]
        own = Receiver(0)
        receivers = {9: own}
        columns = Columns.parse(*joined(numbered(low, ssrc) for low, ssrc, _, _ in rows))
        verdicts = columns.receive(receivers)
        self.assertEqual(list(verdicts.number), [number for _, _, number, _ in rows])
        self.assertEqual(list(verdicts.verdict), [verdict for _, _, _, verdict in rows])
        self.assertIs(receivers[9], own)
        self.assertEqual((sorted(receivers), own.highest, receivers[7].highest), ([7, 9], 65536, 131272))
        # once more: all were taken, or are too old
        again = columns.receive(receivers)
        self.assertEqual((set(again.verdict), set(again.number)), ({Verdict.REFUSED}, {0}))

    def test_what_is_not_judged(self) -> None:
        # the second report is a packet of RTP too, of the SSRC 0, as are those that are no packets by their column
        datagrams = [*REPORTS, PLAIN[:11], numbered(1, 5), b""]
        receivers: Dict[int, Receiver] = {}
        verdicts = Columns.parse(*joined(datagrams)).receive(receivers)
        self.assertEqual(list(verdicts.verdict), [0, 0, 0, 1, 0])
        self.assertEqual((list(verdicts.number), list(receivers)), ([0, 0, 0, 65537, 0], [5]))
        # also where there is a packet of that SSRC
        verdicts = Columns.parse(*joined([*datagrams, numbered(2, 0)])).receive(receivers)
        self.assertEqual((list(verdicts.verdict), sorted(receivers)), ([0, 0, 0, 2, 0, 1], [0, 5]))
        self.assertEqual(receivers[0].highest, 65538)

    def test_as_one_after_the_other(self) -> None:
        chance = random.Random(2)
        datagrams = [numbered(chance.randrange(300) & 0xFFFF, chance.choice((0, 1, 0xFFFFFFFF))) for _ in range(300)]
        receivers: Dict[int, Receiver] = {}
        verdicts = Columns.parse(*joined(datagrams)).receive(receivers, 3)
        each = {ssrc: Receiver(3) for ssrc in (0, 1, 0xFFFFFFFF)}
        for row, datagram in enumerate(datagrams):
            packet = Packet.parse(datagram)
            number = each[packet.ssrc].receive(packet.sequence_number)
            self.assertEqual(verdicts.number[row], number or 0)
            self.assertEqual(verdicts.verdict[row], Verdict.REFUSED if number is None else Verdict.TAKEN)
        self.assertEqual(receivers, each)

    def test_rollover_counts(self) -> None:
        columns = Columns.parse(numbered(5, 1), [0], [12])
        for count, number in ((0, 5), (1, 65541), ((1 << 48) - 1, (1 << 64) - 65531)):
            self.assertEqual(list(columns.receive({}, count).number), [number])
        receivers: Dict[int, Receiver] = {}
        for count in (-1, 1 << 48):
            with self.assertRaises(BadField):
                columns.receive(receivers, count)
        self.assertEqual(receivers, {})

    def test_receivers_of_another_kind(self) -> None:
        wrong: Any = {1: Packet.parse(PLAIN), 2: Receiver(1)}
        columns = Columns.parse(numbered(5, 2) + numbered(5, 1), [0, 12], [12, 12])
        with self.assertRaises(TypeError):
            columns.receive(wrong)
        self.assertEqual(wrong[2].highest, None)


if __name__ == "__main__":
    unittest.main()
