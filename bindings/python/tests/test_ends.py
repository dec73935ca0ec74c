"""The ends of each range of the newer calls, with the name of what is past one; zeros beside what is absent; and what a
call keeps. Expected values are worked out by hand."""

# mypy: disable-error-code="arg-type"

import copy
import pickle
import unittest
from array import array
from ctypes import c_uint64
from dataclasses import fields, replace
from typing import Any, Callable, List, Tuple
from unittest.mock import patch

from rtp_wire import (
    BadField,
    BadId,
    Camera,
    ChromaSiting,
    Chromaticity,
    ColorRange,
    ColorSpace,
    Columns,
    DependencyDescriptor,
    FeedbackRequest,
    Form,
    FrameLayers,
    FrameMarking,
    HdrMetadata,
    Header,
    Kind,
    Layers,
    LeftOut,
    Map,
    NotAPacket,
    Orientation,
    Packet,
    Receiver,
    ReceptionReport,
    ReceptionStatistics,
    RestartingReceiver,
    ShortBuffer,
    Standing,
    Status,
    Taken,
    Time,
    Timing,
    TransportNumber,
    Values,
    VideoTiming,
    WideReceiver,
    add_element,
    change_form,
    extend_ntp_56,
    extend_send_time,
    mixer_levels_data,
    ntp_56_data,
    ntp_64_data,
    put_block,
    put_element,
    read_mixer_level,
    remove_block,
    send_time_data,
    transmission_offset_data,
)

# An element of the id 1, and a payload of one byte.
PACKET = bytes.fromhex("90600005 00000064 0000002C BEDE0001 10AA0000 01")
REPORT = ReceptionReport(1, 2, 3, 4)
LAYERS = FrameLayers(True, 1, 2, 3)
MARKING = FrameMarking(True, False, True, False, LAYERS)
TIMING = Timing(1, 2, 3, 4, 5, 6, 7)
REQUEST = FeedbackRequest(True, 5)
DESCRIPTOR = DependencyDescriptor(True, False, 3, 258)
POINT = Chromaticity(1, 2)
HDR = HdrMetadata(1, 2, POINT, POINT, POINT, POINT, 3, 4)
SPACE = ColorSpace(1, 2, 3, ColorRange.FULL, ChromaSiting.HALF, ChromaSiting.COLLOCATED, HDR)
ORIENTATION = Orientation(Camera.BACK, True, 90)
# A call with one number, the name of that, and its range.
Row = Tuple[Callable[[int], object], str, int, int]


def bits(call: Callable[[int], object], name: str, count: int) -> Row:
    return call, name, 0, (1 << count) - 1


def field(value: Any, name: str, low: int, high: int) -> Row:
    """A field of a value that is written."""
    return lambda number: replace(value, **{name: number}).to_data(), name, low, high


def of_report(name: str, low: int, high: int) -> Row:
    return lambda number: REPORT._replace(**{name: number}).block(44), name, low, high


def of_layers(name: str, count: int) -> Row:
    return bits(lambda number: replace(MARKING, layers=replace(LAYERS, **{name: number})).to_data(), name, count)


def of_hdr(name: str, value: Callable[[int], Any], told: str) -> Row:
    return bits(lambda number: replace(SPACE, hdr=replace(HDR, **{name: value(number)})).to_data(), told, 16)


def grown(call: Callable[..., object], *arguments: Any) -> object:
    return call(bytearray(PACKET + bytes(40)), *arguments)


class Ends(unittest.TestCase):
    def are_the_ends(self, rows: List[Row]) -> None:
        """Both ends are taken, and the numbers past them refused, as is what is no whole number."""
        for call, name, low, high in rows:
            with self.subTest(name):
                call(low)
                call(high)
                for number in (low - 1, high + 1, high + (1 << 32), high + (1 << 64)):
                    with self.assertRaises(BadField) as raised:
                        call(number)
                    self.assertEqual(str(raised.exception), f"{name} is {number}, and not {low} to {high}")
                other: Any
                for other in (float(high), str(high), b"1", [high]):
                    with self.assertRaises(TypeError):
                        call(other)

    def test_reports(self) -> None:
        recorded = ReceptionStatistics()
        self.are_the_ends(
            [
                of_report("fraction_lost", 0, 255),
                of_report("cumulative_lost", -8388608, 8388607),
                of_report("extended_highest", 0, (1 << 32) - 1),
                of_report("jitter", 0, (1 << 32) - 1),
                bits(REPORT.block, "ssrc", 32),
                bits(lambda number: REPORT.block(44, number), "last_report", 32),
                bits(lambda number: REPORT.block(44, delay=number), "delay", 32),
                bits(lambda number: recorded.record(number, 0, 0), "number", 64),
                bits(lambda number: recorded.record(0, number, 0), "timestamp", 32),
                bits(lambda number: recorded.record(0, 0, number), "arrival", 32),
            ]
        )
        self.assertEqual(recorded.received, 6)
        greatest = ReceptionReport(255, -8388608, 0xFFFFFFFF, 0xFFFFFFFE)
        self.assertEqual(
            greatest.block(0xFFFFFFFD, 0xFFFFFFFC, 0xFFFFFFFB).hex(" ", 4),
            "fffffffd ff800000 ffffffff fffffffe fffffffc fffffffb",
        )
        self.assertEqual(REPORT._replace(cumulative_lost=8388607).block(44).hex(" ", 4)[9:17], "017fffff")

    def test_blocks(self) -> None:
        self.are_the_ends(
            [
                (lambda number: grown(change_form, 21, number), "form", 1, 2),
                bits(lambda number: grown(put_block, 21, number, b""), "profile", 16),
                (lambda number: grown(put_element, 21, 1, b"1", number), "allowed", 0, 2),
                (lambda number: grown(add_element, 21, 1, b"1", number), "allowed", 0, 2),
            ]
        )
        for call, *others in ((put_element, 1, b"1"), (add_element, 1, b"1"), (change_form, 2), (put_block, 1, b"")):
            for length in (-1, 62, 1 << 32, 1 << 64):
                with self.assertRaises(BadField) as raised:
                    grown(call, length, *others)
                self.assertEqual(str(raised.exception), f"length is {length}, and not 0 to 61")
            self.assertRaises(TypeError, grown, call, 21.0, *others)
            for length in (0, 11):  # and not the whole buffer
                self.assertRaises(NotAPacket, grown, call, length, *others)
        for call in (put_element, add_element):
            for id in (-1, 0, 256, 257, 1 << 64):
                with self.assertRaises(BadField) as raised:
                    grown(call, 21, id, b"1")
                self.assertIs(type(raised.exception), BadId)
                self.assertEqual(str(raised.exception), f"id is {id}, and not 1 to 255")
            for other in (1.0, "1", b"1", None):
                self.assertRaises(TypeError, grown, call, 21, other, b"1")
            room = bytearray(PACKET + bytes(300))
            self.assertEqual(call(room, 21, 255, bytes(255)), 277)
            with self.assertRaises(BadField) as raised:
                call(room, 21, 255, bytes(256))
            self.assertEqual(str(raised.exception), "the length of data is 256, and not 0 to 255")
            self.assertRaises(TypeError, call, PACKET, 21, 1, b"1")
            self.assertRaises(TypeError, call, room, 21, 1, "1")
            self.assertRaises(TypeError, call, room, 21, 1, 1)
        self.assertRaises(TypeError, remove_block, PACKET)
        self.assertRaises(TypeError, put_block, PACKET, 21, 1, b"")
        self.assertRaises(TypeError, change_form, PACKET, 21, 2)

    def test_standards(self) -> None:
        marking, timing, descriptor = MARKING, TIMING, DESCRIPTOR
        self.are_the_ends(
            [field(marking, name, 0, 1) for name in ("start", "end", "independent", "discardable")]
            + [of_layers("base_layer_sync", 1), of_layers("temporal_id", 3), of_layers("layer_id", 8)]
            + [field(ORIENTATION, "camera", 0, 1), field(ORIENTATION, "flip", 0, 1)]
            + [field(timing, name, 0, 65535) for name in ("encode_start", "encode_finish", "packetize_complete")]
            + [field(timing, name, 0, 65535) for name in ("last_left_pacer", "network", "network2")]
            + [field(timing, "flags", 0, 255), field(TransportNumber(5), "number", 0, 65535)]
            + [field(descriptor, "start_of_frame", 0, 1), field(descriptor, "end_of_frame", 0, 1)]
            + [field(descriptor, "template_id", 0, 63), field(descriptor, "frame_number", 0, 65535)]
            + [field(SPACE, name, 0, 255) for name in ("primaries", "transfer", "matrix")]
            + [field(SPACE, "range", 0, 3), field(SPACE, "horizontal", 0, 2), field(SPACE, "vertical", 0, 2)]
        )
        self.are_the_ends(
            [of_layers("tl0_pic_idx", 8)]
            + [bits(lambda it: TransportNumber(1, FeedbackRequest(it, 5)).to_data(), "timestamps", 1)]
            + [bits(lambda it: TransportNumber(1, FeedbackRequest(True, it)).to_data(), "packets", 15)]
            + [of_hdr(name, lambda number: number, name) for name in ("luminance_max", "luminance_min")]
            + [of_hdr(name, lambda number: number, name) for name in ("max_content_light_level",)]
            + [of_hdr(name, lambda number: number, name) for name in ("max_frame_average_light_level",)]
            + [of_hdr(name, lambda x: Chromaticity(x, 1), f"x of {name}") for name in ("red", "green", "blue", "white")]
            + [of_hdr(name, lambda y: Chromaticity(1, y), f"y of {name}") for name in ("red", "green", "blue", "white")]
        )

    def test_numbers(self) -> None:
        self.are_the_ends(
            [
                (transmission_offset_data, "a transmission offset", -8388608, 8388607),
                (lambda level: mixer_levels_data([0, level]), "a level", -127, 0),
                bits(ntp_64_data, "time", 64),
                bits(ntp_56_data, "time", 64),
                bits(lambda near: extend_ntp_56(near, 0), "near", 64),
                bits(lambda low: extend_ntp_56(0, low), "low", 64),
                bits(send_time_data, "units", 24),
                bits(lambda near: extend_send_time(near, 0), "near", 64),
                bits(lambda units: extend_send_time(0, units), "units", 24),
            ]
        )
        for many in (16, 255, 1000, 65536):
            with self.assertRaises(BadField) as raised:
                mixer_levels_data([-1] * many)
            self.assertEqual(str(raised.exception), f"the number of levels is {many}, and not 0 to 15")
        for count in (1 << 64, -1):
            with self.assertRaises(BadField) as raised:
                read_mixer_level(b"\x01", count, 0)
            self.assertEqual(str(raised.exception), f"csrc_count is {count}, and not 0 to {(1 << 64) - 1}")
            with self.assertRaises(BadField) as raised:
                read_mixer_level(b"\x01", 1, count)
            self.assertEqual(str(raised.exception), f"index is {count}, and not 0 to {(1 << 64) - 1}")
        self.assertEqual(read_mixer_level(b"\x01", (1 << 64) - 1, 0), -1)
        self.assertRaises(BadField, read_mixer_level, b"\x01", (1 << 64) - 1, (1 << 64) - 2)

    def test_receivers(self) -> None:
        receivers: List[Any] = [Receiver(1), WideReceiver(3, 1), RestartingReceiver(words=3)]
        for receiver in receivers:
            self.are_the_ends(
                [
                    bits(receiver.number_of, "sequence_number", 16),
                    bits(receiver.standing_of, "number", 64),
                ]
            )
            self.assertIs(receiver.standing_of((1 << 64) - 1), Standing.NEW)
            receiver.receive(5)
            self.assertIs(receiver.standing_of((1 << 64) - 1), Standing.NEW)
            self.assertIs(receiver.standing_of(0), Standing.TOO_OLD)
        narrow: Any
        for narrow in (Receiver(1), WideReceiver(1, 1)):
            self.are_the_ends([bits(narrow.accepts, "number", 64), bits(narrow.record, "number", 64)])
            self.assertEqual(narrow.highest, (1 << 64) - 1)
        self.are_the_ends(
            [
                bits(lambda number: Receiver(1).receive(number), "sequence_number", 16),
                bits(lambda number: WideReceiver(1, 1).receive(number), "sequence_number", 16),
                bits(lambda number: RestartingReceiver().receive(number), "sequence_number", 16),
            ]
        )
        self.are_the_ends(
            [
                (lambda number: RestartingReceiver(max_dropout=number), "max_dropout", 1, 65535),
                (lambda number: RestartingReceiver(max_misorder=number), "max_misorder", 1, 65535),
                (lambda number: RestartingReceiver(min_sequential=number), "min_sequential", 0, 255),
                (lambda number: RestartingReceiver(words=number), "words", 1, 512),
                (lambda number: WideReceiver(number, 1), "words", 1, 512),
            ]
        )

    def test_what_a_restarting_receiver_is(self) -> None:
        receiver = RestartingReceiver(max_dropout=100, min_sequential=2, max_misorder=200, words=3)
        told = "max_dropout=100, min_sequential=2, max_misorder=200, words=3"
        self.assertEqual(repr(receiver), f"RestartingReceiver({told})")
        # a source is valid with its second packet; 99 above is of the stream and 100 isn't; 199 below is, and 200 isn't
        taken = [receiver.receive(low) for low in (999, 1000, 1099, 1199)]
        self.assertEqual(taken, [None, Taken(66536, False), Taken(66635, False), None])
        self.assertEqual((receiver.in_row, receiver.highest), (1, 66635))
        self.assertEqual(repr(receiver), f"RestartingReceiver({told}, highest=66635)")
        for other in (copy.copy(receiver), copy.deepcopy(receiver), pickle.loads(pickle.dumps(receiver))):
            self.assertEqual((other, repr(other), other.in_row), (receiver, repr(receiver), 1))
            self.assertEqual(other.receive(1200), Taken(3 * 65536 + 1200, True))
            self.assertNotEqual(other, receiver)
        self.assertIsNone(receiver.receive(900))
        self.assertEqual((receiver.in_row, receiver.standing_of(66436)), (0, Standing.TOO_OLD))
        self.assertIsNone(receiver.receive(899))
        self.assertEqual(receiver.in_row, 1)

    def test_statistics_are_compared_by_all_that_they_hold(self) -> None:
        # as many came, with other numbers, timestamps or arrivals, or in an interval that has begun since
        made = []
        for rows in (((5, 0, 0), (6, 0, 0)), ((4, 0, 0), (6, 0, 0)), ((5, 0, 0), (7, 0, 0)), ((5, 0, 0), (6, 0, 16))):
            made.append(ReceptionStatistics())
            for row in rows:
                made[-1].record(*row)
        made += [copy.copy(made[0]), copy.copy(made[0])]
        self.assertIsNotNone(made[4].report())
        for at, one in enumerate(made):
            for place, other in enumerate(made):
                self.assertEqual(one == other, at == place or {at, place} == {0, 5}, (at, place))

    def test_received_is_of_all_reports(self) -> None:
        statistics = ReceptionStatistics()
        for number in (10, 11, 12):
            statistics.record(number, 0, 0)
        self.assertEqual(statistics.report(), ReceptionReport(0, 0, 12, 0))
        self.assertEqual((statistics.received, repr(statistics)), (3, "ReceptionStatistics(received=3)"))
        statistics.record(13, 0, 0)
        self.assertEqual((statistics.report(), statistics.received), (ReceptionReport(0, 0, 13, 0), 4))


class Zeros(unittest.TestCase):
    def test_metadata_of_zeros(self) -> None:
        nothing = Chromaticity(0, 0)
        zeros = HdrMetadata(0, 0, nothing, nothing, nothing, nothing, 0, 0)
        space = ColorSpace(0, 0, 0, ColorRange.UNKNOWN, ChromaSiting.UNSPECIFIED, ChromaSiting.UNSPECIFIED, zeros)
        self.assertEqual(space.to_data(), bytes(28))
        self.assertEqual(ColorSpace.from_data(bytes(28)), space)
        self.assertEqual(ColorSpace.from_data(bytes(4)), replace(space, hdr=None))

    def test_layers_of_zeros(self) -> None:
        layers = FrameLayers(False, 0, 0, 0)
        marking = FrameMarking(False, False, False, False, layers)
        self.assertEqual(marking.to_data(), bytes(3))
        self.assertEqual(FrameMarking.from_data(bytes(3)), marking)
        without = replace(marking, layers=replace(layers, tl0_pic_idx=None))
        self.assertEqual((without.to_data(), FrameMarking.from_data(bytes(2))), (bytes(2), without))
        self.assertEqual(FrameMarking.from_data(bytes(1)), replace(marking, layers=None))

    def test_headers_with_zeros(self) -> None:
        # a value of 0, of False or without a character is there: a header has a block for each alone
        rows: List[Tuple[str, Any]] = [(name, 0) for name in ("send_time", "capture_time", "capture_offset")]
        rows += [(name, 0) for name in ("transmission_offset", "frame_marking", "transport_number")]
        rows += [(name, 0) for name in ("video_orientation", "video_content_type", "audio_level")]
        rows += [(name, "") for name in ("mid", "rid", "repaired_rid")]
        rows += [("voice_activity", False), ("video_timing", VideoTiming(0, 0, 0, 0, 0)), ("layers", Layers((), 0))]
        rows += [("playout_delay_min", Time(0, 1)), ("playout_delay_max", Time(0, 1))]
        self.assertEqual({name for name, _ in rows}, {it.name for it in fields(Values)})
        for name, zero in rows:
            header = Header(values=Values(**{name: zero}))
            self.assertIs(header.has_extension, True, name)
            self.assertEqual(header.write(Map())[0], 0x90, name)
            self.assertEqual(len(header.left_out(Map())), 1, name)
            self.assertEqual(Header(values=Values(**{name: zero}), has_extension=False).write(Map())[0], 0x80, name)
        self.assertIs(Header().has_extension, False)

    def test_flags_and_requests(self) -> None:
        self.assertEqual(Timing.from_data(bytes(13)), Timing(0, 0, 0, 0, 0, 0, flags=0))
        self.assertEqual(Timing.from_data(bytes(12)), Timing(0, 0, 0, 0, 0, 0, flags=None))
        self.assertEqual(TransportNumber(0, FeedbackRequest(False, 1)).to_data().hex(), "00000001")
        # four bytes are a request, also for the feedback on no packet
        none = TransportNumber(0, FeedbackRequest(True, 0))
        self.assertEqual(TransportNumber.from_data(bytes.fromhex("00008000")), none)


class Places(unittest.TestCase):
    def test_in_each_order_of_bytes(self) -> None:
        # where they aren't numbers as the machine has them, they are gone through one by one
        kinds: List[Any] = [c_uint64, getattr(c_uint64, "__ctype_be__"), getattr(c_uint64, "__ctype_le__")]
        for at in [array("Q", [0, 21]), *((kind * 2)(0, 21) for kind in kinds)]:
            columns = Columns.parse(PACKET + PACKET, at, (21 for _ in range(2)))
            self.assertEqual((list(columns.status), list(columns.payload_at)), ([0, 0], [20, 41]))

    def test_of_a_buffer_that_changes(self) -> None:
        buffer = bytearray(PACKET)
        columns = Columns.parse(buffer, [0], [21])
        buffer[20] = 9
        for lent in (columns.payload(0), columns.datagram(0)):
            assert lent is not None
            self.assertEqual((lent[-1], lent.readonly), (9, False))
        self.assertRaises(BufferError, buffer.append, 0)
        del lent, columns
        buffer.append(0)


class Judges(unittest.TestCase):
    def setUp(self) -> None:
        # of the sources 7, 9, 7 and 9 the numbers 5, 6, 7 and 7
        rows = ((5, 7), (6, 9), (7, 7), (7, 9))
        headers = [Header(sequence_number=number, ssrc=ssrc).write(Map()) for number, ssrc in rows]
        self.columns = Columns.parse(b"".join(headers), range(0, 48, 12), [12] * 4)

    def test_one_of_several_sources(self) -> None:
        # each packet is judged by it, one after the other: the second 7 is a replay
        receiver, alone = Receiver(1), Receiver(1)
        verdicts = self.columns.receive({7: receiver, 9: receiver})
        numbers = [alone.receive(number) for number in (5, 6, 7, 7)]
        self.assertEqual(numbers, [65541, 65542, 65543, None])
        self.assertEqual((list(verdicts.number), list(verdicts.verdict)), ([65541, 65542, 65543, 0], [1, 1, 1, 2]))
        self.assertEqual(receiver, alone)

    def test_each_row_of_many(self) -> None:
        # each third datagram is a packet, each third RTCP, and each third none; each packet has a number of its own
        packet, report = Header(ssrc=7).write(Map()), bytes.fromhex("80C90002 00000007 00000000")
        for first in range(3):
            data = bytearray()
            for row in range(100):
                it = bytearray((packet, report, bytes(12))[(row + first) % 3])
                it[2:4] = row.to_bytes(2, "big") if (row + first) % 3 == 0 else it[2:4]
                data += it
            columns = Columns.parse(data, range(0, 1200, 12), [12] * 100)
            verdicts = columns.receive({})
            is_rtp = [int((row + first) % 3 == 0) for row in range(100)]
            self.assertEqual((list(columns.is_rtp), list(verdicts.verdict)), (is_rtp, is_rtp))
            numbers = [65536 + row if is_one else 0 for row, is_one in enumerate(is_rtp)]
            self.assertEqual(list(verdicts.number), numbers)
            again = columns.receive({7: Receiver(2)})
            self.assertEqual(list(again.number), [it and it + 65536 for it in numbers])

    def test_what_is_refused_changes_nothing(self) -> None:
        receivers: Any = {7: Receiver(1)}
        with self.assertRaises(BadField) as raised:
            self.columns.receive(receivers, 1 << 64)
        self.assertEqual(str(raised.exception), f"rollover_count is {1 << 64}, and not 0 to {(1 << 48) - 1}")
        self.assertRaises(BadField, self.columns.receive, receivers, 1 << 48)
        self.assertRaises(TypeError, self.columns.receive, receivers, 1.0)
        self.assertEqual(receivers, {7: Receiver(1)})
        receivers[9] = WideReceiver(1, 1)
        self.assertRaises(TypeError, self.columns.receive, receivers)
        self.assertEqual(receivers, {7: Receiver(1), 9: WideReceiver(1, 1)})

    def test_places_are_copied(self) -> None:
        at, lengths = array("Q", [0, 12]), array("Q", [12, 12])
        columns = Columns.parse(bytes(self.columns._data), at, lengths)
        at[0], lengths[1] = 99, 99
        datagrams = [columns.datagram(row) for row in range(2)]
        self.assertEqual([it and len(it) for it in datagrams], [12, 12])
        self.assertEqual(list(columns.payload_at), [12, 24])


class Types(unittest.TestCase):
    def test_each_column_has_the_bits_of_its_field(self) -> None:
        names = ["send_time", "capture_offset", "audio_level", "transport_number", "encode_start", "frame_marking"]
        columns = Columns.parse(PACKET, [0], [21], Map(), names)
        bytes_of = {"status": 4, "is_rtcp": 1, "is_rtp": 1, "sequence_number": 2, "timestamp": 4, "ssrc": 4}
        bytes_of.update(payload_type=1, marker=1, payload_at=8, payload_len=8, unpadded_len=8, padding_fits=1)
        for name, size in bytes_of.items():
            column = getattr(columns, name)
            self.assertEqual((column.itemsize, column.typecode.isupper()), (size, name != "status"), name)
        types = [(columns.values[name].data.itemsize, columns.values[name].data.typecode.isupper()) for name in names]
        self.assertEqual(types, [(8, True), (8, False), (1, False), (2, True), (2, True), (4, True)])


class Names(unittest.TestCase):
    def test_a_name_that_is_given_twice_is_one(self) -> None:
        # what C writes to has to be kept: the columns of a name are made once
        names = ["audio_level", "mid", "audio_level", "send_time", "mid"]
        with patch("rtp_wire._many.columns_parse") as call:
            columns = Columns.parse(PACKET, [0], [21], Map.standard(), names)
        values, count = call.call_args[0][8:10]
        self.assertEqual((count, len(values)), (6, 6))
        places = [column.data.buffer_info()[0] for column in columns.values.values()]
        places += [column.there.buffer_info()[0] for column in columns.values.values()]
        places.append(columns.texts["mid"].there.buffer_info()[0])
        self.assertLessEqual(set(places), {it.to for it in values})

    def test_names_of_what_is_left_out(self) -> None:
        values = Values(mid="a", rid="b", repaired_rid="c", send_time=1, video_content_type=1, transport_number=0)
        with self.assertRaises(BadField) as raised:
            Header(values=values).write_all(Map())
        told = "ABS_SEND_TIME, TRANSPORT_NUMBER, VIDEO_CONTENT_TYPE, RID, REPAIRED_RID, MID"
        self.assertEqual(str(raised.exception), f"values that no element carries: {told}")
        for error in (raised.exception, pickle.loads(pickle.dumps(raised.exception))):
            self.assertIs(type(error), LeftOut)
            self.assertIs(error.status, Status.BAD_FIELD)
            self.assertEqual(sorted(error.kinds), [1, 6, 8, 10, 11, 12])
        buffer = bytearray(b"\xee" * 4)
        self.assertRaises(BadField, Header(values=values).write_all_to, buffer, Map())
        self.assertRaises(ShortBuffer, Header(values=values).write_to, buffer, Map({1: Kind.MID}))
        self.assertEqual(buffer, b"\xee" * 4)
        self.assertIs(Packet.parse(PACKET).form, Form.ONE_BYTE)


if __name__ == "__main__":
    unittest.main()
