"""Elements as their standards have them. Expected values are worked out by hand from these."""

import copy
import pickle
import unittest
from dataclasses import FrozenInstanceError, replace
from typing import Any, Callable, Dict, List, Tuple

from rtp_wire import (
    BadField,
    Camera,
    ChromaSiting,
    Chromaticity,
    ColorRange,
    ColorSpace,
    DependencyDescriptor,
    FeedbackRequest,
    FrameLayers,
    FrameMarking,
    HdrMetadata,
    Kind,
    Map,
    Orientation,
    Packet,
    Timing,
    TransportNumber,
    extend_ntp_56,
    extend_send_time,
    has_dependency_structure,
    is_stream_id,
    mixer_levels_data,
    ntp_56_data,
    ntp_64_data,
    put_element,
    read_mixer_level,
    read_ntp_56,
    read_ntp_64,
    read_send_time,
    read_token,
    read_transmission_offset,
    send_time_data,
    transmission_offset_data,
)

HDR = HdrMetadata(
    luminance_max=0x0102,
    luminance_min=0x0304,
    red=Chromaticity(0x0506, 0x0708),
    green=Chromaticity(0x090A, 0x0B0C),
    blue=Chromaticity(0x0D0E, 0x0F10),
    white=Chromaticity(0x1112, 0x1314),
    max_content_light_level=0x1516,
    max_frame_average_light_level=0x1718,
)
# A marking, an orientation and so on, and the data that they are.
ROWS: List[Tuple[Any, str]] = [
    # RFC 9626, 3: S E I D B TID, then LID, then TL0PICIDX
    (FrameMarking(True, False, False, False), "80"),
    (FrameMarking(False, True, False, False), "40"),
    (FrameMarking(False, False, True, False), "20"),
    (FrameMarking(False, False, False, True), "10"),
    (FrameMarking(False, False, False, False, FrameLayers(True, 0, 0)), "0800"),
    (FrameMarking(True, False, True, False, FrameLayers(True, 1, 2, 7)), "A90207"),
    (FrameMarking(False, True, False, True, FrameLayers(False, 7, 254)), "57FE"),
    (FrameMarking(True, True, True, True, FrameLayers(False, 4, 0, 0)), "F40000"),
    # 3GPP TS 26.114, 7.4.5: 0 0 0 0 C F R1 R0, and 01 is to be turned by 90 degrees clockwise
    (Orientation(Camera.FRONT, False, 0), "00"),
    (Orientation(Camera.FRONT, False, 270), "01"),
    (Orientation(Camera.FRONT, False, 180), "02"),
    (Orientation(Camera.FRONT, False, 90), "03"),
    (Orientation(Camera.FRONT, True, 0), "04"),
    (Orientation(Camera.BACK, False, 0), "08"),
    (Orientation(Camera.BACK, True, 270), "0D"),
    # the flags, where there are some, and six times
    (Timing(0x0102, 0x0304, 0x0506, 0x0708, 0x090A, 0x0B0C, 0x81), "81 0102 0304 0506 0708 090A 0B0C"),
    (Timing(0x0102, 0x0304, 0x0506, 0x0708, 0x090A, 0x0B0C, 0), "00 0102 0304 0506 0708 090A 0B0C"),
    (Timing(0xF102, 0xF304, 0xF506, 0xF708, 0xF90A, 0xFB0C, None), "F102 F304 F506 F708 F90A FB0C"),
    # transport-wide-cc-02: a number, then a bit for the times and 15 bits that count packets
    (TransportNumber(0x1234), "1234"),
    (TransportNumber(0xFEDC, FeedbackRequest(False, 1)), "FEDC 0001"),
    (TransportNumber(0x1234, FeedbackRequest(True, 5)), "1234 8005"),
    (TransportNumber(7, FeedbackRequest(True, 32767)), "0007 FFFF"),
    (TransportNumber(7, FeedbackRequest(False, 32766)), "0007 7FFE"),
    (TransportNumber(9, FeedbackRequest(False, 0)), "0009 0000"),
    (TransportNumber(10, FeedbackRequest(True, 0)), "000A 8000"),
    # three code points, then two bits each of the range and the sitings
    (ColorSpace(1, 2, 3, ColorRange.FULL, ChromaSiting.COLLOCATED, ChromaSiting.UNSPECIFIED), "010203 24"),
    (ColorSpace(9, 16, 255, ColorRange.LIMITED, ChromaSiting.HALF, ChromaSiting.COLLOCATED), "0910FF 19"),
    (ColorSpace(0, 0, 0, ColorRange.DERIVED, ChromaSiting.UNSPECIFIED, ChromaSiting.HALF), "000000 32"),
    (
        ColorSpace(4, 5, 6, ColorRange.UNKNOWN, ChromaSiting.UNSPECIFIED, ChromaSiting.UNSPECIFIED, HDR),
        "040506 00 0102 0304 0506 0708 090A 0B0C 0D0E 0F10 1112 1314 1516 1718",
    ),
    # AV1's RTP payload format, A.8: two bits, six of the template, and 16 of the frame
    (DependencyDescriptor(True, False, 3, 0x0102), "83 0102"),
    (DependencyDescriptor(False, True, 0, 0xFFFE), "40 FFFE"),
    (DependencyDescriptor(False, False, 63, 0), "3F 0000"),
    (DependencyDescriptor(True, True, 32, 9), "E0 0009"),
]
# Data of each length that these have, and what is said of any other length.
LENGTHS: Dict[Callable[[bytes], Any], Tuple[Tuple[int, ...], str]] = {
    read_transmission_offset: ((3,), "transmission offset: it has 3"),
    read_send_time: ((3,), "send time: it has 3"),
    FrameMarking.from_data: ((1, 2, 3), "frame marking: it has 1 to 3"),
    Orientation.from_data: ((1,), "orientation: it has 1"),
    Timing.from_data: ((12, 13), "timing: it has 12 or 13"),
    TransportNumber.from_data: ((2, 4), "transport number: it has 2 or 4"),
    read_ntp_64: ((8,), "NTP timestamp of 64 bits: it has 8"),
    read_ntp_56: ((7,), "NTP timestamp of 56 bits: it has 7"),
    ColorSpace.from_data: ((4, 28), "color space: it has 4 or 28, and no siting of 3"),
    DependencyDescriptor.from_data: (tuple(range(3, 300)), "dependency descriptor: it has 3 or more"),
}


class Standards(unittest.TestCase):
    def is_refused(self, call: Callable[[], Any], text: str) -> None:
        with self.assertRaises(BadField) as raised:
            call()
        self.assertEqual(str(raised.exception), text)

    def test_each_is_read_and_written(self) -> None:
        for value, text in ROWS:
            data = bytes.fromhex(text)
            self.assertEqual(value.to_data(), data)
            for given in (data, bytearray(data), memoryview(b"\1" + data + b"\1")[1:-1]):
                self.assertEqual(type(value).from_data(given), value)
            self.assertEqual(repr(type(value).from_data(data)), repr(value))

    def test_each_is_a_value(self) -> None:
        for value, _ in ROWS:
            self.assertEqual((copy.deepcopy(value), pickle.loads(pickle.dumps(value))), (value, value))
            self.assertEqual(len({it for it, _ in ROWS} - {value}), len(ROWS) - 1)
            with self.assertRaises(FrozenInstanceError):
                setattr(value, next(iter(vars(value))), 1)

    def test_data_of_another_length(self) -> None:
        for read, (lengths, text) in LENGTHS.items():
            for length in range(300):
                if length in lengths:
                    read(bytes(length))
                else:
                    self.is_refused(lambda: read(bytes(length)), f"{length} bytes are no {text}")
            with self.assertRaises(TypeError):
                read("1" * lengths[0])  # type: ignore[arg-type]

    def test_what_is_not_looked_at(self) -> None:
        # the low bits of a marking without layers, and the high bits of an orientation and of a sampling
        self.assertEqual(FrameMarking.from_data(b"\x8F"), FrameMarking(True, False, False, False))
        self.assertEqual(Orientation.from_data(b"\xF6"), Orientation(Camera.FRONT, True, 180))
        space = ColorSpace(1, 2, 3, ColorRange.FULL, ChromaSiting.HALF, ChromaSiting.COLLOCATED)
        self.assertEqual(ColorSpace.from_data(b"\1\2\3\xE9"), space)
        descriptor = DependencyDescriptor(True, False, 3, 0x0102)
        self.assertEqual(DependencyDescriptor.from_data(b"\x83\1\2\x80\5\6"), descriptor)

    def test_a_siting_of_3(self) -> None:
        for sampling in (0x03, 0x0C, 0x0F, 0x1D, 0x37):
            for length in (4, 28):
                data = bytes([0, 0, 0, sampling]) + bytes(length - 4)
                self.is_refused(
                    lambda: ColorSpace.from_data(data),
                    f"{length} bytes are no color space: it has 4 or 28, and no siting of 3",
                )

    def test_fields_out_of_their_range(self) -> None:
        marking = FrameMarking(True, False, True, False, FrameLayers(True, 1, 2, 7))
        orientation, timing = Orientation(Camera.BACK, True, 90), Timing(1, 2, 3, 4, 5, 6, 7)
        number = TransportNumber(1, FeedbackRequest(True, 5))
        space = ColorSpace(1, 2, 3, ColorRange.FULL, ChromaSiting.HALF, ChromaSiting.HALF, HDR)
        descriptor = DependencyDescriptor(True, False, 3, 4)
        ranges: List[Tuple[Any, str, int, int]] = [
            *((marking, name, 0, 1) for name in ("start", "end", "independent", "discardable")),
            (marking.layers, "base_layer_sync", 0, 1),
            (marking.layers, "temporal_id", 0, 7),
            (marking.layers, "layer_id", 0, 255),
            (marking.layers, "tl0_pic_idx", 0, 255),
            (orientation, "camera", 0, 1),
            (orientation, "flip", 0, 1),
            *((timing, name, 0, 65535) for name in list(vars(timing))[:6]),
            (timing, "flags", 0, 255),
            (number, "number", 0, 65535),
            (number.request, "packets", 0, 32767),
            (number.request, "timestamps", 0, 1),
            *((space, name, 0, 255) for name in ("primaries", "transfer", "matrix")),
            (space, "range", 0, 3),
            (space, "horizontal", 0, 2),
            (space, "vertical", 0, 2),
            *((HDR, name, 0, 65535) for name in vars(HDR) if name.startswith(("lum", "max"))),
            (descriptor, "start_of_frame", 0, 1),
            (descriptor, "end_of_frame", 0, 1),
            (descriptor, "template_id", 0, 63),
            (descriptor, "frame_number", 0, 65535),
        ]
        self.assertEqual(len(ranges), 34)
        for part, name, least, most in ranges:

            def made(value: Any) -> Any:
                """The whole with this value in the field."""
                changed = replace(part, **{name: value})
                around: Dict[type, Callable[[], Any]] = {
                    FrameLayers: lambda: replace(marking, layers=changed),
                    FeedbackRequest: lambda: replace(number, request=changed),
                    HdrMetadata: lambda: replace(space, hdr=changed),
                }
                return around.get(type(part), lambda: changed)()

            for value in (least - 1, most + 1, 256 + most, (1 << 16) + most, (1 << 32) + most, -(1 << 64)):
                text = f"{name} is {value}, and not {least} to {most}"
                if value != most:
                    self.is_refused(lambda: made(value).to_data(), text)
            other: Any
            for other in (1.0, "1", b"\1"):
                with self.assertRaises(TypeError):
                    made(other).to_data()
            for value in (least, most):
                self.assertEqual(type(made(value)).from_data(made(value).to_data()), made(value))

    def test_points_and_turns_out_of_their_range(self) -> None:
        space = ColorSpace(1, 2, 3, ColorRange.FULL, ChromaSiting.HALF, ChromaSiting.HALF, HDR)
        for name in ("red", "green", "blue", "white"):
            for value in (-1, 65536, 65537, 1 << 32):
                for point, axis in ((Chromaticity(value, 1), "x"), (Chromaticity(1, value), "y")):
                    wrong = replace(space, hdr=replace(HDR, **{name: point}))
                    self.is_refused(wrong.to_data, f"{axis} of {name} is {value}, and not 0 to 65535")
        for turn in (-90, 1, 45, 91, 271, 360, 65536, 65536 + 90, 1 << 32):
            wrong_turn = Orientation(Camera.BACK, False, turn)
            self.is_refused(wrong_turn.to_data, f"turn is {turn}, and none of 0, 90, 180 and 270")
        with self.assertRaises(TypeError):
            Orientation(Camera.BACK, False, 90.0).to_data()  # type: ignore[arg-type]

    def test_transmission_offsets(self) -> None:
        rows = {
            "000000": 0,
            "000001": 1,
            "FFFFFE": -2,
            "010203": 66051,
            "FEFDFD": -66051,
            "7FFFFF": 8388607,
            "800000": -8388608,
        }
        for text, ticks in rows.items():
            self.assertEqual(read_transmission_offset(bytes.fromhex(text)), ticks)
            self.assertEqual(transmission_offset_data(ticks).hex().upper(), text)
        for ticks in (8388608, -8388609, 1 << 24, 1 << 32, -(1 << 32), 1 << 64):
            text = f"a transmission offset is {ticks}, and not -8388608 to 8388607"
            self.is_refused(lambda: transmission_offset_data(ticks), text)

    def test_mixer_levels(self) -> None:
        # RFC 6465, 4: a byte for each source, of which the high bit isn't looked at
        data = bytes.fromhex("7F 0A 00 8B")
        for index, level in enumerate((-127, -10, 0, -11)):
            self.assertEqual(read_mixer_level(data, 15, index), level)
            self.assertEqual(read_mixer_level(data, index + 1, index), level)
            text = f"4 bytes have no level of the source {index} of {index}"
            self.is_refused(lambda: read_mixer_level(data, index, index), text)
            text = f"{index} bytes have no level of the source {index} of 15"
            self.is_refused(lambda: read_mixer_level(data[:index], 15, index), text)
        for count, index, text in (
            (-1, 0, "csrc_count is -1, and not 0 to 18446744073709551615"),
            (1 << 64, 0, "csrc_count is 18446744073709551616, and not 0 to 18446744073709551615"),
            (4, -1, "index is -1, and not 0 to 18446744073709551615"),
            (4, 1 << 64, "index is 18446744073709551616, and not 0 to 18446744073709551615"),
            (1 << 33, 1 << 32, "4 bytes have no level of the source 4294967296 of 8589934592"),
        ):
            self.is_refused(lambda: read_mixer_level(data, count, index), text)
        self.assertEqual(mixer_levels_data([-127, -10, 0, -11]), bytes.fromhex("7F0A000B"))
        self.assertEqual(mixer_levels_data(()), b"")
        self.assertEqual(mixer_levels_data(range(-14, 1)), bytes(range(14, -1, -1)))
        # a packet has 15 sources at most
        self.is_refused(lambda: mixer_levels_data([-5] * 16), "the number of levels is 16, and not 0 to 15")
        for level in (1, -128, 127, 128, 256, -256, 1 << 32):
            text = f"a level is {level}, and not -127 to 0"
            self.is_refused(lambda: mixer_levels_data([0, level]), text)

    def test_send_times(self) -> None:
        # 2^-18 seconds; each of the 24 bits by itself, and times that are no whole microseconds
        for units in (*(1 << bit for bit in range(24)), 0, 1, 3, 0x010203, 0xFEDCBA, 0xFFFFFF):
            data = units.to_bytes(3, "big")
            self.assertEqual((read_send_time(data), send_time_data(units)), (units, data))
        self.is_refused(lambda: send_time_data(1 << 24), "units is 16777216, and not 0 to 16777215")
        # 64 seconds are 2^38 units of 2^-32 seconds, and 2^14 of these one of 2^-18
        whole, second = 1 << 38, 1 << 32
        for near, units, found in (
            (0xE0000000C0000000, 0xFFFFFF, 0xDFFFFFFFFFFFC000),
            (5 * whole, 1, 5 * whole + (1 << 14)),
            (5 * whole + 3 * second, 2 << 18, 5 * whole + 2 * second),
            (5 * whole + second, 63 << 18, 4 * whole + 63 * second),
            (5 * whole + 63 * second, 1 << 18, 6 * whole + second),
            (5 * whole + 32 * second, 0, 6 * whole),  # equally near: the later one
            (5 * whole + 32 * second - 1, 0, 5 * whole),
            (0, 63 << 18, (1 << 64) - second),  # modulo 2^64
            ((1 << 64) - 1, 0, 0),
        ):
            self.assertEqual(extend_send_time(near, units), found)

    def test_ntp_times(self) -> None:
        # RFC 6051, 3.3: 64 bits, and the low 56 of them
        whole, time, low = bytes.fromhex("8182838485868788"), 0x8182838485868788, 0x82838485868788
        self.assertEqual((read_ntp_64(whole), ntp_64_data(time)), (time, whole))
        self.assertEqual((read_ntp_56(whole[1:]), ntp_56_data(low)), (low, whole[1:]))
        self.assertEqual(ntp_56_data(time), whole[1:])
        half, all = 1 << 55, 1 << 56
        for near, end, found in (
            (0x00FFFFFF80000000, 0x80000000, 0x0100000080000000),
            (0x0100000080000000, 0x00FFFFFF80000000, 0x00FFFFFF80000000),
            (5, 7, 7),
            (7, 5, 5),
            (7, 5 | 3 * all, 5),  # only the low 56 bits
            (3 * all, half - 1, 3 * all + half - 1),
            (3 * all, half, 3 * all + half),  # equally near: the later one
            (3 * all, half + 1, 2 * all + half + 1),
            (0, half + 1, (1 << 64) - half + 1),  # modulo 2^64
            ((1 << 64) - 1, 1, 1),
        ):
            self.assertEqual(extend_ntp_56(near, end), found)
        for number in (-1, 1 << 64):
            told = f"is {number}, and not 0 to {(1 << 64) - 1}"
            self.is_refused(lambda: ntp_64_data(number), f"time {told}")
            self.is_refused(lambda: ntp_56_data(number), f"time {told}")
            self.is_refused(lambda: extend_ntp_56(number, 0), f"near {told}")
            self.is_refused(lambda: extend_ntp_56(0, number), f"low {told}")

    def test_dependency_structures(self) -> None:
        for length in range(300):
            self.assertEqual(has_dependency_structure(b"\x80" * length), length > 3)
            self.assertFalse(has_dependency_structure((b"\xFF\xFF\xFF\x7F" + b"\xFF" * 300)[:length]))


class Tokens(unittest.TestCase):
    def test_characters(self) -> None:
        # RFC 8866, 9
        characters = b"!#$%&'*+-.0123456789ABCDEFGHIJKLMNOPQRSTUVWXYZ^_`abcdefghijklmnopqrstuvwxyz{|}~"
        for byte in range(256):
            data = bytes([0x61, byte, 0x62])
            if byte in characters:
                self.assertEqual(read_token(data), data.decode())
            else:
                self.assertRaises(BadField, read_token, data)
        for length in (1, 17, 255):
            self.assertEqual(read_token(bytearray(b"x" * length)), "x" * length)
        for length in (0, 256, 1000):
            with self.assertRaises(BadField) as raised:
                read_token(b"x" * length)
            self.assertEqual(str(raised.exception), "the data are no token")

    def test_ids_of_streams(self) -> None:
        # RFC 8852, 3: letters and digits, and no other character of a token
        letters = "0123456789ABCDEFGHIJKLMNOPQRSTUVWXYZabcdefghijklmnopqrstuvwxyz"
        for number in (*range(256), 0x661, 0x20AC, 0xFF21, 0x1F600, 0xD800):
            for text in (chr(number), "a" + chr(number), chr(number) + "9"):
                self.assertIs(is_stream_id(text), chr(number) in letters, ascii(text))
        for length in (0, 1, 8, 9, 255, 256, 1000):
            self.assertIs(is_stream_id("Z" * length), 1 <= length <= 255)
        for other in (b"a", 5, None):
            with self.assertRaisesRegex(TypeError, f"^a stream id is {type(other).__name__}, and not str$"):
                is_stream_id(other)  # type: ignore[arg-type]

    def test_texts_of_a_packet(self) -> None:
        map = Map({1: Kind.MID, 2: Kind.RID, 3: Kind.REPAIRED_RID})
        for id, told, token in (
            (1, "cam_1", "cam-1"),
            (1, "cam_1", "cam.1"),
            (1, "cam_1", "cam_1"),
            (1, "abcdefghijklmnop", "abcdefghijklmnopq"),
            (1, "abcdefghijklmnop", "abcdefghijklmnop"),
            (2, "h_i", "h-i"),
            (2, "12345678", "123456789"),
            (2, "12345678", "12345678"),
            (3, "h_i", "h~i"),
            (3, "x", "x"),
        ):
            buf = bytearray(b"\x80" + bytes(99))
            length = put_element(buf, 12, id, token.encode())
            packet = Packet.parse(buf[:length], map)
            values = packet.values
            self.assertEqual([values.mid, values.rid, values.repaired_rid][id - 1], told)
            self.assertEqual((packet.token(id), packet.token(id + 1)), (token, None))
            self.assertEqual(map[id].keeps(token), token == told)
        for text in (b"a b", b""):  # no tokens
            buf = bytearray(b"\x80" + bytes(99))
            length = put_element(buf, 12, 1, text)
            self.assertIsNone(Packet.parse(buf[:length]).token(1))
        with self.assertRaises(BadField):
            Packet.parse(buf).token(257)

    def test_texts_that_are_kept(self) -> None:
        most = {Kind.MID: 16, Kind.RID: 8, Kind.REPAIRED_RID: 8}
        letters = "0123456789ABCDEFGHIJKLMNOPQRSTUVWXYZ_abcdefghijklmnopqrstuvwxyz"
        for kind in (*Kind, Kind(200)):
            for length in range(20):
                self.assertEqual(kind.keeps("Z" * length), length <= most.get(kind, -1))
            for number in (*range(256), 0x661, 0x20AC, 0xFF21, 0x1F600):
                is_kept = kind in most and chr(number) in letters
                self.assertEqual(kind.keeps("a" + chr(number)), is_kept)
                self.assertEqual(kind.keeps(chr(number) + "a"), is_kept)


if __name__ == "__main__":
    unittest.main()
