"""What elements say. Expected values are worked out by hand from the documents of the extensions."""

import copy
import pickle
import unittest
from dataclasses import replace
from typing import Any

from rtp_wire import (
    BadField,
    Form,
    Header,
    Kind,
    Layer,
    Layers,
    Map,
    NewIds,
    NoElement,
    Packet,
    Resolution,
    ShortBuffer,
    Time,
    Values,
    VideoTiming,
)

# For each id the kind, the data of its element, and what they say.
ROWS = [
    (1, Kind.REPAIRED_RID, b"fix_89ab", Values(repaired_rid="fix_89ab")),
    (
        2,
        Kind.VIDEO_TIMING,
        bytes.fromhex("51 5253 5455 5657 5859 00000000"),
        Values(video_timing=VideoTiming(0x5253, 0x5455, 0x5657, 0x5859, flags=0x51)),
    ),
    (3, Kind.AUDIO_LEVEL, b"\xDD", Values(audio_level=-93, voice_activity=True)),
    (4, Kind.MID, b"mid_0123456789AB", Values(mid="mid_0123456789AB")),
    (5, Kind.TRANSPORT_NUMBER, b"\x41\x42", Values(transport_number=0x4142)),
    (
        6,
        Kind.ABS_CAPTURE_TIME,
        bytes.fromhex("8182838485868788 FEFDFCFBFAF9F8F8"),
        Values(capture_time=0x8182838485868788, capture_offset=-0x0102030405060708),
    ),
    (
        8,
        Kind.PLAYOUT_DELAY,
        bytes.fromhex("07BC8A"),
        Values(playout_delay_min=Time(123, 100), playout_delay_max=Time(3210, 100)),
    ),
    (9, Kind.FRAME_MARKING, b"1234", Values(frame_marking=0x31323334)),
    # 40 seconds
    (10, Kind.ABS_SEND_TIME, bytes.fromhex("A00000"), Values(send_time=40_000_000)),
    (11, Kind.VIDEO_ORIENTATION, b"\x03", Values(video_orientation=90)),
    (12, Kind.TRANSMISSION_OFFSET, bytes.fromhex("21222324"), Values(transmission_offset=0x21222324)),
    (13, Kind.RID, b"rid_4567", Values(rid="rid_4567")),
    (14, Kind.VIDEO_CONTENT_TYPE, b"\x01", Values(video_content_type=1)),
]
MAP = Map({id: kind for id, kind, _, _ in ROWS})
FIXED = bytes.fromhex("90000000 00000000 00000000 BEDE")


def joined() -> Values:
    """All values of the rows."""
    values = Values()
    for _, _, _, said in ROWS:
        values = replace(values, **{name: it for name, it in vars(said).items() if it is not None})
    return values


def datagram(body: bytes) -> bytes:
    body += bytes(-len(body) % 4)
    return FIXED + (len(body) // 4).to_bytes(2, "big") + body


class Kinds(unittest.TestCase):
    def test_each_value_is_read_and_written(self) -> None:
        for id, kind, data, values in ROWS:
            body = bytes([id << 4 | len(data) - 1]) + data
            packet = datagram(body)
            self.assertEqual(Packet.parse(packet, Map({id: kind})).values, values)
            self.assertEqual(Header.parse(packet, Map({id: kind})).values, values)
            self.assertEqual(Values.read(body, Form.ONE_BYTE, Map({id: kind})), values)
            self.assertEqual(Header(has_extension=True, values=values).write(Map({id: kind})), packet)
            self.assertEqual(Packet.parse(packet, Map()).values, Values())
            self.assertEqual(Packet.parse(packet).values, Values())

    def test_all_values_are_read_and_written(self) -> None:
        packet = datagram(b"".join(bytes([id << 4 | len(data) - 1]) + data for id, _, data, _ in ROWS))
        self.assertEqual(Packet.parse(packet, MAP).values, joined())
        header = Header.parse(packet, MAP)
        self.assertEqual((header.values, header.header_len), (joined(), len(packet)))
        self.assertEqual((header.write(MAP), header.wire_len(MAP)), (packet, len(packet)))
        # an id above 14: the two-byte form, here of the mid alone
        body = bytes.fromhex("C810") + b"mid_0123456789AB"
        written = Header(has_extension=True, values=joined()).write(Map({200: Kind.MID}))
        self.assertEqual(written, FIXED[:12] + bytes.fromhex("1000 0005") + body + bytes(2))

    def test_a_malformed_element_says_nothing(self) -> None:
        # a transport number of one byte, an audio level of none (in the two-byte form), and then a mid
        body = bytes.fromhex("0501 41 0300 0401 61")
        self.assertEqual(Values.read(body, Form.TWO_BYTE, MAP), Values(mid="a"))
        self.assertEqual(Values.read(b"", Form.TWO_BYTE, MAP), Values())
        with self.assertRaises(BadField):
            Values.read(body, Form.NONE, MAP)
        # other characters than letters, digits and underscores
        self.assertEqual(Values.read(b"\x42a-b", Form.ONE_BYTE, MAP), Values(mid="a_b"))

    def test_the_data_of_each_value(self) -> None:
        for _, kind, data, values in ROWS:
            self.assertEqual((values.data_of(kind), joined().data_of(kind)), (data, data))
            with self.assertRaises(NoElement):
                Values().data_of(kind)
        for kind in (*(it for it in Kind if Kind.COLOR_SPACE <= it), Kind(255)):
            with self.assertRaises(NoElement):
                joined().data_of(kind)
        for number in (0, 21, 127, 256, -1):
            with self.assertRaises(BadField):
                joined().data_of(number)  # type: ignore[arg-type]
        for values in (Values(mid="a-b"), Values(send_time=0, video_orientation=45), Values(rid="123456789")):
            with self.assertRaises(BadField):
                values.data_of(Kind.ABS_SEND_TIME)
        self.assertEqual(Values(mid="").data_of(Kind.MID), b"")

    def test_one_value_is_set_where_it_lies(self) -> None:
        # 1 second, of 2^-18 seconds
        packet = Packet.parse(bytearray(datagram(b"\x22\0\0\0")), Map({2: Kind.ABS_SEND_TIME}))
        packet.set_element(2, Values(send_time=1_000_000).data_of(Kind.ABS_SEND_TIME))
        self.assertEqual(packet.body, bytes.fromhex("22040000"))

    def test_values_are_told(self) -> None:
        self.assertEqual(repr(Values()), "Values()")
        self.assertEqual(repr(Values(send_time=0, mid="")), "Values(mid='', send_time=0)")
        self.assertEqual(Time(123, 100).seconds, 1.23)

    def test_what_cannot_be_written(self) -> None:
        rows = [
            Values(mid="m" * 17),
            Values(mid="a-b"),
            Values(mid="a\0b"),
            Values(mid="\xE9"),
            Values(rid="123456789"),
            Values(repaired_rid="123456789"),
            Values(audio_level=1),
            Values(audio_level=-128),
            Values(send_time=-1),
            Values(send_time=1 << 64),
            Values(capture_time=1 << 64),
            Values(capture_offset=1 << 63),
            Values(transmission_offset=1 << 32),
            Values(frame_marking=-1),
            Values(transport_number=65536),
            Values(video_orientation=45),
            Values(video_orientation=90 + 65536),
            Values(video_content_type=256),
            Values(playout_delay_min=Time(1, 0)),
            Values(playout_delay_max=Time(1 << 64, 100)),
            Values(video_timing=VideoTiming(65536, 0, 0, 0, 0)),
            Values(video_timing=VideoTiming(0, 0, 0, 0, 256)),
        ]
        for values in rows:
            header = Header(has_extension=True, values=values)
            with self.assertRaises(BadField, msg=repr(values)):
                header.write(MAP)
            with self.assertRaises(BadField, msg=repr(values)):
                header.wire_len(MAP)
            with self.assertRaises(BadField, msg=repr(values)):
                header.write_to(bytearray(99), MAP)


class OwnKinds(unittest.TestCase):
    def test_numbers(self) -> None:
        self.assertEqual([int(Kind(it)) for it in (128, 129, 255)], [128, 129, 255])
        self.assertIs(Kind(128), Kind.OWN)
        self.assertEqual(repr(Kind(130)), "<Kind.OWN + 2: 130>")
        for kind in (Kind(130), Kind.MID):
            for made in (Kind(int(kind)), copy.deepcopy(kind), pickle.loads(pickle.dumps(kind))):
                self.assertIs(made, kind)
        for number in (-1, 21, 127, 256):
            with self.assertRaises(ValueError):
                Kind(number)
        other: Any
        for other in ("MID", None, 129.5, b"\x81"):
            with self.assertRaises(ValueError):
                Kind(other)
        self.assertEqual((len(Kind), Kind.from_uri("urn:x")), (22, Kind.NONE))

    def test_ids(self) -> None:
        map = Map({9: Kind.MID, 4: Kind.MID, 12: Kind(130), 5: Kind(130)})
        ids = [map.id_of(it) for it in (Kind.MID, Kind(130), Kind(131), Kind.RID, Kind.NONE)]
        self.assertEqual(ids, [4, 5, None, None, None])
        self.assertIsNone(map.id_of(100))  # type: ignore[arg-type]
        self.assertIs(map[5], Kind(130))
        self.assertEqual(pickle.loads(pickle.dumps(map)), map)
        with self.assertRaises(BadField):
            map.id_of(256)  # type: ignore[arg-type]
        for number in (0, 21, 127):
            with self.assertRaises(BadField):
                map[6] = number  # type: ignore[assignment]

    def test_elements_go_on(self) -> None:
        ids = NewIds.between(Map({5: Kind(130), 6: Kind.MID, 7: Kind(131)}), Map({8: Kind(130), 9: Kind.MID}))
        self.assertEqual(dict(ids), {5: 8, 6: 9})
        packet = Packet.parse(bytearray(datagram(bytes.fromhex("50AB 6061 70CD"))), Map({5: Kind(130)}))
        self.assertEqual(packet.values, Values())
        packet.renumber(ids)
        self.assertEqual(packet.body[:4], bytes.fromhex("80AB 9061"))
        self.assertIsNone(packet.element(7))


class LayerAllocations(unittest.TestCase):
    # One-byte form: the streams 0 and 1, the second is the packet's own; 5 and 300 kbit/s; 640 * 360 at 30.
    DATAGRAM = bytes.fromhex("90000001 00000002 00000003 BEDE0003 59510005 AC02027F 0167 1E00")
    SAID = Layers(((Layer((5,), Resolution(640, 360, 30)),), (Layer((300,), None),)), 1)

    def test_layers_are_read(self) -> None:
        for buffer in (bytes, bytearray, memoryview):
            packet = Packet.parse(buffer(self.DATAGRAM), Map({5: Kind.LAYERS}))
            self.assertEqual(packet.values, Values(layers=self.SAID))
        self.assertEqual(Header.parse(self.DATAGRAM, Map({5: Kind.LAYERS})).values.layers, self.SAID)

    def test_layers_are_written(self) -> None:
        map = Map({5: Kind.LAYERS})
        header = Header.parse(self.DATAGRAM, map)
        # in the two-byte form
        written = self.DATAGRAM[:12] + bytes.fromhex("10000003 050A5100 05AC0202 7F01671E")
        self.assertEqual((header.write(map), header.wire_len(map)), (written, 28))
        self.assertEqual(Header.parse(written, map), header)
        self.assertEqual(Header.parse(written, map).write(map), written)
        buf = bytearray(b"\xEE" * 30)
        self.assertEqual((header.write_to(buf, map), bytes(buf)), (28, written + b"\xEE\xEE"))
        with self.assertRaises(ShortBuffer):
            header.write_to(bytearray(27), map)
        self.assertEqual(header.write(Map())[12:], bytes.fromhex("BEDE0000"))
        # a layer at the end that isn't active goes; nothing is sent
        off = Layer((), None)
        header.values.layers = Layers(((Layer((5,), None), off, off),), 0)
        self.assertEqual(header.write(map)[12:], bytes.fromhex("10000002 05030100 05000000"))
        header.values.layers = Layers((), 0)
        self.assertEqual(header.write(map)[12:], bytes.fromhex("10000001 05010000"))

    def test_layers_that_no_element_can_carry(self) -> None:
        one, size = Layer((5,), None), Resolution(1, 1, 0)
        most = Layer(((1 << 63) - 1,) * 4, None)
        rows = [
            Layers((), 1),
            Layers(((one,),), 4),
            Layers(((one,),), -1),
            Layers(((one,),) * 5, 0),
            Layers(((one,) * 5,), 0),
            Layers(((Layer((5,) * 5, None),),), 0),
            Layers(((Layer((1 << 63,), None),),), 0),
            Layers(((Layer((5,), Resolution(0, 1, 30)),),), 0),
            Layers(((Layer((5,), Resolution(1, 0, 30)),),), 0),
            Layers(((Layer((5,), Resolution(0, 0, 0)),),), 0),
            Layers(((Layer((5,), Resolution(65536, 1, 30)),),), 0),
            Layers(((Layer((5,), Resolution(1, 1, 256)),),), 0),
            Layers(((Layer((), size),),), 0),
            Layers(((one, Layer((5,), size)),), 0),
            Layers(((most,) * 4,) * 4, 0),
        ]
        for layers in rows:
            header = Header(has_extension=True, values=Values(layers=layers))
            for map in (Map({5: Kind.LAYERS}), Map()):
                for call in (header.wire_len, header.write):
                    with self.assertRaises(BadField):
                        call(map)


if __name__ == "__main__":
    unittest.main()
