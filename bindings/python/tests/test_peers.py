"""What a caller meets with other peers than str0m, and what its hand finds first. The expected values are worked out by
hand from RFC 3550, RFC 5450, RFC 8285, 4.2 and 4.3, RFC 9626 and 3GPP TS 26.114, 7.4.5."""

import unittest
from typing import Any, Callable, List, Optional, Tuple

from rtp_wire import (
    BadField,
    BadId,
    Camera,
    Form,
    FormNotAllowed,
    FrameMarking,
    Header,
    Kind,
    Layer,
    Layers,
    LongId,
    Map,
    NewIds,
    Orientation,
    Packet,
    Receiver,
    ReceptionStatistics,
    Resolution,
    Values,
    WideReceiver,
    compact,
    elements,
    from_retransmission,
    pad,
    put_element,
    read_transmission_offset,
    to_retransmission,
    write_elements,
)

ONE, TWO = Form.ONE_BYTE, Form.TWO_BYTE
LAST = (1 << 64) - 1


def packet(block: str) -> bytes:
    """V=2, X; PT=96; 5; 100; 44; then the block, and a payload of one byte."""
    return bytes.fromhex("90600005 00000064 0000002C" + block + "09")


def written(**fields: Any) -> bytes:
    return Header(**fields).write(Map())


def told(**values: Any) -> bytes:
    return written(values=Values(**values))


def layered(layer: Layer) -> bytes:
    return told(layers=Layers(((layer,),), 0))


class Elements(unittest.TestCase):
    def becomes(self, before: str, id: int, allowed: Optional[Form], after: str) -> None:
        buf = bytearray(packet(before))
        self.assertEqual(put_element(buf, len(buf), id, b"\xCC", allowed), len(buf))
        self.assertEqual(buf.hex(), packet(after).hex(), before)

    def test_those_of_the_id_0_go(self) -> None:
        # behind one with length bits a receiver that follows the RFC reads nothing; also where only as many bytes of
        # another element would change
        self.becomes("BEDE0001 01AABB00", 1, None, "BEDE0001 10CC0000")
        self.becomes("BEDE0002 01AABB00 10770000", 1, ONE, "BEDE0002 10CC0000 00000000")
        self.becomes("BEDE0002 107701AA BB000000", 1, None, "BEDE0002 10CC0000 00000000")
        self.becomes("BEDE0002 01AABB10 77000000", 2, ONE, "BEDE0002 107720CC 00000000")
        buf = bytearray(packet("BEDE0002 01AABB00 10770000"))
        self.assertEqual((compact(buf), buf[:21]), (21, packet("BEDE0001 10770000")))

    def test_none_of_the_id_0_is_written(self) -> None:
        for form in (None, ONE, TWO):
            with self.assertRaises(BadField):
                Header().write_with([(1, b"\xAA"), (0, b"\xBB")], form)
        with self.assertRaises(BadField):
            write_elements([(1, b"\xAA"), (0, b"\xBB")], TWO)

    def test_forms_of_one_that_is_put(self) -> None:
        self.becomes("BEDE0001 10AA0000", 1, ONE, "BEDE0001 10CC0000")
        self.becomes("BEDE0001 10AA0000", 1, TWO, "10000001 0101CC00")
        self.becomes("10050001 0101AA00", 1, TWO, "10050001 0101CC00")
        for block, form in (("10050001 0101AA00", TWO), ("BEDE0001 10AA0000", ONE)):
            buf = bytearray(packet(block) + bytes(8))
            with self.assertRaises(LongId):
                put_element(buf, 21, 15, b"\xCC", ONE)
            with self.assertRaises(FormNotAllowed) as raised:
                put_element(buf, 21, 14, b"", ONE)
            self.assertIs(type(raised.exception), FormNotAllowed)
            self.assertEqual(buf, packet(block) + bytes(8))
            self.assertEqual(Packet.parse(buf).form, form)
            with self.assertRaises(BadId):
                put_element(buf, 21, 0, b"\xCC", ONE)

    def test_those_of_the_standards(self) -> None:
        # an offset of three bytes and a marking of three are no values of a header; a header that is read and written
        # keeps the turn of an orientation, and loses the camera and the flip
        map = Map({1: Kind.TRANSMISSION_OFFSET, 2: Kind.FRAME_MARKING, 3: Kind.VIDEO_ORIENTATION})
        datagram = bytearray(packet("BEDE0003 12FFFFA6 22A90207 300D0000"))
        self.assertEqual(Header.parse(datagram, map).values, Values(video_orientation=270))
        lies = Packet.parse(datagram, map)

        def data(id: int) -> bytes:
            return bytes(lies.element(id) or b"")

        self.assertEqual(read_transmission_offset(data(1)), -90)
        marking = FrameMarking.from_data(data(2))
        flags = marking.start, marking.end, marking.independent, marking.discardable
        self.assertEqual(flags, (True, False, True, False))
        layers = marking.layers
        self.assertEqual((layers and layers.temporal_id, layers and layers.layer_id), (1, 2))
        orientation = Orientation.from_data(data(3))
        taken = orientation.turn, orientation.camera, orientation.flip
        self.assertEqual(taken, (270, Camera.BACK, True))
        written = bytearray(Header.parse(datagram, map).write(map))
        self.assertEqual(written[12:].hex(), "bede000130010000")
        Packet.parse(written).set_element(3, orientation.to_data())
        self.assertEqual(written[12:].hex(), "bede0001300d0000")


class Reports(unittest.TestCase):
    def test_packets_are_expected(self) -> None:
        # those from the first one's number to the highest, whatever else came
        statistics = ReceptionStatistics()
        self.assertEqual(statistics.expected, 0)
        for number, expected in ((65541, 1), (65544, 4), (65540, 4), (65544, 4)):
            statistics.record(number, 0, 0)
            self.assertEqual(statistics.expected, expected)
        report = statistics.report()
        self.assertEqual((report and report.cumulative_lost, statistics.expected), (0, 4))
        statistics = ReceptionStatistics()
        for number, expected in ((0, 1), (LAST - 1, LAST), (LAST, LAST)):
            statistics.record(number, 0, 0)
            self.assertEqual(statistics.expected, expected)


class Messages(unittest.TestCase):
    def test_the_range_is_the_real_one(self) -> None:
        buf: Any = bytearray(packet("BEDE0001 10AA0000"))
        padded = bytearray(b"\xA0" + bytes(11) + b"\2")
        long = "the padding is longer than the payload"
        high = "an id above 14, which the one-byte form can't carry"
        rows: List[Tuple[Callable[[], Any], str]] = [
            (lambda: Receiver(1 << 48), f"rollover_count is {1 << 48}, and not 0 to {(1 << 48) - 1}"),
            (lambda: WideReceiver(1, 1 << 48), f"rollover_count is {1 << 48}, and not 0 to {(1 << 48) - 1}"),
            (lambda: Receiver(-1), f"rollover_count is -1, and not 0 to {(1 << 48) - 1}"),
            (lambda: pad(buf, 12, 3, 0), f"block_size is 0, and not 1 to {LAST}"),
            (lambda: to_retransmission(buf, 22, 1, 2, 3, NewIds()), "length is 22, and not 0 to 21"),
            (lambda: from_retransmission(buf, 22, 1, 2, NewIds()), "length is 22, and not 0 to 21"),
            (lambda: write_elements([(15, b"1")], ONE), "an id is 15, and not 1 to 14"),
            (lambda: write_elements([(1, b"")], ONE), "the length of data is 0, and not 1 to 16"),
            (lambda: Header().write_with([(1, bytes(17))], ONE), "the length of data is 17, and not 1 to 16"),
            (lambda: Header().write_with([(1, bytes(256))]), "the length of data is 256, and not 0 to 255"),
            (lambda: Header().write_with([(1, bytes(255))] * 1021), "the elements have more bytes than a block can"),
            (lambda: next(elements(b"", Form.OTHER)), "a form is 3, and not 1 to 2"),
            (lambda: Values.read(b"", Form.NONE, Map()), "a form is 0, and not 1 to 2"),
            (lambda: Values().data_of(Kind.NONE), "a kind is 0, and not 1 to 20 or 128 to 255"),
            (lambda: layered(Layer((1,), Resolution(0, 1, 1))), "width is 0, and not 1 to 65535"),
            (lambda: layered(Layer((1,), Resolution(1, 0, 1))), "height is 0, and not 1 to 65535"),
            (lambda: layered(Layer((), Resolution(1, 1, 1))), "no element can carry the layers"),
            (lambda: told(layers=Layers((), 1)), "current is 1, and not 0 to 0"),
            (lambda: Packet.parse(buf).renumber(NewIds({1: 15})), high),
            (lambda: to_retransmission(buf, 21, 1, 2, 3, NewIds({1: 15})), high),
            (lambda: from_retransmission(bytearray(buf + b"9"), 22, 1, 2, NewIds({1: 15})), high),
            (lambda: to_retransmission(padded, 13, 1, 2, 3, NewIds()), long),
            (lambda: from_retransmission(padded, 13, 1, 2, NewIds()), long),
            (lambda: Packet.parse(padded).remove_padding(), long),
        ]
        for call, text in rows:
            with self.assertRaises(BadField) as raised:
                call()
            self.assertEqual(str(raised.exception), text)
        self.assertEqual(buf, packet("BEDE0001 10AA0000"))
        self.assertEqual(Receiver((1 << 48) - 1).number_of(9), LAST - 65526)

    def test_a_value_of_another_type_is_named(self) -> None:
        rows: List[Tuple[Callable[[], Any], str]] = [
            (lambda: told(mid=5), "mid is int, and not str"),
            (lambda: told(rid=b"a"), "rid is bytes, and not str"),
            (lambda: told(audio_level=1.5), "audio_level is float, and no whole number"),
            (lambda: told(video_orientation="90"), "video_orientation is str, and no whole number"),
            (lambda: told(playout_delay_min=5), "playout_delay_min is int, and not Time"),
            (lambda: told(playout_delay_max=(1, 2, 3)), "playout_delay_max is tuple, and not Time"),
            (lambda: told(video_timing=(1, 2, 3, 4, 5)), "video_timing is tuple, and not VideoTiming"),
            (lambda: told(layers=[]), "layers are list, and not Layers"),
            (lambda: written(values={}), "values are dict, and not Values"),
            (lambda: written(ssrc=None), "ssrc is NoneType, and no whole number"),
        ]
        for call, text in rows:
            with self.assertRaises(TypeError) as raised:
                call()
            self.assertEqual(str(raised.exception), text)

    def test_what_is_no_map_is_named(self) -> None:
        buf: Any = bytearray(packet("BEDE0001 10AA0000"))
        map: Any
        for map in ({1: Kind.MID}, NewIds(), None, b""):
            calls: List[Callable[[], Any]] = [
                lambda: NewIds.between(map, Map()),
                lambda: NewIds.between(Map(), map),
                lambda: NewIds.to_retransmission(map),
                lambda: NewIds.from_retransmission(map),
            ]
            for call in calls:
                with self.assertRaisesRegex(TypeError, f"^a map is {type(map).__name__}, and not Map$"):
                    call()
        ids: Any
        for ids in ({1: 2}, Map(), None):
            calls = [
                lambda: Packet.parse(buf).renumber(ids),
                lambda: to_retransmission(buf, 21, 1, 2, 3, ids),
                lambda: from_retransmission(buf, 21, 1, 2, ids),
            ]
            for call in calls:
                with self.assertRaisesRegex(TypeError, f"^new ids are {type(ids).__name__}, and not NewIds$"):
                    call()
        self.assertEqual(buf, packet("BEDE0001 10AA0000"))

    def test_without_a_map_no_value_is_there(self) -> None:
        values = Packet.parse(packet("BEDE0001 10AA0000")).values
        self.assertEqual(values, Values())
        self.assertEqual([name for name, value in vars(values).items() if value is not None], [])


if __name__ == "__main__":
    unittest.main()
