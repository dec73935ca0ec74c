"""What is out of its range, and data that lie in what is written. Expected values are worked out by hand, or by a
call whose data lie elsewhere."""

# mypy: disable-error-code="arg-type, dict-item, misc"

import unittest
from functools import partial
from random import Random
from typing import Any, Callable, List, Optional, Tuple

from rtp_wire import (
    BadField,
    Form,
    Header,
    Kind,
    Layer,
    Layers,
    Map,
    NewIds,
    NoElement,
    Packet,
    Receiver,
    Resolution,
    RestartingReceiver,
    Time,
    Values,
    VideoTiming,
    WideReceiver,
    elements,
    extend_u8,
    extend_u15,
    extend_u16,
    extend_u32,
    from_retransmission,
    pad,
    put_element,
    to_retransmission,
    write_elements,
    write_original,
)

# An element of the id 7 with 16 bytes, and one of the id 2 with two.
LONG = bytes.fromhex(
    "90000001 00000002 00000003 BEDE0005 7F" + bytes(range(16)).hex() + "21AABB 0102"
)
Refused = Tuple[Callable[[], Any], str]


class Whole:
    """A whole number that has nothing but its index."""

    def __init__(self, number: int) -> None:
        self._number = number

    def __index__(self) -> int:
        return self._number


def past(name: str, bits: int, value: Optional[int] = None) -> str:
    """What is said of a number that is more than so many bits can hold, here the first one of these."""
    return f"{name} is {1 << bits if value is None else value}, and not 0 to {(1 << bits) - 1}"


def too_long(most: int) -> str:
    return f", and not up to {most} letters, digits and underscores"


def written(**fields: Any) -> Callable[[], Any]:
    return lambda: Header(**fields).write(Map())


def valued(**values: Any) -> Callable[[], Any]:
    return lambda: Header(has_extension=True, values=Values(**values)).write(Map())


def layered(*layers: Layer, current: int = 0) -> Callable[[], Any]:
    return valued(layers=Layers((layers,), current))


class Ranges(unittest.TestCase):
    def setUp(self) -> None:
        self.datagram = bytearray(LONG + bytes(40))
        self.packet = Packet.parse(self.datagram)

    def are_refused(self, rows: List[Refused]) -> None:
        """Each with the name of what is out of its range, the value and the range."""
        for call, text in rows:
            with self.assertRaises(BadField) as raised:
                call()
            self.assertEqual(str(raised.exception), text)
        self.assertEqual(self.datagram, LONG + bytes(40))

    def test_flags(self) -> None:
        # a byte of 256 or 512 would be 0, and C takes whatever isn't 0 for set
        for flag in (256, 512, 2, -1):
            for name in ("marker", "has_padding", "has_extension"):
                with self.assertRaises(BadField) as raised:
                    Header(**{name: flag}).write(Map())
                self.assertEqual(str(raised.exception), past(name, 1, flag))
            for name in ("marker", "has_padding"):
                with self.assertRaises(BadField) as raised:
                    setattr(self.packet, name, flag)
                self.assertEqual(str(raised.exception), past(name, 1, flag))
            with self.assertRaises(BadField):
                self.packet.set_fields(marker=flag)
            with self.assertRaises(BadField):
                valued(voice_activity=flag)()
        other: Any
        for other in (1.0, "1", None, b"\1"):
            with self.assertRaises(TypeError):
                Header(marker=other).write(Map())
            with self.assertRaises(TypeError):
                self.packet.marker = other
        self.assertEqual(self.datagram, LONG + bytes(40))
        for other, header, packet in (
            (True, b"\xB0\x80", b"\xB0\x80"),
            (0, b"\x80\0", b"\x90\0"),
            (1, b"\xB0\x80", b"\xB0\x80"),
            (False, b"\x80\0", b"\x90\0"),
        ):
            made = Header(marker=other, has_padding=other, has_extension=other)
            self.packet.marker = self.packet.has_padding = other
            self.assertEqual((made.write(Map())[:2], self.datagram[:2]), (header, packet))

    def test_fields(self) -> None:
        self.are_refused(
            [
                (written(payload_type=128), past("payload_type", 7)),
                (written(payload_type=256), past("payload_type", 7, 256)),
                (written(sequence_number=65536), past("sequence_number", 16)),
                (written(timestamp=1 << 32), past("timestamp", 32)),
                (written(ssrc=1 << 32), past("ssrc", 32)),
                (written(ssrc=-1), past("ssrc", 32, -1)),
                (written(csrc=(1, 1 << 32)), past("a source", 32)),
                (written(csrc=(1,) * 16), "csrc has 16 sources, and not up to 15"),
                (lambda: setattr(self.packet, "payload_type", 128), past("payload_type", 7)),
                (lambda: setattr(self.packet, "ssrc", 1 << 32), past("ssrc", 32)),
                (lambda: self.packet.set_csrc(0, 1 << 32), past("source", 32)),
                (lambda: self.packet.set_csrc(1 << 64, 0), past("index", 64)),
                (lambda: setattr(self.packet, "sequence_number", 65536), past("sequence_number", 16)),
                (lambda: setattr(self.packet, "timestamp", 1 << 32), past("timestamp", 32)),
                (lambda: self.packet.set_fields(ssrc=1, sequence_number=65536), past("sequence_number", 16)),
                (lambda: self.packet.set_fields(payload_type=128), past("payload_type", 7)),
                (lambda: self.packet.set_fields(timestamp=1 << 32), past("timestamp", 32)),
                (lambda: self.packet.set_fields(ssrc=1 << 32), past("ssrc", 32)),
                (lambda: self.packet.set_fields(marker=2), past("marker", 1, 2)),
            ]
        )
        self.assertRaises(NoElement, self.packet.set_csrc, 1 << 32, 0)

    def test_elements(self) -> None:
        put, own = self.datagram, Form.ONE_BYTE
        self.are_refused(
            [
                (lambda: put_element(put, 38, 257, b"a"), "id is 257, and not 1 to 255"),
                (lambda: put_element(put, 1 << 64, 1, b"a"), f"length is {1 << 64}, and not 0 to {len(put)}"),
                (lambda: put_element(put, 38, 1, b"a", 257), "allowed is 257, and not 0 to 2"),
                (lambda: put_element(put, 38, 1, b"a", Form.OTHER), "allowed is 3, and not 0 to 2"),
                (lambda: self.packet.set_element(258, b"ab"), past("an id", 8, 258)),
                (lambda: self.packet.remove_element(258), past("an id", 8, 258)),
                (lambda: self.packet.element(258), past("an id", 8, 258)),
                (lambda: next(elements(b"\x10a", 257)), "a form is 257, and not 1 to 2"),
                (lambda: Values.read(b"\x10a", 257, Map()), "a form is 257, and not 1 to 2"),
                (lambda: write_elements([(257, b"a")], own), "an id is 257, and not 1 to 14"),
                (lambda: write_elements([(1, b"a")], 257), "a form is 257, and not 1 to 2"),
                (lambda: Header().write_with([(257, b"a")]), "an id is 257, and not 1 to 255"),
                (lambda: Header().write_with([(1, b"a")], 257), "a form is 257, and not 0 to 2"),
                (lambda: Values(mid="a").data_of(268), "a kind is 268, and not 1 to 20 or 128 to 255"),
            ]
        )
        self.assertRaises(BadField, put_element, put, 1 << 32, 1, b"a")
        # None alone leaves the form open: what is false, but no whole number, is no form
        other: Any
        for other in ("", b"", 0.0, ()):
            self.assertRaises(TypeError, put_element, put, 38, 1, b"a", other)

    def test_maps(self) -> None:
        map, ids = Map({4: Kind.MID}), NewIds({4: 5})
        table: Any
        for table in (map, ids):
            for id in (260, 4 + (1 << 32), -252, 0):
                self.assertNotIn(id, table)
                self.assertIsNone(table.get(id))
                self.assertRaises(KeyError, table.pop, id)
        self.are_refused(
            [
                (lambda: map.update({260: Kind.MID}), "an id is 260, and not 1 to 255"),
                (lambda: map.update({5: 268}), "a kind is 268, and not 1 to 20 or 128 to 255"),
                (lambda: map.id_of(268), past("a kind", 8, 268)),
                (lambda: ids.update({260: 1}), "an id is 260, and not 1 to 255"),
                (lambda: ids.update({0: 1}), "an id is 0, and not 1 to 255"),
                (lambda: ids.update({1: 261}), "a new id is 261, and not 1 to 255"),
                (lambda: ids.update({1: 0}), "a new id is 0, and not 1 to 255"),
            ]
        )
        self.assertEqual((map, ids), (Map({4: Kind.MID}), NewIds({4: 5})))

    def test_values(self) -> None:
        times = VideoTiming(1, 2, 3, 4, 5)
        self.are_refused(
            [
                (valued(send_time=1 << 64), past("send_time", 64)),
                (valued(capture_time=-1), past("capture_time", 64, -1)),
                (
                    valued(capture_offset=1 << 63),
                    f"capture_offset is {1 << 63}, and not {-1 << 63} to {(1 << 63) - 1}",
                ),
                (valued(transmission_offset=1 << 32), past("transmission_offset", 32)),
                (valued(frame_marking=1 << 32), past("frame_marking", 32)),
                (valued(transport_number=65536), past("transport_number", 16)),
                (
                    valued(video_orientation=65536),
                    "video_orientation is 65536, and not 0, 90, 180 or 270",
                ),
                (valued(video_content_type=256), past("video_content_type", 8)),
                (valued(audio_level=-128), "audio_level is -128, and not -127 to 0"),
                (valued(audio_level=1), "audio_level is 1, and not -127 to 0"),
                (valued(voice_activity=256), past("voice_activity", 1, 256)),
                (valued(playout_delay_min=Time(1 << 64, 1)), past("playout_delay_min", 64)),
                (
                    valued(playout_delay_max=Time(1, 1 << 32)),
                    f"hertz of playout_delay_max is {1 << 32}, and not 1 to {(1 << 32) - 1}",
                ),
                (valued(mid="a" * 17), f"mid is '{'a' * 17}'{too_long(16)}"),
                (valued(rid="a" * 9), f"rid is 'aaaaaaaaa'{too_long(8)}"),
                (valued(repaired_rid="\0"), f"repaired_rid is '\\x00'{too_long(8)}"),
                (valued(video_timing=times._replace(encode_start=65536)), past("encode_start", 16)),
                (valued(video_timing=times._replace(encode_finish=65536)), past("encode_finish", 16)),
                (
                    valued(video_timing=times._replace(packetize_complete=65536)),
                    past("packetize_complete", 16),
                ),
                (valued(video_timing=times._replace(last_left_pacer=-1)), past("last_left_pacer", 16, -1)),
                (valued(video_timing=times._replace(flags=256)), past("flags of video_timing", 8)),
            ]
        )

    def test_letters_outside_of_ascii(self) -> None:
        # each is one letter, however many bytes of UTF-8 it has; a half of a surrogate pair has none
        for name, most in (("mid", 16), ("rid", 8), ("repaired_rid", 8)):
            for letter in ("\xE9", "\u20AC", "\U0001F600", "\uD800", "\uDFFF"):
                wide = letter * (most + 1)
                self.are_refused(
                    [
                        (valued(**{name: letter}), f"{name} is {letter!r}{too_long(most)}"),
                        (valued(**{name: "a" + letter}), f"{name} is {'a' + letter!r}{too_long(most)}"),
                        (valued(**{name: letter * most}), f"{name} is {letter * most!r}{too_long(most)}"),
                        (valued(**{name: wide}), f"{name} is {wide!r}{too_long(most)}"),
                    ]
                )

    def test_layers(self) -> None:
        def sized(width: int, height: int, framerate: int) -> Layer:
            return Layer((5,), Resolution(width, height, framerate))

        self.are_refused(
            [
                (layered(sized(65537, 1, 1)), "width is 65537, and not 1 to 65535"),
                (layered(sized(1, 65537, 1)), "height is 65537, and not 1 to 65535"),
                (layered(sized(1, 1, 256)), past("framerate", 8)),
                (layered(Layer((1 << 64,), None)), past("a rate", 63, 1 << 64)),
                (layered(Layer((1, 2, 3, 4, 5), None)), "rates are 5, and not up to 4"),
                (layered(*[Layer((5,), None)] * 5), "layers are 5, and not up to 4"),
                (valued(layers=Layers(((),) * 5, 0)), "streams are 5, and not up to 4"),
                (layered(Layer((5,), None), current=256), past("current", 2, 256)),
            ]
        )

    def test_numbers(self) -> None:
        buf, ids = self.datagram, NewIds()
        rows: List[Refused] = [
            (lambda: Receiver(1 << 64), past("rollover_count", 48, 1 << 64)),
            (lambda: WideReceiver(1, 1 << 64), past("rollover_count", 48, 1 << 64)),
            (lambda: WideReceiver(513, 1), "words is 513, and not 1 to 512"),
            (lambda: RestartingReceiver(0), "max_dropout is 0, and not 1 to 65535"),
            (lambda: RestartingReceiver(65537), "max_dropout is 65537, and not 1 to 65535"),
            (lambda: RestartingReceiver(1, 257), past("min_sequential", 8, 257)),
            (lambda: RestartingReceiver(max_misorder=0), "max_misorder is 0, and not 1 to 65535"),
            (lambda: RestartingReceiver(max_misorder=65536), "max_misorder is 65536, and not 1 to 65535"),
            (lambda: RestartingReceiver(words=0), "words is 0, and not 1 to 512"),
            (lambda: Receiver(0).standing_of(1 << 64), past("number", 64)),
            (lambda: WideReceiver(1, 0).standing_of(-1), past("number", 64, -1)),
            (lambda: RestartingReceiver().receive(65536), past("sequence_number", 16)),
            (lambda: pad(buf, 1 << 64, 1), past("header_len", 64)),
            (lambda: pad(buf, 38, 257), past("pad_len", 8, 257)),
            (lambda: pad(buf, 38, 1, 1 << 64), f"block_size is {1 << 64}, and not 1 to {(1 << 64) - 1}"),
            (lambda: write_original(buf, 1 << 64), past("number", 64)),
            (lambda: extend_u8(0, 256), past("number", 8)),
            (lambda: extend_u15(0, 32768), past("number", 15)),
            (lambda: extend_u16(0, 65536), past("number", 16)),
            (lambda: extend_u32(0, 1 << 32), past("number", 32)),
            (lambda: extend_u8(1 << 64, 0), past("previous", 64)),
        ]
        receiver: Any
        for receiver in (Receiver(0), WideReceiver(1, 0)):
            for call in (receiver.receive, receiver.number_of):
                rows.append((lambda call=call: call(65536), past("sequence_number", 16)))
            for change in (receiver.accepts, receiver.record):
                rows.append((lambda change=change: change(1 << 64), past("number", 64)))
        send: Any
        for send in (partial(to_retransmission, number=1, ids=ids), partial(from_retransmission, ids=ids)):
            rows += [
                (lambda send=send: send(buf, 1 << 64, 1, 1), f"length is {1 << 64}, and not 0 to {len(buf)}"),
                (lambda send=send: send(buf, 38, 1 << 32, 1), past("ssrc", 32)),
                (lambda send=send: send(buf, 38, 1, 257), past("payload_type", 7, 257)),
            ]
        rows.append((lambda: to_retransmission(buf, 38, 1, 1, 65536, ids), past("number", 16)))
        self.are_refused(rows)

    def test_numbers_of_other_types(self) -> None:
        number: Callable[[int], Any] = Whole
        self.assertEqual(extend_u8(number(0), number(7)), 7)
        self.assertEqual(extend_u15(number(0), number(7)), 7)
        self.assertEqual(extend_u16(number(0), number(7)), 7)
        self.assertEqual(extend_u32(number(0), number(7)), 7)
        # 5 with the rollover count 1
        self.assertEqual(Receiver(number(1)).receive(number(5)), 65541)
        self.assertEqual(WideReceiver(number(2), number(1)).receive(number(5)), 65541)
        taken = RestartingReceiver(number(1), number(1)).receive(number(5))
        self.assertEqual(taken and taken.number, 65541)
        receiver = Receiver(0)
        receiver.record(number(5))
        self.assertEqual((receiver.accepts(number(5)), receiver.accepts(number(6))), (False, True))
        header = Header(
            marker=number(1),
            payload_type=number(33),
            sequence_number=number(5),
            timestamp=number(160),
            ssrc=number(44),
            csrc=(number(9),),
            has_extension=number(1),
            values=Values(audio_level=number(-10), voice_activity=number(1)),
        )
        written = bytes.fromhex("91A10005 000000A0 0000002C 00000009 BEDE0001 108A0000")
        self.assertEqual(header.write(Map({1: Kind.AUDIO_LEVEL})), written)
        self.packet.sequence_number = number(0x1234)
        self.packet.set_element(number(2), b"ab")
        self.assertEqual(self.datagram, LONG[:2] + b"\x12\x34" + LONG[4:34] + b"ab" + LONG[36:] + bytes(40))
        self.packet.sequence_number = number(1)
        self.packet.set_element(number(2), b"\xAA\xBB")
        # what is told of one is the number
        self.are_refused([(lambda: extend_u16(0, number(65536)), past("number", 16))])


class DataOfTheBufferItself(unittest.TestCase):
    """They give what a copy of them gives, wherever they lie."""

    def test_elements_are_put(self) -> None:
        random = Random(1)
        for _ in range(1000):
            apart, within = bytearray(LONG + bytes(40)), bytearray(LONG + bytes(40))
            at, id = random.randrange(60), random.choice((1, 2, 7))
            end, allowed = at + random.randrange(17), random.choice((None, Form.TWO_BYTE))
            length = put_element(apart, 38, id, bytes(apart[at:end]), allowed)
            view = memoryview(within)
            self.assertEqual(put_element(within, 38, id, view[at:end], allowed), length)
            self.assertEqual(within, apart)

    def test_an_element_is_put_as_another(self) -> None:
        buf = bytearray(LONG + bytes(40))
        packet = Packet.parse(memoryview(buf)[:38])
        data = packet.element(7)
        assert data is not None
        length = put_element(buf, 38, 1, data)
        self.assertEqual(bytes(Packet.parse(buf[:length]).element(1) or b""), bytes(range(16)))
        self.assertEqual(put_element(buf, length, 2, memoryview(buf)[:20]), length + 20)

    def test_elements_are_set(self) -> None:
        for at in range(23):
            apart, within = bytearray(LONG), bytearray(LONG)
            Packet.parse(apart).set_element(7, bytes(apart[at : at + 16]))
            Packet.parse(within).set_element(7, memoryview(within)[at : at + 16])
            self.assertEqual(within, apart)

    def test_headers_are_written_over_their_data(self) -> None:
        buf = bytearray(LONG)
        body = memoryview(buf)[16:36]
        pairs = [(it.id, it.data) for it in elements(body, Form.ONE_BYTE)]
        self.assertEqual(Header().write_with(pairs)[12:], LONG[12:36])
        self.assertEqual(write_elements(pairs, Form.ONE_BYTE), LONG[16:36])


if __name__ == "__main__":
    unittest.main()
