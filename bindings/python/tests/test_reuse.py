"""What stays of what was before, what is shared and what is copied, buffers of other shapes, and values that are 0 or
empty. Expected values are worked out by hand from RFC 3550, 5.1 and RFC 8285, 4.2 and 4.3."""

import array
import copy
import ctypes
import gc
import pickle
import threading
import unittest
from typing import Any, Callable, Dict, List

import rtp_wire
from rtp_wire import (
    BadField,
    Form,
    Header,
    Kind,
    Layer,
    Layers,
    Map,
    NewIds,
    NoElement,
    NotAPacket,
    OtherForm,
    Packet,
    Receiver,
    Resolution,
    RestartingReceiver,
    RtpError,
    ShortBuffer,
    Taken,
    Time,
    Values,
    VideoTiming,
    WideReceiver,
    _loaded,
    _values,
)

# V=2, P, X, CC=2; M, PT=33; 47,000; 10,000; 44; the sources 1 and 2; a block of two words: 1 (AA), 2 (BB CC),
# 1 (DD) and a byte of padding; a payload of 3 bytes and 2 of padding; three bytes more make it 40.
SAMPLE = bytes.fromhex("B2A1B798 00002710 0000002C 00000001 00000002 BEDE0002 10AA21BB CC10DD00 010203 0002")
EVEN = SAMPLE[:32] + bytes.fromhex("0102030405060003")
FAR = 1 << 40  # past 2^32
SHAPES: "List[Callable[[bytes], Any]]" = [
    lambda data: array.array("B", data),
    lambda data: array.array("b", data),
    lambda data: memoryview(bytearray(data)).cast("B", (len(data) // 2, 2)),
    lambda data: memoryview(array.array("b", data)),
    lambda data: memoryview(bytearray(data)).cast("c"),
    lambda data: (ctypes.c_uint8 * len(data)).from_buffer_copy(data),
]
# Items of more than a byte: what numpy makes of a list of numbers has each of them in one.
LARGER: "List[Callable[[bytes], Any]]" = [
    lambda data: array.array("H", data),
    lambda data: array.array("q", list(data)),
    lambda data: memoryview(bytearray(data)).cast("I"),
    lambda data: (ctypes.c_uint64 * len(data))(*data),
]


class Shapes(unittest.TestCase):
    """A buffer of items of a byte is its bytes, whatever their type and shape are."""

    def test_they_are_read(self) -> None:
        for shape in SHAPES:
            packet = Packet.parse(shape(EVEN), Map({1: Kind.AUDIO_LEVEL}))
            self.assertEqual((len(packet), bytes(packet), packet.csrc), (40, EVEN, (1, 2)))
            self.assertEqual((packet.element(2), packet.payload[7]), (b"\xBB\xCC", 3))
            self.assertEqual(packet.unpadded_payload, b"\1\2\3\4\5")
            self.assertEqual(Header.parse(shape(EVEN)).ssrc, 44)
            self.assertFalse(rtp_wire.is_rtcp(shape(EVEN)))
            self.assertTrue(rtp_wire.is_rtcp(shape(b"\x80\xC8\0\0")))
            self.assertEqual(rtp_wire.read_original(shape(b"\1\2\3\4")), 0x0102)
            body = shape(EVEN[24:32])
            self.assertEqual([bytes(it.data) for it in rtp_wire.elements(body, 1)], [b"\xAA", b"\xBB\xCC", b"\xDD"])
            self.assertEqual(Values.read(body, 1, Map({2: Kind.TRANSPORT_NUMBER})).transport_number, 0xBBCC)

    def test_they_are_written(self) -> None:
        for shape in SHAPES:
            data = shape(EVEN)
            packet = Packet.parse(data)
            packet.ssrc = 77
            packet.set_element(2, array.array("b", b"\1\2"))
            self.assertEqual(bytes(memoryview(data)), EVEN[:11] + b"\x4D" + EVEN[12:27] + b"\1\2" + EVEN[29:])
            buf = shape(bytes(16))
            self.assertEqual(Header(ssrc=5).write_to(buf, Map()), 12)
            self.assertEqual(bytes(memoryview(buf)), b"\x80" + bytes(10) + b"\5" + bytes(4))
            rtp_wire.write_original(buf, 0x0102)
            self.assertEqual(bytes(memoryview(buf))[:3], b"\1\2\0")
            buf = shape(EVEN + bytes(20))
            self.assertEqual(rtp_wire.put_element(buf, 40, 3, shape(b"\7\7\7\7")), 44)
            self.assertEqual(Packet.parse(bytes(memoryview(buf))).element(3), b"\7\7\7\7")
            self.assertEqual(rtp_wire.pad(buf, 44, 4), 4)
            self.assertEqual(rtp_wire.to_retransmission(buf, 48, 1, 2, 3, NewIds({3: 3})), 46)
            self.assertEqual(rtp_wire.from_retransmission(buf, 46, 1, 2, NewIds({3: 3})), 44)
            self.assertEqual(rtp_wire.compact(buf), 56)  # of 60: the elements take two words and not three
            self.assertEqual(Header().write_with([(1, shape(b"\7\7\7\7"))])[16:], b"\x13\7\7\7\7\0\0\0")

    def test_those_that_are_read_only(self) -> None:
        for data in (EVEN, memoryview(EVEN), memoryview(EVEN).cast("b"), memoryview(bytearray(EVEN)).toreadonly()):
            buffer: Any = data
            calls: Dict[str, Callable[[], Any]] = {
                "put_element": lambda: rtp_wire.put_element(buffer, 40, 1, b"a"),
                "add_element": lambda: rtp_wire.add_element(buffer, 40, 1, b"a"),
                "change_form": lambda: rtp_wire.change_form(buffer, 40, Form.TWO_BYTE),
                "put_block": lambda: rtp_wire.put_block(buffer, 40, 0, b""),
                "remove_block": lambda: rtp_wire.remove_block(buffer),
                "compact": lambda: rtp_wire.compact(buffer),
                "pad": lambda: rtp_wire.pad(buffer, 12, 1),
                "write_original": lambda: rtp_wire.write_original(buffer, 1),
                "to_retransmission": lambda: rtp_wire.to_retransmission(buffer, 38, 1, 2, 3, NewIds()),
                "from_retransmission": lambda: rtp_wire.from_retransmission(buffer, 40, 1, 2, NewIds()),
                "write_to": lambda: Header().write_to(buffer, Map()),
                "ssrc": lambda: setattr(Packet.parse(buffer), "ssrc", 1),
            }
            for name, call in calls.items():
                with self.assertRaises(TypeError, msg=name) as raised:
                    call()
                self.assertEqual(str(raised.exception), "the buffer is read-only")
            self.assertEqual((bytes(memoryview(data)), Packet.parse(data).element(2)), (EVEN, b"\xBB\xCC"))

    def test_those_whose_bytes_do_not_lie_together(self) -> None:
        apart: Any = memoryview(bytearray(EVEN * 2))[::2]
        calls: List[Callable[[], Any]] = [
            lambda: Packet.parse(apart),
            lambda: Header.parse(apart),
            lambda: rtp_wire.is_rtcp(apart),
            lambda: rtp_wire.compact(apart),
            lambda: next(rtp_wire.elements(apart, 1)),
            lambda: rtp_wire.put_element(bytearray(EVEN), 40, 1, apart),
            lambda: rtp_wire.add_element(bytearray(EVEN), 40, 1, apart),
            lambda: rtp_wire.put_block(bytearray(EVEN), 40, 0, apart),
            lambda: rtp_wire.change_form(apart, 40, Form.ONE_BYTE),
            lambda: rtp_wire.remove_block(apart),
            lambda: rtp_wire.write_elements([(1, apart)], 1),
            lambda: Packet.parse(bytearray(EVEN)).set_element(1, apart),
        ]
        for call in calls:
            with self.assertRaises(TypeError) as raised:
                call()
            self.assertEqual(str(raised.exception), "the bytes of the buffer don't lie together")

    def test_those_of_larger_items(self) -> None:
        even = bytearray(EVEN)
        for shape in LARGER:
            large: Any = shape(EVEN)
            calls: List[Callable[[], Any]] = [
                lambda: Packet.parse(large),
                lambda: Header.parse(large),
                lambda: rtp_wire.is_rtcp(large),
                lambda: rtp_wire.compact(large),
                lambda: next(rtp_wire.elements(large, 1)),
                lambda: rtp_wire.put_element(bytearray(EVEN), 40, 1, large),
                lambda: rtp_wire.put_block(large, 40, 0, b""),
                lambda: rtp_wire.write_elements([(1, large)], 1),
                lambda: rtp_wire.Columns.parse(large, [0], [40]),
                lambda: rtp_wire.HeaderTemplate(large, NewIds()),
                lambda: rtp_wire.HeaderTemplate(EVEN, NewIds(), [(1, large)]),
                lambda: rtp_wire.read_send_time(large),
                lambda: Header().write_to(large, Map()),
                lambda: Packet.parse(even).set_element(1, large),
            ]
            for call in calls:
                with self.assertRaises(TypeError) as raised:
                    call()
                self.assertRegex(str(raised.exception), "the items of the buffer have [248] bytes each, and not one")
        self.assertEqual(even, EVEN)

    def test_those_of_no_bytes(self) -> None:
        for none in (b"", bytearray(), memoryview(b""), memoryview(bytearray()), array.array("b")):
            buffer: Any = none
            for parse in (Packet.parse, Header.parse):
                self.assertRaises(NotAPacket, parse, buffer)
            self.assertFalse(rtp_wire.is_rtcp(buffer))
            self.assertEqual(list(rtp_wire.elements(buffer, Form.TWO_BYTE)), [])
            self.assertEqual(rtp_wire.write_elements([(1, buffer)], Form.TWO_BYTE), b"\1\0")
            self.assertRaises(ShortBuffer, rtp_wire.read_original, buffer)
        writable: Any
        for writable in (bytearray(), memoryview(bytearray())):
            self.assertRaises(ShortBuffer, Header().write_to, writable, Map())
            self.assertRaises(ShortBuffer, rtp_wire.write_original, writable, 1)
            self.assertRaises(NotAPacket, rtp_wire.compact, writable)
            self.assertRaises(NotAPacket, rtp_wire.put_element, writable, 0, 1, b"")
            self.assertEqual(rtp_wire.pad(writable, 0, 0), 0)


class Sharing(unittest.TestCase):
    def test_what_is_lent_is_shared(self) -> None:
        datagram = bytearray(SAMPLE)
        packet = Packet.parse(datagram)
        element, unpadded = packet.element(2), packet.unpadded_payload
        assert element is not None and unpadded is not None
        lent = {
            24: packet.body,
            27: element,
            25: next(packet.elements()).data,
            32: unpadded,
            33: packet.payload[1:],
            0: packet.header_bytes,
            28: [it.data for it in rtp_wire.elements(packet.body, 1)][1][1:],
        }
        for at, view in lent.items():
            datagram[at] = 0x55
            self.assertEqual(view[0], 0x55)
            view[0] = 0x66
            self.assertEqual(datagram[at], 0x66)
        sizes = [len(it) for it in (packet.body, element, unpadded, packet.payload, packet.header_bytes)]
        self.assertEqual(sizes, [8, 2, 3, 5, 32])

    def test_what_is_copied_stays(self) -> None:
        datagram = bytearray(SAMPLE)
        packet, header = Packet.parse(datagram), Header.parse(datagram)
        whole = bytes(packet)
        datagram[8:20] = b"\xFF" * 12
        self.assertEqual((packet.ssrc, header.ssrc, header.csrc, whole), (44, 44, (1, 2), SAMPLE))
        self.assertEqual(packet.csrc, (0xFFFFFFFF, 0xFFFFFFFF))  # which is read where it lies

    def test_a_buffer_may_change_its_size_once_nothing_is_lent(self) -> None:
        datagram = bytearray(SAMPLE)
        lends: List[Callable[[Packet], Any]] = [
            lambda packet: packet,
            lambda packet: packet.payload,
            lambda packet: packet.element(1),
            lambda packet: next(packet.elements()).data,
            lambda packet: packet.elements(),
        ]
        for lend in lends:
            lent = lend(Packet.parse(datagram))
            gc.collect()
            with self.assertRaises(BufferError):
                datagram.append(0)
            del lent
            gc.collect()
            datagram.append(0)
        calls: List[Callable[[], Any]] = [
            lambda: Packet.parse(memoryview(datagram).toreadonly()).elements(),
            lambda: rtp_wire.is_rtcp(memoryview(datagram).toreadonly()),
            lambda: rtp_wire.put_element(datagram, 37, 2, b"ab"),
            lambda: rtp_wire.put_element(datagram, 37, 2, memoryview(datagram)[:2]),
            lambda: rtp_wire.put_element(datagram, 99, 2, b"ab"),
            lambda: rtp_wire.add_element(datagram, 37, 2, memoryview(datagram)[:2]),
            lambda: rtp_wire.put_block(datagram, 37, 0, memoryview(datagram)[:4]),
            lambda: rtp_wire.change_form(datagram, 99, Form.ONE_BYTE),
            lambda: rtp_wire.remove_block(datagram),
            lambda: rtp_wire.compact(datagram),
            lambda: rtp_wire.pad(datagram, 37, 1),
            lambda: rtp_wire.write_original(datagram, 0x80),
            lambda: rtp_wire.to_retransmission(datagram, 11, 1, 2, 3, NewIds()),
            lambda: Header().write_to(datagram, Map()),
            lambda: Header.parse(datagram),
            lambda: rtp_wire.is_rtcp(datagram),
            lambda: rtp_wire.read_original(datagram),
            lambda: Values.read(datagram, 1, Map()),
            lambda: list(rtp_wire.elements(datagram, 1)) and None,
            lambda: setattr(Packet.parse(datagram), "ssrc", 1),
        ]
        for call in calls:
            try:
                call()
            except RtpError:
                pass
            gc.collect()
            datagram.append(0)

    def test_what_is_lent_keeps_its_datagram(self) -> None:
        made = Packet.parse(bytearray(SAMPLE))
        payload, found, element = made.payload, made.elements(), made.element(2)
        loose = rtp_wire.elements(bytearray(SAMPLE[24:32]), 1)
        del made
        gc.collect()
        others = [bytearray(b"\xEE" * 37) for _ in range(100)]
        self.assertEqual((payload, element), (SAMPLE[32:], b"\xBB\xCC"))
        self.assertEqual([bytes(it.data) for it in found], [b"\xAA", b"\xBB\xCC", b"\xDD"])
        self.assertEqual([bytes(it.data) for it in loose], [b"\xAA", b"\xBB\xCC", b"\xDD"])
        self.assertEqual(len(others), 100)

    def test_a_view_is_released_while_a_packet_of_it_lives(self) -> None:
        datagram = bytearray(SAMPLE)
        view = memoryview(datagram)
        packet, found = Packet.parse(view), rtp_wire.elements(view[24:32], 1)
        view.release()
        packet.ssrc = 5
        self.assertEqual((datagram[11], packet.csrc, packet.payload), (5, (1, 2), SAMPLE[32:]))
        self.assertEqual(len(list(found)), 3)
        with self.assertRaises(ValueError):
            Packet.parse(view)

    def test_each_value_has_its_own_parts(self) -> None:
        first, second = Header(), Header()
        first.values.mid = "a"
        self.assertIsNone(second.values.mid)
        self.assertEqual((second.csrc, second.header_len, second), ((), 0, Header()))
        self.assertNotEqual(first, second)
        standard = Map.standard()
        standard.clear()
        self.assertEqual(len(Map.standard()), 7)

    def test_the_lock_is_kept(self) -> None:
        self.assertIs(type(_loaded._LIBRARY), ctypes.PyDLL)
        receiver = Receiver(1)
        taken: List[int] = []

        def take() -> None:
            taken.extend(it for it in map(receiver.receive, range(2000)) if it is not None)

        threads = [threading.Thread(target=take) for _ in range(4)]
        for thread in threads:
            thread.start()
        for thread in threads:
            thread.join()
        self.assertEqual(len(taken), len(set(taken)))
        self.assertEqual(receiver.highest, 65536 + 1999)


class Changes(unittest.TestCase):
    def test_values_are_read_again(self) -> None:
        map = Map({1: Kind.AUDIO_LEVEL, 2: Kind.TRANSPORT_NUMBER, 3: Kind.MID})
        packet = Packet.parse(bytearray(SAMPLE), map)
        before = packet.values
        self.assertIs(packet.values, before)
        self.assertEqual((before.transport_number, before.audio_level), (0xBBCC, -0x5D))
        packet.set_element(2, b"\1\2")
        self.assertEqual((packet.values.transport_number, before.transport_number), (0x0102, 0xBBCC))
        packet.remove_element(1)
        self.assertIsNone(packet.values.audio_level)
        packet.renumber(NewIds())
        self.assertEqual(packet.values, Values())
        with self.assertRaises(NoElement):
            packet.set_element(2, b"\1\2")
        packet.has_padding = False
        self.assertEqual(packet.unpadded_payload, packet.payload)

    def test_the_map_is_looked_at_again(self) -> None:
        map = Map({2: Kind.TRANSPORT_NUMBER})
        packet = Packet.parse(bytearray(SAMPLE), map)
        map[1] = Kind.AUDIO_LEVEL
        self.assertEqual(packet.values, Values(transport_number=0xBBCC))
        packet.ssrc = 5
        self.assertEqual((packet.values.audio_level, packet.values.transport_number), (-0x5D, 0xBBCC))

    def test_layers_are_read_again(self) -> None:
        # the layer's rate, 5 kbit/s, lies in the sixth byte of the element
        datagram = bytearray.fromhex("90000001 00000002 00000003 BEDE0001 52010005 07")
        packet = Packet.parse(datagram, Map({5: Kind.LAYERS}))
        said = Layers(((Layer((5,), None),),), 0)
        self.assertEqual(packet.values, Values(layers=said))
        packet.set_element(5, b"\1\0\6")
        self.assertEqual(packet.values, Values(layers=Layers(((Layer((6,), None),),), 0)))
        packet.ssrc = 9
        packet.remove_element(5)
        self.assertEqual(packet.values, Values())
        for packet in (Packet.parse(datagram), Packet.parse(datagram, Map())):
            self.assertEqual(packet.values, Values())

    def test_fields_of_zero_are_set(self) -> None:
        datagram = bytearray(SAMPLE)
        packet = Packet.parse(datagram)
        packet.set_fields(timestamp=0)
        self.assertEqual(datagram[:12].hex(), "b2a1b798" + "00000000" + "0000002c")
        packet.set_fields(ssrc=0, sequence_number=0, payload_type=0)
        self.assertEqual(datagram[:12].hex(), "b2800000" + "00000000" * 2)
        packet.set_fields(marker=False, ssrc=9)
        self.assertEqual(datagram[:12].hex(), "b2000000" + "00000000" + "00000009")
        packet.set_fields(marker=True)
        self.assertEqual((datagram[1], packet.marker), (0x80, True))
        packet.ssrc = packet.timestamp = packet.sequence_number = packet.payload_type = 0
        self.assertEqual((packet.ssrc, packet.csrc), (0, (1, 2)))

    def test_a_change_that_is_refused_leaves_all(self) -> None:
        datagram = bytearray(SAMPLE)
        packet = Packet.parse(datagram, Map({1: Kind.AUDIO_LEVEL}))
        told = repr(packet)
        for change in (
            lambda: packet.set_csrc(2, 1),
            lambda: packet.set_element(1, b""),
            lambda: packet.remove_element(9),
            lambda: packet.renumber(NewIds({1: 15})),
            lambda: packet.set_fields(ssrc=1, payload_type=128),
        ):
            self.assertRaises(RtpError, change)
            self.assertEqual((datagram, repr(packet)), (SAMPLE, told))


class Zeros(unittest.TestCase):
    """What is 0, false or empty is there."""

    ALL = Values(
        mid="",
        rid="",
        repaired_rid="",
        audio_level=0,
        voice_activity=False,
        send_time=0,
        transport_number=0,
        video_orientation=0,
        capture_time=0,
        capture_offset=0,
        transmission_offset=0,
        playout_delay_min=Time(0, 100),
        playout_delay_max=Time(0, 100),
        video_content_type=0,
        video_timing=VideoTiming(0, 0, 0, 0, 0),
        frame_marking=0,
    )
    MAP = Map({int(kind): kind for kind in Kind if 0 < kind < 14})

    def test_values(self) -> None:
        written = Header(has_extension=True, values=self.ALL).write(self.MAP)
        # the two-byte form, for the texts: 13 elements of 2 bytes and 48 of data are 74, and 2 of padding
        self.assertEqual((len(written), written[12:16].hex()), (16 + 76, "10000013"))
        self.assertEqual(Packet.parse(written, self.MAP).values, self.ALL)
        self.assertEqual(Header.parse(written, self.MAP).values, self.ALL)
        for name, value in vars(self.ALL).items():
            self.assertEqual(f"{name}={value!r}" in repr(self.ALL), name != "layers")
        for kind in self.MAP.values():
            self.assertEqual(set(self.ALL.data_of(kind)) | {0}, {0})

    def test_a_form_of_none_is_any(self) -> None:
        for form in (None, Form.NONE, 0):
            self.assertEqual(Header().write_with([(200, b"a")], form)[12:].hex(), "10000001c8016100")
            self.assertEqual(Header().write_with([(2, b"a")], form)[12:].hex(), "bede000120610000")
        buf = bytearray(Header().write_with([(200, b"a"), (255, b"b")]) + bytes(8))
        Packet.parse(buf).renumber(NewIds({200: 255, 255: 128}))
        self.assertEqual(buf[12:22].hex(), "10000002ff0161800162")
        self.assertEqual(rtp_wire.to_retransmission(buf, 28, 1, 2, 3, NewIds({128: 129})), 30)
        self.assertEqual(buf[12:22].hex(), "10000002000000810162")

    def test_padding_of_no_bytes(self) -> None:
        fixed = bytes.fromhex("A0000001 00000002 00000003")
        for payload in (b"", b"\0", b"\7\0"):
            packet = Packet.parse(bytearray(fixed + payload))
            self.assertEqual((packet.has_padding, packet.unpadded_payload), (True, payload))
            self.assertTrue(Header.parse(fixed + payload).has_padding)
            self.assertEqual((packet.remove_padding(), packet.has_padding), (12 + len(payload), False))

    def test_half_of_two_values(self) -> None:
        for half in (
            Values(audio_level=0),
            Values(voice_activity=False),
            Values(playout_delay_min=Time(0, 1)),
            Values(playout_delay_max=Time(0, 1)),
            Values(capture_offset=0),
        ):
            header = Header(has_extension=True, values=half)
            self.assertEqual(header.write(self.MAP)[12:], bytes.fromhex("BEDE0000"))
        header.values.capture_time = 0
        self.assertEqual(header.write(self.MAP)[12:], bytes.fromhex("BEDE0005 2F") + bytes(19))

    def test_elements_and_bodies_of_no_bytes(self) -> None:
        packet = Packet.parse(bytes.fromhex("90000001 00000002 00000003 10000002 01000201 09000000"))
        self.assertEqual((packet.element(1), packet.element(3)), (b"", None))
        self.assertEqual([(it.id, bytes(it.data)) for it in packet.elements()], [(1, b""), (2, b"\x09")])
        packet = Packet.parse(bytes.fromhex("90000001 00000002 00000003 BEDE0000 07"), self.MAP)
        self.assertEqual((packet.form, packet.body, packet.block_profile), (Form.ONE_BYTE, b"", 0xBEDE))
        self.assertEqual((list(packet.elements()), packet.element(1), packet.values), ([], None, Values()))
        self.assertEqual((packet.header_len, packet.payload, packet.unpadded_payload), (16, b"\7", b"\7"))
        header = Header.parse(bytes(packet), self.MAP)
        self.assertEqual((header.has_extension, header.header_len, header.values), (True, 16, Values()))
        self.assertFalse(Header.parse(b"\x80" + bytes(15)).has_extension)
        # and elements of many bytes
        long = Packet.parse(bytearray(Header().write_with([(1, bytes(255)), (2, bytes(17))])))
        long.set_element(1, bytes(range(255)))
        long.set_element(2, bytes(range(17)))
        self.assertEqual((long.element(1), long.element(2)), (bytes(range(255)), bytes(range(17))))
        buf = bytearray(bytes(packet)[:16] + bytes(4))
        self.assertEqual(rtp_wire.put_element(buf, 16, 7, b""), 20)
        self.assertEqual(buf[12:].hex(), "1000000107000000")
        Packet.parse(buf).set_element(7, b"")

    def test_defaults(self) -> None:
        self.assertEqual(Header(), Header(0, 0, 0, 0, (), False, False, False, Values(), 5))
        self.assertEqual({it for it in vars(Values()).values()}, {None})
        self.assertEqual(RestartingReceiver(), RestartingReceiver(3000, 1, 3000, 16))
        self.assertEqual(RestartingReceiver(words=512), RestartingReceiver(3000, 1, 32768, 512))
        buf = bytearray(bytes(20))
        self.assertEqual((rtp_wire.pad(buf, 12, 3), buf[14]), (3, 3))
        self.assertEqual((Map(), NewIds()), (Map({}), NewIds({})))
        empty: Any = Map()
        self.assertEqual((empty == {}, bool(empty), dict(Map({4: Kind.MID}))), (True, False, {4: Kind.MID}))


class Kept(unittest.TestCase):
    """What is told has its type, its order and all of its parts."""

    def test_types(self) -> None:
        packet, header = Packet.parse(bytearray(SAMPLE)), Header.parse(SAMPLE)
        wide, restarting = WideReceiver(16, 1), RestartingReceiver()
        map = Map({3: Kind.MID})
        taken = restarting.receive(7)
        assert taken is not None
        flags = [packet.marker, packet.has_padding, header.marker, header.has_padding, header.has_extension]
        flags += [wide.record(9), wide.record(9), wide.accepts(9), Receiver(0).accepts(9), taken.restarted]
        flags += [rtp_wire.is_rtcp(b""), rtp_wire.is_rtcp(b"\x80\xC8")]
        levels = Map({1: Kind.AUDIO_LEVEL})
        silent = Header(has_extension=True, values=Values(voice_activity=False, audio_level=0))
        said = Packet.parse(silent.write(levels), levels).values
        flags += [said.voice_activity or False]
        self.assertEqual({type(it) for it in flags}, {bool})
        self.assertIs(said.voice_activity, False)
        values = Values(mid="a")
        made = [header.write(map), header.write_with([]), rtp_wire.write_elements([], 1), values.data_of(Kind.MID)]
        self.assertEqual({type(it) for it in [*made, bytes(packet)]}, {bytes})
        numbers = [packet.ssrc, packet.timestamp, packet.sequence_number, packet.payload_type, header.ssrc, len(packet)]
        numbers += [packet.header_len, header.header_len, header.wire_len(map), Receiver(0).number_of(5), taken.number]
        numbers += [wide.highest or 0, rtp_wire.extend_u8(5, 6), rtp_wire.read_original(b"\1\2")]
        numbers += [packet.remove_padding()]
        self.assertEqual({type(it) for it in numbers}, {int})
        self.assertEqual((type(packet.form), type(map[3]), type(Kind.from_uri("urn:x"))), (Form, Kind, Kind))
        self.assertEqual((type(packet.csrc), type(header.csrc), type(taken)), (tuple, tuple, Taken))

    def test_sources(self) -> None:
        for sources in ((0,), (0, 5, 0), (0xFFFFFFFF, 1, 0xFFFFFFFF), tuple(range(15)), tuple(range(15, 0, -1))):
            written = Header(csrc=sources).write(Map())
            self.assertEqual((Header.parse(written).csrc, Packet.parse(written).csrc), (sources, sources))
            self.assertEqual(len(Header(csrc=sources).write_with([(1, b"a")])), 12 + 4 * len(sources) + 8)
            self.assertEqual(Header(csrc=list(sources)).write(Map()), written)  # type: ignore[arg-type]

    def test_without_a_map_there_are_no_values(self) -> None:
        map = Map.standard()
        written = Header(has_extension=True, values=Values(mid="a", rid="b")).write(map)
        self.assertEqual(Header.parse(written, map).values, Values(mid="a", rid="b"))
        for values in (Header.parse(written).values, Packet.parse(written).values, Header.parse(written, Map()).values):
            self.assertEqual(values, Values())

    def test_what_is_kept_of_packets_has_a_bound(self) -> None:
        # which values a packet has is up to who sends it
        self.assertEqual(_values._readers_of.cache_info().maxsize, 1024)

    def test_values_that_are_not_written_are_looked_at(self) -> None:
        for values in (Values(mid="-"), Values(video_orientation=45), Values(playout_delay_min=Time(1, 0))):
            for header in (Header(values=values), Header(has_extension=True, values=values)):
                self.assertRaises(BadField, header.write, Map())
                self.assertRaises(BadField, header.wire_len, Map())
        header = Header(has_extension=False, values=Values(mid="a"))
        self.assertEqual(header.write(Map({1: Kind.MID})), b"\x80" + bytes(11))
        for layers in (Layers((), 1), Layers(((Layer((), Resolution(1, 1, 1)),),), 0)):
            for header in (Header(), Header(has_extension=True)):
                header.values.layers = layers
                self.assertRaises(BadField, header.write, Map())
                self.assertRaises(BadField, header.write_to, bytearray(20), Map({5: Kind.LAYERS}))
        header = Header(has_extension=False, values=Values(layers=Layers((), 0)))
        self.assertEqual(header.write(Map({5: Kind.LAYERS})), b"\x80" + bytes(11))

    def test_layers(self) -> None:
        def rated(*kbps: int) -> Layer:
            return Layer(kbps, None)

        map = Map({5: Kind.LAYERS})
        rows = [
            Layers(((rated(0),),), 0),
            Layers(((rated(0, 9, 0, 3),), (rated(7, 5, 6),)), 1),
            Layers(((), (rated(5), rated(), rated(1)), (), (rated(2, 1),)), 2),
            Layers(((rated(), rated(8)), (rated(8),)), 0),
            Layers(((Layer((5,), Resolution(65535, 1, 0)), Layer((6, 5), Resolution(1, 65535, 255))),), 0),
            Layers(((rated(4, 3, 2, 1),) * 4,) * 4, 3),
        ]
        for layers in rows:
            written = Header(has_extension=True, values=Values(layers=layers)).write(map)
            self.assertEqual(Packet.parse(written, map).values.layers, layers)
            self.assertEqual(Header.parse(written, map).values.layers, layers)

    def test_every_id(self) -> None:
        map = Map((id, Kind(1 + id % 15)) for id in range(1, 256))
        ids = NewIds((id, 256 - id) for id in range(1, 256))
        table: Any
        for table in (map, ids):
            self.assertEqual((len(table), list(table), 255 in table), (255, list(range(1, 256)), True))
        self.assertEqual([map[id] for id in map], [1 + id % 15 for id in range(1, 256)])
        self.assertEqual([ids[id] for id in ids], list(range(255, 0, -1)))
        same: Any
        for same in (Map({4: Kind.MID, 9: Kind.MID, 255: Kind.MID}), NewIds({4: 7, 9: 7, 255: 7})):
            self.assertEqual((len(same), list(same), len(dict(same))), (3, [4, 9, 255], 3))
            del same[9]
            self.assertEqual((len(same), list(same), bool(same)), (2, [4, 255], True))
            self.assertRaises(KeyError, same.__delitem__, 9)

    def test_a_number_of_each_end(self) -> None:
        packet = Packet.parse(bytearray(SAMPLE))
        for ends in ((0, 0, 0, 0), (127, 65535, 0xFFFFFFFF, 0xFFFFFFFF)):
            payload_type, number, timestamp, ssrc = ends
            packet.set_fields(payload_type=payload_type, sequence_number=number, timestamp=timestamp, ssrc=ssrc)
            self.assertEqual((packet.payload_type, packet.sequence_number, packet.timestamp, packet.ssrc), ends)
            header = Header(*ends)
            self.assertEqual(Header.parse(header.write(Map())), header)
        for index in (0, 1):
            packet.set_csrc(index, 0xFFFFFFFF)
        self.assertEqual(packet.csrc, (0xFFFFFFFF, 0xFFFFFFFF))
        packet.set_csrc(0, 0)
        self.assertEqual(packet.csrc, (0, 0xFFFFFFFF))
        map = Map({1: Kind.VIDEO_TIMING, 2: Kind.ABS_CAPTURE_TIME, 3: Kind.AUDIO_LEVEL, 4: Kind.TRANSPORT_NUMBER})
        for values in (
            Values(video_timing=VideoTiming(65535, 65534, 65533, 65532, 255)),
            Values(capture_time=(1 << 64) - 1, capture_offset=(1 << 63) - 1),
            Values(capture_time=0, capture_offset=-1 << 63),
            Values(audio_level=-127, voice_activity=True),
            Values(audio_level=-1, voice_activity=False),
            Values(transport_number=65535),
        ):
            written = Header(has_extension=True, values=values).write(map)
            self.assertEqual(Packet.parse(written, map).values, values)

    def test_no_bit_is_lost(self) -> None:
        map = Zeros.MAP
        packet = Packet.parse(bytearray(b"\x80" + bytes(11)))
        for bit in range(64):
            word, half, byte = 1 << bit % 32, 1 << bit % 16, 1 << bit % 8
            back, low = word ^ 0xFFFFFFFF, byte & 127
            packet.set_fields(ssrc=word, timestamp=back, sequence_number=half, payload_type=low, marker=bit % 2 == 0)
            header = Header(low, half, back, word, marker=bit % 2 == 0)
            self.assertEqual((header.write(Map()), Header.parse(bytes(packet))), (bytes(packet), header))
            read = (packet.ssrc, packet.timestamp, packet.sequence_number, packet.payload_type, packet.marker)
            self.assertEqual(read, (word, back, half, low, bit % 2 == 0))
            packet.ssrc, packet.timestamp, packet.sequence_number = back, word, half ^ 0xFFFF
            packet.payload_type, packet.marker = low ^ 127, bit % 2 != 0
            read = (packet.ssrc, packet.timestamp, packet.sequence_number, packet.payload_type, packet.marker)
            self.assertEqual(read, (back, word, half ^ 0xFFFF, low ^ 127, bit % 2 != 0))
            header = Header(csrc=(word, back), has_extension=True, has_padding=bit % 3 == 0)
            header.values = Values(
                capture_time=1 << bit,
                capture_offset=(1 << bit) - (1 << 63),
                transmission_offset=word,
                frame_marking=back,
                transport_number=half,
                video_content_type=byte,
                audio_level=-low,
                voice_activity=bit % 2 == 0,
                video_timing=VideoTiming(half, half ^ 0xFFFF, half >> 1, half >> 2, byte),
                playout_delay_min=Time(1 << bit % 12, 100),
                playout_delay_max=Time(4095 - bit, 100),
            )
            written = header.write(map)
            self.assertEqual(Header.parse(written, map), header)
            again = Packet.parse(written, map)
            self.assertEqual((again.values, again.csrc), (header.values, header.csrc))

    def test_long_datagrams(self) -> None:
        # 4 + 65,540 bytes of a block, and 70,000 of payload
        datagram = bytearray.fromhex("90600005 00000001 00000007 BEDE4001") + bytes(65540 + 70000)
        datagram[65552:65555] = b"\x21\x08\x09"
        packet = Packet.parse(datagram, Map({2: Kind.TRANSPORT_NUMBER}))
        self.assertEqual((len(packet), packet.header_len, len(packet.payload)), (135556, 65556, 70000))
        self.assertEqual((packet.element(2), packet.values.transport_number), (b"\x08\x09", 0x0809))
        self.assertEqual([(it.id, bytes(it.data)) for it in packet.elements()], [(2, b"\x08\x09")])
        self.assertEqual(len(Header().write_with(packet.elements())), 20)
        del packet
        buf = datagram + bytes(2)
        self.assertEqual(rtp_wire.to_retransmission(buf, 135556, 9, 97, 0xFFFE, NewIds()), 135558)
        self.assertEqual(buf[2:4], b"\xFF\xFE")
        self.assertEqual(rtp_wire.compact(buf), 16 + 70002)
        self.assertEqual(rtp_wire.put_element(buf, 16 + 70002, 45, bytes(255)), 16 + 260 + 70002)


class States(unittest.TestCase):
    """Receive states, through windows and copies."""

    def copies(self, made: Any) -> List[Any]:
        return [copy.copy(made), copy.deepcopy(made), pickle.loads(pickle.dumps(made))]

    def test_windows(self) -> None:
        rows = [(128, Receiver(FAR >> 16)), *((64 * it, WideReceiver(it, FAR >> 16)) for it in (1, 3, 16, 512))]
        receiver: Any
        for size, receiver in rows:
            self.assertEqual((receiver.highest, receiver.number_of(9)), (None, FAR + 9))
            self.assertTrue(receiver.accepts(0) and receiver.accepts(FAR))
            highest = FAR + 40000
            self.assertEqual((receiver.receive(40000), receiver.highest), (highest, highest))
            for below in range(1, size, 3):
                self.assertTrue(receiver.accepts(highest - below))
                if below % 2:
                    self.assertEqual(receiver.receive((highest - below) & 0xFFFF), highest - below)
                else:
                    receiver.record(highest - below)
                    receiver.record(highest - below)  # which changes nothing
                self.assertIsNone(receiver.receive((highest - below) & 0xFFFF))
            for made in (receiver, *self.copies(receiver)):
                self.assertEqual((made, made.highest, repr(made)), (receiver, highest, repr(receiver)))
                for below in range(size + 200):
                    is_new = below < size and below % 3 != 1 and below != 0
                    self.assertEqual(made.accepts(highest - below), is_new, (size, below))
            # too late
            receiver.record(highest - size)
            self.assertEqual((receiver.highest, receiver.number_of(7)), (highest, FAR + 65536 + 7))
            receiver.record(highest + size)
            self.assertEqual(receiver.receive((highest + 1) & 0xFFFF), highest + 1)
            self.assertFalse(receiver.accepts(highest))

    def test_copies_are_apart(self) -> None:
        receiver: Any
        for receiver in (Receiver(5), WideReceiver(3, 5)):
            for made in self.copies(receiver):
                # a state that has taken nothing keeps its rollover count
                self.assertEqual((made, made.highest, made.number_of(7)), (receiver, None, 5 * 65536 + 7))
                self.assertEqual((made.receive(7), receiver.highest), (5 * 65536 + 7, None))
                self.assertNotEqual(made, receiver)
            receiver.receive(7)
            for made in self.copies(receiver):
                made.receive(8)
                self.assertEqual((receiver.highest, receiver.accepts(5 * 65536 + 8)), (5 * 65536 + 7, True))
                receiver.number_of(9)
            receiver.receive(6)
            self.assertNotEqual(receiver, made)

    def test_restarting_receivers_are_copied(self) -> None:
        for bounds in ((3000, 1), (100, 3), (65535, 255)):
            receiver = RestartingReceiver(*bounds)
            for made in self.copies(receiver):
                self.assertEqual((made, repr(made)), (receiver, repr(receiver)))
        receiver = RestartingReceiver(100, 3)
        self.assertEqual([receiver.receive(7), receiver.receive(8)], [None, None])
        for made in self.copies(receiver):
            self.assertEqual((made.receive(9), made.highest), (Taken(65545, False), 65545))
            self.assertIsNone(receiver.highest)
        receiver.receive(9)
        receiver.receive(5)
        receiver.receive(30000)
        for made in self.copies(receiver):
            self.assertEqual([made.receive(5), made.receive(30000)], [None, None])
        for made in self.copies(receiver):
            self.assertEqual(made.receive(30001), Taken(196608 + 30001, True))
            self.assertEqual(made.receive(30000), Taken(196608 + 30000, False))
            self.assertIsNone(made.receive(30000))
        self.assertEqual(receiver.highest, 65545)

    def test_windows_of_restarting_receivers_are_copied(self) -> None:
        receiver = RestartingReceiver()
        receiver.receive(1000)
        for below in range(1, 128, 2):
            receiver.receive(1000 - below)
        for made in self.copies(receiver):
            self.assertEqual(made, receiver)
            for below in range(128):
                number = made.receive(1000 - below)
                self.assertEqual(number, None if below % 2 or below == 0 else Taken(66536 - below, False), below)
            self.assertNotEqual(made, receiver)

    def test_the_number_0_is_taken(self) -> None:
        receiver: Any
        for receiver in (Receiver(0), WideReceiver(1, 0)):
            self.assertEqual((receiver.receive(0), receiver.highest, receiver.accepts(0)), (0, 0, False))
            self.assertIsNone(receiver.receive(0))
        self.assertTrue(WideReceiver(1, 0).record(0))
        taken = RestartingReceiver().receive(0)
        assert taken is not None
        self.assertEqual((taken.number, taken.restarted), (65536, False))
        self.assertFalse(taken.restarted)

    def test_what_is_equal(self) -> None:
        receiver: Any
        for receiver in (Receiver(1), WideReceiver(2, 1), RestartingReceiver()):
            self.assertRaises(TypeError, hash, receiver)
            for other in (None, 5, Receiver(2), WideReceiver(3, 1), RestartingReceiver(5)):
                self.assertFalse(receiver == other)
        wide = WideReceiver(1, 1)
        wide.receive(9)
        for low in (5, 6):
            other = copy.copy(wide)
            other.receive(low)
            self.assertNotEqual(other, wide)
        self.assertEqual(repr(Receiver(3)), "Receiver(rollover_count=3)")
        self.assertEqual(repr(Receiver((1 << 48) - 1)), "Receiver(rollover_count=281474976710655)")
        self.assertEqual(repr(WideReceiver(9, 1 << 47)), "WideReceiver(words=9, rollover_count=140737488355328)")
        self.assertEqual(repr(WideReceiver(16, 1)), "WideReceiver(words=16, rollover_count=1)")

    def test_numbers_up_to_64_bits(self) -> None:
        receiver: Any
        for count in (1, 1 << 16, 1 << 31, 1 << 32, 1 << 47, (1 << 48) - 1):
            for receiver in (Receiver(count), WideReceiver(2, count)):
                highest = (count << 16) + 0x8000
                self.assertEqual(receiver.number_of(0x8000), highest)
                receiver.record(highest)
                self.assertEqual((receiver.highest, receiver.number_of(0x7FFF)), (highest, highest - 1))
                accepted = [receiver.accepts(highest + it) for it in (-128, -127, 0, 1, 0x7FFF)]
                self.assertEqual(accepted, [False, True, False, True, True])
                self.assertTrue(receiver.accepts((1 << 64) - 1))
                self.assertFalse(receiver.accepts(highest & 0xFFFF))
                self.assertEqual(receiver.receive(0x8001), highest + 1)
        taken = [RestartingReceiver(it) for it in (65535, 32767)]
        self.assertEqual([it.receive(0) for it in taken], [Taken(65536, False)] * 2)
        self.assertEqual([it.receive(32767) for it in taken], [Taken(98303, False), None])

    def test_numbers_past_32_bits(self) -> None:
        self.assertEqual((rtp_wire.extend_u8(FAR + 255, 0), rtp_wire.extend_u8(FAR, 255)), (FAR + 256, FAR - 1))
        self.assertEqual((rtp_wire.extend_u15(FAR + 32767, 0), rtp_wire.extend_u15(FAR, 32767)), (FAR + 32768, FAR - 1))
        self.assertEqual((rtp_wire.extend_u16(FAR + 65535, 0), rtp_wire.extend_u16(FAR, 65535)), (FAR + 65536, FAR - 1))
        self.assertEqual((rtp_wire.extend_u32(FAR - 1, 0), rtp_wire.extend_u32(FAR, 0xFFFFFFFF)), (FAR, FAR - 1))
        buf = bytearray(300)
        # a block of 2^32 bytes is more than the 240 of the most padding
        self.assertEqual((rtp_wire.pad(buf, 12, 1, 1 << 32), buf[251]), (240, 240))
        rtp_wire.write_original(buf, FAR + 0x1234)
        self.assertEqual(buf[:2], b"\x12\x34")
        self.assertRaises(ShortBuffer, rtp_wire.pad, buf, (1 << 32) + 12, 1)
        self.assertRaises(BadField, rtp_wire.to_retransmission, buf, 1 << 32, 1, 2, 3, NewIds())
        self.assertRaises(BadField, rtp_wire.from_retransmission, buf, 1 << 32, 1, 2, NewIds())
        rates = Layers(((Layer((FAR, FAR + 1), None),),), 0)
        map = Map({5: Kind.LAYERS})
        written = Header(has_extension=True, values=Values(layers=rates)).write(map)
        self.assertEqual(Packet.parse(written, map).values.layers, rates)
        # 2^40 microseconds are 17,179 * 64 s and 55.627776 s, which are 14,582,487.7 units of 2^-18 s
        values = Values(send_time=FAR, capture_time=FAR << 20, capture_offset=-1 << 63)
        self.assertEqual(values.data_of(Kind.ABS_SEND_TIME).hex(), "de82d7")
        self.assertEqual(values.data_of(Kind.ABS_CAPTURE_TIME).hex(), "1000000000000000" + "8000000000000000")

    def test_the_greatest_numbers(self) -> None:
        last, far = (1 << 64) - 1, 0x0123456789ABCDEF
        # one below, and the next one that ends in zeros: modulo 2^64 that is 0
        rows = [
            (rtp_wire.extend_u8, 0xFE, 0xEE),
            (rtp_wire.extend_u15, 0x7FFE, 0x4DEE),
            (rtp_wire.extend_u16, 0xFFFE, 0xCDEE),
            (rtp_wire.extend_u32, 0xFFFFFFFE, 0x89ABCDEE),
        ]
        for extend, below, near in rows:
            self.assertEqual([extend(last, below), extend(last, 0), extend(far, near)], [last - 1, 0, far - 1])
        buf = bytearray(300)
        rtp_wire.write_original(buf, last - 1)
        self.assertEqual(buf[:3], b"\xFF\xFE\0")
        self.assertEqual(rtp_wire.pad(buf, 12, 255, last), 240)
        self.assertRaises(ShortBuffer, rtp_wire.pad, buf, last, 1)
        self.assertRaises(BadField, rtp_wire.put_element, buf, last, 1, b"")
        self.assertRaises(NoElement, Packet.parse(bytearray(SAMPLE)).set_csrc, last, 1)
        # 2^64 - 1 microseconds are 288,230,376,151 * 64 s and 45.551615 s, 11,941,082.6 units of 2^-18 s; as
        # nanoseconds 1,844,674,407,370 hundredths, modulo 4,096 they are 3,018; half a second and more are 50
        self.assertEqual(Values(send_time=last).data_of(Kind.ABS_SEND_TIME).hex(), "b634da")
        delays = Values(playout_delay_min=Time(last, 10**9), playout_delay_max=Time(1 << 31, (1 << 32) - 1))
        self.assertEqual(delays.data_of(Kind.PLAYOUT_DELAY).hex(), "bca032")
        rates = Layers(((Layer(((1 << 63) - 1, 0), None),),), 0)
        map = Map({5: Kind.LAYERS})
        written = Header(has_extension=True, values=Values(layers=rates)).write(map)
        self.assertEqual(Header.parse(written, map).values.layers, rates)
        receiver: Any
        for receiver in (Receiver(0), WideReceiver(16, 1)):
            receiver.record(last)
            self.assertEqual([receiver.accepts(it) for it in (last, last - 1)], [False, True])
            self.assertEqual(receiver.highest, last)


class Errors(unittest.TestCase):
    def test_each_is_copied_with_its_text(self) -> None:
        calls: List[Callable[[], Any]] = [
            lambda: Header(ssrc=-1).write(Map()),
            lambda: Header(csrc=(1,) * 16).write(Map()),
            lambda: Packet.parse(b""),
            lambda: Header.parse(bytes.fromhex("90000001 00000002 00000003 ABAC0000")),
            lambda: Header().write_to(bytearray(11), Map()),
            lambda: Packet.parse(bytearray(SAMPLE)).set_csrc(2, 1),
        ]
        classes = [BadField, BadField, NotAPacket, OtherForm, ShortBuffer, NoElement]
        for call, kind in zip(calls, classes):
            with self.assertRaises(kind) as raised:
                call()
            error = raised.exception
            for made in (error, copy.copy(error), pickle.loads(pickle.dumps(error))):
                self.assertIs(type(made), kind)
                self.assertEqual((str(made), made.status), (str(error), error.status))
            self.assertIsInstance(error, RtpError)
            self.assertIsInstance(error, ValueError)
            self.assertEqual(isinstance(error, LookupError), kind is NoElement)
            self.assertEqual((error.__cause__, hasattr(error, "cause")), (None, kind is NotAPacket))
            self.assertIs(type(error.status), rtp_wire.Status)
        for number in (0xFFFE, 0x8001):
            self.assertEqual(rtp_wire.read_original(number.to_bytes(2, "big")), number)
        # Elements are written whatever the values are.
        header = Header(values=Values(mid="a" * 17, send_time=-1))
        self.assertEqual(header.write_with([(1, b"a")])[12:], bytes.fromhex("BEDE0001 10610000"))


if __name__ == "__main__":
    unittest.main()
