"""Packets where they lie. Expected values are worked out by hand from RFC 3550, 5.1 and RFC 8285, 4.2 and 4.3."""

import array
import mmap
import unittest
from random import Random
from typing import Any, Callable

import rtp_wire
from rtp_wire import (
    BadField,
    Cause,
    Form,
    Kind,
    LongId,
    Map,
    NewIds,
    NoElement,
    NotAPacket,
    OtherForm,
    Packet,
    ShortBuffer,
    Values,
    compact,
    from_retransmission,
    put_element,
    to_retransmission,
)

# V=2, P, X, CC=2; M, PT=33; 47,000; 10,000; 44; the sources 1 and 2; a block of two words: 1 (AA), 2 (BB CC),
# 1 (DD) and a byte of padding; a payload of 3 bytes and 2 of padding.
SAMPLE = bytes.fromhex("B2A1B798 00002710 0000002C 00000001 00000002 BEDE0002 10AA21BB CC10DD00 010203 0002")
BUFFERS: "list[Callable[[bytes], Any]]" = [
    bytes,
    bytearray,
    memoryview,
    lambda data: memoryview(bytearray(data)),
    lambda data: memoryview(b"\x01\x02\x03" + data + b"\x04")[3:-1],
    lambda data: memoryview(bytearray(b"\x01\x02\x03" + data + b"\x04"))[3:-1],
    lambda data: array.array("B", data),
    lambda data: memoryview(array.array("b", data)),
]


class Reading(unittest.TestCase):
    def test_each_buffer_is_read(self) -> None:
        for buffer in BUFFERS:
            packet = Packet.parse(buffer(SAMPLE))
            self.assertEqual((packet.payload_type, packet.marker, packet.has_padding), (33, True, True))
            self.assertEqual((packet.sequence_number, packet.timestamp, packet.ssrc), (47000, 10000, 44))
            self.assertEqual((packet.csrc, packet.form, packet.header_len), ((1, 2), Form.ONE_BYTE, 32))
            self.assertEqual((bytes(packet.payload), packet.unpadded_payload), (b"\1\2\3\0\2", b"\1\2\3"))
            self.assertEqual((bytes(packet.body), bytes(packet.header_bytes)), (SAMPLE[24:32], SAMPLE[:32]))
            self.assertEqual(
                [(it.id, bytes(it.data)) for it in packet.elements()],
                [(1, b"\xAA"), (2, b"\xBB\xCC"), (1, b"\xDD")],
            )
            self.assertEqual((packet.element(1), packet.element(2)), (b"\xDD", b"\xBB\xCC"))
            self.assertEqual((packet.element(3), packet.element(255)), (None, None))
            self.assertEqual((bytes(packet), len(packet)), (SAMPLE, 37))
            self.assertFalse(rtp_wire.is_rtcp(buffer(SAMPLE)))

    def test_a_mapped_file_is_read_and_changed(self) -> None:
        with mmap.mmap(-1, 4096) as file:
            file[:12] = bytes.fromhex("8021B798000027100000002C")
            packet = Packet.parse(memoryview(file)[:12])
            packet.ssrc = 77
            self.assertEqual((file[:12], packet.ssrc), (bytes.fromhex("8021B798000027100000004D"), 77))
            self.assertEqual(len(Packet.parse(file).payload), 4084)
            del packet

    def test_nothing_is_copied(self) -> None:
        datagram = bytearray(SAMPLE)
        packet = Packet.parse(datagram)
        payload, element = packet.payload, packet.element(2)
        datagram[32], datagram[27] = 9, 8
        self.assertEqual((payload[0], element), (9, b"\x08\xCC"))
        self.assertIs(payload.obj, datagram)
        payload[1] = 7
        self.assertEqual(datagram[33], 7)
        with self.assertRaises(BufferError):
            datagram.append(0)
        self.assertIs(Packet.parse(SAMPLE).payload.obj, SAMPLE)
        self.assertTrue(Packet.parse(SAMPLE).payload.readonly)

    def test_a_view_may_be_released(self) -> None:
        with memoryview(bytes(SAMPLE)) as view:
            packet = Packet.parse(view)
        self.assertEqual((packet.element(2), packet.csrc), (b"\xBB\xCC", (1, 2)))

    def test_each_cause(self) -> None:
        rows = [
            (b"", Cause.CUT_FIXED_PART),
            (SAMPLE[:11], Cause.CUT_FIXED_PART),
            (b"\x72" + SAMPLE[1:], Cause.OTHER_VERSION),
            (SAMPLE[:19], Cause.CUT_SOURCES),
            (SAMPLE[:23], Cause.CUT_BLOCK_HEADER),
            (SAMPLE[:31], Cause.CUT_BLOCK),
        ]
        for data, cause in rows:
            for buffer in BUFFERS:
                for parse in (Packet.parse, rtp_wire.Header.parse):
                    with self.assertRaises(NotAPacket) as raised:
                        parse(buffer(data), Map.standard())
                    self.assertIs(raised.exception.cause, cause)
                    self.assertEqual(raised.exception.status, cause)
                    self.assertIsInstance(raised.exception, ValueError)

    def test_what_is_no_buffer_of_bytes_together(self) -> None:
        datagram = bytearray(SAMPLE)
        data: Any
        for data in ("text", 1, 2, None, [1], [1, 2], memoryview(SAMPLE * 2)[::2]):
            with self.assertRaises(TypeError):
                Packet.parse(data)
            for id in (1, 2):  # of one byte, and of two
                with self.assertRaises(TypeError):
                    Packet.parse(datagram).set_element(id, data)
                with self.assertRaises(TypeError):
                    put_element(datagram, 37, id, data)
            with self.assertRaises(TypeError):
                rtp_wire.write_elements([(1, data)], Form.TWO_BYTE)
        self.assertEqual(datagram, SAMPLE)
        with self.assertRaises(TypeError):
            Packet()

    def test_padding(self) -> None:
        self.assertIsNone(Packet.parse(SAMPLE[:-1] + b"\x06").unpadded_payload)
        self.assertEqual(Packet.parse(SAMPLE[:-1] + b"\x05").unpadded_payload, b"")
        # a last byte of 0, and P of an empty payload
        self.assertEqual(
            Packet.parse(bytes.fromhex("A0000001 00000002 00000003 0700")).unpadded_payload, b"\x07\x00"
        )
        self.assertEqual(Packet.parse(bytes.fromhex("A0000001 00000002 00000003")).unpadded_payload, b"")

    def test_a_header_alone(self) -> None:
        packet = Packet.parse(bytes.fromhex("8021B798000027100000002C"), Map.standard())
        self.assertEqual((packet.form, packet.csrc, packet.payload, packet.body), (Form.NONE, (), b"", b""))
        self.assertEqual((list(packet.elements()), packet.element(1), packet.values), ([], None, Values()))

    def test_elements_end_where_one_is_cut(self) -> None:
        # in the one-byte form id 15 ends the elements, and the id 0 with data is one of them (RFC 8285, 4.2)
        found = [
            (it.id, bytes(it.data))
            for it in rtp_wire.elements(bytes.fromhex("10AA 00 01BBCC F0 10DD"), Form.ONE_BYTE)
        ]
        self.assertEqual(found, [(1, b"\xAA"), (0, b"\xBB\xCC")])
        found = [
            (it.id, bytes(it.data))
            for it in rtp_wire.elements(bytes.fromhex("0100 00 FF02AABB 0303CC"), Form.TWO_BYTE)
        ]
        self.assertEqual(found, [(1, b""), (255, b"\xAA\xBB")])

    def test_a_form_of_none(self) -> None:
        for form in (0, 3, 257):
            with self.assertRaises(BadField):
                next(rtp_wire.elements(b"\x10\xAA", form))

    def test_rtcp(self) -> None:
        # a sender report, 200; RTP with M and the payload type 72 would have the same byte
        for second, is_rtcp in ((191, False), (192, True), (200, True), (223, True), (224, False)):
            self.assertEqual(rtp_wire.is_rtcp(bytes([0x80, second])), is_rtcp)
        for data in (b"", b"\x80", b"\x40\xC8"):
            self.assertFalse(rtp_wire.is_rtcp(data))

    def test_random_bytes(self) -> None:
        random = Random(1)
        for _ in range(400):
            data = bytes(
                [random.choice((0x80, 0x90, 0xB1, 0xA2)), *random.choices(range(256), k=random.randrange(60))]
            )
            form = random.choice(("BEDE0001", "BEDE0004", "10000002", "100F0005"))
            data = data[:12] + bytes.fromhex(form) + data[12:]
            told = {self.told(buffer(data)) for buffer in BUFFERS}
            self.assertEqual(len(told), 1)

    def told(self, datagram: Any) -> str:
        try:
            packet = Packet.parse(datagram, Map.standard())
        except NotAPacket as error:
            return str(error)
        elements = [(id, bytes(data)) for id, data in packet.elements()]
        last = dict(elements)
        self.assertEqual({id: packet.element(id) for id in last}, last)
        if packet.form == Form.OTHER:
            with self.assertRaises(OtherForm):
                rtp_wire.Header.parse(datagram, Map.standard())
            self.assertEqual((elements, packet.values), ([], Values()))
        else:
            self.assertEqual(packet.values, rtp_wire.Header.parse(datagram, Map.standard()).values)
            self.assertEqual(
                packet.values, Values.read(packet.body, packet.form, Map.standard()) if packet.form else Values()
            )
        self.assertEqual(len(packet), packet.header_len + len(packet.payload))
        unpadded = packet.unpadded_payload
        return f"{packet!r}{elements}{None if unpadded is None else bytes(unpadded)!r}"

    def test_repr(self) -> None:
        packet = Packet.parse(
            bytes.fromhex("90E00005 000000A0 00000007 BEDE0001 108A0000 6869"), Map({1: Kind.AUDIO_LEVEL})
        )
        self.assertEqual(
            repr(packet),
            "Packet(payload_type=96, sequence_number=5, timestamp=160, ssrc=7, csrc=(), marker=True, has_padding=False,"
            " form=<Form.ONE_BYTE: 1>, header_len=20, payload=<2 bytes>,"
            " values=Values(audio_level=-10, voice_activity=True))",
        )
        # the payload with its padding
        self.assertEqual(
            repr(Packet.parse(SAMPLE)),
            "Packet(payload_type=33, sequence_number=47000, timestamp=10000, ssrc=44, csrc=(1, 2), marker=True,"
            " has_padding=True, form=<Form.ONE_BYTE: 1>, header_len=32, payload=<5 bytes>, values=Values())",
        )


class OtherForms(unittest.TestCase):
    """Blocks of another form than the two (RFC 3550, 5.3.1)."""

    # What a camera sends of a recording (ONVIF, streaming specification): after 0xABAC and the length 3 the seconds and
    # the fraction of an NTP time, C, E and D in the top bits of a byte, CSeq, and two bytes of padding.
    CAMERA = bytes.fromhex("90E00005 00015F90 0000002C ABAC0003 E58B3C40 80000000 E0070000 414243")

    def test_they_are_read(self) -> None:
        for profile in (0xABAC, 0xC0DE, 0xC2DE, 0, 0x0FFF, 0x1010, 0xBEDF, 0xFFFF):
            data = self.CAMERA[:12] + profile.to_bytes(2, "big") + self.CAMERA[14:]
            packet = Packet.parse(data, Map.standard())
            self.assertEqual((packet.form, packet.block_profile), (Form.OTHER, profile))
            self.assertEqual((packet.body, packet.header_len, packet.payload), (data[16:28], 28, b"ABC"))
            self.assertEqual((packet.payload_type, packet.sequence_number, packet.ssrc), (96, 5, 44))
            self.assertEqual((list(packet.elements()), packet.element(14)), ([], None))
            self.assertEqual(packet.values, Values())
            for length, cause in ((15, Cause.CUT_BLOCK_HEADER), (27, Cause.CUT_BLOCK)):
                with self.assertRaises(NotAPacket) as raised:
                    Packet.parse(data[:length])
                self.assertEqual(raised.exception.cause, cause)
            for length in (27, 31):
                with self.assertRaises(OtherForm):
                    rtp_wire.Header.parse(data[:length], Map.standard())
        self.assertEqual(Packet.parse(SAMPLE).block_profile, 0xBEDE)
        self.assertIsNone(Packet.parse(b"\x80" + self.CAMERA[1:]).block_profile)

    def test_they_are_changed(self) -> None:
        data = bytearray(self.CAMERA)
        packet = Packet.parse(data)
        packet.set_fields(
            payload_type=97, sequence_number=0x0102, timestamp=0x03040506, ssrc=0x0708090A, marker=False
        )
        packet.renumber(NewIds())
        packet.has_padding = True
        for change in (lambda: packet.set_element(14, b"7"), lambda: packet.remove_element(14)):
            self.assertRaises(NoElement, change)
        self.assertEqual(bytes(data), bytes.fromhex("B0610102030405060708090A") + self.CAMERA[12:])

    def test_they_get_no_elements(self) -> None:
        data = bytearray(self.CAMERA + bytes(40))
        for allowed in (None, Form.ONE_BYTE, Form.TWO_BYTE):
            with self.assertRaises(OtherForm):
                put_element(data, 31, 1, b"7", allowed)
        with self.assertRaises(BadField):
            put_element(data, 31, 1, b"7", Form.OTHER)
        self.assertEqual(compact(memoryview(data)[:31]), 31)
        self.assertEqual(to_retransmission(data, 31, 45, 97, 9, NewIds()), 33)
        self.assertEqual(data[:33], b"\x90\xE1\0\x09" + self.CAMERA[4:11] + b"\x2D" + self.CAMERA[12:28] + b"\0\5ABC")
        self.assertEqual(from_retransmission(data, 33, 44, 96, NewIds()), 31)
        self.assertEqual(data[:31], self.CAMERA)


class AsRtp(unittest.TestCase):
    """What is RTCP where both come to one port is a packet of RTP where its bytes are one: M and a payload type of 64
    to 95, as a stream with a port of its own may have."""

    def test_it_is_read(self) -> None:
        datagram = bytes.fromhex("B2C90005 00000064 0000002C 00000001 00000002 BEDE0001 10AA0000 0102 0002")
        self.assertTrue(rtp_wire.is_rtcp(datagram))
        packet = Packet.parse(datagram, Map.standard())
        self.assertEqual((packet.marker, packet.payload_type, packet.sequence_number), (True, 73, 5))
        self.assertEqual((packet.timestamp, packet.ssrc, packet.csrc), (100, 44, (1, 2)))
        self.assertEqual((packet.has_padding, packet.header_len, packet.form), (True, 28, Form.ONE_BYTE))
        self.assertEqual((packet.values.audio_level, packet.values.voice_activity), (-42, True))
        self.assertEqual((bytes(packet.payload), packet.unpadded_payload), (bytes([1, 2, 0, 2]), bytes([1, 2])))
        self.assertEqual(Packet.parse(datagram).values, Values())

    def test_with_a_block_of_another_form(self) -> None:
        packet = Packet.parse(bytes.fromhex("90C90005 00000064 0000002C ABAC0001 10AA0000 01"), Map.standard())
        self.assertEqual((packet.form, packet.block_profile, packet.header_len), (Form.OTHER, 0xABAC, 20))
        self.assertEqual((bytes(packet.body), bytes(packet.payload)), (bytes.fromhex("10AA0000"), b"\1"))
        self.assertEqual((packet.payload_type, packet.ssrc, packet.values), (73, 44, Values()))

    def test_where_it_is_changed_to_that(self) -> None:
        datagram = bytearray.fromhex("80480005 00000064 0000002C")
        packet = Packet.parse(datagram)
        packet.marker = True
        self.assertEqual((packet.marker, packet.payload_type, datagram[1]), (True, 72, 200))

    def test_a_report_that_is_no_packet(self) -> None:
        with self.assertRaises(NotAPacket) as raised:
            Packet.parse(bytes.fromhex("80C90001 0000002C"))
        self.assertEqual(raised.exception.cause, Cause.CUT_FIXED_PART)


class Changing(unittest.TestCase):
    def setUp(self) -> None:
        self.datagram = bytearray(SAMPLE)
        self.packet = Packet.parse(self.datagram, Map({1: Kind.AUDIO_LEVEL, 2: Kind.TRANSPORT_NUMBER}))

    def is_changed(self, *places: int) -> None:
        self.assertEqual([at for at in range(37) if self.datagram[at] != SAMPLE[at]], list(places))

    def test_fields(self) -> None:
        self.packet.marker = False
        self.packet.payload_type = 96
        self.assertEqual((self.datagram[1], self.packet.marker, self.packet.payload_type), (96, False, 96))
        self.packet.sequence_number, self.packet.timestamp, self.packet.ssrc = 0x1234, 0x56789ABC, 0xDEF01234
        self.assertEqual(self.datagram[2:12].hex(), "123456789abcdef01234")
        read = (self.packet.sequence_number, self.packet.timestamp, self.packet.ssrc)
        self.assertEqual(read, (0x1234, 0x56789ABC, 0xDEF01234))
        self.packet.set_csrc(1, 0xA1B2C3D4)
        self.assertEqual(self.packet.csrc, (1, 0xA1B2C3D4))
        self.packet.has_padding = False
        self.assertEqual((self.datagram[0], self.packet.has_padding), (0x92, False))
        self.assertEqual(self.datagram[20:], SAMPLE[20:])

    def test_several_fields(self) -> None:
        self.packet.set_fields()
        self.is_changed()
        self.packet.set_fields(payload_type=8, sequence_number=0x1234)
        self.assertEqual(self.datagram[:4].hex(), "b2881234")
        self.packet.set_fields(timestamp=0x56789ABC, ssrc=0xDEF01234, marker=False)
        self.assertEqual(self.datagram[:12].hex(), "b208123456789abcdef01234")
        self.assertEqual(self.datagram[12:], SAMPLE[12:])

    def test_what_is_out_of_its_range_changes_nothing(self) -> None:
        for name, value in (
            ("payload_type", 128),
            ("sequence_number", 65536),
            ("timestamp", 1 << 32),
            ("ssrc", -1),
        ):
            with self.assertRaises(BadField):
                setattr(self.packet, name, value)
            with self.assertRaises(BadField):
                self.packet.set_fields(**{"marker": False, name: value})  # type: ignore[arg-type]
            with self.assertRaises(TypeError):
                setattr(self.packet, name, 1.5)
        for index in (2, 1 << 63):
            with self.assertRaises(NoElement):
                self.packet.set_csrc(index, 5)
        for index, source in ((-1, 5), (0, 1 << 32)):
            with self.assertRaises(BadField):
                self.packet.set_csrc(index, source)
        self.is_changed()

    def test_data_of_the_datagram_itself(self) -> None:
        first = next(self.packet.elements())
        self.packet.set_element(1, first.data)
        self.is_changed(30)
        self.assertEqual(self.packet.element(1), b"\xAA")

    def test_elements(self) -> None:
        self.packet.set_element(1, b"\x8A")  # the last of the two: -10 dB with voice
        self.is_changed(30)
        self.assertEqual(
            self.packet.values, Values(audio_level=-10, voice_activity=True, transport_number=0xBBCC)
        )
        for id, data in ((1, b""), (1, b"\x01\x02"), (3, b"\x01"), (0, b"")):
            with self.assertRaises(NoElement) as raised:
                self.packet.set_element(id, data)
            self.assertIsInstance(raised.exception, LookupError)
        self.packet.remove_element(1)
        self.assertEqual(self.datagram[24:32].hex(), "000021bbcc000000")
        self.assertEqual(self.packet.values, Values(transport_number=0xBBCC))
        with self.assertRaises(NoElement):
            self.packet.remove_element(1)

    def test_new_ids(self) -> None:
        self.packet.renumber(NewIds({1: 5, 3: 7}))
        self.assertEqual(self.datagram[24:32].hex(), "50aa00000050dd00")
        with self.assertRaises(LongId):
            self.packet.renumber(NewIds({5: 15}))
        self.assertEqual(self.datagram[24:32].hex(), "50aa00000050dd00")

    def test_elements_are_put(self) -> None:
        buffer = bytearray(64)
        buffer[:37] = SAMPLE
        self.assertEqual(put_element(buffer, 37, 2, b"\x01\x02"), 37)
        self.assertEqual(buffer[24:32].hex(), "10aa21010210dd00")
        self.assertEqual(put_element(buffer, 37, 2, b"\x03" * 5, Form.ONE_BYTE), 41)
        self.assertEqual(buffer[22:36].hex(), "000310aa24030303030310dd0000")
        self.assertEqual(buffer[36:41], SAMPLE[32:])
        with self.assertRaises(BadField):
            put_element(buffer, 41, 15, b"", Form.ONE_BYTE)
        for length, element_id, data in ((65, 1, b"\x01"), (41, 0, b""), (41, 1, bytes(256))):
            with self.assertRaises(BadField):
                put_element(buffer, length, element_id, data)
        with self.assertRaises(ShortBuffer):
            put_element(memoryview(buffer)[:44], 41, 15, b"\x04")
        self.assertEqual(put_element(buffer, 41, 15, b"\x04"), 45)
        packet = Packet.parse(buffer)
        self.assertEqual(packet.form, Form.TWO_BYTE)
        packet.remove_element(2)
        self.assertEqual(compact(memoryview(buffer)[:45]), 41)
        self.assertEqual(buffer[36:41], SAMPLE[32:])
        with self.assertRaises(NotAPacket):
            put_element(buffer, 11, 1, b"")
        with self.assertRaises(NotAPacket):
            compact(buffer[:11])

    def test_a_block_has_the_form_that_alone_is_allowed(self) -> None:
        # V=2, X; a block of one word: 1 (AA); the payload 1
        packet = bytes.fromhex("90600005 00000064 0000002C BEDE0001 10AA0000 01")
        one, two = Form.ONE_BYTE, Form.TWO_BYTE
        rows: "list[tuple[int, bytes, Any, str]]" = [
            (2, b"\7", None, "BEDE0001 10AA2007 01"),
            (2, b"\7", Form.NONE, "BEDE0001 10AA2007 01"),
            (2, b"\7", one, "BEDE0001 10AA2007 01"),
            (2, b"\7", two, "10000002 0101AA02 01070000 01"),
            (1, b"\7", two, "10000001 01010700 01"),
            (1, b"\7\x08", two, "10000001 01020708 01"),
            (15, b"", two, "10000002 0101AA0F 00000000 01"),
        ]
        for id, data, allowed, text in rows:
            buf, due = bytearray(packet + bytes(20)), bytes.fromhex(text)
            self.assertEqual(put_element(buf, 21, id, data, allowed), 12 + len(due))
            self.assertEqual(buf[: 12 + len(due)], packet[:12] + due)
        # a packet without a block gets one
        for allowed, text in ((None, "BEDE0001 10070000"), (one, "BEDE0001 10070000"), (two, "10000001 01010700")):
            buf = bytearray(b"\x80" + bytes(19))
            self.assertEqual(put_element(buf, 12, 1, b"\7", allowed), 20)
            self.assertEqual((buf[0], buf[12:]), (0x90, bytes.fromhex(text)))

    def test_padding_is_taken_off(self) -> None:
        self.assertEqual(self.packet.remove_padding(), 35)
        self.is_changed(0)
        self.assertEqual(Packet.parse(bytes(self.packet)[:35]).payload, b"\x01\x02\x03")
        self.assertEqual(self.packet.remove_padding(), 37)
        packet = Packet.parse(bytearray(SAMPLE[:-1] + b"\x06"))
        with self.assertRaises(BadField):
            packet.remove_padding()
        self.assertTrue(packet.has_padding)

    def test_what_cannot_be_written(self) -> None:
        for buffer in (bytes, memoryview):
            packet = Packet.parse(buffer(SAMPLE))
            changes: "list[Callable[[], Any]]" = [
                lambda: setattr(packet, "ssrc", 1),
                lambda: setattr(packet, "marker", False),
                lambda: setattr(packet, "has_padding", False),
                lambda: packet.set_fields(ssrc=1),
                lambda: packet.set_csrc(0, 1),
                lambda: packet.set_element(1, b"\x01"),
                lambda: packet.remove_element(1),
                lambda: packet.renumber(NewIds()),
                packet.remove_padding,
            ]
            for change in changes:
                with self.assertRaises(TypeError):
                    change()
            self.assertEqual((bytes(packet), packet.ssrc), (SAMPLE, 44))

    def test_a_packet_that_was_destroyed(self) -> None:
        self.datagram[0] = 0x40
        with self.assertRaises(NotAPacket):
            self.packet.ssrc = 1
        self.is_changed(0)


if __name__ == "__main__":
    unittest.main()
