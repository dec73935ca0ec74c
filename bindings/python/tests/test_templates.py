"""A packet's header for each of its receivers. Expected values are worked out by hand from RFC 3550, 5.1, RFC 4588, 4,
and RFC 8285, 4.2 and 4.3, or are what the calls for one packet make of a copy, one after another."""

import copy
import pickle
import unittest
from array import array
from random import Random
from typing import Any, Callable, List, Optional, Sequence, Tuple, Union

from rtp_wire import (
    BadField,
    BadId,
    Cause,
    Form,
    FormNotAllowed,
    Group,
    Header,
    HeaderTemplate,
    LongBlock,
    LongId,
    NewIds,
    NotAPacket,
    OtherForm,
    Packet,
    Route,
    RtpError,
    ShortBuffer,
    Status,
    change_form,
    compact,
    put_element,
    to_retransmission,
)

# 96, 5, 100, 44 and the element 1 (AA), with two bytes of padding; the payload is no part of the header
SAMPLE = bytes.fromhex("90600005 00000064 0000002C BEDE0001 10AA0000 6869")
PLAIN = bytes.fromhex("80600005 00000064 0000002C")
# the sample's, where 1 becomes 3, and two bytes of the id 4 are put
MADE = bytes.fromhex("90600005 00000064 0000002C BEDE0002 30AA4100 07000000")
OWN = NewIds({id: id for id in range(1, 256)})
Elements = Sequence[Tuple[int, bytes]]


def template() -> HeaderTemplate:
    return HeaderTemplate(SAMPLE, NewIds({1: 3}), [(4, b"\0\7")])


def with_block(text: str) -> bytes:
    return bytes.fromhex("90600005 00000064 0000002C" + text)


def put_in(header: bytes, at: int, data: bytes) -> bytes:
    return header[:at] + data + header[at + len(data) :]


def by_calls(
    packet: bytes, ids: NewIds, elements: Elements, allowed: Optional[Form], route: Route = Route()
) -> bytes:
    """What the calls for one packet make of a copy of the header, where the elements have the route's data; and then of
    a retransmission what is in front of the payload."""
    length = Packet.parse(packet).header_len
    buffer = bytearray(packet[:length]) + bytes(2000)
    changed = Packet.parse(memoryview(buffer)[:length])
    got = route if route.original_number is None else route._replace(sequence_number=route.original_number)
    data, *fields, _, clears_padding = got
    names = ("payload_type", "sequence_number", "timestamp", "ssrc", "marker")
    changed.set_fields(**dict(zip(names, fields)))  # type: ignore[arg-type]
    if clears_padding and route.original_number is None:
        changed.has_padding = False
    try:
        changed.renumber(ids)
    except LongId:
        if allowed is Form.ONE_BYTE:
            raise
        length = change_form(buffer, length, Form.TWO_BYTE)
        Packet.parse(memoryview(buffer)[:length]).renumber(ids)
    at = 0
    for id, old in elements:
        length = put_element(buffer, length, id, bytes(data)[at : at + len(old)], allowed)
        at += len(old)
    header = bytes(buffer[: compact(memoryview(buffer)[:length])])
    return header if route.original_number is None else sent_again(packet, header, route)


def sent_again(packet: bytes, header: bytes, route: Route) -> bytes:
    """What `to_retransmission` makes of the header that the receiver got, with the packet's payload behind it, up to
    what is left of that."""
    read = Packet.parse(packet)
    buffer = bytearray(header + packet[read.header_len :] + bytes(2))
    ssrc = read.ssrc if route.ssrc is None else route.ssrc
    kind = read.payload_type if route.payload_type is None else route.payload_type
    number = read.sequence_number if route.sequence_number is None else route.sequence_number
    length = to_retransmission(buffer, len(buffer) - 2, ssrc, kind, number, OWN)
    assert read.unpadded_payload == bytes(buffer[len(header) + 2 : length])
    return bytes(buffer[: len(header) + 2])


class Making(unittest.TestCase):
    def test_groups_worked_out_by_hand(self) -> None:
        # the elements 1, 2 and 1 again
        three, camera = "BEDE0002 1061 216263 1064 00", "ABAC0001 01020304"
        rows: List[Tuple[bytes, NewIds, Elements, Optional[Form], bytes]] = [
            (SAMPLE, NewIds({1: 3}), [(4, b"\0\7")], None, MADE),
            (
                with_block(three),
                NewIds({2: 3}),
                [(5, b"\0\7")],
                Form.ONE_BYTE,
                with_block("BEDE0002 316263 510007 0000"),
            ),
            (with_block(three), NewIds({9: 9}), [], Form.ONE_BYTE, with_block("BEDE0000")),
            # an id above 14, and no data, make it the two-byte form
            (with_block(three), OWN, [(20, b"")], None, with_block("10000003 010161 02026263 010164 1400")),
            (with_block(three), OWN, [(1, b"\0")], Form.TWO_BYTE, with_block("10000002 02026263 010100 00")),
            (PLAIN, OWN, [(4, b"\0\7")], None, with_block("BEDE0001 410007 00")),
            (PLAIN, OWN, [], None, PLAIN),
            (with_block(camera), NewIds(), [], Form.ONE_BYTE, with_block(camera)),
            # the application's bits stay
            (
                with_block("10070001 04010900"),
                NewIds({4: 6}),
                [(4, b"\0\7")],
                None,
                with_block("10070002 060109 04020007 00"),
            ),
            (PLAIN, OWN, [(9, b"ab"), (3, b"c")], None, with_block("BEDE0002 916162 3063 000000")),
        ]
        for packet, ids, elements, allowed, wanted in rows:
            made = HeaderTemplate(packet, ids, elements, allowed)
            self.assertEqual((made.header, made.header_len), (wanted, len(wanted)))
            self.assertEqual(made.data_len, sum(len(data) for _, data in elements))
            # of the header alone, and of other objects with the buffer protocol
            header = memoryview(bytearray(packet))[: Packet.parse(packet).header_len]
            others: List[Any] = [(id, array("B", data)) for id, data in elements]
            self.assertEqual(HeaderTemplate(header, ids, iter(others), allowed), made)
            # of what was prepared, where each receiver brings its data
            group = Group(ids, [(id, len(data)) for id, data in elements], allowed)
            of_group, route = HeaderTemplate.from_group(header, group), Route(b"".join(it for _, it in elements))
            self.assertEqual((of_group.header_len, of_group.data_len), (len(wanted), group.data_len))
            self.assertEqual(of_group.write([route]), [wanted])

    def test_the_packet_may_change(self) -> None:
        datagram, data, ids = bytearray(SAMPLE), bytearray(b"\0\7"), NewIds({1: 3})
        made = HeaderTemplate(datagram, ids, [(4, data)])
        datagram[:] = b"gone"
        data[:] = b""
        ids[1] = 5
        self.assertEqual((made.header, made), (MADE, template()))
        self.assertEqual(made.write([Route(b"\0\7")]), [MADE])

    def test_what_it_is_refused_for(self) -> None:
        ids, sixteen = NewIds({1: 3}), [(id, b"x") for id in range(20, 36)]
        self.assertEqual(HeaderTemplate(SAMPLE, ids, sixteen).data_len, 16)
        full = PLAIN.replace(b"\x80", b"\x90", 1) + b"\x10\0\xFF\xFF" + b"\2\xFF".ljust(257, b"\0") * 1020
        wrong_form: Any = 3
        rows: List[Tuple[Any, Callable[[], Any], str]] = [
            (
                BadField,
                lambda: HeaderTemplate(SAMPLE, ids, [*sixteen, (1, b"")]),
                "the number of elements is 17, and not 0 to 16",
            ),
            (BadField, lambda: HeaderTemplate(SAMPLE, ids, [(4, b"a"), (4, b"b")]), "two elements have the id 4"),
            (
                BadField,
                lambda: HeaderTemplate(SAMPLE, ids, [(4, bytes(256))]),
                "the length of data is 256, and not 0 to 255",
            ),
            (BadId, lambda: HeaderTemplate(SAMPLE, ids, [(0, b"a")]), "id is 0, and not 1 to 255"),
            (BadId, lambda: HeaderTemplate(SAMPLE, ids, [(256, b"a")]), "id is 256, and not 1 to 255"),
            (BadField, lambda: HeaderTemplate(SAMPLE, ids, allowed=wrong_form), "allowed is 3, and not 0 to 2"),
            (
                LongId,
                lambda: HeaderTemplate(SAMPLE, NewIds({1: 15}), allowed=Form.ONE_BYTE),
                "an id above 14, which the one-byte form can't carry",
            ),
            (OtherForm, lambda: HeaderTemplate(with_block("ABAC0000"), ids, [(4, b"a")]), "an unknown form"),
            (
                FormNotAllowed,
                lambda: HeaderTemplate(SAMPLE, ids, [(4, b"")], Form.ONE_BYTE),
                "a form of the extension block that isn't allowed",
            ),
            (LongBlock, lambda: HeaderTemplate(full, OWN, [(9, b"a")]), "more than 65,535 words"),
            (NotAPacket, lambda: HeaderTemplate(SAMPLE[:19], ids), "the extension block is cut short"),
            (NotAPacket, lambda: HeaderTemplate(b"", ids), "fewer than twelve bytes"),
        ]
        for kind, make, told in rows:
            with self.assertRaisesRegex(kind, told) as raised:
                make()
            self.assertIs(type(raised.exception), kind)
        with self.assertRaises(NotAPacket) as caught:
            HeaderTemplate(SAMPLE[:15], ids)
        self.assertEqual(caught.exception.cause, Cause.CUT_BLOCK_HEADER)
        self.assertEqual(HeaderTemplate(full, OWN).header, full)

    def test_what_has_another_type(self) -> None:
        for make, told in (
            (lambda: HeaderTemplate(SAMPLE, {1: 3}), "new ids are dict, and not NewIds"),  # type: ignore[arg-type]
            (lambda: HeaderTemplate(SAMPLE, OWN, [("4", b"")]), "id is str, and no whole number"),  # type: ignore
            (lambda: HeaderTemplate(SAMPLE, OWN, [(4, "a")]), "bytes-like object"),  # type: ignore[list-item]
            (lambda: HeaderTemplate("a", OWN), "bytes-like object"),  # type: ignore[arg-type]
            (lambda: HeaderTemplate(SAMPLE, OWN, allowed="1"), "allowed is str"),  # type: ignore[arg-type]
        ):
            self.assertRaisesRegex(TypeError, told, make)

    def test_a_new_id_above_14_asks_for_the_two_byte_form(self) -> None:
        for allowed in (None, Form.TWO_BYTE):
            made = HeaderTemplate(SAMPLE, NewIds({1: 200}), allowed=allowed)
            self.assertEqual(made.header, with_block("10000001 C801AA00"))
        with_one = HeaderTemplate(SAMPLE, NewIds({1: 200}), [(4, b"\0\7")])
        self.assertEqual(with_one.header, with_block("10000002 C801AA04 02000700"))


class Groups(unittest.TestCase):
    def test_two_packets_of_one_group(self) -> None:
        ids = NewIds({1: 3})
        group = Group(ids, iter([(4, 2)]))
        ids[1] = 5  # it has ids of its own
        made = HeaderTemplate.from_group(SAMPLE, group)
        self.assertEqual((made.header, made.header_len, made.data_len), (put_in(MADE, 20, b"\0"), 24, 2))
        routes = [Route(b"\0\7"), Route(b"\0\x08", ssrc=46)]
        wanted = [MADE, bytes.fromhex("90600005 00000064 0000002E BEDE0002 30AA4100 08000000")]
        self.assertEqual(made.write(routes), wanted)
        plain = HeaderTemplate.from_group(PLAIN, group)
        self.assertEqual(plain.write([Route(b"\0\7")]), [with_block("BEDE0001 41000700")])
        self.assertEqual(made, HeaderTemplate(SAMPLE, NewIds({1: 3}), [(4, bytes(2))]))

    def test_elements_that_are_as_long_as_can_be(self) -> None:
        group = Group(OWN, [(id, 255) for id in range(240, 256)])
        made = HeaderTemplate.from_group(SAMPLE, group)
        self.assertEqual((group.data_len, made.data_len), (4080, 4080))
        data = b"".join(bytes([id]) * 255 for id in range(240, 256))
        body = b"\1\1\xAA" + b"".join(bytes([id, 255]) + bytes([id]) * 255 for id in range(240, 256))
        block = b"\x10\0\4\5" + body + b"\0"  # 4,115 bytes and one of padding: 1,029 words
        self.assertEqual(made.write([Route(data)]), [SAMPLE[:12] + block])

    def test_what_it_is_refused_for(self) -> None:
        sixteen: List[Tuple[int, int]] = [(id, 1) for id in range(20, 36)]
        wrong_form: Any = 3
        self.assertEqual(Group(OWN, sixteen).data_len, 16)
        rows: List[Tuple[Any, Callable[[], Any], str]] = [
            (BadField, lambda: Group(OWN, [*sixteen, (1, 0)]), "the number of elements is 17, and not 0 to 16"),
            (BadField, lambda: Group(OWN, [(4, 1), (4, 1)]), "two elements have the id 4"),
            (BadField, lambda: Group(OWN, [(4, 256)]), "the length of data is 256, and not 0 to 255"),
            (BadField, lambda: Group(OWN, [(4, -1)]), "the length of data is -1, and not 0 to 255"),
            (BadId, lambda: Group(OWN, [(0, 1)]), "id is 0, and not 1 to 255"),
            (BadId, lambda: Group(OWN, [(256, 1)]), "id is 256, and not 1 to 255"),
            (BadField, lambda: Group(OWN, (), wrong_form), "allowed is 3, and not 0 to 2"),
            (TypeError, lambda: Group({1: 3}), "new ids are dict, and not NewIds"),  # type: ignore[arg-type]
            (TypeError, lambda: Group(OWN, [(4, b"a")]), "the length of data is bytes"),  # type: ignore[list-item]
            (
                TypeError,
                lambda: HeaderTemplate.from_group(SAMPLE, OWN),  # type: ignore[arg-type]
                "a group is NewIds, and not Group",
            ),
        ]
        for kind, make, told in rows:
            with self.assertRaisesRegex(kind, told) as raised:
                make()
            self.assertIs(type(raised.exception), kind)

    def test_what_a_packet_is_refused_for(self) -> None:
        full = PLAIN.replace(b"\x80", b"\x90", 1) + b"\x10\0\xFF\xFF" + b"\2\xFF".ljust(257, b"\0") * 1020
        rows: List[Tuple[Any, bytes, Group]] = [
            (NotAPacket, SAMPLE[:19], Group(OWN)),
            (NotAPacket, b"", Group(OWN)),
            (OtherForm, with_block("ABAC0000"), Group(OWN, [(4, 1)])),
            (LongId, SAMPLE, Group(NewIds({1: 15}), allowed=Form.ONE_BYTE)),
            (LongId, SAMPLE, Group(OWN, [(15, 1)], Form.ONE_BYTE)),
            (FormNotAllowed, SAMPLE, Group(OWN, [(4, 0)], Form.ONE_BYTE)),
            (LongBlock, full, Group(OWN, [(9, 1)])),
        ]
        for kind, packet, group in rows:
            with self.assertRaises(kind) as raised:
                HeaderTemplate.from_group(packet, group)
            self.assertIs(type(raised.exception), kind)

    def test_copies(self) -> None:
        group = Group(NewIds({1: 3}), [(4, 2), (2, 0)], Form.ONE_BYTE)
        others = [
            Group(NewIds({1: 4}), [(4, 2), (2, 0)], Form.ONE_BYTE),
            Group(NewIds({1: 3}), [(2, 0), (4, 2)], Form.ONE_BYTE),
            Group(NewIds({1: 3}), [(4, 3), (2, 0)], Form.ONE_BYTE),
            Group(NewIds({1: 3}), [(4, 2), (2, 0)]),
        ]
        for copied in (copy.copy(group), copy.deepcopy(group), pickle.loads(pickle.dumps(group))):
            self.assertEqual((copied, hash(copied), type(copied)), (group, hash(group), Group))
            self.assertEqual(len({group, copied, *others}), 5)
        for other in (*others, None):
            self.assertNotEqual(group, other)
        self.assertEqual(repr(group), "Group(NewIds({1: 3}), [(4, 2), (2, 0)], <Form.ONE_BYTE: 1>)")
        self.assertEqual(repr(Group(NewIds())), "Group(NewIds({}), [], None)")


class Writing(unittest.TestCase):
    def test_two_receivers(self) -> None:
        first = Route(b"\0\7", sequence_number=9, ssrc=45)
        second = Route(b"\0\x08", payload_type=97, timestamp=0x01020304, marker=True)
        wanted = [
            bytes.fromhex("90600009 00000064 0000002D BEDE0002 30AA4100 07000000"),
            bytes.fromhex("90E10005 01020304 0000002C BEDE0002 30AA4100 08000000"),
        ]
        self.assertEqual(template().write([first, second]), wanted)
        self.assertEqual(template().write(iter([second, first, second])), [wanted[1], *wanted])
        buffer = bytearray(b"\xEE" * 50)
        lent = template().write_into(buffer, [first, second])
        self.assertEqual((lent, buffer), (wanted, wanted[0] + wanted[1] + b"\xEE" * 2))

    def test_each_field_is_one_of_its_own(self) -> None:
        rows = [
            (Route(b"\0\7"), 0, b""),
            (Route(b"\0\7", marker=True), 1, b"\xE0"),
            (Route(b"\0\7", marker=False), 0, b""),
            (Route(b"\0\7", payload_type=1), 1, b"\1"),
            (Route(b"\0\7", payload_type=0), 1, b"\0"),
            (Route(b"\0\7", sequence_number=0x0203), 2, b"\2\3"),
            (Route(b"\0\7", timestamp=0x04050607), 4, b"\4\5\6\7"),
            (Route(b"\0\7", ssrc=0x08090A0B), 8, b"\x08\x09\x0A\x0B"),
            (Route(b"\xAB\xCD"), 19, b"\xAB\xCD"),
            (Route(b"\xAB\xCD", 127, 65535, 0xFFFFFFFF, 0, True), 1, b"\xFF" * 7 + bytes(4)),
            (Route(b"\0\7", clears_padding=True), 0, b""),
        ]
        made = template()
        for route, at, data in rows:
            wanted = put_in(put_in(MADE, at, data), 19, bytes(route.data))
            self.assertEqual(made.write([route]), [wanted], route)
        # of a marker that is set one is cleared
        marked = HeaderTemplate(put_in(SAMPLE, 1, b"\xE0"), NewIds())
        headers = marked.write([Route(marker=False), Route()])
        self.assertEqual([Packet.parse(it).marker for it in headers if isinstance(it, bytes)], [False, True])

    def test_one_of_twenty_cannot_be_served(self) -> None:
        made, data = template(), bytes(range(100, 140))
        routes = [Route(data[2 * at : 2 * at + 2], sequence_number=1000 + at) for at in range(20)]
        wanted = [put_in(put_in(MADE, 2, (1000 + at).to_bytes(2, "big")), 19, data[2 * at :][:2]) for at in range(20)]
        self.assertEqual(made.write(routes), wanted)
        two = routes[8].data
        refused: List[Tuple[Route, str]] = [
            (Route(two, payload_type=128), "payload_type is 128, and not 0 to 127"),
            (Route(two, payload_type=-1), "payload_type is -1, and not 0 to 127"),
            (Route(two, sequence_number=65536), "sequence_number is 65536, and not 0 to 65535"),
            (Route(two, timestamp=1 << 32), "timestamp is 4294967296, and not 0 to 4294967295"),
            (Route(two, ssrc=-1), "ssrc is -1, and not 0 to 4294967295"),
            (Route(two, marker=2), "marker is 2, and not 0 to 1"),  # type: ignore[arg-type]
            (Route(two, clears_padding=2), "clears_padding is 2, and not 0 to 1"),  # type: ignore[arg-type]
            (Route(b"x"), "the length of data is 1, and not 2"),
            (Route(b"xyz"), "the length of data is 3, and not 2"),
            (Route(), "the length of data is 0, and not 2"),
        ]
        for route, told in refused:
            given = [*routes[:8], route, *routes[9:]]
            buffer = bytearray(b"\xEE" * 480)
            both: List[List[Any]] = [[*made.write(given)], [*made.write_into(buffer, given)]]
            for headers in both:
                self.assertEqual([*headers[:8], *headers[9:]], [*wanted[:8], *wanted[9:]])
                cause = headers[8]
                self.assertEqual((type(cause), str(cause)), (BadField, told))
            # it takes no bytes
            self.assertEqual(buffer, b"".join([*wanted[:8], *wanted[9:]]) + b"\xEE" * 24)

    def test_no_room_for_the_last_ones(self) -> None:
        made = template()
        routes = [Route(bytes([0, at]), sequence_number=1000 + at) for at in range(4)]
        wanted = [put_in(put_in(MADE, 2, (1000 + at).to_bytes(2, "big")), 20, bytes([at])) for at in range(4)]
        for size in range(100):
            buffer = bytearray(b"\xEE" * size)
            headers = made.write_into(buffer, routes)
            fit = size // 24
            self.assertEqual(headers[:fit], wanted[:fit])
            self.assertEqual({type(it) for it in headers[fit:]}, {ShortBuffer} if fit < 4 else set())
            self.assertEqual(buffer, b"".join(wanted[:fit]) + b"\xEE" * (size - 24 * fit))

    def test_none_are_none(self) -> None:
        made = template()
        self.assertEqual((made.write([]), made.write_into(bytearray(), [])), ([], []))
        (short,) = made.write_into(bytearray(23), [Route(b"\0\7")])
        self.assertIsInstance(short, ShortBuffer)
        plain = HeaderTemplate(PLAIN, NewIds())
        self.assertEqual((plain.data_len, plain.write([Route(), Route(b"")])), (0, [PLAIN, PLAIN]))

    def test_buffers(self) -> None:
        made, routes = template(), [Route(b"\0\1"), Route(b"\0\2"), Route(b"\0\3")]
        first, second, third = (put_in(MADE, 20, bytes([it])) for it in (1, 2, 3))
        buffers: List[Callable[[], Any]] = [
            lambda: bytearray(74),
            lambda: memoryview(bytearray(80))[3:77],
            lambda: array("b", bytes(74)),
        ]
        for make in buffers:
            buffer = make()
            lent = made.write_into(buffer, iter(routes))
            self.assertEqual(lent, [first, second, third])
            self.assertEqual(bytes(memoryview(buffer)), first + second + third + bytes(2))
        # the data may lie in what is written
        buffer = bytearray(72)
        buffer[0:2], buffer[20:22], buffer[70:72] = b"\0\1", b"\0\2", b"\0\3"
        lying = [Route(memoryview(buffer)[at : at + 2]) for at in (0, 20, 70)]
        self.assertEqual(made.write_into(buffer, lying), [first, second, third])
        with self.assertRaisesRegex(TypeError, "read-only"):
            made.write_into(bytes(96), routes)  # type: ignore[arg-type]
        with self.assertRaisesRegex(TypeError, "don't lie together"):
            made.write_into(memoryview(bytearray(96))[::2], routes)

    def test_what_has_another_type(self) -> None:
        made, buffer = template(), bytearray(96)
        for route, told in (
            ((b"\0\7", 1), "a route is tuple, and not Route"),
            (None, "a route is NoneType, and not Route"),
            (Route("ab"), "bytes-like object"),  # type: ignore[arg-type]
            (Route(b"\0\7", ssrc="5"), "ssrc is str, and no whole number"),  # type: ignore[arg-type]
            (Route(b"\0\7", timestamp=5.0), "timestamp is float"),  # type: ignore[arg-type]
            (Route(b"\0\7", clears_padding=None), "clears_padding is NoneType"),  # type: ignore[arg-type]
        ):
            given: Any = [Route(b"\0\7"), route]
            with self.assertRaisesRegex(TypeError, told):
                made.write(given)
            with self.assertRaisesRegex(TypeError, told):
                made.write_into(buffer, given)
        self.assertEqual(buffer, bytes(96))

    def test_many_receivers(self) -> None:
        made = template()
        routes = [Route(at.to_bytes(2, "big"), ssrc=at) for at in range(1000)]
        for at, header in enumerate(made.write(routes)):
            data = at.to_bytes(2, "big")
            self.assertEqual(header, put_in(put_in(MADE, 10, data), 19, data))


    def test_headers_of_more_than_264_bytes(self) -> None:
        # 40 mids of six letters each are 280 bytes in the one-byte form, and two bytes for each receiver of the id 14
        mids = b"".join(b"\x15mid_%02d" % at for at in range(40))
        packet = bytes.fromhex("90600005 00000064 0000002C BEDE0046") + mids
        made = HeaderTemplate(packet, OWN, [(14, bytes(2))])
        body = packet[16:] + b"\xE1"
        routes = [Route(bytes([it, 0xFF]), sequence_number=1000 + it) for it in range(20)]
        routes[7] = routes[7]._replace(payload_type=128)
        front = [b"\x90\x60" + (1000 + it).to_bytes(2, "big") + packet[4:14] + b"\0\x47" for it in range(20)]
        wanted = [it + body + bytes([at, 0xFF, 0]) for at, it in enumerate(front) if at != 7]
        self.assertEqual({len(it) for it in wanted}, {300})
        buffer = bytearray(b"\xEE" * 6000)
        both: List[List[Any]] = [[*made.write(routes)], [*made.write_into(buffer, routes)]]
        for headers in both:
            self.assertEqual(str(headers.pop(7)), "payload_type is 128, and not 0 to 127")
            self.assertEqual(headers, wanted)
            for header in headers:
                texts = [bytes(it.data) for it in Packet.parse(header).elements()][:40]
                self.assertEqual(texts, [mids[at + 1 : at + 7] for at in range(0, 280, 7)])
        self.assertEqual(buffer, b"".join(wanted) + b"\xEE" * 300)

    def test_padding(self) -> None:
        # P with the payload as it is, and clear with the payload without its padding
        packet = bytes.fromhex("A0600005 00000064 0000002C 6869 0002")
        made = HeaderTemplate(packet, NewIds())
        again = Route(original_number=7)
        headers = made.write([Route(), Route(clears_padding=True), again, again._replace(clears_padding=True)])
        self.assertEqual(headers, [packet[:12], PLAIN, PLAIN + b"\0\7", PLAIN + b"\0\7"])
        read = Packet.parse(packet)
        assert read.unpadded_payload is not None
        sent = [bytes(packet[:12] + read.payload), bytes(PLAIN + read.unpadded_payload)]
        self.assertEqual([Packet.parse(it).unpadded_payload for it in sent], [b"hi", b"hi"])
        # where it stays set the receiver hasn't the whole payload: its last byte, 105, counts more bytes than there are
        self.assertIsNone(Packet.parse(packet[:12] + read.unpadded_payload).unpadded_payload)
        self.assertEqual(HeaderTemplate(PLAIN, NewIds()).write([Route(clears_padding=True)]), [PLAIN])


class Retransmissions(unittest.TestCase):
    again = Route(b"\0\7", payload_type=97, sequence_number=9, ssrc=45)
    # with the number of the packet that it repeats behind it
    header = bytes.fromhex("90610009 00000064 0000002D BEDE0002 30AA4100 07000000")

    def test_between_others(self) -> None:
        for first in (b"\x90", b"\xB0"):  # P stays, but in a retransmission
            made = HeaderTemplate(first + SAMPLE[1:20], NewIds({1: 3}), [(4, bytes(2))])
            plain = first + MADE[1:]
            for number in (0, 1, 0xFF, 0x0102, 0xFF00, 65535):
                again = self.header + number.to_bytes(2, "big")
                routes = [Route(b"\0\7"), self.again._replace(original_number=number), Route(b"\0\7")]
                self.assertEqual(made.write(routes), [plain, again, plain])
                # in a row each begins where the one before ends
                buffer = bytearray(b"\xEE" * 75)
                self.assertEqual(made.write_into(buffer, routes), [plain, again, plain])
                self.assertEqual(buffer, plain + again + plain + b"\xEE")

    def test_rows_without_one_that_is_refused(self) -> None:
        made, again = template(), self.again._replace(original_number=7)
        plain = Route(b"\0\7")
        wanted = self.header + b"\0\7"
        for number, told in (
            (-1, "original_number is -1, and not 0 to 65535"),
            (65536, "original_number is 65536, and not 0 to 65535"),
            (1 << 64, "original_number is 18446744073709551616, and not 0 to 65535"),
        ):
            routes = [again, again._replace(original_number=number), plain, again]
            buffer = bytearray(b"\xEE" * 102)
            both: List[List[Any]] = [[*made.write(routes)], [*made.write_into(buffer, routes)]]
            for headers in both:
                cause = headers.pop(1)
                self.assertEqual((type(cause), str(cause)), (BadField, told))
                self.assertEqual(headers, [wanted, MADE, wanted])
            self.assertEqual(buffer, wanted + MADE + wanted + b"\xEE" * 26)
        others: List[Any] = ["5", 5.0]
        for other in others:
            told = f"original_number is {type(other).__name__}, and no whole number"
            with self.assertRaisesRegex(TypeError, told):
                made.write([again._replace(original_number=other)])
        headers = made.write([again._replace(original_number=True), plain])
        self.assertEqual(headers, [self.header + b"\0\1", MADE])

    def test_room_for_the_number(self) -> None:
        made, routes = template(), [self.again._replace(original_number=7)]
        for size in (0, 1, 24, 25):
            buffer = bytearray(b"\xEE" * size)
            (short,) = made.write_into(buffer, routes)
            self.assertEqual((type(short), buffer), (ShortBuffer, b"\xEE" * size))
        buffer = bytearray(b"\xEE" * 51)
        plain, again = MADE, self.header + b"\0\7"
        for given, fit in (([*routes, Route(b"\0\7")], 2), ([Route(b"\0\7"), *routes], 2), (routes * 2, 1)):
            headers = made.write_into(buffer, given)
            self.assertEqual([isinstance(it, memoryview) for it in headers], [it < fit for it in range(2)])
            self.assertEqual({bytes(it) for it in headers if isinstance(it, memoryview)} - {plain, again}, set())
        refused = made.write([routes[0]._replace(payload_type=128), routes[0]._replace(data=b"")])
        self.assertEqual([type(it) for it in refused], [BadField, BadField])


class Values(unittest.TestCase):
    def test_equality_and_text(self) -> None:
        made, other = template(), HeaderTemplate(SAMPLE, NewIds({1: 3, 2: 9}), [(4, b"\0\7")])
        self.assertEqual((made, hash(made), len({made, other})), (other, hash(other), 1))
        # the same header, of which other bytes are the receivers'
        packet = with_block("BEDE0002 30AA4100 07000000")
        for different in (
            HeaderTemplate(packet, OWN),
            HeaderTemplate(packet, OWN, [(3, b"\xAA")]),
            HeaderTemplate(SAMPLE, NewIds({1: 3}), [(4, b"\0\x08")]),
        ):
            self.assertNotEqual(made, different)
        self.assertNotEqual(made, MADE)
        self.assertEqual(repr(made), f"HeaderTemplate(header='{MADE.hex()}', data_len=2)")
        it: Any = made
        self.assertFalse(hasattr(made, "__dict__"))
        for name in ("header", "header_len", "data_len", "other"):
            self.assertRaises(AttributeError, setattr, it, name, 5)

    def test_copies(self) -> None:
        made = template()
        wanted = put_in(put_in(MADE, 19, b"ab"), 2, b"\0\1")
        for protocol in range(2, pickle.HIGHEST_PROTOCOL + 1):
            for other in (copy.copy(made), copy.deepcopy(made), pickle.loads(pickle.dumps(made, protocol))):
                self.assertEqual((other, other.header, other.data_len), (made, MADE, 2))
                self.assertEqual(other.write([Route(b"ab", sequence_number=1)]), [wanted])

        for route in (Route(b"a", 1, 2, 3, 4, True), Route(b"a", 1, 2, 3, 4, True, 5), Route()):
            self.assertEqual((copy.copy(route), pickle.loads(pickle.dumps(route))), (route, route))

    def test_what_was_stored_and_is_no_template(self) -> None:
        made = template()
        header, raw = made.__getstate__()
        other = HeaderTemplate.__new__(HeaderTemplate)
        for at, byte in ((0, 25), (0, 23), (3, 1), (4, 23), (7, 1), (68, 3), (70, 17), (70, 0), (71, 3)):
            state = header, put_in(raw, at, bytes([byte]))
            self.assertRaises((BadField, NotAPacket), other.__setstate__, state)
        for wrong in ((header[:-1], raw), (b"", raw), (b"\x50" + header[1:], raw), (header, raw[:-1])):
            self.assertRaises(ValueError, other.__setstate__, wrong)
        self.assertRaises(TypeError, other.__setstate__, ("a" * 24, raw))
        other.__setstate__((header, raw))
        self.assertEqual(other, made)


class ByCalls(unittest.TestCase):
    def packet(self, draw: Random) -> bytes:
        """A packet without a block, or with one of any form."""
        packet = bytes([0x80 | draw.randrange(3)]) + draw.randbytes(19)
        packet = packet[: 12 + 4 * (packet[0] & 15)]
        form = draw.randrange(4)
        if form:
            body = b""
            for _ in range(draw.randrange(6)):
                id, data = draw.randint(1, 14), draw.randbytes(draw.randint(1, 5))
                body += (bytes([id << 4 | len(data) - 1]) if form == 1 else bytes([id, len(data)])) + data
                body += bytes(draw.choice((0, 0, 0, 1)))
            body += bytes(-len(body) % 4 + 4 * draw.randrange(3))
            profile = (0xBEDE, 0x1000 | draw.randrange(16), 0xABAC)[form - 1]
            packet = bytes([packet[0] | 0x10]) + packet[1:] + profile.to_bytes(2, "big")
            packet += (len(body) // 4).to_bytes(2, "big") + body
        packet += draw.randbytes(draw.randrange(3))
        if draw.random() < 0.3:
            padding = draw.randint(1, 5)
            packet = bytes([packet[0] | 0x20]) + packet[1:] + bytes([padding]) * padding
        return packet

    def route(self, draw: Random, length: int) -> Route:
        kind, number, time, ssrc = (draw.choice((None, draw.randrange(1 << it))) for it in (7, 16, 32, 32))
        marker = draw.choice((None, False, True))
        original = draw.choice((None, None, 0, 65535, draw.randrange(1 << 16)))
        return Route(draw.randbytes(length), kind, number, time, ssrc, marker, original, draw.random() < 0.3)

    def test_each_is_what_they_make(self) -> None:
        draw = Random(5)
        causes = set()
        for _ in range(1500):
            packet = self.packet(draw)
            ids = NewIds({id: draw.randint(1, 14) for id in range(1, 15) if draw.random() < 0.8})
            if draw.random() < 0.2:
                ids[draw.randint(1, 14)] = draw.randint(15, 255)
            named = draw.sample(range(1, 256 if draw.random() < 0.2 else 15), draw.randrange(5))
            elements = [(id, draw.randbytes(draw.choice((1, 1, 2, 3, 16, 20, 0)))) for id in named]
            allowed = draw.choice((None, None, Form.ONE_BYTE, Form.TWO_BYTE))
            wanted: Union[bytes, RtpError]
            data = b"".join(it for _, it in elements)
            try:
                wanted = by_calls(packet, ids, elements, allowed, Route(data))
            except RtpError as error:
                wanted = error
                with self.assertRaises(RtpError) as raised:
                    HeaderTemplate(packet, ids, elements, allowed)
                told = raised.exception
                self.assertEqual((type(told), told.status, str(told)), (type(error), error.status, str(error)))
                causes.add(type(error))
                continue
            made = HeaderTemplate(packet, ids, elements, allowed)
            self.assertEqual((made.header, made.data_len), (wanted, len(data)))
            routes = [self.route(draw, len(data)) for _ in range(draw.randrange(4))]
            each = [by_calls(packet, ids, elements, allowed, it) for it in routes]
            self.assertEqual(made.write(routes), each)
            buffer = bytearray(sum(map(len, each)))
            self.assertEqual((made.write_into(buffer, routes), buffer), (each, b"".join(each)))
        self.assertEqual(causes, {LongId, FormNotAllowed, OtherForm})

    def test_any_fields_data_and_room(self) -> None:
        draw, made = Random(9), template()
        for _ in range(300):
            routes, size = [], draw.randrange(160)
            for _ in range(6):
                length = draw.choice((2, 2, 2, 2, 0, 1, 3))
                kind, ssrc = draw.choice((None, 5, 127, 128, -1)), draw.choice((None, 7, 1 << 32))
                original = draw.choice((None, None, 0, 7, 65535, 65536, -1))
                routes.append(Route(draw.randbytes(length), kind, ssrc=ssrc, original_number=original))
            # each of them alone, one after the other
            wanted, results = b"", []
            for route in routes:
                (result,) = made.write([route])
                if isinstance(result, bytes) and len(wanted) + len(result) > size:
                    result = ShortBuffer(Status.SHORT_BUFFER)
                if isinstance(result, bytes):
                    wanted += result
                results.append(result if isinstance(result, bytes) else str(result))
            buffer = bytearray(b"\xEE" * size)
            headers = made.write_into(buffer, routes)
            self.assertEqual([str(it) if isinstance(it, RtpError) else bytes(it) for it in headers], results)
            self.assertEqual(buffer, wanted.ljust(size, b"\xEE"))

    def test_values_that_are_put(self) -> None:
        # a transport number of each receiver, as its data say it
        made = HeaderTemplate(Header(has_extension=True).write_with([]), NewIds(), [(3, bytes(2))])
        headers = made.write([Route(number.to_bytes(2, "big")) for number in (7, 65535)])
        read = [Packet.parse(it).element(3) for it in headers if isinstance(it, bytes)]
        self.assertEqual(read, [b"\0\7", b"\xFF\xFF"])


if __name__ == "__main__":
    unittest.main()
